#!/usr/bin/env python3
"""Checks that the indexes of the documents name what is there: each file, and in it each definition.

    tests/rule_index.py

Run it at the top of the repository. An index is a table with the columns "file" and "definitions"; paths are below
`crates`. Printed are the names that aren't found; the exit status is 1 where there is one, or where no index is.
"""
import pathlib
import re
import sys

ROW = re.compile(r'^\|(?P<rule>[^|]*)\|(?P<files>[^|]*)\|(?P<words>[^|]*)\|$')


def rows(text):
    """The rows of the indexes of a document: files and words."""
    inside = False
    for line in text.splitlines():
        row = ROW.match(line)
        if not row:
            inside = False
        elif row['files'].strip() == 'file' and row['words'].strip() == 'definitions':
            inside = True
        elif inside and not row['files'].strip().startswith('---'):
            yield re.findall(r'`([^`]+)`', row['files']), re.findall(r'`([^`]+)`', row['words'])


def missing(files, words):
    """What a row names and isn't there. A file without a folder stands beside the one before it."""
    texts, folder = [], pathlib.Path('crates')
    for name in files:
        path = pathlib.Path('crates', name) if '/' in name else folder / name
        folder = path.parent
        if not path.is_file():
            yield str(path)
        else:
            texts.append(path.read_text(encoding='utf-8'))
    for word in words:
        if not any(re.search(r'(?<![\w-])%s(?![\w-])' % re.escape(word), text) for text in texts):
            yield '%s in %s' % (word, ', '.join(files))


def main():
    found, wrong = 0, []
    for document in sorted(pathlib.Path('docs').glob('*.md')):
        for files, words in rows(document.read_text(encoding='utf-8')):
            found += 1
            wrong += ['%s: %s' % (document, name) for name in missing(files, words)]
    print('\n'.join(wrong) if wrong else '%d rows of indexes name what is there' % found)
    sys.exit(1 if wrong or not found else 0)


main()
