#!/usr/bin/env python3
"""Checks that no line of the crates' code and definitions is longer than 100 columns.

    tests/columns.py

Run it at the top of the repository. Left out are attributes, which `rt fmt` keeps on one line, and in the crates of tests
the lines with a text, since a source in a table stands on one line. Printed are the lines that are too long; the exit
status is 1 where there is one.
"""
import pathlib
import sys

MOST = 100


def is_free(path, line):
    """Whether the line may be longer."""
    return line.lstrip().startswith('#[') or path.parts[1].endswith('_tests') and '"' in line


def main():
    files = sorted(pathlib.Path('.').glob('crates/*/src/**/*.rt')) + sorted(pathlib.Path('.').glob('crates/*/specs/**/*.antt'))
    wrong = ['%s:%d: %d columns' % (path, number, len(line)) for path in files
             for number, line in enumerate(path.read_text(encoding='utf-8').splitlines(), 1)
             if len(line) > MOST and not is_free(path, line)]
    print('\n'.join(wrong) if wrong else '%d files within %d columns' % (len(files), MOST))
    sys.exit(1 if wrong or not files else 0)


main()
