"""The command: its words, its files, and the page that it writes."""
import os
import sys

from mpyexplain import command as explain

from .entries import NoClass, read_entries
from .page import page

USAGE = 'usage: class_page BOUNDS REF RULES CLASS | class_page BOUNDS REF RULES REPORT..'


def main():
    sys.setrecursionlimit(explain.DEEPEST)
    words = sys.argv[1:]
    try:
        if len(words) < 4:
            raise NoClass(USAGE)
        text = page(read_entries(words[:3], words[3:]))
        explain.write(text.encode('utf-8', 'replace'))
    except (NoClass, explain.Trouble) as trouble:
        print('class_page: %s' % trouble, file=sys.stderr)
        return 2
    return 0


if __name__ == '__main__':
    sys.exit(main())
