#!/usr/bin/env python3
"""Grades the submissions of each example as a class, and compares each entry with a grading of its file by itself.

    tests/classes.py CLASS GRADER [--odd | --large ASSIGNMENT]

CLASS is a built `mpyclass` and GRADER a built `mpygrade`. With `--odd` the classes have files that are absent, unreadable, folders,
too long or listed twice, and lists at the edges of their form; where the tests run as root, those programs run as nobody. With
`--large` a class of 256 files is made of copies of one assignment's submissions, within its large bounds, and the greatest memory
is printed. Run it at the top of the repository. Printed are the counts and what differs; the exit status is 1 where something does.
"""
import argparse
import glob
import json
import os
import resource
import subprocess
import sys
import tempfile

NAMES = {0: 'correct', 1: 'corrected', 2: 'none', 3: 'spent', 4: 'refused', 5: 'unread'}
BUDGET = '200000'
MOST = 256


def written(program, words, folder):
    ran = subprocess.run([os.path.abspath(program)] + words, cwd=folder, capture_output=True, text=True)
    return ran.returncode, ran.stdout


def class_of(program, folder, bounds, listed):
    """The value that `mpyclass` writes for these files."""
    with tempfile.NamedTemporaryFile('w', suffix='.txt') as names:
        names.write(''.join(name + '\n' for name in listed))
        names.flush()
        status, text = written(program, [bounds, 'reference.py', 'rules.eml', names.name, BUDGET], folder)
    return json.loads(text) if status == 0 else sys.exit('the class of %s ended with status %d' % (folder, status))


def faults(value, folder, bounds, listed, grader):
    """What is wrong with the value of a class."""
    if [entry['file'] for entry in value['entries']] != listed:
        yield 'the entries are not those of the list'
    for status, name in NAMES.items():
        if value[name] != sum(entry['status'] == status for entry in value['entries']):
            yield '%s is %d' % (name, value[name])
    for entry in value['entries']:
        alone = written(grader, ['grade', bounds, 'reference.py', entry['file'], 'rules.eml', os.devnull, BUDGET], folder)
        if alone != (entry['status'], entry['report']):
            yield '%s: alone %r, in the class %r' % (entry['file'], alone, (entry['status'], entry['report']))


def compare(program, grader):
    """Compares the classes of all assignments; the exit status."""
    wrong = entries = 0
    for rules in sorted(glob.glob('examples/*/rules.eml')):
        folder = os.path.dirname(rules)
        listed = sorted(os.path.basename(path) for path in glob.glob(folder + '/sub-*.py'))
        value = class_of(program, folder, 'bounds.txt', listed)
        found = list(faults(value, folder, 'bounds.txt', listed, grader))
        for fault in found:
            print('%s: %s' % (folder, fault))
        wrong, entries = wrong + bool(found), entries + len(value['entries'])
    print('%d entries, %d classes wrong' % (entries, wrong))
    return 1 if wrong else 0


BOUNDS = 'width 6\nturns 4\ndepth 2\ncap 4\nentry f\nparam x int 4..4\n'
RIGHT = 'def f(x):\n    return x + 1\n'
LONG = 65536
LINE = 'refused %s line 0: Long\n'


def make_class(folder):
    """The files of a class, in a folder that nobody may read but the owner of one of them."""
    texts = {'b.txt': BOUNDS, 'ref.py': RIGHT, 'rules.eml': '', 'right.py': RIGHT, 'hidden.py': RIGHT, 'n' * 255: RIGHT,
             'most.py': RIGHT + '#' * (LONG - len(RIGHT)), 'long.py': RIGHT + '#' * (LONG + 1 - len(RIGHT))}
    for name, text in texts.items():
        with open(os.path.join(folder, name), 'w') as file:
            file.write(text)
    os.mkdir(os.path.join(folder, 'folder'))
    os.chmod(folder, 0o755)
    os.chmod(os.path.join(folder, 'hidden.py'), 0)


# Each list, and the statuses of its entries, or the status and the line of a refusal.
CLASSES = (
    ('', []),
    ('right.py\nabsent.py\nright.py\nhidden.py\nfolder\nmost.py\nlong.py\nref.py\n', [0, 5, 0, 5, 5, 0, 4, 0]),
    ('n' * 255 + '\n', [0]),
    ('right.py\n' * 256, [0] * 256),
    ('right.py\n' * 257, 'refused list.txt line 257: Listing\n'),
    ('n' * 256 + '\n', 'refused list.txt line 1: Listing\n'),
    ('right.py\n\x7f\n', 'refused list.txt line 2: Listing\n'),
    ('right.py\nright.py', 'refused list.txt line 2: Listing\n'),
    ('right.py\nright py\n', 'refused list.txt line 2: Listing\n'),
)


def try_odd(program):
    """Classes of odd files and lists; the exit status."""
    wrong = 0
    # Root may read every file.
    user = {'user': 'nobody'} if os.getuid() == 0 else {}
    with tempfile.TemporaryDirectory() as folder:
        make_class(folder)
        built = os.path.join(folder, 'mpyclass')
        with open(program, 'rb') as file, open(built, 'wb') as copy:
            copy.write(file.read())
        os.chmod(built, 0o755)
        for text, wanted in CLASSES:
            with open(os.path.join(folder, 'list.txt'), 'w') as file:
                file.write(text)
            words = [built, 'b.txt', 'ref.py', 'rules.eml', 'list.txt', BUDGET]
            ran = subprocess.run(words, cwd=folder, capture_output=True, text=True, **user)
            if isinstance(wanted, str):
                found, wanted = (ran.returncode, ran.stdout), (4, wanted)
            else:
                value = json.loads(ran.stdout)
                found = [entry['status'] for entry in value['entries']]
                names = [entry['file'] for entry in value['entries']] == text.split('\n')[:-1]
                reports = all(entry['report'] == ('' if entry['status'] == 5 else LINE % entry['file'])
                              for entry in value['entries'] if entry['status'] > 3)
                found = found if names and reports and ran.returncode == 0 else ran.stdout
            if found != wanted:
                wrong += 1
                print('%r: %r, wanted %r' % (text[:60], found, wanted))
    print('%d classes of odd files and lists, %d wrong' % (len(CLASSES), wrong))
    return 1 if wrong else 0


def measure(program, name):
    folder = os.path.join('examples', name)
    listed = sorted(os.path.basename(path) for path in glob.glob(folder + '/sub-*.py'))
    value = class_of(program, folder, 'large.txt', (listed * MOST)[:MOST])
    most = resource.getrusage(resource.RUSAGE_CHILDREN).ru_maxrss // 1024
    print('%d entries, %d of them with a spent budget, at most %d MB' % (len(value['entries']), value['spent'], most))
    return 0


def main():
    words = argparse.ArgumentParser(description=__doc__, formatter_class=argparse.RawDescriptionHelpFormatter)
    words.add_argument('program')
    words.add_argument('grader')
    words.add_argument('--odd', action='store_true')
    words.add_argument('--large')
    given = words.parse_args()
    if given.odd:
        return try_odd(given.program)
    return measure(given.program, given.large) if given.large else compare(given.program, given.grader)


if __name__ == '__main__':
    sys.exit(main())
