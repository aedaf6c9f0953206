#!/usr/bin/env python3
"""Tries the wrong bodies of this folder's wrong_bodies/: the prover must refuse each.

    tests/wrong_bodies.py [CRATE ..]

Run it at the top of the repository, with `rt` on the path. A wrong body is an edit in the form of the gate's must-fail
edits (docs/CONTRIBUTING.md). Those of crates whose proof is long stand here and not in the crate, since the gate would
prove such a crate twice for them. Without names all crates of the folder are tried. Each is tried by `rt must-fail` in a
copy of the crates below it, over what `rt check` kept of them, so nothing is left behind. Printed is what the prover
says of each edit; the exit status is 1 where one isn't refused.
"""
import os
import shutil
import subprocess
import sys
import tempfile

from unproved import below

HERE = os.path.join(os.path.dirname(os.path.realpath(__file__)), 'wrong_bodies')


def refused(crate, lines):
    """Whether the prover refuses each wrong body of a crate."""
    with tempfile.TemporaryDirectory() as room:
        names = below(lines, [crate])
        for name in names:
            shutil.copytree(os.path.join('crates', name), os.path.join(room, 'crates', name))
        with open(os.path.join(room, 'crates.txt'), 'w') as out:
            out.writelines(lines[name] for name in names)
        edits = os.path.join(room, 'crates', crate, 'must-fail')
        shutil.rmtree(edits, ignore_errors=True)
        shutil.copytree(os.path.join(HERE, crate), edits)
        subprocess.run(['git', 'init', '-q', room], check=True)
        return subprocess.run(['rt', 'must-fail', crate], cwd=room).returncode == 0


def main():
    with open('crates.txt') as listed:
        lines = {line.split(':')[0]: line for line in listed if ':' in line and not line.startswith('#')}
    crates = sys.argv[1:] or sorted(os.listdir(HERE))
    unknown = [crate for crate in crates if crate not in lines or not os.path.isdir(os.path.join(HERE, crate))]
    if unknown:
        sys.exit('no wrong bodies of %s' % ', '.join(unknown))
    failed = [crate for crate in crates if not refused(crate, lines)]
    sys.exit('not all refused: %s' % ', '.join(failed) if failed else 0)


main()
