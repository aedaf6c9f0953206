"""A program of this folder, as speed/ or grading/, proved and built in a copy of the crates that it uses.

Its files end in `.txt`, since the gate takes each source file below the repository for one of a crate of its own.

Proofs that `rt check` kept in the crates' `out/` are taken over, so where it was run before the build takes a minute
or two, and else much longer. The current folder is the top of the repository, in which nothing is left behind.
"""
import os
import pathlib
import shutil
import subprocess
import sys

KIT = 'anyhow'
SOLVER = ['bit_words', 'bit_graph', 'clause_base', 'cnf_build', 'derivation_check', 'sat_plain']


def below(lines, names):
    """The crates of the repository that these need, by their lines of crates.txt."""
    found = []
    for name in names:
        if name in lines and name not in found:
            found += [it for it in below(lines, lines[name]) if it not in found] + [name]
    return found


class Built:
    def __init__(self, work, name='speed', uses=SOLVER):
        with open('crates.txt') as listed:
            lines = {line.split(':')[0]: line.split(':')[1].split() for line in listed if ':' in line and not line.startswith('#')}
        crates = below(lines, uses)
        for crate in crates:
            shutil.copytree(os.path.join('crates', crate), os.path.join(work, 'crates', crate))
        folder = os.path.join(work, 'crates', name)
        shutil.copytree(os.path.join('bench', name), folder)
        for path in sorted(pathlib.Path(folder).rglob('*.txt')):
            path.rename(path.with_suffix(''))
        with open(os.path.join(work, 'crates.txt'), 'w') as out:
            for crate in crates:
                out.write('%s: %s\n' % (crate, ' '.join(lines[crate])))
            out.write('%s: %s %s\n' % (name, ' '.join(uses), KIT))
        subprocess.run(['git', 'init', '-q', work], check=True)
        done = subprocess.run(['rt', 'run'], cwd=folder, stdout=subprocess.PIPE, stderr=subprocess.STDOUT, text=True)
        self.program = os.path.join(folder, 'out', name)
        if done.returncode != 0 or not os.path.isfile(self.program):
            sys.exit(done.stdout[-4000:])

    def run(self, *numbers):
        """What the program prints, by the first word of each line, and the most memory in MB."""
        process = subprocess.Popen([self.program] + [str(it) for it in numbers], stdout=subprocess.PIPE, text=True)
        text = process.stdout.read()
        _, status, usage = os.wait4(process.pid, 0)
        if status != 0:
            sys.exit('%s failed with status %d' % (numbers, status))
        return {line.split()[0]: line.split()[1:] for line in text.splitlines()}, usage.ru_maxrss // 1024
