"""Programs over crates of the repository, run unproved on a copy of them; nothing by itself.

Such a program reads `input.txt`, or standard input where many inputs are given to one build of it, and answers each line by
one line that begins with `=`. HELPERS are functions that it may use: hexadecimal digits to bytes and back, and texts put
behind others.
"""
import argparse
import itertools
import os
import re
import shutil
import subprocess
import sys

HELPERS = r'''
fn digit(c: u8) -> u8 {
    if c >= 97 { c - 87 } else { c - 48 }
}

fn unhex(alloc: Global, digits: &[u8]) -> Result<Vec<u8>, anyhow::Error> {
    let mut bytes = Vec::new(alloc);
    for i in 0..digits.len() / 2 {
        bytes.push(digit(digits[2 * i]) * 16 + digit(digits[2 * i + 1]))?;
    }
    Ok(bytes)
}

fn put_hex(out: &mut String, bytes: &[u8]) -> Result<(), anyhow::Error> {
    for b in bytes {
        for half in [*b / 16, *b % 16] {
            let digit = if half > 9 { half + 87 } else { half + 48 };
            out.push(char::from(digit))?;
        }
    }
    Ok(())
}

fn put(out: &mut String, words: &str) -> Result<(), anyhow::Error> {
    out.push_str(words)?;
    Ok(())
}
'''
# The program's main, where it answers each line of standard input by `put_answer` from the words between the line's tabs.
ANSWERING = r'''
fn main(rt: HostRuntime) -> Result<(), anyhow::Error> {
    let alloc = rt.alloc();
    for line in BufReader::new(alloc, rt.reader())?.lines(alloc) {
        let text = line?;
        let mut words = Vec::new(alloc);
        for word in text.as_str().split('\t') {
            words.push(word)?;
        }
        let mut out = String::new(alloc);
        put(&mut out, "=")?;
        put_answer(alloc, &mut out, words.as_slice())?;
        println!(rt; "{out}")?;
    }
    Ok(())
}
'''


def below(lines, names):
    """These crates of the repository and all that they need, by the lines of crates.txt; no library of the kit."""
    found = []
    for name in names:
        if name in lines and name not in found:
            found += [it for it in below(lines, lines[name].split(':')[1].split()) if it not in found] + [name]
    return found


class Harness:
    """A program in a folder of its own. The current folder is the top of the repository."""

    def __init__(self, folder, uses, program, kit=('anyhow',)):
        """`uses` are the crates of the repository that the program names, `kit` those of the kit."""
        self.input = os.path.join(folder, 'input.txt')
        self.crate = os.path.join(folder, 'crates/unproved')
        with open('crates.txt') as listed:
            lines = {line.split(':')[0]: line for line in listed if ':' in line and not line.startswith('#')}
        for name in below(lines, uses):
            to = os.path.join(folder, 'crates', name)
            shutil.copytree(os.path.join('crates', name), to, ignore=shutil.ignore_patterns('out'))
        os.makedirs(os.path.join(self.crate, 'src'))
        with open(os.path.join(folder, 'crates.txt'), 'w') as out:
            out.writelines(lines[name] for name in below(lines, uses))
            out.write('unproved: %s %s\n' % (' '.join(kit), ' '.join(uses)))
        with open(os.path.join(self.crate, 'src/main.rt'), 'w') as out:
            out.write(program)

    def ran(self, options, ended):
        """What the program prints, where its run ends with this word. What is compiled runs to the end, the interpreter doesn't."""
        options = ['--steps', '1000', '--seconds', '900'] + options
        run = subprocess.run(['rt', 'try'] + options, cwd=self.crate, capture_output=True, text=True)
        if ended not in run.stdout + run.stderr:
            sys.exit(run.stdout[-3000:] + run.stderr[-3000:])
        return [line.removeprefix('| ').rstrip() for line in run.stdout.splitlines()]

    def printed(self, text):
        """The lines that the program prints for an input."""
        with open(self.input, 'w') as out:
            out.write(text)
        return self.ran(['--data', 'input.txt=' + self.input], 'run=ended status=0')

    def answers(self, lines):
        """What the program answers to these lines."""
        return answers_in(self.printed(''.join(line + '\n' for line in lines)), lines)

    def printed_for_each(self, texts):
        """The lines that one build of the program prints for each of these texts, which stand in standard input."""
        folder = self.input + '.cases'
        os.makedirs(folder)
        for number, text in enumerate(texts):
            with open(os.path.join(folder, '%05d' % number), 'w') as out:
                out.write(text)
        printed = '\n'.join(self.ran(['--cases', folder], 'cases=%d' % len(texts)))
        shutil.rmtree(folder)
        parts = re.split(r'^== \d{5}$', printed, flags=re.MULTILINE)[1:]
        if len(parts) != len(texts):
            sys.exit('%d outputs for %d inputs\n%s' % (len(parts), len(texts), printed[-3000:]))
        return [part.splitlines() for part in parts]

    def answers_to_each(self, inputs):
        """What one build of the program answers to each of these lists of lines."""
        texts = [''.join(line + '\n' for line in lines) for lines in inputs]
        return [answers_in(part, lines) for part, lines in zip(self.printed_for_each(texts), inputs)]


def answers_in(printed, lines):
    """The answers among the lines that a program printed, as many as the lines that it was given."""
    given = [line[1:] for line in printed if line.startswith('=')]
    if len(given) != len(lines):
        sys.exit('%d answers to %d lines\n%s' % (len(given), len(lines), '\n'.join(printed[-30:])))
    return given


def in_batches(given, size):
    """The numbers from `given.first` on, `given.count` of them, in lists of at most this size."""
    end = given.first + given.count
    for first in range(given.first, end, size):
        yield range(first, min(first + size, end))


def compare_cases(given, size, case_of, harness, comparison):
    """Compares the answers to the lines of each case, by one build of the program. So many cases stand in one input."""
    batches = list(in_batches(given, size))
    inputs = [[line for number in batch for line in case_of(number).lines()] for batch in batches]
    for batch, answers in zip(batches, map(iter, harness.answers_to_each(inputs))):
        for case in map(case_of, batch):
            comparison.compare(case, list(itertools.islice(answers, len(case.lines()))))
        print('%d compared' % (batch[-1] + 1 - given.first), file=sys.stderr)


def arguments(doc, kinds=None, count=None):
    """The parser of the words of a comparison: what kind, a seed, a count, and the number of the first case. `count` is how many
    cases there are where the words don't say it."""
    words = argparse.ArgumentParser(description=doc, formatter_class=argparse.RawDescriptionHelpFormatter)
    if kinds:
        words.add_argument('kind', choices=kinds)
    words.add_argument('seed', type=int)
    words.add_argument('count', type=int, nargs='?' if count else None, default=count)
    words.add_argument('--first', type=int, default=0)
    return words


def told(counts, given, what, differing):
    """Says how many answers there were of each kind; the exit status."""
    for kind, count in sorted(counts.items()):
        print('%7d  %s' % (count, kind))
    print('%d %s, %d differences' % (given.count, what, differing))
    return 1 if differing else 0
