#!/usr/bin/env python3
"""Compares the reader and the writer of certificates with a reader and a writer in Python, on random texts.

    tests/certs.py SEED COUNT [--first NUMBER]

Run it at the top of the repository, with `rt` on the path; the code is run unproved on a copy of the crates. Every
second text is the text of a certificate, which must come back as it was where its cases are written in the standard way;
the others have words, lines or a byte changed, or their end cut off. Each text is made from the seed and its own number,
so `--first NUMBER` with COUNT 1 repeats one. Printed are the counts of the answers and each difference; the exit status
is 1 where there is one.
"""
import collections
import random
import sys
import tempfile

import cert_reader
import random_certs
import unproved
from certs_try import Harness

BATCH = 5000


def a_text(seed, number):
    maker = random_certs.Maker(random.Random('certs/%d/%d' % (seed, number)))
    return maker.near() if number % 2 else maker.whole()


def wanted(text):
    """What is to be answered to a text."""
    found = cert_reader.read(text)
    return 'refused %d' % found if isinstance(found, int) else 'read :' + cert_reader.written(found).hex()


def kind_of(answer, text, number):
    which = 'changed' if number % 2 else 'whole'
    if answer.startswith('refused'):
        return which + ', refused'
    return which + (', read and written as it was' if answer == 'read :' + text.hex() else ', read and written otherwise')


def main():
    given = unproved.arguments(__doc__).parse_args()
    counts, differing = collections.Counter(), 0
    with tempfile.TemporaryDirectory() as folder:
        harness = Harness(folder)
        for batch in unproved.in_batches(given, BATCH):
            texts = [a_text(given.seed, number) for number in batch]
            for number, text, got in zip(batch, texts, harness.answers(texts)):
                want = wanted(text)
                counts[kind_of(want, text, number)] += 1
                if want != got:
                    differing += 1
                    print('%d: %r\n  wanted %s\n  given  %s' % (number, text, want, got))
    return unproved.told(counts, given, 'texts', differing)


if __name__ == '__main__':
    sys.exit(main())
