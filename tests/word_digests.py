"""Compares the digests in the tests of words with those of Python's integers.

Run it at the top of the repository: python3 tests/word_digests.py
"""
import re
import sys

TESTS = "crates/solver_tests/src/plain.rt"
OVERFLOW, OTHER = 1, 2
MASK = 0xFFFFFFFF


def digest(before, result):
    return ((before ^ result) * 16777619) & MASK


def kept(number, half):
    """What is digested of a result without another fault than Overflow."""
    return number + 40000 if -half <= number < half else OVERFLOW


def results(x, y, half):
    yield kept(x + y, half)
    yield kept(x - y, half)
    yield kept(-x, half)
    yield kept(x * y, half)
    yield kept(x // y, half) if y else OTHER
    yield kept(x % y, half) if y else OTHER
    yield kept(x**y, half) if y >= 0 else OTHER
    yield (x < y) + 2 * (x == y)


def random(state, half):
    state = (state * 1664525 + 1013904223) & MASK
    return state, ((state >> 8) & 0xFFFF) % (2 * half) - half


def pairs(half, count):
    """All pairs of the numbers at the bounds, and so many random ones, every other with a small second number."""
    bounds = [-half, -half + 1, -2, -1, 0, 1, 2, half - 1]
    for x in bounds:
        for y in bounds:
            yield x, y
    state = 1
    for _ in range(count):
        state, x = random(state, half)
        state, y = random(state, half)
        # A rest with the sign of y, as the test has it.
        small = abs(y) % 8 if y >= 0 else -(abs(y) % 8)
        yield x, y if state & 0x80000000 == 0 else small


def digest_of_width(half, count):
    total = 2166136261
    for x, y in pairs(half, count):
        for result in results(x, y, half):
            total = digest(total, result)
    return total


def main():
    with open(TESTS) as tests:
        found = re.findall(r"digest_of_width\(rt\.alloc\(\), (\d+), (\d+), (\d+)\)\?, (\d+)\)", tests.read())
    if not found:
        sys.exit("no digests in " + TESTS)
    wrong = 0
    for width, half, count, stated in (map(int, digits) for digits in found):
        computed = digest_of_width(half, count)
        alike = half == 2 ** (width - 1) and computed == stated
        wrong += not alike
        print("%d bits, %d random pairs: %d %s" % (width, count, computed, "as stated" if alike else "but %d is stated" % stated))
    sys.exit(1 if wrong else 0)


if __name__ == "__main__":
    main()
