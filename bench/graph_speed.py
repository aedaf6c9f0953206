"""Times a graph of 1,000,000 gates, each of the gate before it and a new variable, and one of a tenth of the size.

Run it at the top of the repository, with `rt` on the path: python3 bench/graph_speed.py
The program is proved and built by `rt run` in a copy of the crates; nothing is left behind. It prints the time of the
graph and the most memory of the process.
"""
import tempfile

from built import Built


def main():
    with tempfile.TemporaryDirectory() as work:
        built = Built(work)
        for gates in (100_000, 1_000_000):
            times, most = built.run(0, gates)
            print('%s gates: %.2f seconds, at most %d MB' % (format(gates, ','), int(times['graph'][0]) / 1e6, most))


main()
