#!/usr/bin/env python3
"""Lists the modules of a crate that took the prover longest, by the times of the files that its check left.

    bench/proof_times.py CRATE [COUNT]

A check from nothing in one job (`rt check --jobs 1` in the crate's folder, after `rm -rf out`) writes a file for each
module when it is done, so the time since the file before is the module's own. `F.Lts` is the walk through the code of
the function F, `F.Proof` its proof, and a module without a function's name a file of `specs/` or `proofs/`.
"""
import os
import sys


def modules(folder):
    """The files of the newest check, in the order in which they were written: time, bytes and module."""
    kept = [entry.path for entry in os.scandir(folder) if entry.is_dir()]
    if not kept:
        sys.exit("no check has left anything in " + folder)
    with os.scandir(max(kept, key=os.path.getmtime)) as entries:
        files = [(entry.stat().st_mtime, entry.stat().st_size, entry.name) for entry in entries]
    return sorted(file for file in files if file[2].endswith(".oantt"))


def main():
    if len(sys.argv) not in (2, 3):
        sys.exit(__doc__)
    crate, count = sys.argv[1], int(sys.argv[2]) if len(sys.argv) == 3 else 20
    here = os.path.dirname(os.path.abspath(__file__))
    files = modules(os.path.join(here, "..", "crates", crate, "out", "incremental"))
    taken = [(now - before, size, name) for (before, _, _), (now, size, name) in zip(files, files[1:])]
    print("%d modules in %.0f seconds" % (len(files), files[-1][0] - files[0][0]))
    for seconds, size, name in sorted(taken, reverse=True)[:count]:
        print("%7.1f s %8.2f MB  %s" % (seconds, size / 1e6, name.removesuffix(".oantt")))


if __name__ == "__main__":
    main()
