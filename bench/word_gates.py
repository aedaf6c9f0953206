"""Prints the gates and the depth of each word call over the graph, at widths 4, 8 and 16, at width 16 with
numbers of 4 bits, and at width 16 with the constant 3, and compares them with the table of docs/bits.md.

Run it at the top of the repository, with `rt` on the path: python3 bench/word_gates.py
It writes a program over the crates' own calls into a copy of the crates and runs that unproved, compiled, so
nothing is left behind. The exit status is 1 where a row isn't the document's.
"""
import os
import shutil
import subprocess
import sys
import tempfile

PROGRAM = r'''
//! Prints the gates of a word call.
#![tactic(auto)]

use bit_graph::gate::Source;
use bit_graph::graph::Graph;
use bit_words::compare::{equal, less};
use bit_words::floor::{floor, rem};
use bit_words::logic::{Logic, Variables};
use bit_words::power::power;
use bit_words::product::mul;
use bit_words::sums::{add, neg, sub};
use bit_words::word::Word;

fn run(rt: &HostRuntime, call: usize, width: usize, free: usize, constant: i64) -> Result<(), anyhow::Error> {
    let alloc = rt.alloc();
    let mut g = Graph::new(alloc)?;
    let mut a = Word::new(alloc);
    let mut b = Word::new(alloc);
    let mut last = g.constant(false);
    for _ in 0..free {
        last = g.variable()?;
        a.push(last)?;
    }
    for _ in free..width {
        a.push(last)?;
    }
    let mut rest = constant;
    for i in 0..width {
        if constant >= 0 {
            b.push(g.constant(rest % 2 == 1))?;
            rest = rest / 2;
        } else if i < free {
            last = g.variable()?;
            b.push(last)?;
        } else {
            b.push(last)?;
        }
    }
    let mut out = Word::new(alloc);
    if call == 0 { let r = add(alloc, &mut g, &a, &b)?; out = r.word; out.push(r.over)?; }
    if call == 1 { let r = sub(alloc, &mut g, &a, &b)?; out = r.word; out.push(r.over)?; }
    if call == 2 { let r = neg(alloc, &mut g, &a)?; out = r.word; out.push(r.over)?; }
    if call == 3 { let o = less(alloc, &mut g, &a, &b)?; out.push(o)?; }
    if call == 4 { let o = equal(alloc, &mut g, &a, &b)?; out.push(o)?; }
    if call == 5 { let r = mul(alloc, &mut g, &a, &b)?; out = r.word; out.push(r.over)?; }
    if call == 6 { let r = floor(alloc, &mut g, &a, &b)?; out = r.word; out.push(r.over)?; out.push(r.fault)?; }
    if call == 7 { let r = rem(alloc, &mut g, &a, &b)?; out = r.word; out.push(r.over)?; out.push(r.fault)?; }
    if call == 8 { let r = power(alloc, &mut g, &a, &b)?; out = r.word; out.push(r.over)?; out.push(r.fault)?; }
    let count = g.gate_count();
    let mut depths: Vec<u64> = Vec::new(alloc);
    let mut used: Vec<bool> = Vec::new(alloc);
    for k in 0..count {
        let gate = g.gate(k);
        let mut deepest = 0;
        for part in [gate.left, gate.right] {
            if let Source::Made(j) = part.source() {
                deepest = deepest.max(depths[j as usize]);
            }
        }
        depths.push(deepest + 1)?;
        used.push(false)?;
    }
    for i in 0..out.len() {
        if let Source::Made(j) = out.at(i).source() {
            used[j as usize] = true;
        }
    }
    let mut cone = 0;
    let mut depth = 0;
    for n in 0..count {
        let k = count - 1 - n;
        if used[k] {
            cone += 1;
            depth = depth.max(depths[k]);
            let gate = g.gate(k);
            for part in [gate.left, gate.right] {
                if let Source::Made(j) = part.source() {
                    used[j as usize] = true;
                }
            }
        }
    }
    println!(rt; "cell {cone} {depth} {count}")?;
    Ok(())
}

fn main(rt: HostRuntime) -> Result<(), anyhow::Error> {
    for call in 0..9 {
        run(&rt, call, 4, 4, -1)?;
        run(&rt, call, 8, 8, -1)?;
        run(&rt, call, 16, 16, -1)?;
        run(&rt, call, 16, 4, -1)?;
        run(&rt, call, 16, 16, 3)?;
    }
    Ok(())
}
'''

CALLS = ["add", "sub", "neg", "less", "equal", "mul", "floor", "rem", "power"]


def cells():
    """The cells of each call's row, as the program prints them."""
    with tempfile.TemporaryDirectory() as folder:
        for crate in ("bit_words", "bit_graph"):
            shutil.copytree(os.path.join("crates", crate), os.path.join(folder, "crates", crate), ignore=shutil.ignore_patterns("out"))
        os.makedirs(os.path.join(folder, "crates/bits_bench/src"))
        with open(os.path.join(folder, "crates.txt"), "w") as out:
            out.write("bit_words:\nbit_graph: bit_words indexmap\nbits_bench: bit_words bit_graph anyhow\n")
        with open(os.path.join(folder, "crates/bits_bench/src/main.rt"), "w") as out:
            out.write(PROGRAM)
        # What is compiled runs to the end; of the interpreter a few steps are enough.
        run = subprocess.run(["rt", "try", "--steps", "1000", "--seconds", "300"], cwd=os.path.join(folder, "crates/bits_bench"), capture_output=True, text=True)
        lines = [line.removeprefix("| ").split() for line in run.stdout.splitlines()]
        found = ["%s (%s)" % (line[1], line[2]) for line in lines if line[:1] == ["cell"]]
        if len(found) != 5 * len(CALLS):
            sys.exit(run.stdout[-2000:] + run.stderr[-2000:])
        return [found[5 * k:5 * k + 5] for k in range(len(CALLS))]


def main():
    with open("docs/bits.md") as document:
        rows = [[cell.strip() for cell in line.strip("| \n").split("|")] for line in document if line.startswith("| ")]
    differ = 0
    for call, row in zip(CALLS, cells()):
        stated = [it[1:6] for it in rows if it[0] == call]
        alike = stated == [row]
        differ += not alike
        print("| " + " | ".join([call] + row) + " |" + ("" if alike else " but the document has " + str(stated)), flush=True)
    sys.exit(1 if differ else 0)


main()
