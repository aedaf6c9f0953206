"""Formulas of programs: a program over weighted programs as bits and the graph of gates, run unproved on a copy of the crates.

Each line has words with tabs between them: the kind of the question, the four sources of a task in hexadecimal, the bits of the
picks' members, each behind a `/` and with commas between them, and the arguments of each case, as in `value_settings.py`, with
commas between them. A bit may also be `=`, the bit before it once more. The kinds are

- `fail`: whether the chosen program ends otherwise than the reference in one of the cases;
- `meets`: whether it ends as the reference does in all of them.

The answer is one line that begins with `=`: `refused`, or the circuit of the question as `value_texts.py` says, with its variables,
its gates and its goal.
"""
import unproved
from value_settings import SETTINGS
from value_texts import BITS

USES = ('bit_graph', 'bit_words', 'input_space', 'mpy_tree', 'sym_expr', 'sym_stmt', 'sym_values', 'task_read', 'tree_weights')
PROGRAM = r'''
//! Makes the circuits of questions about weighted programs.
#![tactic(auto)]

use bit_graph::gate::{GraphBit, Source};
use bit_graph::graph::Graph;
use bit_words::bits::Bits;
use bit_words::logic::{Logic, Variables};
use bit_words::word::Word;
use bit_words::words::Words;
use choice_tree::WProg;
use input_space::Task;
use mpy_tree::{Limits, Types};
use std::alloc::Global;
use std::io::{BufRead, BufReader};
use sym_expr::Picks;
use sym_stmt::sym_run;
use sym_values::equality::equal_bit;
use sym_values::{SymOutcome, SymValue};
use task_read::read_task;
use tree_weights::lift;
''' + BITS + SETTINGS + r'''
// The questions

fn read_picks(alloc: Global, g: &mut Graph, word: &str) -> Result<Picks<GraphBit>, anyhow::Error> {
    let mut picks = Picks::new(alloc);
    for text in word.split(',') {
        let marks = text.as_bytes();
        if !marks.is_empty() {
            picks.push(Bits::from_vec(read_bits(alloc, g, &marks[1..])?))?;
        }
    }
    Ok(picks)
}

fn read_arguments(
    alloc: Global,
    g: &mut Graph,
    limits: &Limits,
    word: &str,
) -> Result<Vec<SymValue<GraphBit>>, anyhow::Error> {
    let mut args = Vec::new(alloc);
    for text in word.split(',') {
        let marks = text.as_bytes();
        if !marks.is_empty() {
            args.push(read_value(alloc, g, limits, marks)?)?;
        }
    }
    Ok(args)
}

// Whether two outcomes are the same, as far as their values and their having a fault tell.
fn agree(
    g: &mut Graph,
    a: &SymOutcome<GraphBit>,
    b: &SymOutcome<GraphBit>,
) -> Result<GraphBit, anyhow::Error> {
    let both = g.and(a.fault, b.fault)?;
    let not_a = g.not(a.fault);
    let not_b = g.not(b.fault);
    let neither = g.and(not_a, not_b)?;
    let equal = equal_bit(g, &a.value, &b.value)?;
    let same = g.and(neither, equal)?;
    let not_both = g.not(both);
    let not_same = g.not(same);
    let differ = g.and(not_both, not_same)?;
    Ok(g.not(differ))
}

// Whether the chosen program and the reference end alike in all cases.
fn meets(
    alloc: Global,
    g: &mut Graph,
    task: &Task,
    picks_word: &str,
    cases: &[&str],
) -> Result<GraphBit, anyhow::Error> {
    let bounds = task.bounds();
    let reference = lift(alloc, task.reference())?;
    let picks = read_picks(alloc, g, picks_word)?;
    let none = Picks::new(alloc);
    let mut all = g.constant(true);
    for case in cases {
        let args = read_arguments(alloc, g, &bounds.limits, case)?;
        let made = sym_run(alloc, g, task.tree(), task.submission_types(), &bounds.limits, &bounds.entry, &picks, &args)?;
        let wanted = sym_run(alloc, g, &reference, task.reference_types(), &bounds.limits, &bounds.entry, &none, &args)?;
        let same = agree(g, &made, &wanted)?;
        all = g.and(all, same)?;
    }
    Ok(all)
}

fn put_question(alloc: Global, out: &mut String, task: &Task, words: &[&str]) -> Result<(), anyhow::Error> {
    let mut g = Graph::new(alloc)?;
    let all = meets(alloc, &mut g, task, words[5], &words[6..])?;
    let goal = if words[0] == "fail" { g.not(all) } else { all };
    put_graph(alloc, out, &g)?;
    put_bit(alloc, out, &g, goal)
}

fn put_answer(alloc: Global, out: &mut String, words: &[&str]) -> Result<(), anyhow::Error> {
    let mut texts: Vec<Vec<u8>> = Vec::new(alloc);
    for word in &words[1..5] {
        texts.push(unhex(alloc, word.as_bytes())?)?;
    }
    match read_task(alloc, texts[0].as_slice(), texts[1].as_slice(), texts[2].as_slice(), texts[3].as_slice()) {
        Ok(task) => put_question(alloc, out, &task, words),
        Err(_) => put(out, "refused"),
    }
}
''' + unproved.HELPERS + unproved.ANSWERING


class Harness(unproved.Harness):
    """The program, in a folder of its own."""

    def __init__(self, folder):
        super().__init__(folder, USES, PROGRAM)


def formula_of(answer):
    """The formula of a question's circuit, as the crate `cnf_build` makes it: the number of variables, and the clauses."""
    variables, gates, goal = answer.split('|')
    first = int(variables) + 2

    def literal(word):
        return (int(word) // 2 + 1) * (1 if int(word) % 2 == 0 else -1)

    clauses = [[1]]
    for number, gate in enumerate(gates.split()):
        x, (a, b) = first + number, map(literal, gate.split('.'))
        clauses += [[-x, a], [-x, b], [x, -a, -b]]
    return int(variables) + 1 + len(gates.split()), clauses + [[literal(goal)]]
