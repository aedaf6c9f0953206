"""A program over weighted programs as bits and the graph of gates, run unproved on a copy of the crates.

Each line has words with tabs between them: what is asked, the four sources of a task in hexadecimal, and settings. A setting has
the bits of each argument behind a letter for its type, and then for each pick a `/` and the bits of its member, with commas
between them. A bit is `0`, `1`, or `*` for a variable. The answer is one line that begins with `=`: `refused`, or

- for `known` the outcome for each setting with a `;` behind it, as `value_texts.py` says, and how many gates were made;
- for `free` the circuit of the only setting, whose variables stand in their order, or `many` where it has over GATES gates;
- for `gates` how many gates the only setting makes, and for `reference` how many the reference makes on it.
"""
import unproved
from value_settings import SETTINGS
from value_texts import CIRCUIT, KNOWN

# A run may write no more than 2^20 bytes.
GATES = 4000
USES = ('bit_graph', 'bit_lists', 'bit_words', 'input_space', 'mpy_tree', 'sym_expr', 'sym_stmt', 'sym_values', 'task_read',
        'tree_weights')
PROGRAM = r'''
//! Makes circuits of weighted programs.
#![tactic(auto)]

use bit_graph::gate::{GraphBit, Source};
use bit_graph::graph::Graph;
use bit_lists::lists::ListParts;
use bit_words::bits::Bits;
use bit_words::logic::{Logic, Variables};
use bit_words::word::Word;
use bit_words::words::Words;
use choice_tree::WProg;
use input_space::Task;
use mpy_tree::{Limits, Types};
use std::alloc::Global;
use std::io::{BufRead, BufReader};
use sym_expr::Picks;
use sym_stmt::sym_run;
use sym_values::{SymOutcome, SymValue};
use task_read::read_task;
use tree_weights::lift;
''' + KNOWN + CIRCUIT + SETTINGS + r'''
// The program

// The outcome of a weighted program of the task, whose names have these types.
fn outcome_of(
    alloc: Global,
    g: &mut Graph,
    task: &Task,
    program: (&WProg, &Types),
    setting: &str,
) -> Result<SymOutcome<GraphBit>, anyhow::Error> {
    let bounds = task.bounds();
    let mut picks = Picks::new(alloc);
    let mut args = Vec::new(alloc);
    for word in setting.split(',') {
        let text = word.as_bytes();
        if !text.is_empty() {
            if text[0] == b'/' {
                picks.push(Bits::from_vec(read_bits(alloc, g, &text[1..])?))?;
            } else {
                args.push(read_value(alloc, g, &bounds.limits, text)?)?;
            }
        }
    }
    Ok(sym_run(
        alloc,
        g,
        program.0,
        program.1,
        &bounds.limits,
        &bounds.entry,
        &picks,
        &args,
    )?)
}

fn outcome_in(
    alloc: Global,
    g: &mut Graph,
    task: &Task,
    setting: &str,
) -> Result<SymOutcome<GraphBit>, anyhow::Error> {
    outcome_of(alloc, g, task, (task.tree(), task.submission_types()), setting)
}

fn put_outcomes(alloc: Global, out: &mut String, task: &Task, settings: &[&str]) -> Result<(), anyhow::Error> {
    let mut g = Graph::new(alloc)?;
    for setting in settings {
        let made = outcome_in(alloc, &mut g, task, setting)?;
        put_outcome(alloc, out, &g, &made)?;
        put(out, ";")?;
    }
    let gates = g.gate_count();
    let text = format!(in alloc; " {gates}")?;
    put(out, text.as_str())
}

fn put_circuit(alloc: Global, out: &mut String, task: &Task, setting: &str) -> Result<(), anyhow::Error> {
    let mut g = Graph::new(alloc)?;
    let made = outcome_in(alloc, &mut g, task, setting)?;
    if g.gate_count() > GATES {
        return put(out, "many");
    }
    put_gates(alloc, out, &g, &made)
}

fn put_count(alloc: Global, out: &mut String, task: &Task, program: (&WProg, &Types), setting: &str) -> Result<(), anyhow::Error> {
    let mut g = Graph::new(alloc)?;
    outcome_of(alloc, &mut g, task, program, setting)?;
    let gates = g.gate_count();
    let text = format!(in alloc; "{gates}")?;
    put(out, text.as_str())
}

fn put_answer(alloc: Global, out: &mut String, words: &[&str]) -> Result<(), anyhow::Error> {
    let mut texts: Vec<Vec<u8>> = Vec::new(alloc);
    for word in &words[1..5] {
        texts.push(unhex(alloc, word.as_bytes())?)?;
    }
    match read_task(alloc, texts[0].as_slice(), texts[1].as_slice(), texts[2].as_slice(), texts[3].as_slice()) {
        Ok(task) => match words[0] {
            "free" => put_circuit(alloc, out, &task, words[5]),
            "gates" => put_count(alloc, out, &task, (task.tree(), task.submission_types()), words[5]),
            "reference" => {
                let lifted = lift(alloc, task.reference())?;
                put_count(alloc, out, &task, (&lifted, task.reference_types()), words[5])
            }
            _ => put_outcomes(alloc, out, &task, &words[5..]),
        },
        Err(_) => put(out, "refused"),
    }
}
'''.replace('GATES', str(GATES)) + unproved.HELPERS + unproved.ANSWERING


class Harness(unproved.Harness):
    """The program, in a folder of its own."""

    def __init__(self, folder):
        super().__init__(folder, USES, PROGRAM)
