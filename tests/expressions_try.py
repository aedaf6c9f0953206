"""A program over weighted expressions as bits and the graph of gates, run unproved on a copy of the crates.

Each line has words with tabs between them: what is asked, the width and the cap, the names with commas between them, an
expression as `trees.py` writes it, and settings. A setting has for each name a bit that says whether it is set, a letter for
the type, and the bits of its value; then for each pick a `/` and the bits of its member; all with commas between them. A bit is
`0`, `1`, or `*` for a variable. The answer is one line that begins with `=`.

- `known`: the outcome for each setting with a `;` behind it, as `value_texts.py` says, and how many gates were made.
- `free`: the circuit of the only setting, whose variables stand in their order, or `many` where it has over GATES gates.
"""
import unproved
from value_settings import SETTINGS
from value_texts import CIRCUIT, KNOWN

# A run may write no more than 2^20 bytes.
GATES = 2000
USES = ('bit_graph', 'bit_lists', 'bit_words', 'choice_tree', 'mpy_tree', 'sym_expr', 'sym_values')
PROGRAM = r'''
//! Makes circuits of weighted expressions.
#![tactic(auto)]

use bit_graph::gate::{GraphBit, Source};
use bit_graph::graph::Graph;
use bit_lists::lists::ListParts;
use bit_words::bits::Bits;
use bit_words::logic::{Logic, Variables};
use bit_words::word::Word;
use bit_words::words::Words;
use choice_tree::{Other, Others, WExpr, WExprs};
use mpy_tree::{ArithOp, Chars, CmpOp, Limits, Name, Names};
use std::alloc::Global;
use std::io::{BufRead, BufReader};
use sym_expr::{Env, Picks, sym_expr};
use sym_values::{SymOutcome, SymValue, SymValues};
''' + KNOWN + CIRCUIT + r'''
// Expressions

// The byte behind those that were read.
fn next(text: &[u8], at: &mut usize) -> u8 {
    let mark = text[*at];
    *at += 1;
    mark
}

// Whether a byte stands there, which is then read.
fn meets(text: &[u8], at: &mut usize, mark: u8) -> bool {
    if text[*at] == mark {
        *at += 1;
        return true;
    }
    false
}

// The bytes before the next `;`.
fn read_word<'a>(text: &'a [u8], at: &mut usize) -> &'a [u8] {
    let from = *at;
    for _ in from..text.len() {
        if meets(text, at, b';') {
            break;
        }
        *at += 1;
    }
    &text[from..*at - 1]
}

fn read_number(text: &[u8], at: &mut usize) -> u32 {
    let mut number = 0;
    for digit in read_word(text, at) {
        number = 10 * number + u32::from(*digit - b'0');
    }
    number
}

fn read_name(alloc: Global, text: &[u8], at: &mut usize) -> Result<Name, anyhow::Error> {
    Ok(Name::from_vec(unhex(alloc, read_word(text, at))?))
}

fn read_arith(text: &[u8], at: &mut usize) -> ArithOp {
    match next(text, at) {
        b'+' => ArithOp::Add,
        b'-' => ArithOp::Sub,
        b'%' => ArithOp::Rem,
        b'/' => {
            *at += 1;
            ArithOp::Floor
        }
        _ => if meets(text, at, b'*') { ArithOp::Power } else { ArithOp::Mul },
    }
}

fn read_cmp(text: &[u8], at: &mut usize) -> CmpOp {
    match next(text, at) {
        b'=' => {
            *at += 1;
            CmpOp::Eq
        }
        b'!' => {
            *at += 1;
            CmpOp::Ne
        }
        b'<' => if meets(text, at, b'=') { CmpOp::Le } else { CmpOp::Lt },
        b'>' => if meets(text, at, b'=') { CmpOp::Ge } else { CmpOp::Gt },
        b'i' => {
            *at += 1;
            CmpOp::Member
        }
        _ => {
            *at += 5;
            CmpOp::NotMember
        }
    }
}

fn read_part(alloc: Global, text: &[u8], at: &mut usize) -> Result<Box<WExpr>, anyhow::Error> {
    let part = read_expr(alloc, text, at)?;
    Ok(Box::new(alloc, part)?)
}

fn read_end(alloc: Global, text: &[u8], at: &mut usize) -> Result<Option<Box<WExpr>>, anyhow::Error> {
    if meets(text, at, b'0') {
        return Ok(None);
    }
    Ok(Some(read_part(alloc, text, at)?))
}

fn read_items(alloc: Global, text: &[u8], at: &mut usize) -> Result<WExprs, anyhow::Error> {
    let mut items = Vec::new(alloc);
    for _ in 0..read_number(text, at) {
        items.push(read_expr(alloc, text, at)?)?;
    }
    Ok(WExprs::from_vec(items))
}

fn read_pick(alloc: Global, text: &[u8], at: &mut usize) -> Result<WExpr, anyhow::Error> {
    let number = read_number(text, at);
    let count = read_number(text, at);
    let base = read_part(alloc, text, at)?;
    let mut items = Vec::new(alloc);
    for _ in 0..count {
        *at += 1;
        let rule = read_number(text, at);
        let cost = read_number(text, at);
        let tree = read_expr(alloc, text, at)?;
        items.push(Other { rule, cost, tree })?;
    }
    Ok(WExpr::Pick { number, base, others: Others { items } })
}

fn read_expr(alloc: Global, text: &[u8], at: &mut usize) -> Result<WExpr, anyhow::Error> {
    let mark = next(text, at);
    match mark {
        b'i' => Ok(WExpr::Int(read_number(text, at))),
        b'T' | b'F' => {
            let _ = read_word(text, at);
            Ok(WExpr::Bool(mark == b'T'))
        }
        b't' => Ok(WExpr::Text(Chars::from_vec(unhex(alloc, read_word(text, at))?))),
        b'n' => Ok(WExpr::Name(read_name(alloc, text, at)?)),
        b'L' => Ok(WExpr::List(read_items(alloc, text, at)?)),
        b'-' => Ok(WExpr::Neg(read_part(alloc, text, at)?)),
        b'!' => Ok(WExpr::Not(read_part(alloc, text, at)?)),
        b'A' => {
            let op = read_arith(text, at);
            let a = read_part(alloc, text, at)?;
            let b = read_part(alloc, text, at)?;
            Ok(WExpr::Arith(op, a, b))
        }
        b'C' => {
            let op = read_cmp(text, at);
            let a = read_part(alloc, text, at)?;
            let b = read_part(alloc, text, at)?;
            Ok(WExpr::Cmp(op, a, b))
        }
        b'&' => {
            let a = read_part(alloc, text, at)?;
            let b = read_part(alloc, text, at)?;
            Ok(WExpr::And(a, b))
        }
        b'|' => {
            let a = read_part(alloc, text, at)?;
            let b = read_part(alloc, text, at)?;
            Ok(WExpr::Or(a, b))
        }
        b'?' => {
            let yes = read_part(alloc, text, at)?;
            let test = read_part(alloc, text, at)?;
            let no = read_part(alloc, text, at)?;
            Ok(WExpr::Cond { test, yes, no })
        }
        b'I' => {
            let a = read_part(alloc, text, at)?;
            let i = read_part(alloc, text, at)?;
            Ok(WExpr::Index(a, i))
        }
        b'S' => {
            let a = read_part(alloc, text, at)?;
            let from = read_end(alloc, text, at)?;
            let to = read_end(alloc, text, at)?;
            Ok(WExpr::Slice(a, from, to))
        }
        b'c' => {
            let f = read_name(alloc, text, at)?;
            Ok(WExpr::Call(f, read_items(alloc, text, at)?))
        }
        _ => read_pick(alloc, text, at),
    }
}

''' + SETTINGS + r'''
fn read_names(alloc: Global, text: &str) -> Result<Names, anyhow::Error> {
    let mut names = Vec::new(alloc);
    for word in text.split(',') {
        let mut bytes = Vec::new(alloc);
        for byte in word.as_bytes() {
            bytes.push(*byte)?;
        }
        names.push(Name::from_vec(bytes))?;
    }
    Ok(Names::from_vec(names))
}

fn read_setting(alloc: Global, g: &mut Graph, words: &[&str], setting: &str) -> Result<Env<GraphBit>, anyhow::Error> {
    let width = words[1].parse::<u32>().unwrap_or(3);
    let cap = words[2].parse::<u32>().unwrap_or(1);
    let limits = Limits { width, turns: 1, depth: 1, cap, prints: 0 };
    let mut values = SymValues::new(alloc);
    let mut set = Bits::new(alloc);
    let mut picks = Picks::new(alloc);
    for word in setting.split(',') {
        let text = word.as_bytes();
        if text[0] == b'/' {
            picks.push(Bits::from_vec(read_bits(alloc, g, &text[1..])?))?;
        } else {
            set.push(read_bit(g, text[0])?)?;
            values.push(read_value(alloc, g, &limits, &text[1..])?)?;
        }
    }
    let names = read_names(alloc, words[3])?;
    Ok(Env { names, values, set, picks, limits, depth: 1 })
}

fn outcome_in(
    alloc: Global,
    g: &mut Graph,
    words: &[&str],
    e: &WExpr,
    setting: &str,
) -> Result<SymOutcome<GraphBit>, anyhow::Error> {
    let env = read_setting(alloc, g, words, setting)?;
    Ok(sym_expr(alloc, g, e, &env)?)
}

// The program

fn put_outcomes(alloc: Global, out: &mut String, words: &[&str], e: &WExpr) -> Result<(), anyhow::Error> {
    let mut g = Graph::new(alloc)?;
    for setting in &words[5..] {
        let made = outcome_in(alloc, &mut g, words, e, setting)?;
        put_outcome(alloc, out, &g, &made)?;
        put(out, ";")?;
    }
    let gates = g.gate_count();
    let text = format!(in alloc; " {gates}")?;
    put(out, text.as_str())
}

fn put_circuit(alloc: Global, out: &mut String, words: &[&str], e: &WExpr) -> Result<(), anyhow::Error> {
    let mut g = Graph::new(alloc)?;
    let made = outcome_in(alloc, &mut g, words, e, words[5])?;
    if g.gate_count() > GATES {
        return put(out, "many");
    }
    put_gates(alloc, out, &g, &made)
}

fn put_answer(alloc: Global, out: &mut String, words: &[&str]) -> Result<(), anyhow::Error> {
    let mut at = 0;
    let e = read_expr(alloc, words[4].as_bytes(), &mut at)?;
    if words[0] == "free" {
        return put_circuit(alloc, out, words, &e);
    }
    put_outcomes(alloc, out, words, &e)
}
'''.replace('GATES', str(GATES)) + unproved.HELPERS + unproved.ANSWERING


class Harness(unproved.Harness):
    """The program, in a folder of its own."""

    def __init__(self, folder):
        super().__init__(folder, USES, PROGRAM)
