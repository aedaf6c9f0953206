"""A program over the readers of bounds, programs and cases, run unproved on a copy of the crates.

Its input has a line for each source, with the bytes in hexadecimal: `b BYTES` reads bounds, which stay for the lines
after it, `p BYTES` reads a program to its typing, `c BYTES` reads a case, and `i PLACE` makes the input at a place. It
answers each by one line that begins with `=`. With the word `time` behind it a line is read that many times, and the
microseconds of the fastest reading stand behind the answer.
"""
import unproved

USES = ('bounds_reader', 'input_space', 'mpy_parser', 'mpy_share', 'mpy_tree', 'mpy_types', 'task_read')
PROGRAM = r'''
//! Reads the sources of a task, and says what they are read as.
#![tactic(auto)]

use bounds_reader::{Bounds, BoundsError, Param, read_bounds};
use input_space::{Case, CaseError, case_at, in_bounds, inputs_count, print_case, read_case, signature};
use mpy_parser::{ReadError, read_prog};
use mpy_share::unshared;
use mpy_tree::{Prog, Slot, Source, Ty, TypeError, Types};
use mpy_types::check_types;
use std::alloc::Global;
use std::fs;
use std::time::Instant;
use task_read::{TaskError, read_program};

fn put_number(alloc: Global, out: &mut String, number: i64) -> Result<(), anyhow::Error> {
    let digits = format!(in alloc; "{number}")?;
    put(out, digits.as_str())
}

// Numbers, each behind a mark.
fn put_numbers(alloc: Global, out: &mut String, mark: &str, numbers: &[i64]) -> Result<(), anyhow::Error> {
    for number in numbers {
        put(out, mark)?;
        put_number(alloc, out, *number)?;
    }
    Ok(())
}

fn name(ty: Ty) -> &'static str {
    match ty {
        Ty::Int => "Int",
        Ty::Bool => "Bool",
        Ty::List => "List",
        Ty::Text => "Text",
    }
}

fn put_param(alloc: Global, out: &mut String, p: &Param) -> Result<(), anyhow::Error> {
    match p {
        Param::Int { low, high } => {
            put(out, " int")?;
            put_numbers(alloc, out, ",", &[i64::from(*low), i64::from(*high)])
        }
        Param::Bool => put(out, " bool"),
        Param::List {
            least,
            most,
            low,
            high,
        } => {
            put(out, " list")?;
            let numbers = [i64::from(*least), i64::from(*most), i64::from(*low), i64::from(*high)];
            put_numbers(alloc, out, ",", &numbers)
        }
        Param::Text {
            least,
            most,
            alphabet,
        } => {
            put(out, " text")?;
            put_numbers(alloc, out, ",", &[i64::from(*least), i64::from(*most)])?;
            put(out, ",")?;
            put_hex(out, alphabet.bytes())
        }
    }
}

fn put_bounds(alloc: Global, out: &mut String, b: &Bounds) -> Result<(), anyhow::Error> {
    let limits = &b.limits;
    let numbers = [
        i64::from(limits.width),
        i64::from(limits.turns),
        i64::from(limits.depth),
        i64::from(limits.cap),
    ];
    put(out, "=bounds")?;
    put_numbers(alloc, out, " ", &numbers)?;
    put(out, " ")?;
    put_hex(out, b.entry.bytes())?;
    put_numbers(alloc, out, " ", &[i64::from(b.entry_line), inputs_count(b) as i64])?;
    for p in b.params.items() {
        put_param(alloc, out, p)?;
    }
    Ok(())
}

fn put_typing(alloc: Global, out: &mut String, t: &Types) -> Result<(), anyhow::Error> {
    put(out, "=typed")?;
    for fact in t.facts.items() {
        put_numbers(alloc, out, " ", &[i64::from(fact.func)])?;
        if let Slot::Local(x) = &fact.slot {
            put(out, ".")?;
            put_hex(out, x.bytes())?;
        }
        put(out, ".")?;
        put(out, name(fact.ty))?;
    }
    Ok(())
}

fn put_refusal(alloc: Global, out: &mut String, cause: &str, line: u32) -> Result<(), anyhow::Error> {
    put(out, "refused ")?;
    put(out, cause)?;
    put_numbers(alloc, out, " ", &[i64::from(line)])
}

// One part after another, with both types of a conflict.
fn read_in_parts(alloc: Global, out: &mut String, b: &Bounds, bytes: &[u8]) -> Result<(), anyhow::Error> {
    let p: Prog = match read_prog(alloc, bytes) {
        Ok(p) => p,
        Err(ReadError::Fault { cause, line }) => {
            put(out, "=")?;
            return put_refusal(alloc, out, cause.name(), line);
        }
        Err(ReadError::NoMemory) => return put(out, "=no memory"),
    };
    let s = signature(alloc, b)?;
    match check_types(alloc, &p, &s) {
        Ok(t) => match unshared(&p, &t) {
            Ok(()) => put_typing(alloc, out, &t),
            Err(line) => {
                put(out, "=")?;
                put_refusal(alloc, out, "Shared", line)
            }
        },
        Err(TypeError::Fault { cause, line }) => {
            put(out, "=")?;
            put_refusal(alloc, out, cause.name(), line)
        }
        Err(TypeError::Conflict { line, one, other }) => {
            put(out, "=conflict")?;
            put_numbers(alloc, out, " ", &[i64::from(line)])?;
            put(out, " ")?;
            put(out, name(one))?;
            put(out, " ")?;
            put(out, name(other))
        }
        Err(TypeError::NoMemory) => put(out, "=no memory"),
    }
}

// The whole reading.
fn read_whole(alloc: Global, out: &mut String, b: &Bounds, bytes: &[u8]) -> Result<(), anyhow::Error> {
    put(out, " ")?;
    match read_program(alloc, b, bytes, Source::Submission) {
        Ok((_, types)) => {
            put(out, "read ")?;
            put_number(alloc, out, types.facts.items().len() as i64)
        }
        Err(TaskError::Refused(refusal)) => put_refusal(alloc, out, refusal.cause.name(), refusal.line),
        Err(TaskError::NoMemory) => put(out, "no memory"),
    }
}

fn put_read_case(alloc: Global, out: &mut String, b: &Bounds, bytes: &[u8]) -> Result<(), anyhow::Error> {
    match read_case(alloc, bytes) {
        Ok(case) => put_case(alloc, out, b, &case),
        Err(CaseError::NoCase) => put(out, "=no case"),
        Err(CaseError::NoMemory) => put(out, "=no memory"),
    }
}

fn put_case(alloc: Global, out: &mut String, b: &Bounds, case: &Case) -> Result<(), anyhow::Error> {
    let text = print_case(alloc, case)?;
    let inside = if in_bounds(b, case) { "true" } else { "false" };
    put(out, "=case ")?;
    put(out, inside)?;
    put(out, " ")?;
    put_hex(out, text.as_slice())
}

fn answer(alloc: Global, out: &mut String, kind: &str, b: &Bounds, word: &str) -> Result<(), anyhow::Error> {
    if kind == "i" {
        if let Ok(place) = word.parse::<u64>() {
            let case = case_at(alloc, b, place)?;
            put_case(alloc, out, b, &case)?;
        }
        return Ok(());
    }
    let bytes = unhex(alloc, word.as_bytes())?;
    if kind == "c" {
        return put_read_case(alloc, out, b, bytes.as_slice());
    }
    read_in_parts(alloc, out, b, bytes.as_slice())?;
    read_whole(alloc, out, b, bytes.as_slice())
}

fn timed(rt: &HostRuntime, kind: &str, b: &Bounds, bytes: &[u8]) -> Result<u128, anyhow::Error> {
    let alloc = rt.alloc();
    let start = Instant::now(rt)?;
    match kind {
        "c" => {
            let _case = read_case(alloc, bytes);
        }
        "b" => {
            let _bounds = read_bounds(alloc, bytes);
        }
        _ => {
            let _program = read_program(alloc, b, bytes, Source::Submission);
        }
    }
    Ok(start.elapsed(rt)?.as_micros())
}

fn put_time(
    rt: &HostRuntime,
    out: &mut String,
    kind: &str,
    b: &Bounds,
    word: &str,
    times: u64,
) -> Result<(), anyhow::Error> {
    let alloc = rt.alloc();
    let bytes = unhex(alloc, word.as_bytes())?;
    let mut least = timed(rt, kind, b, bytes.as_slice())?;
    for _turn in 1..times {
        least = least.min(timed(rt, kind, b, bytes.as_slice())?);
    }
    put(out, " time ")?;
    put_number(alloc, out, least as i64)
}

fn main(rt: HostRuntime) -> Result<(), anyhow::Error> {
    let alloc = rt.alloc();
    let text = fs::read_to_string(&rt, "input.txt")?;
    let first = b"width 8\nturns 4\ndepth 4\ncap 4\nentry f\n";
    let mut bounds = match read_bounds(alloc, first) {
        Ok(b) => b,
        Err(_) => return Ok(()),
    };
    for line in text.lines() {
        let mut words = Vec::new(alloc);
        for word in line.split(' ') {
            words.push(word)?;
        }
        if words.len() < 2 {
            continue;
        }
        let mut out = String::new(alloc);
        if words[0] == "b" {
            let bytes = unhex(alloc, words[1].as_bytes())?;
            match read_bounds(alloc, bytes.as_slice()) {
                Ok(b) => {
                    put_bounds(alloc, &mut out, &b)?;
                    bounds = b;
                }
                Err(BoundsError::Fault { cause, line }) => {
                    put(&mut out, "=")?;
                    put_refusal(alloc, &mut out, cause.name(), line)?;
                }
                Err(BoundsError::NoMemory) => put(&mut out, "=no memory")?,
            }
        } else {
            answer(alloc, &mut out, words[0], &bounds, words[1])?;
        }
        if words.len() == 4 {
            if let Ok(times) = words[3].parse::<u64>() {
                put_time(&rt, &mut out, words[0], &bounds, words[1], times)?;
            }
        }
        println!(rt; "{out}")?;
    }
    Ok(())
}
''' + unproved.HELPERS


class Harness(unproved.Harness):
    """The program, in a folder of its own."""

    def __init__(self, folder):
        super().__init__(folder, USES, PROGRAM)
