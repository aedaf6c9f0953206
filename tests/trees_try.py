"""A program over tasks and their weighted trees, run unproved on a copy of the crates.

Each line has words with tabs between them: `digest` or `text`, and the four sources of a task in hexadecimal. The answer is one
line that begins with `=`: the refusal, or of the tree the digest of its text, or the text itself, its greatest cost, the number
of its selections and its weight, the weight of the reference, and the digest of all costs, programs and edits of selections,
sorted, or `-` where there are more than MOST selections.
"""
import unproved

MOST = 2000
USES = ('choice_tree', 'input_space', 'mpy_printer', 'mpy_tree', 'selection_numbers', 'task_read', 'tree_weights')
PROGRAM = r'''
//! Reads tasks, and says what their weighted trees are.
#![tactic(auto)]

use choice_tree::{Selection, WAct, WExpr, WProg, WStmt, choices, cost, edits, most_cost, plain};
use input_space::Task;
use md5::{Digest, Md5};
use mpy_printer::{print_expr, print_prog};
use mpy_tree::{ArithOp, CmpOp, Name, Source};
use selection_numbers::MemberCounts;
use std::alloc::Global;
use std::io::{BufRead, BufReader};
use task_read::{TaskError, read_task};
use tree_weights::{lift, weight};

// A mark, a number, and the end of it.
fn put_number(alloc: Global, out: &mut String, mark: &str, number: u64) -> Result<(), anyhow::Error> {
    let text = format!(in alloc; "{mark}{number};")?;
    put(out, text.as_str())
}

fn put_bytes(out: &mut String, mark: &str, bytes: &[u8]) -> Result<(), anyhow::Error> {
    put(out, mark)?;
    put_hex(out, bytes)?;
    put(out, ";")
}

fn put_name(out: &mut String, mark: &str, name: &Name) -> Result<(), anyhow::Error> {
    put_bytes(out, mark, name.bytes())
}

fn arith_mark(op: ArithOp) -> &'static str {
    match op {
        ArithOp::Add => "A+",
        ArithOp::Sub => "A-",
        ArithOp::Mul => "A*",
        ArithOp::Floor => "A//",
        ArithOp::Rem => "A%",
        ArithOp::Power => "A**",
    }
}

fn cmp_mark(op: CmpOp) -> &'static str {
    match op {
        CmpOp::Eq => "C==",
        CmpOp::Ne => "C!=",
        CmpOp::Lt => "C<",
        CmpOp::Le => "C<=",
        CmpOp::Gt => "C>",
        CmpOp::Ge => "C>=",
        CmpOp::Member => "Cin",
        CmpOp::NotMember => "Cnot in",
    }
}

fn put_all(alloc: Global, out: &mut String, parts: &[&WExpr]) -> Result<(), anyhow::Error> {
    for part in parts {
        put_expr(alloc, out, part)?;
    }
    Ok(())
}

fn put_items(alloc: Global, out: &mut String, items: &[WExpr]) -> Result<(), anyhow::Error> {
    put_number(alloc, out, "", items.len() as u64)?;
    for item in items {
        put_expr(alloc, out, item)?;
    }
    Ok(())
}

fn put_end(alloc: Global, out: &mut String, end: &Option<Box<WExpr>>) -> Result<(), anyhow::Error> {
    match end {
        None => put(out, "0"),
        Some(e) => put_expr(alloc, out, e),
    }
}

fn put_expr(alloc: Global, out: &mut String, e: &WExpr) -> Result<(), anyhow::Error> {
    match e {
        WExpr::Int(n) => put_number(alloc, out, "i", u64::from(*n)),
        WExpr::Bool(b) => put(out, if *b { "True;" } else { "False;" }),
        WExpr::Text(chars) => put_bytes(out, "t", chars.bytes()),
        WExpr::Name(x) => put_name(out, "n", x),
        WExpr::List(items) => {
            put(out, "L")?;
            put_items(alloc, out, items.items())
        }
        WExpr::Neg(a) => {
            put(out, "-")?;
            put_expr(alloc, out, a)
        }
        WExpr::Not(a) => {
            put(out, "!")?;
            put_expr(alloc, out, a)
        }
        WExpr::Arith(op, a, b) => {
            put(out, arith_mark(*op))?;
            put_all(alloc, out, &[a, b])
        }
        WExpr::Cmp(op, a, b) => {
            put(out, cmp_mark(*op))?;
            put_all(alloc, out, &[a, b])
        }
        WExpr::And(a, b) => {
            put(out, "&")?;
            put_all(alloc, out, &[a, b])
        }
        WExpr::Or(a, b) => {
            put(out, "|")?;
            put_all(alloc, out, &[a, b])
        }
        WExpr::Cond { test, yes, no } => {
            put(out, "?")?;
            put_all(alloc, out, &[yes, test, no])
        }
        WExpr::Index(a, i) => {
            put(out, "I")?;
            put_all(alloc, out, &[a, i])
        }
        WExpr::Slice(a, from, to) => {
            put(out, "S")?;
            put_expr(alloc, out, a)?;
            put_end(alloc, out, from)?;
            put_end(alloc, out, to)
        }
        WExpr::Call(f, arguments) => {
            put_name(out, "c", f)?;
            put_items(alloc, out, arguments.items())
        }
        WExpr::Pick { number, base, others } => {
            put_number(alloc, out, "P", u64::from(*number))?;
            put_number(alloc, out, "", others.items.len() as u64)?;
            put_expr(alloc, out, base)?;
            for other in others.items.as_slice() {
                put_number(alloc, out, "o", u64::from(other.rule))?;
                put_number(alloc, out, "", u64::from(other.cost))?;
                put_expr(alloc, out, &other.tree)?;
            }
            Ok(())
        }
    }
}

fn put_body(alloc: Global, out: &mut String, body: &[WStmt]) -> Result<(), anyhow::Error> {
    put_number(alloc, out, "{", body.len() as u64)?;
    for stmt in body {
        put_number(alloc, out, "l", u64::from(stmt.line))?;
        put_act(alloc, out, &stmt.act)?;
    }
    Ok(())
}

fn put_act(alloc: Global, out: &mut String, act: &WAct) -> Result<(), anyhow::Error> {
    match act {
        WAct::Assign(x, e) => {
            put_name(out, "=", x)?;
            put_expr(alloc, out, e)
        }
        WAct::Augment(x, op, e) => {
            put_name(out, "=", x)?;
            put(out, arith_mark(*op))?;
            put_expr(alloc, out, e)
        }
        WAct::Put(x, i, e) => {
            put_name(out, "[", x)?;
            put_all(alloc, out, &[i, e])
        }
        WAct::AugmentAt(x, i, op, e) => {
            put_name(out, "[", x)?;
            put_expr(alloc, out, i)?;
            put(out, arith_mark(*op))?;
            put_expr(alloc, out, e)
        }
        WAct::Append(x, e) => {
            put_name(out, "append", x)?;
            put_expr(alloc, out, e)
        }
        WAct::Print(e) => {
            put(out, "print")?;
            put_expr(alloc, out, e)
        }
        WAct::Return(None) => put(out, "return;"),
        WAct::Return(Some(e)) => {
            put(out, "return")?;
            put_expr(alloc, out, e)
        }
        WAct::Pass => put(out, "pass;"),
        WAct::Break => put(out, "break;"),
        WAct::Continue => put(out, "continue;"),
        WAct::If(arms, last) => {
            put_number(alloc, out, "if", arms.items.len() as u64)?;
            for arm in arms.items.as_slice() {
                put_number(alloc, out, "l", u64::from(arm.line))?;
                put_expr(alloc, out, &arm.test)?;
                put_body(alloc, out, arm.body.items.as_slice())?;
            }
            match last {
                None => put(out, "0"),
                Some(body) => put_body(alloc, out, body.items.as_slice()),
            }
        }
        WAct::While(test, body) => {
            put(out, "while")?;
            put_expr(alloc, out, test)?;
            put_body(alloc, out, body.items.as_slice())
        }
        WAct::For(x, e, body) => {
            put_name(out, "for", x)?;
            put_expr(alloc, out, e)?;
            put_body(alloc, out, body.items.as_slice())
        }
    }
}

fn put_tree(alloc: Global, out: &mut String, w: &WProg) -> Result<(), anyhow::Error> {
    for f in w.funcs.items.as_slice() {
        put_number(alloc, out, "def", u64::from(f.line))?;
        put_name(out, "", &f.name)?;
        for x in f.params.items() {
            put_name(out, ",", x)?;
        }
        put_body(alloc, out, f.body.items.as_slice())?;
    }
    Ok(())
}

// Cost, program and edits of a selection.
fn put_rewriting(alloc: Global, out: &mut String, w: &WProg, s: &Selection) -> Result<(), anyhow::Error> {
    put_number(alloc, out, "", u64::from(cost(w, s)))?;
    let program = plain(alloc, w, s)?;
    let text = print_prog(alloc, &program)?;
    put_hex(out, text.as_slice())?;
    let edits = edits(alloc, w, s)?;
    for edit in edits.items.as_slice() {
        put_number(alloc, out, "e", u64::from(edit.line))?;
        put_number(alloc, out, "", u64::from(edit.rule))?;
        let old = print_expr(alloc, &edit.old)?;
        put_bytes(out, "", old.as_slice())?;
        let new = print_expr(alloc, &edit.new)?;
        put_bytes(out, "", new.as_slice())?;
    }
    Ok(())
}

fn digest(alloc: Global, text: &str) -> Result<String, anyhow::Error> {
    let mut hasher = Md5::new();
    hasher.update(text.as_bytes());
    let mut out = String::new(alloc);
    put_hex(&mut out, hasher.finalize().as_slice())?;
    Ok(out)
}

// The digest of the digests of all rewritings, each once, in order.
fn put_rewritings(alloc: Global, out: &mut String, w: &WProg, count: u64) -> Result<(), anyhow::Error> {
    let counts = MemberCounts::of(alloc, w)?;
    let mut digests: Vec<String> = Vec::new(alloc);
    for number in 0..count as u32 {
        let s = counts.selection(alloc, number)?;
        let mut text = String::new(alloc);
        put_rewriting(alloc, &mut text, w, &s)?;
        digests.push(digest(alloc, text.as_str())?)?;
    }
    digests.sort()?;
    let mut all = String::new(alloc);
    for i in 0..digests.len() {
        if i == 0 || digests[i - 1] != digests[i] {
            put(&mut all, digests[i].as_str())?;
        }
    }
    put(out, digest(alloc, all.as_str())?.as_str())
}

fn put_task(alloc: Global, out: &mut String, task: &Task, whole: bool) -> Result<(), anyhow::Error> {
    let w = task.tree();
    let mut text = String::new(alloc);
    put_tree(alloc, &mut text, w)?;
    put(out, "tree ")?;
    if whole {
        put(out, text.as_str())?;
    } else {
        put(out, digest(alloc, text.as_str())?.as_str())?;
    }
    let b = task.bounds();
    let count = choices(w);
    put_number(alloc, out, " cost ", u64::from(most_cost(w)))?;
    put_number(alloc, out, " choices ", count)?;
    put_number(alloc, out, " weight ", weight(w, task.submission_types(), &b.limits, &b.entry))?;
    let reference = lift(alloc, task.reference())?;
    put_number(alloc, out, " reference ", weight(&reference, task.reference_types(), &b.limits, &b.entry))?;
    put(out, " ")?;
    if count > MOST {
        return put(out, "-");
    }
    put_rewritings(alloc, out, w, count)
}

fn source_name(source: Source) -> &'static str {
    match source {
        Source::Bounds => "bounds",
        Source::Reference => "reference",
        Source::Submission => "submission",
        Source::Rules => "rules",
        _ => "other",
    }
}

fn put_answer(alloc: Global, out: &mut String, words: &[&str]) -> Result<(), anyhow::Error> {
    let mut texts: Vec<Vec<u8>> = Vec::new(alloc);
    for word in &words[1..5] {
        texts.push(unhex(alloc, word.as_bytes())?)?;
    }
    match read_task(alloc, texts[0].as_slice(), texts[1].as_slice(), texts[2].as_slice(), texts[3].as_slice()) {
        Ok(task) => put_task(alloc, out, &task, words[0] == "text"),
        Err(TaskError::Refused(r)) => {
            put(out, "refused ")?;
            put(out, source_name(r.source))?;
            put(out, " ")?;
            put(out, r.cause.name())?;
            put_number(alloc, out, " ", u64::from(r.line))
        }
        Err(TaskError::NoMemory) => put(out, "no memory"),
    }
}
'''.replace('MOST', str(MOST)) + unproved.HELPERS + unproved.ANSWERING


class Harness(unproved.Harness):
    """The program, in a folder of its own."""

    def __init__(self, folder):
        super().__init__(folder, USES, PROGRAM, ('anyhow', 'md5'))
