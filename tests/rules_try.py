"""A program over the reader of rules, run unproved on a copy of the crates.

Its input has a line for each file of rules, `r:` with the bytes in hexadecimal. It answers each by one line that begins
with `=`: the rules with every node of their sides, the node before its parts, or the cause with its line.
"""
import unproved

USES = ('choice_tree', 'eml_reader', 'mpy_tree')
PROGRAM = r'''
//! Reads files of rules, and says what they are read as.
#![tactic(auto)]

use choice_tree::{Meta, PArith, PCmp, PExpr, Place, Rule};
use eml_reader::{RuleError, read_rules};
use mpy_tree::{ArithOp, CmpOp};
use std::alloc::Global;
use std::fs;

fn put_number(alloc: Global, out: &mut String, number: u64) -> Result<(), anyhow::Error> {
    let digits = format!(in alloc; "{number}")?;
    put(out, digits.as_str())
}

fn put_meta(alloc: Global, out: &mut String, m: Meta) -> Result<(), anyhow::Error> {
    out.push('$')?;
    out.push(char::from(m.letter))?;
    if let Some(d) = m.digit {
        out.push(char::from(d + 48))?;
    }
    if m.primed {
        out.push('\'')?;
    }
    Ok(())
}

fn put_place(alloc: Global, out: &mut String, place: Place) -> Result<(), anyhow::Error> {
    match place {
        Place::Anywhere => put(out, "Anywhere"),
        Place::Return => put(out, "Return"),
        Place::If => put(out, "If"),
        Place::While => put(out, "While"),
        Place::Assign(m) => {
            put(out, "Assign")?;
            put_meta(alloc, out, m)
        }
        Place::For(m) => {
            put(out, "For")?;
            put_meta(alloc, out, m)
        }
    }
}

fn arith(op: ArithOp) -> &'static str {
    match op {
        ArithOp::Add => "+",
        ArithOp::Sub => "-",
        ArithOp::Mul => "*",
        ArithOp::Floor => "//",
        ArithOp::Rem => "%",
        ArithOp::Power => "**",
    }
}

fn cmp(op: CmpOp) -> &'static str {
    match op {
        CmpOp::Eq => "==",
        CmpOp::Ne => "!=",
        CmpOp::Lt => "<",
        CmpOp::Le => "<=",
        CmpOp::Gt => ">",
        CmpOp::Ge => ">=",
        CmpOp::Member => "in",
        CmpOp::NotMember => "notin",
    }
}

fn put_arith(alloc: Global, out: &mut String, op: &PArith) -> Result<(), anyhow::Error> {
    put(out, "Arith ")?;
    match op {
        PArith::Meta(m) => put_meta(alloc, out, *m),
        PArith::Ops(ops) => {
            for (i, o) in ops.items().iter().enumerate() {
                if i > 0 {
                    put(out, ",")?;
                }
                put(out, arith(*o))?;
            }
            Ok(())
        }
    }
}

fn put_cmp(alloc: Global, out: &mut String, op: &PCmp) -> Result<(), anyhow::Error> {
    put(out, "Cmp ")?;
    match op {
        PCmp::Meta(m) => put_meta(alloc, out, *m),
        PCmp::Ops(ops) => {
            for (i, o) in ops.items().iter().enumerate() {
                if i > 0 {
                    put(out, ",")?;
                }
                put(out, cmp(*o))?;
            }
            Ok(())
        }
    }
}

fn put_terms(alloc: Global, out: &mut String, ps: &[PExpr]) -> Result<(), anyhow::Error> {
    put_number(alloc, out, ps.len() as u64)?;
    for p in ps {
        put_behind(alloc, out, p)?;
    }
    Ok(())
}

fn put_behind(alloc: Global, out: &mut String, p: &PExpr) -> Result<(), anyhow::Error> {
    put(out, " ")?;
    put_term(alloc, out, p)
}

fn put_two(alloc: Global, out: &mut String, a: &PExpr, b: &PExpr) -> Result<(), anyhow::Error> {
    put_behind(alloc, out, a)?;
    put_behind(alloc, out, b)
}

fn put_end(alloc: Global, out: &mut String, e: &Option<Box<PExpr>>) -> Result<(), anyhow::Error> {
    match e {
        None => Ok(()),
        Some(p) => put_behind(alloc, out, p),
    }
}

fn put_word(out: &mut String, kind: &str, bytes: &[u8]) -> Result<(), anyhow::Error> {
    put(out, kind)?;
    put(out, " :")?;
    put_hex(out, bytes)
}

fn put_term(alloc: Global, out: &mut String, p: &PExpr) -> Result<(), anyhow::Error> {
    match p {
        PExpr::Int(n) => {
            put(out, "Int ")?;
            put_number(alloc, out, u64::from(*n))
        }
        PExpr::Bool(b) => put(out, if *b { "Bool true" } else { "Bool false" }),
        PExpr::Text(t) => put_word(out, "Text", t.bytes()),
        PExpr::Name(x) => put_word(out, "Name", x.bytes()),
        PExpr::List(es) => {
            put(out, "List ")?;
            put_terms(alloc, out, es.items.as_slice())
        }
        PExpr::Set(es) => {
            put(out, "Set ")?;
            put_terms(alloc, out, es.items.as_slice())
        }
        PExpr::Call(f, es) => {
            put_word(out, "Call", f.bytes())?;
            put(out, " ")?;
            put_terms(alloc, out, es.items.as_slice())
        }
        PExpr::Neg(a) => {
            put(out, "Neg")?;
            put_behind(alloc, out, a)
        }
        PExpr::Not(a) => {
            put(out, "Not")?;
            put_behind(alloc, out, a)
        }
        PExpr::Arith(op, a, b) => {
            put_arith(alloc, out, op)?;
            put_two(alloc, out, a, b)
        }
        PExpr::Cmp(op, a, b) => {
            put_cmp(alloc, out, op)?;
            put_two(alloc, out, a, b)
        }
        PExpr::And(a, b) => {
            put(out, "And")?;
            put_two(alloc, out, a, b)
        }
        PExpr::Or(a, b) => {
            put(out, "Or")?;
            put_two(alloc, out, a, b)
        }
        PExpr::Index(a, b) => {
            put(out, "Index")?;
            put_two(alloc, out, a, b)
        }
        PExpr::Cond { test, yes, no } => {
            put(out, "Cond")?;
            put_behind(alloc, out, test)?;
            put_two(alloc, out, yes, no)
        }
        PExpr::Slice(a, from, to) => {
            put(out, if from.is_some() { "Slice 1" } else { "Slice 0" })?;
            put(out, if to.is_some() { " 1" } else { " 0" })?;
            put_behind(alloc, out, a)?;
            put_end(alloc, out, from)?;
            put_end(alloc, out, to)
        }
        PExpr::Meta(m) => put_meta(alloc, out, *m),
        PExpr::Local(m) => {
            put(out, "?")?;
            put_meta(alloc, out, *m)
        }
    }
}

fn put_rule(alloc: Global, out: &mut String, r: &Rule) -> Result<(), anyhow::Error> {
    put(out, " | ")?;
    put_number(alloc, out, u64::from(r.line))?;
    put(out, " ")?;
    put_hex(out, r.name.bytes())?;
    put(out, " ")?;
    put_number(alloc, out, u64::from(r.cost))?;
    put(out, " ")?;
    put_place(alloc, out, r.left.place)?;
    put_behind(alloc, out, &r.left.term)?;
    put(out, " ")?;
    put_place(alloc, out, r.right.place)?;
    put_behind(alloc, out, &r.right.term)?;
    match &r.say {
        None => put(out, " -"),
        Some(said) => {
            put(out, " say:")?;
            put_hex(out, said.bytes())
        }
    }
}

fn put_answer(alloc: Global, out: &mut String, bytes: &[u8]) -> Result<(), anyhow::Error> {
    match read_rules(alloc, bytes) {
        Ok(rules) => {
            put(out, "=rules ")?;
            put_number(alloc, out, rules.items.len() as u64)?;
            for r in &rules.items {
                put_rule(alloc, out, r)?;
            }
            Ok(())
        }
        Err(RuleError::Fault { cause, line }) => {
            put(out, "=refused ")?;
            put(out, cause.name())?;
            put(out, " ")?;
            put_number(alloc, out, u64::from(line))
        }
        Err(RuleError::NoMemory) => put(out, "=no memory"),
    }
}

fn main(rt: HostRuntime) -> Result<(), anyhow::Error> {
    let alloc = rt.alloc();
    let text = fs::read_to_string(&rt, "input.txt")?;
    for line in text.lines() {
        let bytes = unhex(alloc, line.strip_prefix("r:").unwrap_or("").as_bytes())?;
        let mut out = String::new(alloc);
        put_answer(alloc, &mut out, bytes.as_slice())?;
        println!(rt; "{out}")?;
    }
    Ok(())
}
''' + unproved.HELPERS


class Harness(unproved.Harness):
    """The program, in a folder of its own."""

    def __init__(self, folder):
        super().__init__(folder, USES, PROGRAM)

    def answers(self, files):
        """What the program answers to these files, given in hexadecimal."""
        return super().answers(['r:' + digits for digits in files])
