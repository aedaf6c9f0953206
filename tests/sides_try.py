"""A program over the reader of the sides of rules, run unproved on a copy of the crates.

Its input has a line for each side, with a word for each token: the letter of its kind and its bytes in hexadecimal. It
answers each by one line that begins with `=`: what the tokens are as a left side, ` | `, and what as a right side.
"""
import unproved

USES = ('choice_tree', 'eml_sides', 'mpy_lexer', 'mpy_tree')
LETTERS = {'Name': 'N', 'Reserved': 'R', 'Number': 'D', 'Text': 'T', 'Mark': 'M', 'Meta': 'V'}
PROGRAM = r'''
//! Reads sides of rules, and says what they are read as.
#![tactic(auto)]

use choice_tree::{ArithOps, CmpOps, Meta, PArith, PCmp, PExpr, Place};
use eml_sides::{left_side, right_side};
use mpy_lexer::{Kind, Spelling, Token};
use mpy_tree::{ArithOp, CmpOp};
use std::alloc::Global;
use std::fs;

fn token(alloc: Global, word: &[u8]) -> Result<Token, anyhow::Error> {
    let kind = match word[0] {
        b'N' => Kind::Name,
        b'R' => Kind::Reserved,
        b'D' => Kind::Number,
        b'T' => Kind::Text,
        b'M' => Kind::Mark,
        _ => Kind::Meta,
    };
    let text = Spelling::from_vec(unhex(alloc, &word[1..])?);
    Ok(Token { kind, from: 0, to: 0, text })
}

fn put_bytes(out: &mut String, bytes: &[u8]) -> Result<(), anyhow::Error> {
    for b in bytes {
        out.push(char::from(*b))?;
    }
    Ok(())
}

fn put_meta(alloc: Global, out: &mut String, m: &Meta) -> Result<(), anyhow::Error> {
    put(out, "$")?;
    out.push(char::from(m.letter))?;
    if let Some(d) = m.digit {
        let n = i64::from(d);
        let digits = format!(in alloc; "{n}")?;
        put(out, digits.as_str())?;
    }
    if m.primed {
        put(out, "'")?;
    }
    Ok(())
}

fn arith(op: ArithOp) -> &'static str {
    match op {
        ArithOp::Add => "+",
        ArithOp::Sub => "-",
        ArithOp::Mul => "*",
        ArithOp::Floor => "//",
        ArithOp::Rem => "%",
        ArithOp::Power => "**",
    }
}

fn cmp(op: CmpOp) -> &'static str {
    match op {
        CmpOp::Eq => "==",
        CmpOp::Ne => "!=",
        CmpOp::Lt => "<",
        CmpOp::Le => "<=",
        CmpOp::Gt => ">",
        CmpOp::Ge => ">=",
        CmpOp::Member => "in",
        CmpOp::NotMember => "notin",
    }
}

fn put_all(alloc: Global, out: &mut String, es: &[PExpr]) -> Result<(), anyhow::Error> {
    for e in es {
        put(out, " ")?;
        put_expr(alloc, out, e)?;
    }
    put(out, ")")
}

fn put_two(alloc: Global, out: &mut String, a: &PExpr, b: &PExpr) -> Result<(), anyhow::Error> {
    put(out, " ")?;
    put_expr(alloc, out, a)?;
    put(out, " ")?;
    put_expr(alloc, out, b)?;
    put(out, ")")
}

fn put_end(alloc: Global, out: &mut String, e: &Option<Box<PExpr>>) -> Result<(), anyhow::Error> {
    match e {
        None => put(out, " _"),
        Some(e) => {
            put(out, " ")?;
            put_expr(alloc, out, e)
        }
    }
}

fn put_expr(alloc: Global, out: &mut String, e: &PExpr) -> Result<(), anyhow::Error> {
    match e {
        PExpr::Int(n) => {
            let n = i64::from(*n);
            let digits = format!(in alloc; "{n}")?;
            put(out, digits.as_str())
        }
        PExpr::Bool(b) => put(out, if *b { "True" } else { "False" }),
        PExpr::Text(t) => {
            put(out, "(text")?;
            for c in t.bytes() {
                let n = i64::from(*c);
                let digits = format!(in alloc; " {n}")?;
                put(out, digits.as_str())?;
            }
            put(out, ")")
        }
        PExpr::Name(x) => {
            put(out, ":")?;
            put_bytes(out, x.bytes())
        }
        PExpr::List(es) => {
            put(out, "(list")?;
            put_all(alloc, out, &es.items)
        }
        PExpr::Neg(a) => {
            put(out, "(neg ")?;
            put_expr(alloc, out, a)?;
            put(out, ")")
        }
        PExpr::Not(a) => {
            put(out, "(not ")?;
            put_expr(alloc, out, a)?;
            put(out, ")")
        }
        PExpr::Arith(op, a, b) => {
            put(out, "(arith ")?;
            match op {
                PArith::Meta(m) => put_meta(alloc, out, m)?,
                PArith::Ops(ops) => {
                    for op in ops.items() {
                        put(out, arith(*op))?;
                        put(out, ",")?;
                    }
                }
            }
            put_two(alloc, out, a, b)
        }
        PExpr::Cmp(op, a, b) => {
            put(out, "(cmp ")?;
            match op {
                PCmp::Meta(m) => put_meta(alloc, out, m)?,
                PCmp::Ops(ops) => {
                    for op in ops.items() {
                        put(out, cmp(*op))?;
                        put(out, ",")?;
                    }
                }
            }
            put_two(alloc, out, a, b)
        }
        PExpr::And(a, b) => {
            put(out, "(and")?;
            put_two(alloc, out, a, b)
        }
        PExpr::Or(a, b) => {
            put(out, "(or")?;
            put_two(alloc, out, a, b)
        }
        PExpr::Cond { test, yes, no } => {
            put(out, "(cond ")?;
            put_expr(alloc, out, test)?;
            put_two(alloc, out, yes, no)
        }
        PExpr::Index(a, b) => {
            put(out, "(index")?;
            put_two(alloc, out, a, b)
        }
        PExpr::Slice(a, f, t) => {
            put(out, "(slice ")?;
            put_expr(alloc, out, a)?;
            put_end(alloc, out, f)?;
            put_end(alloc, out, t)?;
            put(out, ")")
        }
        PExpr::Call(f, es) => {
            put(out, "(call :")?;
            put_bytes(out, f.bytes())?;
            put_all(alloc, out, &es.items)
        }
        PExpr::Meta(m) => put_meta(alloc, out, m),
        PExpr::Set(es) => {
            put(out, "(set")?;
            put_all(alloc, out, &es.items)
        }
        PExpr::Local(m) => {
            put(out, "?")?;
            put_meta(alloc, out, m)
        }
    }
}

fn put_place(alloc: Global, out: &mut String, p: &Place) -> Result<(), anyhow::Error> {
    match p {
        Place::Anywhere => put(out, "Anywhere"),
        Place::Return => put(out, "Return"),
        Place::If => put(out, "If"),
        Place::While => put(out, "While"),
        Place::Assign(m) => {
            put(out, "Assign ")?;
            put_meta(alloc, out, m)
        }
        Place::For(m) => {
            put(out, "For ")?;
            put_meta(alloc, out, m)
        }
    }
}

fn put_side(alloc: Global, out: &mut String, side: &Option<(Place, PExpr)>) -> Result<(), anyhow::Error> {
    match side {
        None => put(out, "bad"),
        Some((place, term)) => {
            put_place(alloc, out, place)?;
            put(out, " ")?;
            put_expr(alloc, out, term)
        }
    }
}

fn main(rt: HostRuntime) -> Result<(), anyhow::Error> {
    let alloc = rt.alloc();
    let text = fs::read_to_string(&rt, "input.txt")?;
    for line in text.lines() {
        let mut tokens = Vec::new(alloc);
        for word in line.split(' ') {
            if word.len() > 1 {
                tokens.push(token(alloc, word.as_bytes())?)?;
            }
        }
        let mut out = String::new(alloc);
        put(&mut out, "=")?;
        let left = match left_side(alloc, &tokens)? {
            None => None,
            Some(p) => Some((p.place, p.term)),
        };
        put_side(alloc, &mut out, &left)?;
        put(&mut out, " | ")?;
        let right = match right_side(alloc, &tokens)? {
            None => None,
            Some(p) => Some((p.place, p.term)),
        };
        put_side(alloc, &mut out, &right)?;
        println!(rt; "{out}")?;
    }
    Ok(())
}
''' + unproved.HELPERS


class Harness(unproved.Harness):
    """The program, in a folder of its own."""

    def __init__(self, folder):
        super().__init__(folder, USES, PROGRAM)

    def answers(self, sides):
        """What the program answers to these sides, each a list of kinds and texts of tokens."""
        lines = [' '.join(LETTERS[kind] + text.encode().hex() for kind, text in side) or ' ' for side in sides]
        return super().answers(lines)
