"""A program over the search by solver and the one by trying all, run unproved on a copy of the crates.

Each line has words with tabs between them: `both`, or `solver` where nothing is tried one by one, how many clauses may be logged, how
many clauses of formulas may be printed, and the four sources of a task in hexadecimal. The answer is one line that begins with `=`: `refused`, or four parts with a `|` between them. The
first two are the answers of both searches, the one by solver first and with its closing question: `cost N SELECTION`, `none`,
`no case`, `spent K` or `no memory`, and nothing of a search that wasn't asked for. Then come for each question its kind, how many variables and clauses its formula has, and how many
clauses its log, with `refuted` where it was, each with a `;` behind it, and the text of the certificate of all questions, in
hexadecimal; it is `many` where the formulas have more clauses than may be printed.
"""
import unproved

USES = ('cegis_loop', 'cert_text', 'choice_tree', 'clause_base', 'input_space', 'list_questions', 'solver_questions', 'task_read')
PROGRAM = r'''
//! Searches for corrections, by solver and by trying all.
#![tactic(auto)]

use cegis_loop::{Least, close_search, least};
use cert_text::{Cert, Claim, write_cert};
use choice_tree::Selection;
use input_space::{Query, Session, Task};
use list_questions::ListQuestions;
use solver_questions::SolverQuestions;
use std::alloc::Global;
use std::io::{BufRead, BufReader};
use task_read::read_task;

fn put_number(alloc: Global, out: &mut String, number: u32) -> Result<(), anyhow::Error> {
    let text = format!(in alloc; "{number}")?;
    put(out, text.as_str())
}

fn put_selection(alloc: Global, out: &mut String, s: &Selection) -> Result<(), anyhow::Error> {
    for choice in s.items() {
        put(out, " ")?;
        put_number(alloc, out, choice.pick)?;
        put(out, ":")?;
        put_number(alloc, out, choice.member)?;
    }
    Ok(())
}

fn put_least(alloc: Global, out: &mut String, found: &Least<Selection>) -> Result<(), anyhow::Error> {
    match found {
        Least::Found { choice, cost } => {
            put(out, "cost ")?;
            put_number(alloc, out, *cost)?;
            put_selection(alloc, out, choice)
        }
        Least::Nothing => put(out, "none"),
        Least::NoCase => put(out, "no case"),
        Least::Spent { at_least } => {
            put(out, "spent ")?;
            put_number(alloc, out, *at_least)
        }
        Least::NoMemory => put(out, "no memory"),
    }
}

// Over how many cases the last refuted question for a selection was.
fn last_ruled(sessions: &[Session]) -> usize {
    let mut ruled = 0usize;
    for session in sessions {
        if let Query::Low { most: _, cases } = &session.query {
            if session.log.refutes() {
                ruled = *cases as usize;
            }
        }
    }
    ruled
}

fn put_session(alloc: Global, out: &mut String, session: &Session) -> Result<(), anyhow::Error> {
    let kind = match &session.query {
        Query::First => "first",
        Query::Low { .. } => "low",
        Query::Fail(_) => "fail",
    };
    put(out, kind)?;
    for number in [session.formula.vars, session.formula.clauses.count(), session.log.steps.count()] {
        put(out, " ")?;
        put_number(alloc, out, number)?;
    }
    put(out, if session.log.refutes() { " refuted;" } else { ";" })
}

fn put_tried(alloc: Global, out: &mut String, task: &Task) -> Result<(), anyhow::Error> {
    let mut tried = ListQuestions::new(alloc, task)?;
    let found = least(&mut tried);
    put_least(alloc, out, &found)
}

fn put_search(alloc: Global, out: &mut String, task: &Task, words: &[&str]) -> Result<(), anyhow::Error> {
    let budget = words[1].parse::<u32>().unwrap_or(1);
    let most = words[2].parse::<u32>().unwrap_or(0);
    let mut asked = SolverQuestions::new(alloc, task, budget)?;
    let found = least(&mut asked);
    let kept = asked.kept().items().len();
    let ruled = last_ruled(asked.sessions().items());
    let answer = close_search(&mut asked, found, kept, ruled);
    put_least(alloc, out, &answer)?;
    put(out, "|")?;
    if words[0] == "both" {
        put_tried(alloc, out, task)?;
    }
    put(out, "|")?;
    let mut clauses = 0u32;
    let mut logged = 0u32;
    for session in asked.sessions().items() {
        put_session(alloc, out, session)?;
        clauses += session.formula.clauses.count();
        logged += session.log.steps.count();
    }
    put(out, "|")?;
    if clauses > most {
        return put(out, "many");
    }
    let cert = Cert {
        claim: Claim::Spent(if logged == 0 { 1 } else { logged }),
        selection: Selection::from_vec(Vec::new(alloc)),
        cases: asked.kept().copy()?,
        sessions: asked.sessions().copy()?,
    };
    put_hex(out, write_cert(alloc, &cert)?.as_slice())
}

fn put_answer(alloc: Global, out: &mut String, words: &[&str]) -> Result<(), anyhow::Error> {
    let mut texts: Vec<Vec<u8>> = Vec::new(alloc);
    for word in &words[3..7] {
        texts.push(unhex(alloc, word.as_bytes())?)?;
    }
    match read_task(alloc, texts[0].as_slice(), texts[1].as_slice(), texts[2].as_slice(), texts[3].as_slice()) {
        Ok(task) => put_search(alloc, out, &task, words),
        Err(_) => put(out, "refused"),
    }
}
''' + unproved.HELPERS + unproved.ANSWERING


class Harness(unproved.Harness):
    """The program, in a folder of its own."""

    def __init__(self, folder):
        super().__init__(folder, USES, PROGRAM)
