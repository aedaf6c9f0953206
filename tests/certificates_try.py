"""The grader over files in memory, run unproved on a copy of the crates, many requests by one build of it.

Each line has words with tabs between them: the budget, at which byte of the stored text its printed part begins, how many bytes that
part may have, and the four sources in hexadecimal. The answer is one line that begins with `=`: the status, the output in
hexadecimal, how long the stored text is, and that part of it, with blanks between the first three and a `|` before the part and one
behind it. A tab stands for the end of a line. Where nothing is stored the length is `none`.
"""
import unproved

USES = ('grade_io', 'grade_top')
PROGRAM = r'''
//! Grades requests over files in memory.
#![tactic(auto)]

use grade_io::{MemShelf, MemSink, Shelf, status_number};
use grade_top::grade_top;
use std::alloc::Global;
use std::io::{BufRead, BufReader};

const NAMES: [&str; 6] = ["grade", "b.txt", "ref.py", "sub.py", "rules.eml", "cert.txt"];

fn put_number(alloc: Global, out: &mut String, number: usize) -> Result<(), anyhow::Error> {
    let text = format!(in alloc; "{number}")?;
    put(out, text.as_str())
}

fn words_of(alloc: Global, budget: &str) -> Result<Vec<String>, anyhow::Error> {
    let mut words = Vec::new(alloc);
    for name in NAMES {
        words.push(String::from_str(alloc, name)?)?;
    }
    words.push(String::from_str(alloc, budget)?)?;
    Ok(words)
}

fn put_part(out: &mut String, bytes: &[u8], first: usize, most: usize) -> Result<(), anyhow::Error> {
    let rest = if first < bytes.len() { &bytes[first..] } else { &bytes[..0] };
    let part = if most < rest.len() { &rest[..most] } else { rest };
    put(out, "|")?;
    for byte in part {
        out.push(char::from(if *byte == 10 { 9u8 } else { *byte }))?;
    }
    put(out, "|")
}

fn put_stored(alloc: Global, out: &mut String, shelf: &mut MemShelf, words: &[&str]) -> Result<(), anyhow::Error> {
    match shelf.fetch(alloc, "cert.txt", 1073741824) {
        Ok(text) => {
            put_number(alloc, out, text.len())?;
            let first = words[1].parse::<usize>().unwrap_or(0);
            let most = words[2].parse::<usize>().unwrap_or(0);
            put_part(out, text.as_slice(), first, most)
        }
        Err(_) => put(out, "none||"),
    }
}

fn put_answer(alloc: Global, out: &mut String, words: &[&str]) -> Result<(), anyhow::Error> {
    let mut shelf = MemShelf::new(alloc, Vec::new(alloc));
    for (i, word) in words[3..7].iter().enumerate() {
        let text = unhex(alloc, word.as_bytes())?;
        shelf.add(NAMES[i + 1], text.as_slice())?;
    }
    let mut sink = MemSink::new(alloc, 4096, Vec::new(alloc));
    let given = words_of(alloc, words[0])?;
    let status = grade_top(alloc, &given, &mut shelf, &mut sink);
    put_number(alloc, out, status_number(status) as usize)?;
    put(out, " ")?;
    put_hex(out, sink.bytes())?;
    put(out, " ")?;
    put_stored(alloc, out, &mut shelf, words)
}
''' + unproved.HELPERS + unproved.ANSWERING


class Harness(unproved.Harness):
    """The program, in a folder of its own."""

    def __init__(self, folder):
        super().__init__(folder, USES, PROGRAM)
