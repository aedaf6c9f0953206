"""A program over the reader and the writer of certificates, run unproved on a copy of the crates.

Its input has a line for each text, `c:` with the bytes in hexadecimal. It answers each by one line that begins with `=`:
`read` with the text of the certificate as it is written again, in hexadecimal, or `refused` with the line.
"""
import unproved

USES = ('cert_text',)
PROGRAM = r'''
//! Reads certificates, and writes them again.
#![tactic(auto)]

use cert_text::{CertError, read_cert, write_cert};
use std::alloc::Global;
use std::fs;

fn put_answer(alloc: Global, out: &mut String, bytes: &[u8]) -> Result<(), anyhow::Error> {
    match read_cert(alloc, bytes) {
        Ok(cert) => {
            let text = write_cert(alloc, &cert)?;
            put(out, "=read :")?;
            put_hex(out, text.as_slice())
        }
        Err(CertError::Syntax(line)) => {
            let said = format!(in alloc; "=refused {line}")?;
            put(out, said.as_str())
        }
        Err(CertError::NoMemory) => put(out, "=no memory"),
    }
}

fn main(rt: HostRuntime) -> Result<(), anyhow::Error> {
    let alloc = rt.alloc();
    let text = fs::read_to_string(&rt, "input.txt")?;
    for line in text.lines() {
        let bytes = unhex(alloc, line.strip_prefix("c:").unwrap_or("").as_bytes())?;
        let mut out = String::new(alloc);
        put_answer(alloc, &mut out, bytes.as_slice())?;
        println!(rt; "{out}")?;
    }
    Ok(())
}
''' + unproved.HELPERS


class Harness(unproved.Harness):
    """The program, in a folder of its own."""

    def __init__(self, folder):
        super().__init__(folder, USES, PROGRAM)

    def answers(self, texts):
        """What the program answers to these texts."""
        return super().answers(['c:' + text.hex() for text in texts])
