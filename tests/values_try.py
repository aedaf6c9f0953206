"""A program over values as bits and the graph of gates, run unproved on a copy of the crates.

Values, outcomes and circuits are written as `value_texts.py` says. `table WIDTH CAP VALUES..` sets the limits, and values that
are then named by their places. Each other line asks for circuits, and is answered by one line that begins with `=`; places are
written `FROM-TO`, and TO isn't among them.

- `all OPERATION PLACES..`: over all operands at these places, as constants. How many results there are, the digest of their
  texts with a `;` behind each, and how many gates were made. The last operand changes fastest.
- `each OPERATION PLACES..`: the same with the texts in place of their digest.
- `given OPERATION PLACES`: the same texts for what is made of a value that is given: a literal, a constant, a zero.
- `free OPERATION OPERANDS..`: the circuit. An operand is a value, `*` with the letter of a type for free bits, or `*l` or `*t`
  with a length that is constant. The variables stand in the order of the operands and of their bits.
- `gates OPERATION OPERANDS..`: how many gates that circuit has.

Where MOST bytes were written the answer is `=later`, and `answers` asks again.
"""
import unproved
from value_calls import CALLS, USES
from value_texts import CIRCUIT, KNOWN

# The most bytes that are begun to be answered, as a run may write no more than 2^20.
MOST = 500000
PROGRAM = r'''
//! Makes circuits of operations on values.
#![tactic(auto)]
''' + CALLS + KNOWN + r'''
// Requests over constants

fn read_places(alloc: Global, words: &[&str]) -> Result<Vec<(usize, usize)>, anyhow::Error> {
    let mut places = Vec::new(alloc);
    for word in words {
        let mut ends = word.split('-');
        let from = ends.next().unwrap_or("").parse::<usize>().unwrap_or(0);
        let to = ends.next().unwrap_or("").parse::<usize>().unwrap_or(0);
        places.push((from, to))?;
    }
    Ok(places)
}

// Whether there is a next choice of places, which is then made.
fn advance(chosen: &mut Vec<usize>, places: &[(usize, usize)]) -> bool {
    for n in 0..places.len() {
        let k = places.len() - 1 - n;
        chosen[k] += 1;
        if chosen[k] < places[k].1 {
            return true;
        }
        chosen[k] = places[k].0;
    }
    false
}

fn operands<'a>(alloc: Global, table: &'a Table, chosen: &[usize]) -> Result<Vec<&'a SymValue<GraphBit>>, anyhow::Error> {
    let mut args = Vec::new(alloc);
    for place in chosen {
        args.push(&table.constants[*place])?;
    }
    Ok(args)
}

fn first_of(alloc: Global, places: &[(usize, usize)]) -> Result<Vec<usize>, anyhow::Error> {
    let mut chosen = Vec::new(alloc);
    for place in places {
        chosen.push(place.0)?;
    }
    Ok(chosen)
}

fn put_results(alloc: Global, out: &mut String, table: &Table, words: &[&str]) -> Result<(u64, usize), anyhow::Error> {
    let mut g = Graph::new(alloc)?;
    let places = read_places(alloc, &words[2..])?;
    let mut chosen = first_of(alloc, places.as_slice())?;
    let mut count = 0;
    for _ in 0..u64::MAX {
        let args = operands(alloc, table, chosen.as_slice())?;
        let result = made(alloc, &mut g, &table.limits, words[1], args.as_slice())?;
        put_outcome(alloc, out, &g, &result)?;
        put(out, ";")?;
        count += 1;
        if !advance(&mut chosen, places.as_slice()) {
            break;
        }
    }
    Ok((count, g.gate_count()))
}

fn put_given(alloc: Global, out: &mut String, table: &Table, words: &[&str]) -> Result<(), anyhow::Error> {
    let g = Graph::new(alloc)?;
    let places = read_places(alloc, &words[2..])?;
    for value in &table.values[places[0].0..places[0].1] {
        let result = made_of(alloc, &g, &table.limits, words[1], value)?;
        put_outcome(alloc, out, &g, &result)?;
        put(out, ";")?;
    }
    Ok(())
}

// Requests over variables

fn free_items(alloc: Global, g: &mut Graph, width: usize, count: u32) -> Result<Words<GraphBit>, anyhow::Error> {
    let mut items = Words::new(alloc);
    for _ in 0..count {
        items.push(Word::from_vec(fresh_bits(alloc, g, width)?.into_vec()))?;
    }
    Ok(items)
}

fn free_length(alloc: Global, g: &mut Graph, given: &str) -> Result<Bits<GraphBit>, anyhow::Error> {
    match given.parse::<u32>() {
        Ok(n) => Ok(constant_length(alloc, g, n)?),
        Err(_) => Ok(fresh_bits(alloc, g, 5)?),
    }
}

fn free_value(alloc: Global, g: &mut Graph, limits: &Limits, text: &str) -> Result<SymValue<GraphBit>, anyhow::Error> {
    let Some(form) = text.strip_prefix("*") else {
        let value = read_value(alloc, text)?;
        return Ok(constant_value(alloc, g, limits, &value)?);
    };
    let given = form.get(1..).unwrap_or("");
    match type_of(form) {
        Ty::Int => Ok(SymValue::Int(Word::from_vec(fresh_bits(alloc, g, limits.width as usize)?.into_vec()))),
        Ty::Bool => Ok(SymValue::Bool(g.variable()?)),
        Ty::List => {
            let len = free_length(alloc, g, given)?;
            let items = free_items(alloc, g, limits.width as usize, limits.cap)?;
            Ok(SymValue::List { len, items })
        }
        Ty::Text => {
            let len = free_length(alloc, g, given)?;
            let items = free_items(alloc, g, 7, limits.cap)?;
            Ok(SymValue::Text { len, items })
        }
    }
}

''' + CIRCUIT + r'''
fn circuit(alloc: Global, g: &mut Graph, table: &Table, words: &[&str]) -> Result<SymOutcome<GraphBit>, anyhow::Error> {
    let mut values = Vec::new(alloc);
    for word in &words[2..] {
        values.push(free_value(alloc, g, &table.limits, word)?)?;
    }
    let mut args = Vec::new(alloc);
    for value in &values {
        args.push(value)?;
    }
    made(alloc, g, &table.limits, words[1], args.as_slice())
}

fn put_count(alloc: Global, out: &mut String, table: &Table, words: &[&str]) -> Result<(), anyhow::Error> {
    let mut g = Graph::new(alloc)?;
    let _ = circuit(alloc, &mut g, table, words)?;
    let gates = g.gate_count();
    let text = format!(in alloc; "={gates}")?;
    put(out, text.as_str())
}

fn put_circuit(alloc: Global, out: &mut String, table: &Table, words: &[&str]) -> Result<(), anyhow::Error> {
    let mut g = Graph::new(alloc)?;
    let result = circuit(alloc, &mut g, table, words)?;
    put(out, "=")?;
    put_gates(alloc, out, &g, &result)
}

// The program

fn digest(alloc: Global, text: &str) -> Result<String, anyhow::Error> {
    let mut hasher = Md5::new();
    hasher.update(text.as_bytes());
    let mut out = String::new(alloc);
    put_hex(&mut out, &hasher.finalize())?;
    Ok(out)
}

fn put_answer(alloc: Global, out: &mut String, table: &Table, words: &[&str]) -> Result<(), anyhow::Error> {
    if words[0] == "free" {
        return put_circuit(alloc, out, table, words);
    }
    if words[0] == "gates" {
        return put_count(alloc, out, table, words);
    }
    if words[0] == "given" {
        put(out, "=")?;
        return put_given(alloc, out, table, words);
    }
    let mut text = String::new(alloc);
    let (count, gates) = put_results(alloc, &mut text, table, words)?;
    let told = if words[0] == "all" { digest(alloc, text.as_str())? } else { text };
    let answer = format!(in alloc; "={count} {told} {gates}")?;
    put(out, answer.as_str())
}

fn main(rt: HostRuntime) -> Result<(), anyhow::Error> {
    let alloc = rt.alloc();
    let text = fs::read_to_string(&rt, "input.txt")?;
    let mut table = read_table(alloc, &["table", "3", "1"])?;
    let mut written = 0;
    for line in text.lines() {
        let mut words = Vec::new(alloc);
        for word in line.split(' ') {
            words.push(word)?;
        }
        let mut out = String::new(alloc);
        if words[0] == "table" {
            table = read_table(alloc, words.as_slice())?;
            put(&mut out, "=")?;
        } else if written > MOST {
            put(&mut out, "=later")?;
        } else {
            put_answer(alloc, &mut out, &table, words.as_slice())?;
        }
        written += out.len();
        println!(rt; "{out}")?;
    }
    Ok(())
}
'''.replace('MOST', str(MOST)) + unproved.HELPERS


class Harness(unproved.Harness):
    """The program, in a folder of its own."""

    def __init__(self, folder):
        super().__init__(folder, USES, PROGRAM, ('anyhow', 'md5'))

    def answers(self, lines):
        """What the program answers to these lines, in as many runs as that takes."""
        found = super().answers(lines)
        left = [at for at, answer in enumerate(found) if answer == 'later']
        if left:
            asked = [at for at, line in enumerate(lines) if line.startswith('table') or found[at] == 'later']
            for at, answer in zip(asked, self.answers([lines[at] for at in asked])):
                found[at] = answer
        return found
