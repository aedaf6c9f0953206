"""Functions of a program that write values as bits: outcomes that are constants, and circuits; nothing by itself.

A value is written `n` with a number, `b` with 1 or 0, `l` with numbers between commas, or `t` with characters in hexadecimal.
An outcome is a value, `!` for a fault, `?` for what isn't a constant, or `long` for a length that the items don't allow.

Of a circuit there are the variables, the gates, the fault and the value, with `|` between them. Each bit is twice the number of
its source, and one more if it is the opposite. Source 0 is true, then come the variables in the order in which they were made,
and then the gates. A word's bits have a `.` between them.
"""

KNOWN = r'''
// Results that are constants

fn known_digits(g: &Graph, bits: &[GraphBit]) -> Option<i64> {
    let mut number = 0;
    let mut weight = 1;
    for bit in bits {
        if g.known(*bit)? {
            number += weight;
        }
        weight *= 2;
    }
    Some(number)
}

fn known_number(g: &Graph, bits: &[GraphBit]) -> Option<i64> {
    let number = known_digits(g, bits)?;
    if g.known(bits[bits.len() - 1])? {
        Some(number - (1i64 << bits.len()))
    } else {
        Some(number)
    }
}

fn put_known(alloc: Global, out: &mut String, number: Option<i64>) -> Result<(), anyhow::Error> {
    match number {
        Some(n) => {
            let text = format!(in alloc; "{n}")?;
            put(out, text.as_str())
        }
        None => put(out, "?"),
    }
}

fn put_list(alloc: Global, out: &mut String, g: &Graph, list: ListParts<'_, GraphBit>) -> Result<(), anyhow::Error> {
    let ListParts { len, items } = list;
    let count = match known_digits(g, len.as_slice()) {
        Some(n) => n as usize,
        None => return put(out, "?"),
    };
    if count > items.len() {
        return put(out, "long");
    }
    put(out, "l")?;
    for i in 0..count {
        if i > 0 {
            put(out, ",")?;
        }
        put_known(alloc, out, known_number(g, items.at(i).as_slice()))?;
    }
    Ok(())
}

fn put_text(out: &mut String, g: &Graph, list: ListParts<'_, GraphBit>) -> Result<(), anyhow::Error> {
    let ListParts { len, items } = list;
    let count = match known_digits(g, len.as_slice()) {
        Some(n) => n as usize,
        None => return put(out, "?"),
    };
    if count > items.len() {
        return put(out, "long");
    }
    put(out, "t")?;
    for i in 0..count {
        match known_digits(g, items.at(i).as_slice()) {
            Some(character) => put_hex(out, &[character as u8])?,
            None => put(out, "?")?,
        }
    }
    Ok(())
}

fn put_outcome(alloc: Global, out: &mut String, g: &Graph, made: &SymOutcome<GraphBit>) -> Result<(), anyhow::Error> {
    match g.known(made.fault) {
        Some(false) => (),
        Some(true) => return put(out, "!"),
        None => return put(out, "?"),
    }
    match &made.value {
        SymValue::Int(word) => {
            put(out, "n")?;
            put_known(alloc, out, known_number(g, word.as_slice()))
        }
        SymValue::Bool(bit) => match g.known(*bit) {
            Some(true) => put(out, "b1"),
            Some(false) => put(out, "b0"),
            None => put(out, "?"),
        },
        SymValue::List { len, items } => put_list(alloc, out, g, ListParts { len, items }),
        SymValue::Text { len, items } => put_text(out, g, ListParts { len, items }),
    }
}
'''

BITS = r'''
// Gates and bits

fn put_bit(alloc: Global, out: &mut String, g: &Graph, bit: GraphBit) -> Result<(), anyhow::Error> {
    let source = match bit.source() {
        Source::Constant => 0,
        Source::Variable(k) => k + 1,
        Source::Made(k) => g.variables() + k + 1,
    };
    let number = if bit.is_positive() { 2 * source } else { 2 * source + 1 };
    let text = format!(in alloc; "{number}")?;
    put(out, text.as_str())
}

fn put_word(alloc: Global, out: &mut String, g: &Graph, bits: &[GraphBit]) -> Result<(), anyhow::Error> {
    for (i, bit) in bits.iter().enumerate() {
        if i > 0 {
            put(out, ".")?;
        }
        put_bit(alloc, out, g, *bit)?;
    }
    Ok(())
}

// The variables and the gates, with `|` behind each.
fn put_graph(alloc: Global, out: &mut String, g: &Graph) -> Result<(), anyhow::Error> {
    let variables = g.variables();
    let head = format!(in alloc; "{variables}|")?;
    put(out, head.as_str())?;
    for k in 0..g.gate_count() {
        let gate = g.gate(k);
        if k > 0 {
            put(out, " ")?;
        }
        put_word(alloc, out, g, &[gate.left, gate.right])?;
    }
    put(out, "|")
}
'''

CIRCUIT = BITS + r'''
// Circuits

fn put_items(alloc: Global, out: &mut String, g: &Graph, list: ListParts<'_, GraphBit>) -> Result<(), anyhow::Error> {
    let ListParts { len, items } = list;
    put_word(alloc, out, g, len.as_slice())?;
    for i in 0..items.len() {
        put(out, " ")?;
        put_word(alloc, out, g, items.at(i).as_slice())?;
    }
    Ok(())
}

fn put_value(alloc: Global, out: &mut String, g: &Graph, value: &SymValue<GraphBit>) -> Result<(), anyhow::Error> {
    match value {
        SymValue::Int(word) => {
            put(out, "n ")?;
            put_word(alloc, out, g, word.as_slice())
        }
        SymValue::Bool(bit) => {
            put(out, "b ")?;
            put_bit(alloc, out, g, *bit)
        }
        SymValue::List { len, items } => {
            put(out, "l ")?;
            put_items(alloc, out, g, ListParts { len, items })
        }
        SymValue::Text { len, items } => {
            put(out, "t ")?;
            put_items(alloc, out, g, ListParts { len, items })
        }
    }
}

// The circuit of an outcome: the variables, the gates, the fault and the value, with `|` between them.
fn put_gates(
    alloc: Global,
    out: &mut String,
    g: &Graph,
    made: &SymOutcome<GraphBit>,
) -> Result<(), anyhow::Error> {
    put_graph(alloc, out, g)?;
    put_bit(alloc, out, g, made.fault)?;
    put(out, "|")?;
    put_value(alloc, out, g, &made.value)
}
'''
