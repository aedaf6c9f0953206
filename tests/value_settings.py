"""Functions of a program that read values as bits; nothing by itself.

A value is a letter for its type, and its bits: those of a number or of a truth value, or those of the length and of the items of a
list or a text. A bit is `0`, `1`, `*` for a variable, or `=` for the bit before it once more.
"""

SETTINGS = r'''
// Settings

fn read_bit(g: &mut Graph, mark: u8) -> Result<GraphBit, anyhow::Error> {
    if mark == b'*' {
        return Ok(g.variable()?);
    }
    Ok(g.constant(mark == b'1'))
}

fn read_bits(alloc: Global, g: &mut Graph, marks: &[u8]) -> Result<Vec<GraphBit>, anyhow::Error> {
    let mut bits = Vec::new(alloc);
    for mark in marks {
        let before: Option<&GraphBit> = bits.last();
        let bit = match before {
            Some(bit) if *mark == b'=' => *bit,
            _ => read_bit(g, *mark)?,
        };
        bits.push(bit)?;
    }
    Ok(bits)
}

// A length, and items of so many bits.
fn read_list(
    alloc: Global,
    g: &mut Graph,
    marks: &[u8],
    width: usize,
) -> Result<(Bits<GraphBit>, Words<GraphBit>), anyhow::Error> {
    let len = Bits::from_vec(read_bits(alloc, g, &marks[..5])?);
    let mut items = Words::new(alloc);
    for i in 0..(marks.len() - 5) / width {
        let from = 5 + i * width;
        items.push(Word::from_vec(read_bits(alloc, g, &marks[from..from + width])?))?;
    }
    Ok((len, items))
}

fn read_value(alloc: Global, g: &mut Graph, limits: &Limits, text: &[u8]) -> Result<SymValue<GraphBit>, anyhow::Error> {
    let marks = &text[1..];
    match text[0] {
        b'n' => Ok(SymValue::Int(Word::from_vec(read_bits(alloc, g, marks)?))),
        b'b' => Ok(SymValue::Bool(read_bit(g, marks[0])?)),
        b'l' => {
            let (len, items) = read_list(alloc, g, marks, limits.width as usize)?;
            Ok(SymValue::List { len, items })
        }
        _ => {
            let (len, items) = read_list(alloc, g, marks, 7)?;
            Ok(SymValue::Text { len, items })
        }
    }
}
'''
