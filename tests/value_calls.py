"""Functions of a program over values as bits: they read values and make the operations on them; nothing by itself."""

USES = ('bit_graph', 'bit_lists', 'bit_words', 'list_values', 'mpy_tree', 'sym_values')
CALLS = r'''
use bit_graph::gate::{GraphBit, Source};
use bit_graph::graph::Graph;
use bit_lists::lengths::constant_length;
use bit_lists::lists::ListParts;
use bit_lists::ranges::RangeEnds;
use bit_words::bits::Bits;
use bit_words::inputs::fresh_bits;
use bit_words::logic::{Logic, Variables};
use bit_words::number::number_word;
use bit_words::word::Word;
use bit_words::words::Words;
use list_values::items::{item, replacement};
use list_values::joins::{concatenation, extension};
use list_values::literals::{list_literal, text_literal};
use list_values::members::{absence, membership};
use list_values::ranges::range_value;
use list_values::repeats::repetition;
use list_values::slices::part;
use md5::{Digest, Md5};
use mpy_tree::{Chars, Ints, Limits, Ty, Value};
use std::alloc::Global;
use std::fs;
use sym_values::choose::choose_value;
use sym_values::constant::{constant_value, literal, zero_value};
use sym_values::division::{quotient, raised, remainder};
use sym_values::equality::{equality, inequality};
use sym_values::order::{at_most, greatest, least, less_than};
use sym_values::size::length_value;
use sym_values::sums::{difference, product, sum};
use sym_values::truth::{negation, test_bit};
use sym_values::unary::{absolute_value, negated};
use sym_values::{SymOutcome, SymValue};

// The limits, and the values that requests name.
#[derive(Drop)]
struct Table {
    limits: Limits,
    values: Vec<Value>,
    // The same as constants; of one that doesn't fit, a zero.
    constants: Vec<SymValue<GraphBit>>,
}

// Values

fn read_value(alloc: Global, text: &str) -> Result<Value, anyhow::Error> {
    let rest = text.get(1..).unwrap_or("");
    if text.starts_with("n") {
        return Ok(Value::Int(rest.parse::<i32>().unwrap_or(0)));
    }
    if text.starts_with("b") {
        return Ok(Value::Bool(rest == "1"));
    }
    if text.starts_with("t") {
        return Ok(Value::Text(Chars::from_vec(unhex(alloc, rest.as_bytes())?)));
    }
    let mut numbers = Vec::new(alloc);
    for number in rest.split(',') {
        if let Ok(n) = number.parse::<i32>() {
            numbers.push(n)?;
        }
    }
    Ok(Value::List(Ints::from_vec(numbers)))
}

fn type_of(letter: &str) -> Ty {
    if letter.starts_with("n") {
        Ty::Int
    } else if letter.starts_with("b") {
        Ty::Bool
    } else if letter.starts_with("l") {
        Ty::List
    } else {
        Ty::Text
    }
}

fn read_table(alloc: Global, words: &[&str]) -> Result<Table, anyhow::Error> {
    let width = words[1].parse::<u32>().unwrap_or(3);
    let cap = words[2].parse::<u32>().unwrap_or(1);
    let limits = Limits { width, turns: 1, depth: 1, cap, prints: 0 };
    let g = Graph::new(alloc)?;
    let mut values = Vec::new(alloc);
    let mut constants = Vec::new(alloc);
    for word in &words[3..] {
        let value = read_value(alloc, word)?;
        if value.fits(&limits) {
            constants.push(constant_value(alloc, &g, &limits, &value)?)?;
        } else {
            constants.push(zero_value(alloc, &g, &limits, type_of(word))?)?;
        }
        values.push(value)?;
    }
    Ok(Table { limits, values, constants })
}

// Operations

fn number(a: &SymValue<GraphBit>) -> &Word<GraphBit> {
    match a {
        SymValue::Int(word) => word,
        _ => unreachable!(),
    }
}

fn of_numbers(
    alloc: Global,
    g: &mut Graph,
    operation: &str,
    a: &Word<GraphBit>,
    b: &Word<GraphBit>,
) -> Result<SymOutcome<GraphBit>, anyhow::Error> {
    let made = match operation {
        "sum" => sum(alloc, g, a, b)?,
        "difference" => difference(alloc, g, a, b)?,
        "product" => product(alloc, g, a, b)?,
        "quotient" => quotient(alloc, g, a, b)?,
        "remainder" => remainder(alloc, g, a, b)?,
        "raised" => raised(alloc, g, a, b)?,
        "negated" => negated(alloc, g, a)?,
        "absolute_value" => absolute_value(alloc, g, a)?,
        "least" => least(alloc, g, a, b)?,
        "greatest" => greatest(alloc, g, a, b)?,
        "less_than" => less_than(alloc, g, a, b)?,
        "at_most" => at_most(alloc, g, a, b)?,
        "above" => less_than(alloc, g, b, a)?,
        _ => at_most(alloc, g, b, a)?,
    };
    Ok(made)
}

fn sound(g: &Graph, value: SymValue<GraphBit>) -> SymOutcome<GraphBit> {
    SymOutcome { value, fault: g.constant(false) }
}

fn range_of(
    alloc: Global,
    g: &mut Graph,
    limits: &Limits,
    args: &[&SymValue<GraphBit>],
) -> Result<SymOutcome<GraphBit>, anyhow::Error> {
    let zero = number_word(alloc, g, 0, limits.width as usize)?;
    let one = number_word(alloc, g, 1, limits.width as usize)?;
    let from = if args.len() > 1 { number(args[0]) } else { &zero.word };
    let to = if args.len() > 1 { number(args[1]) } else { number(args[0]) };
    let step = if args.len() > 2 { number(args[2]) } else { &one.word };
    let ends = RangeEnds { from, to, step };
    Ok(range_value(alloc, g, limits, &ends)?)
}

fn list_of(
    alloc: Global,
    g: &Graph,
    limits: &Limits,
    args: &[&SymValue<GraphBit>],
) -> Result<SymOutcome<GraphBit>, anyhow::Error> {
    let mut numbers = Words::new(alloc);
    for arg in args {
        numbers.push(number(arg).copy()?)?;
    }
    Ok(list_literal(alloc, g, limits, &numbers)?)
}

fn chosen(
    alloc: Global,
    g: &mut Graph,
    args: &[&SymValue<GraphBit>],
) -> Result<SymOutcome<GraphBit>, anyhow::Error> {
    let test = match args[0] {
        SymValue::Bool(bit) => *bit,
        _ => unreachable!(),
    };
    let value = choose_value(alloc, g, test, args[1], args[2])?;
    Ok(sound(g, value))
}

fn made(
    alloc: Global,
    g: &mut Graph,
    limits: &Limits,
    operation: &str,
    args: &[&SymValue<GraphBit>],
) -> Result<SymOutcome<GraphBit>, anyhow::Error> {
    let made = match operation {
        "equality" => equality(g, args[0], args[1])?,
        "inequality" => inequality(g, args[0], args[1])?,
        "negation" => negation(g, args[0])?,
        "test_bit" => {
            let bit = test_bit(g, args[0])?;
            sound(g, SymValue::Bool(bit))
        }
        "length_value" => length_value(alloc, g, limits, args[0])?,
        "choose_value" => chosen(alloc, g, args)?,
        "item" => item(alloc, g, args[0], number(args[1]))?,
        "replacement" => replacement(alloc, g, args[0], number(args[1]), number(args[2]))?,
        "part" => part(alloc, g, args[0], None, None)?,
        "part_from" => part(alloc, g, args[0], Some(number(args[1])), None)?,
        "part_to" => part(alloc, g, args[0], None, Some(number(args[1])))?,
        "part_between" => part(alloc, g, args[0], Some(number(args[1])), Some(number(args[2])))?,
        "concatenation" => concatenation(alloc, g, args[0], args[1])?,
        "extension" => extension(alloc, g, args[0], number(args[1]))?,
        "repetition" => repetition(alloc, g, args[0], number(args[1]))?,
        "membership" => membership(g, args[0], args[1])?,
        "absence" => absence(g, args[0], args[1])?,
        "range_value" => range_of(alloc, g, limits, args)?,
        "list_literal" => list_of(alloc, g, limits, args)?,
        _ => of_numbers(alloc, g, operation, number(args[0]), number(args[args.len() - 1]))?,
    };
    Ok(made)
}

fn made_of(
    alloc: Global,
    g: &Graph,
    limits: &Limits,
    operation: &str,
    value: &Value,
) -> Result<SymOutcome<GraphBit>, anyhow::Error> {
    let made = match operation {
        "literal" => match value {
            Value::Int(n) => literal(alloc, g, limits, *n)?,
            _ => unreachable!(),
        },
        "text_literal" => match value {
            Value::Text(characters) => text_literal(alloc, g, limits, characters)?,
            _ => unreachable!(),
        },
        "zero_value" => sound(g, zero_value(alloc, g, limits, value.ty())?),
        _ => sound(g, constant_value(alloc, g, limits, value)?),
    };
    Ok(made)
}
'''
