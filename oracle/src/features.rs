// What a case and its answer show: kinds with their sorts, modes, refusals with their places, ways of replacement, questions, tallies.

use crate::answer::Answer;
use crate::fold::Sections;
use crate::house::*;
use crate::mix::Case;
use crate::table::{tokens, Refusal, Row, Table};
use std::collections::BTreeSet;

pub type Feature = (&'static str, u64, u64, u64);
pub type Features = BTreeSet<Feature>;

// Bytes beside the digits and blanks, and those of signs and the like.
const TELLING: [u8; 14] = [0, 8, 11, 12, 14, b'+', b',', b'-', b'.', b'/', b':', 127, 160, 255];

pub fn features(case: &Case, answer: &Answer) -> Features {
    let (number, section) =
        answer.as_ref().map_or_else(|refused| (refused.number, refused.section), |_| (0, 0));
    let mut found: Features = case.labels.iter().map(|label| (*label, 0, 0, 0)).collect();
    found.insert((case.kind.name(), number, section, 0));
    if let [label] = case.labels[..] {
        found.insert((label, number, section, 1));
    }
    found.insert(("length in powers of 8", (case.text.len() as u64 + 1).ilog(8) as u64, 0, 0));
    let table = Table::cut(&case.text).ok();
    if let Some(table) = &table {
        found.extend(of_table(table));
        found.insert(("outcome by mode", table.mode, number, 0));
    }
    match (answer, table) {
        (Err(refused), table) => {
            found.extend(of_refusal(refused, table.as_ref()));
            found.extend(of_token(refused, &case.text));
        }
        (Ok(sections), Some(table)) => found.extend(of_result(&table, sections)),
        (Ok(_), None) => unreachable!("an accepted text without a table"),
    }
    found
}

fn of_table(table: &Table) -> Features {
    let mut found = Features::new();
    for (name, length) in [
        ("nodes", table.nodes.len()),
        ("names", table.names.len()),
        ("longest name", table.names.iter().map(Vec::len).max().unwrap_or(0)),
        ("replies", table.replies.len()),
        ("inputs", table.inputs.len()),
    ] {
        found.insert((name, (length as u64 + 1).ilog2() as u64, 0, 0));
    }
    let numbers = table.numbers().len();
    for (name, own, most) in
        [("need", table.need(), PROGRAM_ROOM), ("numbers", numbers, MOST_NUMBERS)]
    {
        if own >= most - 6 {
            found.insert((name, own.min(most + 4) as u64, 0, 0));
        }
    }
    found
}

fn of_refusal(refused: &Refusal, table: Option<&Table>) -> Features {
    let Refusal { number, section, position } = *refused;
    let mut found = Features::from([("refused", number, section, 0)]);
    found.insert(("refused at", number, section, 1 + position.min(4)));
    if let (1, Some(table)) = (section, table) {
        if let Some(row) = table.nodes.get(position as usize) {
            found.insert(("refused kind", number, row.kind.min(BAD + 1), 0));
        }
    }
    found
}

// Of a token that is no number, the first byte that is no digit.
fn of_token(refused: &Refusal, text: &[u8]) -> Option<Feature> {
    if (refused.number, refused.section) != (1, 0) {
        return None;
    }
    let token = tokens(text).nth(refused.position as usize)?;
    let byte = token.iter().copied().find(|byte| !byte.is_ascii_digit());
    Some(match byte {
        None => ("digits alone", token.len().min(21) as u64, 0, 0),
        Some(byte) if TELLING.contains(&byte) => ("no digit", byte as u64, 0, 0),
        Some(_) => ("another byte that is no digit", 0, 0, 0),
    })
}

fn of_result(table: &Table, sections: &Sections) -> Features {
    let [_, _, replaced, kept @ .., asked, tally] = sections;
    let mut found = of_rows(table);
    found.extend(of_bits(sections));
    found.extend(replaced.chunks(2).map(|pair| of_replacement(table, pair[0], pair[1])));
    found.extend(asked.chunks(4).map(|question| ("question", question[0], question[3], 0)));
    for (place, figure) in (0..).zip(tally) {
        found.insert(("tally", place, (*figure).min(6), 0));
    }
    found.insert(("writes", tally[2].min(12), tally[3].min(6), 0));
    let given = [&table.sequentials, &table.initial_bads, &table.sequential_bads, &table.inputs];
    for (place, (given, kept)) in (0..).zip(given.iter().zip(kept)) {
        let fewer = (given.len() > kept.len()) as u64;
        found.insert(("kept", place, fewer, kept.len().min(3) as u64));
    }
    for entry in table.sequentials.iter().filter(|entry| !kept[0].contains(entry)) {
        let row = &table.nodes[*entry as usize];
        found.insert(("dropped", row.sort, (row.words[0] == row.words[1]) as u64, 0));
    }
    found
}

// Kinds with their sorts, and with those of an operand where it may have any.
fn of_rows(table: &Table) -> Features {
    let mut found = Features::new();
    for row in &table.nodes {
        found.insert(("kind and sort", row.kind, row.sort, 0));
        if matches!(row.kind, ULT | EQ | EXT) {
            let operand = &table.nodes[row.words[0] as usize];
            found.insert(("kind and operand's sort", row.kind, operand.sort, 0));
        }
        if matches!(row.kind, ADD..=SRL) {
            let [left, right] = [0, 1].map(|k| &table.nodes[row.words[k] as usize]);
            if [left.kind, right.kind] == [CONST; 2] {
                let least = (left.words[0] == 1 << 63) as u64;
                found.insert(("operands", row.kind, least, length(right.words[0])));
            }
        }
    }
    found
}

// And and Or as they are left, with what stands on their two sides.
fn of_bits(sections: &Sections) -> Features {
    let rows: Vec<Row> = sections[0].as_chunks().0.iter().map(Row::of).collect();
    let constants: Vec<&[u64]> = sections[1].chunks(2).collect();
    let side = |operand: u64, sort: u64| match rows.get(operand as usize) {
        Some(row) if row.kind != CONST => 0,
        Some(row) => side_of(row.words[0], sort),
        None => side_of(constants[operand as usize - rows.len()][1], sort),
    };
    let bits = rows.iter().filter(|row| matches!(row.kind, AND | OR));
    bits.map(|row| {
        let sides = 10 * side(row.words[0], row.sort) + side(row.words[1], row.sort);
        ("bits", row.kind, row.sort.min(BYTE), sides)
    })
    .collect()
}

// 1 for zero, 2 for all ones of the sort, 3 for another number.
fn side_of(number: u64, sort: u64) -> u64 {
    match number {
        0 => 1,
        number if number == largest(sort).unwrap_or(u64::MAX) => 2,
        _ => 3,
    }
}

// The length of a number in bits, roughly, and whether it is all ones.
fn length(number: u64) -> u64 {
    match u64::BITS - number.leading_zeros() {
        0 => 0,
        1..=6 => 1,
        7..=32 => 2,
        33..=63 => 3,
        _ => 4 + (number == u64::MAX) as u64,
    }
}

fn of_replacement(table: &Table, node: u64, replacement: u64) -> Feature {
    let row = &table.nodes[node as usize];
    let by = match replacement.checked_sub(table.nodes.len() as u64) {
        None => "replaced by a node",
        Some(0 | 1) => "replaced by a shared constant",
        Some(_) => "replaced by a made constant",
    };
    (by, row.kind, row.sort, 0)
}
