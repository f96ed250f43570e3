// The departures: in which words a result differs from the Rust's, and where. Every other word is the Rust's own. No other file knows of one.

use crate::fold::Sections;
use crate::house::{AND, BYTE, BYTES_7, OR, WORD};
use crate::table::{Row, Table};

// The highest mode that the Rust has; of a higher one it is not asked.
pub const HIGHEST_MODE_OF_THE_RUST: u64 = 7;

// The Rust's sort of a constant made for such a node. Here it has the node's own.
pub struct Departure {
    pub name: &'static str,
    made_for: fn(&Row) -> bool,
    in_the_rust: u64,
}

pub const LIST: [Departure; 1] = [Departure {
    name: "And or Or of sort 11 to 17: its constant has the node's sort, in the Rust 2",
    made_for: |row| matches!((row.kind, row.sort), (AND | OR, BYTE..=BYTES_7)),
    in_the_rust: WORD,
}];

// Puts the node's sort for the Rust's in each made constant, and names the entry for each that departs. The program stops where the
// Rust's is another than an entry of the list, or without one the node's, says.
pub fn depart(table: &Table, sections: &mut Sections) -> Vec<&'static str> {
    let [_, constants, replaced, ..] = sections;
    let mut departed = Vec::new();
    let made = (table.nodes.len() as u64 + 2..).zip(constants.chunks_mut(2).skip(2));
    for (number, constant) in made {
        let node = made_for(table, replaced, number);
        let entry = LIST.iter().find(|entry| (entry.made_for)(node));
        let expected = entry.map_or(node.sort, |entry| entry.in_the_rust);
        assert_eq!(constant[0], expected, "the Rust's sort of constant {number}");
        constant[0] = node.sort;
        departed.extend(entry.map(|entry| entry.name));
    }
    departed
}

// The node for which a constant was made: the first of those that it replaces, as any other has it from an operand or a Write below.
fn made_for<'a>(table: &'a Table, replaced: &[u64], number: u64) -> &'a Row {
    let pairs = replaced.chunks(2).filter(|pair| pair[1] == number);
    let nodes: Vec<&Row> = pairs.map(|pair| &table.nodes[pair[0] as usize]).collect();
    let first = *nodes.first().expect("each made constant replaces a node");
    let one_sort = nodes.iter().all(|node| node.sort == first.sort);
    assert!(one_sort, "constant {number} replaces nodes of several sorts");
    first
}
