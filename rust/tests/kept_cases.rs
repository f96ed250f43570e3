// The kept cases, folded by the library: each text's call must print what the list has for it.
// The list is crates/replay/data/cases.list, or the file that GEMTWEED_CASES names. For each case it has a line with two lengths, then that
// many bytes of input text and of output text, and a line end. The first ones have a wrong output, which the library must not print.

#[path = "../../tests/rows.rs"]
mod rows;
mod support;

use gemtweed::{Node, NodeId, Reply, Table, ROW_WIDTH};
use rows::house::{BYTES_7, WORD};
use std::path::PathBuf;
use support::{Call, NoCall};

const SECTION_0: [&str; 2] = ["refused 1 0 ", "refused 2 0 "];

fn list() -> Vec<u8> {
    let kept = concat!(env!("CARGO_MANIFEST_DIR"), "/../crates/replay/data/cases.list");
    let path = std::env::var_os("GEMTWEED_CASES").map_or(PathBuf::from(kept), PathBuf::from);
    std::fs::read(&path).unwrap_or_else(|why| panic!("{}: {why}", path.display()))
}

// How many of the first are wrong, as what replays the list must print.
fn wrong() -> usize {
    let printed = include_str!("../../crates/replay/stdout");
    printed.split(' ').nth(2).and_then(|count| count.parse().ok()).expect("cases, and how many wrong")
}

fn cases(mut rest: &[u8]) -> Vec<(&[u8], &str)> {
    let mut cases = Vec::new();
    while let Some(end) = rest.iter().position(|byte| *byte == b'\n') {
        let line = std::str::from_utf8(&rest[..end]).expect("two lengths");
        let mut lengths = line.split(' ').map(|word| word.parse::<usize>().expect("a length"));
        let (Some(input), Some(output)) = (lengths.next(), lengths.next()) else {
            panic!("two lengths: {line}")
        };
        let (input, after) = rest[end + 1..].split_at(input);
        let (output, after) = after.split_at(output);
        assert_eq!(after.first(), Some(&b'\n'), "a line end after the case");
        cases.push((input, std::str::from_utf8(output).expect("printed text")));
        rest = &after[1..];
    }
    cases
}

// Whether a text's call prints this. The library has no part in a text that makes no call.
fn prints(input: &[u8], output: &str) -> bool {
    match support::read(input) {
        Ok(call) => support::fold(&call) == output,
        Err(NoCall::Text) => SECTION_0.iter().any(|start| output.starts_with(start)),
        Err(NoCall::NoByte) => true,
    }
}

#[test]
fn every_wrong_case() {
    for (input, output) in &cases(&list())[..wrong()] {
        assert!(!prints(input, output), "printed, and wrong: {output}");
    }
}

#[test]
fn every_kept_case() {
    let list = list();
    let (mut folded, mut accepted, mut texts, mut no_bytes) = (0, 0, 0, 0);
    for (input, output) in cases(&list).split_off(wrong()) {
        match support::read(input) {
            Ok(call) => {
                assert_eq!(support::fold(&call), output, "{}", String::from_utf8_lossy(input));
                folded += 1;
                if output.starts_with("accepted") {
                    accepted += 1;
                    let words = table(&call).map_or(call.words.clone(), |table| table.words());
                    assert_eq!(words, call.words, "the table of these words has others");
                }
            }
            Err(NoCall::Text) => {
                assert!(SECTION_0.iter().any(|start| output.starts_with(start)), "{output}");
                texts += 1;
            }
            Err(NoCall::NoByte) => no_bytes += 1,
        }
    }
    println!("{folded} cases agree, {accepted} of them accepted");
    println!("skipped: {texts} refused as text, {no_bytes} with a number among the names that is no byte");
    assert!(folded >= 1000, "too few cases: {folded}");
}

// The sections of an accepted output, each without its count.
fn sections(output: &str) -> Option<Vec<Vec<u64>>> {
    let numbers = |line: &str| line.split(' ').skip(1).map(|word| word.parse().unwrap()).collect();
    Some(output.strip_prefix("accepted\n")?.lines().map(numbers).collect())
}

// Rows, replacements and constants have the sorts that they should, and a made constant of another sort is noticed.
#[test]
fn every_sort_of_every_kept_case() {
    let (mut accepted, mut made) = (0, 0);
    for (input, output) in cases(&list()).split_off(wrong()) {
        let Some(mut sections) = sections(output) else { continue };
        rows::judge(input, &sections).unwrap_or_else(|why| panic!("{why}: {output}"));
        accepted += 1;
        for place in (4..sections[1].len()).step_by(2) {
            let sort = sections[1][place];
            sections[1][place] = if sort == WORD { BYTES_7 } else { WORD };
            assert!(rows::judge(input, &sections).is_err(), "overlooked at {place}: {output}");
            sections[1][place] = sort;
            made += 1;
        }
    }
    println!("{accepted} accepted cases, {made} made constants");
    assert!(made >= 1000, "too few made constants: {made}");
}

// The table of a call that is accepted; nothing if it has a reply that is none, which no question took.
fn table(call: &Call) -> Option<Table> {
    let mut rest = &call.words[..];
    let mut section = |width: usize| {
        let (own, after) = rest.split_at(1 + width * rest[0] as usize);
        rest = after;
        own[1..].to_vec()
    };
    let nodes = section(ROW_WIDTH);
    let numbers = |list: Vec<u64>| list.into_iter().map(NodeId).collect();
    Some(Table {
        nodes: (nodes.chunks(ROW_WIDTH))
            .map(|words| Node::from_words(words.try_into().unwrap()).expect("a node"))
            .collect(),
        sequentials: numbers(section(1)),
        initial_bads: numbers(section(1)),
        sequential_bads: numbers(section(1)),
        inputs: section(1),
        replies: section(1).into_iter().map(Reply::from_number).collect::<Option<_>>()?,
        names: Vec::new(),
    })
}
