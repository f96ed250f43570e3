// Tables varied further: long names and many, chains of writes, wide inputs, bads listed twice, and sizes at the program's limits.

use crate::damages::Labels;
use crate::house::*;
use crate::random::Random;
use crate::table::Table;

// Operands at which an operator does something of its own.
const OPERANDS: [u64; 12] =
    [0, 1, 2, 63, 64, 1 << 32, (1 << 32) + 1, (1 << 63) - 1, 1 << 63, 1 << 63, u64::MAX, u64::MAX];

// A few variations, none in most small tables; then what is over the program's room is cut off.
pub fn vary(random: &mut Random, table: &mut Table, labels: &mut Labels) {
    let mild = table.nodes.len() > 14 && random.chance(1, 2);
    if mild {
        labels.push(make_mild(random, table));
    }
    for _ in 0..random.below(4) / 2 {
        match random.below(9) {
            0 => labels.push(lengthen_name(random, table)),
            1 => labels.push(add_chain(random, table)),
            2 => labels.push(add_foldable_init(random, table)),
            3 => labels.push(widen_input(random, table)),
            4 => labels.push(list_twice(table)),
            5 => labels.push(add_replies(random, table)),
            6 => labels.push(add_names(random, table)),
            7 => labels.push(add_operator(random, table)),
            _ => labels.push(choose_memories(random, table)),
        }
    }
    cut_to_room(table);
    if random.chance(1, 40) {
        labels.push(fill_room(random, table));
    }
    if random.chance(1, 100) {
        labels.push(fill_numbers(random, table));
    }
}

// Larger tables are mostly refused on the way; less so without terminate, wrong replies and inputs.
fn make_mild(random: &mut Random, table: &mut Table) -> &'static str {
    table.mode = random.pick(&[0, 1, 1, 4, 5]);
    table.replies = (0..random.below(60)).map(|_| random.pick(&[0, 0, 0, 1])).collect();
    if random.chance(2, 3) {
        table.inputs.clear();
    }
    "mild"
}

// A name of its own, for some node that may have one.
fn lengthen_name(random: &mut Random, table: &mut Table) -> &'static str {
    let longest = LONGEST_NAME as usize;
    let length = random.pick(&[0, 1, 10, 11, 12, longest - 1, longest]);
    let start: &[u8] = if random.chance(1, 2) { b"memory-dump" } else { b"" };
    let mut name: Vec<u64> = start.iter().map(|byte| *byte as u64).collect();
    name.resize_with(length, || random.below(256));
    table.names.push(name);
    let named: Vec<usize> = (0..table.nodes.len())
        .filter(|place| matches!(table.nodes[*place].kind, STATE | INPUT | BAD))
        .collect();
    if !named.is_empty() {
        table.nodes[random.pick(&named)].name = table.names.len() as u64;
    }
    "a name of its own"
}

// A memory under writes at few addresses, settled and not, perhaps an Ite between; and reads of it.
fn add_chain(random: &mut Random, table: &mut Table) -> &'static str {
    table.names.push(b"memory-dump".iter().map(|byte| *byte as u64).collect());
    let name = table.names.len() as u64;
    let kind = random.pick(&[STATE, INPUT]);
    let mut memory = table.push(kind, MEMORY, [0; 3], name);
    let open = table.push(INPUT, WORD, [0; 3], name);
    let mut words = vec![open];
    for number in 0..3 {
        words.push(table.push(CONST, WORD, [number, 0, 0], 0));
    }
    let sum = [random.pick(&words), random.pick(&words), 0];
    words.push(table.push(ADD, WORD, sum, 0));
    for _ in 0..1 + random.below(12) {
        let before = memory;
        let write = [memory, random.pick(&words), random.pick(&words)];
        memory = table.push(WRITE, MEMORY, write, 0);
        if random.chance(1, 6) {
            let test = [random.pick(&words), random.pick(&words), 0];
            let condition = table.push(ULT, BIT, test, 0);
            memory = table.push(ITE, MEMORY, [condition, memory, before], 0);
        }
    }
    for _ in 0..1 + random.below(3) {
        let read = table.push(READ, WORD, [memory, random.pick(&words), 0], 0);
        let condition = table.push(EQ, BIT, [read, random.pick(&words), 0], 0);
        let bad = table.push(BAD, BIT, [condition, 0, 0], 0);
        table.initial_bads.push(bad);
    }
    "a chain of writes"
}

// A State that is dropped, over an init that would fold and is visited, if at all, from elsewhere.
fn add_foldable_init(random: &mut Random, table: &mut Table) -> &'static str {
    let left = table.push(CONST, WORD, [random.below(3), 0, 0], 0);
    let right = table.push(CONST, WORD, [random.below(3), 0, 0], 0);
    let kind = random.pick(&[ADD, SUB, MUL, DIVU, DIV, REM, SLL, SRL, AND, OR]);
    let init = table.push(kind, WORD, [left, right, 0], 0);
    let state = table.push(STATE, WORD, [init, 1, 0], 0);
    let next = table.push(NEXT, WORD, [state, state, 0], 0);
    table.sequentials.push(next);
    let operand = random.pick(&[left, right, init, state]);
    let condition = table.push(EQ, BIT, [state, operand, 0], 0);
    let bad = table.push(BAD, BIT, [condition, 0, 0], 0);
    table.sequential_bads.push(bad);
    if random.chance(1, 2) {
        let condition = table.push(ULT, BIT, [init, state, 0], 0);
        let bad = table.push(BAD, BIT, [condition, 0, 0], 0);
        table.initial_bads.push(bad);
    }
    "a dropped State over an init that would fold"
}

// An operator on words over two Consts, often where it does something of its own.
fn add_operator(random: &mut Random, table: &mut Table) -> &'static str {
    let left = table.push(CONST, WORD, [random.pick(&OPERANDS), 0, 0], 0);
    let right = table.push(CONST, WORD, [random.pick(&OPERANDS), 0, 0], 0);
    let kind = random.pick(&[ADD, SUB, MUL, DIVU, DIV, DIV, REM, SLL, SRL, AND, OR]);
    let result = table.push(kind, WORD, [left, right, 0], 0);
    let kind = random.pick(&[EQ, ULT]);
    let condition = table.push(kind, BIT, [result, left, 0], 0);
    let bad = table.push(BAD, BIT, [condition, 0, 0], 0);
    table.initial_bads.push(bad);
    "an operator at its limits"
}

// An input that just fits some State, or just does not.
fn widen_input(random: &mut Random, table: &mut Table) -> &'static str {
    let states = table.nodes.iter().filter(|row| row.kind == STATE && row.operands().is_empty());
    let widths: Vec<u64> = states.filter_map(|row| width(row.sort)).collect();
    let width = random.pick(if widths.is_empty() { &[8] } else { &widths });
    let most = u64::MAX >> (64 - width);
    table.inputs.insert(0, random.pick(&[most, most, most.wrapping_add(1)]));
    "an input at the limit of a sort"
}

fn list_twice(table: &mut Table) -> &'static str {
    let (initial, sequential) = (table.initial_bads.clone(), table.sequential_bads.clone());
    table.initial_bads.extend(&sequential);
    table.initial_bads.extend(&initial);
    table.sequential_bads.extend(&initial);
    table.sequential_bads.truncate(MOST_ENTRIES as usize);
    "bads listed twice and in both lists"
}

fn add_replies(random: &mut Random, table: &mut Table) -> &'static str {
    let choices: &[u64] = random.pick(&[&[0, 1], &[0, 0, 0, 1], &[0, 1, 2], &[0, 0, 0, 2, 3]]);
    table.replies = (0..random.below(80)).map(|_| random.pick(choices)).collect();
    "many replies"
}

fn add_names(random: &mut Random, table: &mut Table) -> &'static str {
    let most = random.pick(&[20, 20, 20, 2000]);
    for _ in 0..random.below(most) {
        let length = random.pick(&[0, 0, 0, 1]);
        table.names.push(vec![97; length]);
    }
    "many names"
}

// Each memory State without an init is named memory-dump, or none is, with inputs at hand.
fn choose_memories(random: &mut Random, table: &mut Table) -> &'static str {
    table.names.push(b"memory-dump".iter().map(|byte| *byte as u64).collect());
    let name = random.pick(&[0, table.names.len() as u64]);
    for row in table.nodes.iter_mut().filter(|row| row.kind == STATE && row.sort == MEMORY) {
        row.name = name;
    }
    table.inputs.extend([0, 1, 1]);
    "memories that take inputs, or none that does"
}

// Entries and inputs are cut off until the program has room.
fn cut_to_room(table: &mut Table) {
    while table.need() > PROGRAM_ROOM {
        let lists = [
            &mut table.sequential_bads,
            &mut table.initial_bads,
            &mut table.inputs,
            &mut table.sequentials,
        ];
        let longest = lists.into_iter().max_by_key(|list| list.len()).unwrap();
        if longest.pop().is_none() {
            return;
        }
    }
}

// Entries or inputs up to the room that the program has, or just past it.
fn fill_room(random: &mut Random, table: &mut Table) -> &'static str {
    let wanted = PROGRAM_ROOM + random.pick(&[0, 0, 0, 1, 2, 20]);
    let bad = table.nodes.iter().position(|row| row.kind == BAD);
    if let (Some(bad), true) = (bad, random.chance(1, 2)) {
        let most = if random.chance(1, 2) { MOST_ENTRIES } else { 100 };
        while table.need() + BAD_ROOM <= wanted && table.sequential_bads.len() < most as usize {
            table.sequential_bads.push(bad as u64);
        }
    }
    while table.need() < wanted && table.inputs.len() < MOST_INPUTS as usize {
        table.inputs.push(random.below(2));
    }
    "room filled"
}

// Replies up to the numbers that the program reads, or just past them.
fn fill_numbers(random: &mut Random, table: &mut Table) -> &'static str {
    let wanted = MOST_NUMBERS + random.pick(&[0, 0, 0, 1]);
    let missing = wanted.saturating_sub(table.numbers().len());
    table.replies.extend((0..missing).map(|_| random.pick(&[0, 0, 0, 1])));
    "numbers filled"
}
