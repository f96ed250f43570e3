// The measured models: seven shapes, each of exactly the number of nodes asked for, a power of two from 64 on.

use crate::house::*;
use crate::table::Table;

pub const SHAPES: [(&str, fn(u64) -> Table); 7] = [
    ("deep chain", deep_chain),
    ("wide tree", |nodes| tree(ADD, nodes)),
    ("product tree", |nodes| tree(MUL, nodes)),
    ("write chain", write_chain),
    ("states and inputs", states_and_inputs),
    ("questions", questions),
    ("mixed", mixed),
];

impl Table {
    fn add(&mut self, kind: u64, sort: u64, words: [u64; 3]) -> u64 {
        self.push(kind, sort, words, 0)
    }

    fn constant(&mut self, number: u64) -> u64 {
        self.add(CONST, WORD, [number, 0, 0])
    }

    fn two(&mut self, kind: u64, left: u64, right: u64) -> u64 {
        let sort = if matches!(kind, ULT | EQ) { BIT } else { WORD };
        self.add(kind, sort, [left, right, 0])
    }

    fn input(&mut self) -> u64 {
        self.push(INPUT, WORD, [0, 0, 0], 1)
    }

    // A Bad on whether one word is below another, in section 3.
    fn bad_if_below(&mut self, left: u64, right: u64) {
        let below = self.two(ULT, left, right);
        let bad = self.add(BAD, BIT, [below, 0, 0]);
        self.initial_bads.push(bad);
    }
}

fn named() -> Table {
    Table { names: vec![b"x".map(u64::from).to_vec()], ..Table::default() }
}

// Each node is an Add of the one before and 1, down to an Input: nothing folds.
fn deep_chain(nodes: u64) -> Table {
    let mut table = named();
    let mut last = table.input();
    let one = table.constant(1);
    for _ in 4..nodes {
        last = table.two(ADD, last, one);
    }
    table.bad_if_below(last, one);
    table
}

// A tree of one operator over constants, half of the nodes and all odd, so that no product is 0: everything folds.
fn tree(kind: u64, nodes: u64) -> Table {
    let mut table = named();
    let leaves = nodes / 2 - 1;
    for leaf in 0..=leaves {
        table.constant(2 * leaf + 1);
    }
    let mut next = 1;
    for _ in 1..leaves {
        table.two(kind, next, next + 1);
        next += 2;
    }
    table.bad_if_below(next, 0);
    table
}

// A quarter Writes in a chain, a quarter Reads over all of it that find their value half way down on average.
fn write_chain(nodes: u64) -> Table {
    let mut table = named();
    let mut memory = table.add(STATE, MEMORY, [0, 0, 0]);
    let writes = nodes / 4;
    for address in 0..writes {
        table.constant(8 * address);
    }
    for address in 1..=writes {
        memory = table.add(WRITE, MEMORY, [memory, address, address]);
    }
    let mut sum = table.two(READ, memory, 1);
    for address in 2..writes {
        let read = table.two(READ, memory, address);
        sum = table.two(ADD, sum, read);
    }
    table.bad_if_below(sum, 1);
    table
}

// A State without an init that takes an input, a Const, an Ult of both and a Bad on it.
fn states_and_inputs(nodes: u64) -> Table {
    let mut table = named();
    for group in 0..nodes / 4 {
        let state = table.add(STATE, WORD, [0, 0, 0]);
        let limit = table.constant(group);
        table.bad_if_below(state, limit);
        table.inputs.push(group);
    }
    table
}

// Under minimise: five nodes in eight ask twice and the Bad once; every reply is 0.
fn questions(nodes: u64) -> Table {
    let mut table = Table { mode: 1, ..named() };
    for _ in 0..nodes / 8 {
        let left = table.input();
        let right = table.input();
        let below = table.two(ULT, left, right);
        let equal = table.two(EQ, left, right);
        let both = table.add(AND, BIT, [below, equal, 0]);
        let chosen = table.add(ITE, WORD, [both, left, right]);
        table.bad_if_below(chosen, right);
        table.replies.extend([0; 11]);
    }
    table
}

// Sixteen kinds in each group; a Read finds its value in its group's Write, all Writes are one chain.
fn mixed(nodes: u64) -> Table {
    let mut table = named();
    let mut memory = table.add(STATE, MEMORY, [0, 0, 0]);
    for group in 0..nodes / 16 {
        let number = table.constant(group);
        let state = table.add(STATE, WORD, [number, 1, 0]);
        let input = table.input();
        let sum = table.two(ADD, state, input);
        let product = table.two(MUL, number, number);
        let both = table.two(AND, sum, product);
        let any = table.two(OR, both, number);
        let other = table.add(NOT, WORD, [any, 0, 0]);
        let equal = table.two(EQ, other, sum);
        let chosen = table.add(ITE, WORD, [equal, sum, other]);
        memory = table.add(WRITE, MEMORY, [memory, number, chosen]);
        let read = table.two(READ, memory, number);
        // the first group's place for an Ext is taken by the memory
        let bit = if group == 0 { number } else { table.add(EXT, WORD, [equal, BIT, 0]) };
        let next = table.add(NEXT, WORD, [state, read, 0]);
        table.sequentials.push(next);
        table.bad_if_below(read, bit);
    }
    table
}
