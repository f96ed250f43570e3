// Random tables of every kind, sort and mode, mostly accepted.

use crate::departures::HIGHEST_MODE_OF_THE_RUST;
use crate::house::*;
use crate::random::Random;
use crate::table::{Row, Table};

const DUMPS: [&[u8]; 2] = [b"memory-dump", b"memory-dump-2"];
const NAMES: [&[u8]; 6] = [b"memory-dum", b"Memory-dump", b"hold-end", b"a", b"", b"\xc3\xff"];

pub fn random(random: &mut Random, most_nodes: u64) -> Table {
    let narrow = BYTE + random.below(1 + BYTES_7 - BYTE);
    let sorts: &[u64] = match random.below(6) {
        0 | 1 => &[MEMORY, MEMORY, WORD, WORD, WORD, BIT],
        2 => &[BIT, BIT, BIT, WORD],
        3 => &[narrow, narrow, narrow, BIT, WORD],
        4 => &[WORD, WORD, WORD, BIT],
        _ => &[BIT, WORD, MEMORY, narrow],
    };
    let mode = random.below(HIGHEST_MODE_OF_THE_RUST + 1);
    let mut draft = Draft { random, table: Table { mode, ..Table::default() }, sorts };
    draft.draw_names();
    draft.draw_inputs();
    draft.draw_replies();
    draft.draw_nodes(most_nodes);
    draft.draw_lists();
    draft.table
}

struct Draft<'a> {
    random: &'a mut Random,
    table: Table,
    sorts: &'a [u64],
}

impl Draft<'_> {
    fn draw_nodes(&mut self, most: u64) {
        let mut wanted = 1 + self.random.below(most) as usize;
        if self.random.chance(1, 4) {
            wanted = wanted.min(1 + self.random.below(most) as usize);
        }
        loop {
            self.table.nodes.clear();
            while self.table.nodes.len() < wanted {
                self.grow_root((wanted - self.table.nodes.len()) as u64);
            }
            if self.table.nodes.len() as u64 <= most {
                return;
            }
        }
    }

    // A Bad, a Next of an old or a new State, or a node that nobody reads, over about `room` nodes.
    fn grow_root(&mut self, room: u64) {
        if room > 5 && self.sorts.contains(&MEMORY) && self.random.chance(2, 3) {
            return self.grow_read_root();
        }
        let sort = self.random.pick(self.sorts);
        let states = self.places(|row| row.kind == STATE && !row.operands().is_empty());
        match self.random.below(12) {
            0 => {
                self.grow(sort, room);
            }
            1 | 2 => {
                let init = self.grow(sort, room / 3);
                let name = self.some_name();
                let state = self.push(STATE, sort, [init, 1, 0], name);
                self.grow_next(state, room / 3);
            }
            3..=5 if !states.is_empty() => {
                let state = self.random.pick(&states);
                self.grow_next(state, room - 1);
            }
            _ => {
                let condition = self.grow(BIT, room - 1);
                let name = self.some_name();
                self.push(BAD, BIT, [condition, 0, 0], name);
            }
        }
    }

    // A Bad over a read of a chain of writes, perhaps behind a State that is dropped.
    fn grow_read_root(&mut self) {
        let mut memory = self.grow(MEMORY, 1);
        for _ in 0..1 + self.random.below(3) {
            let address = self.grow_address();
            let value = self.grow(WORD, 1);
            memory = self.push(WRITE, MEMORY, [memory, address, value], 0);
        }
        if self.random.chance(1, 3) {
            let name = self.some_name();
            memory = self.push(STATE, MEMORY, [memory, 1, 0], name);
            self.push(NEXT, MEMORY, [memory, memory, 0], 0);
        }
        let constants = self.constant_words();
        let address = match self.random.below(4) {
            0 => self.grow_address(),
            _ if constants.is_empty() => self.grow_address(),
            _ => self.random.pick(&constants),
        };
        let read = self.push(READ, WORD, [memory, address, 0], 0);
        let other = self.grow(WORD, 1);
        let kind = self.random.pick(&[ULT, EQ]);
        let condition = self.push(kind, BIT, [read, other, 0], 0);
        self.push(BAD, BIT, [condition, 0, 0], 0);
    }

    // A small Const, a sum of two Consts, or a word that is open.
    fn grow_address(&mut self) -> u64 {
        let constants = self.constant_words();
        match self.random.below(8) {
            0 if !self.table.names.is_empty() => self.push(INPUT, WORD, [0; 3], 1),
            1 => self.push(STATE, WORD, [0; 3], 0),
            2 if !constants.is_empty() => {
                let left = self.random.pick(&constants);
                let right = self.random.pick(&constants);
                self.push(ADD, WORD, [left, right, 0], 0)
            }
            3..=5 if !constants.is_empty() => self.random.pick(&constants),
            _ => {
                let number = self.random.below(3);
                self.push(CONST, WORD, [number, 0, 0], 0)
            }
        }
    }

    fn constant_words(&self) -> Vec<u64> {
        self.places(|row| row.kind == CONST && row.sort == WORD)
    }

    // A Next of the State, often one that is dropped.
    fn grow_next(&mut self, state: u64, room: u64) {
        let row = self.table.nodes[state as usize].clone();
        let init = self.table.nodes[row.words[0] as usize].clone();
        let next = match self.random.below(6) {
            0 | 1 => state,
            2 if init.kind == CONST => self.push(CONST, init.sort, init.words, 0),
            3 if init.kind == CONST => row.words[0],
            _ => self.grow(row.sort, room),
        };
        self.push(NEXT, row.sort, [state, next, 0], 0);
    }

    // A node of the sort over about `room` new ones, itself counted.
    fn grow(&mut self, sort: u64, room: u64) -> u64 {
        if let Some(node) = self.some(sort) {
            if room == 0 || self.random.chance(1, 4) {
                return node;
            }
        }
        if room < 2 {
            return self.grow_leaf(sort);
        }
        let kind = self.draw_kind(sort);
        let compared = match self.random.pick(self.sorts) {
            MEMORY => WORD,
            other => other,
        };
        let operand_sorts: &[u64] = match kind {
            CONST | INPUT => return self.grow_leaf(sort),
            READ => &[MEMORY, WORD],
            WRITE => &[MEMORY, WORD, WORD],
            ULT | EQ => &[compared, compared],
            EXT => &[compared],
            ITE => &[BIT, sort, sort],
            NOT | STATE => &[sort],
            _ => &[sort, sort],
        };
        let mut words = [0; 3];
        let mut left = room - 1;
        for (k, operand_sort) in operand_sorts.iter().enumerate() {
            let last = k + 1 == operand_sorts.len();
            let share = if last { left } else { self.random.below(left + 1) };
            words[k] = self.grow(*operand_sort, share);
            left -= share;
        }
        match kind {
            EXT => words[1] = compared,
            STATE => words[1] = 1,
            _ => (),
        }
        let name = if kind == STATE { self.some_name() } else { 0 };
        self.push(kind, sort, words, name)
    }

    fn draw_kind(&mut self, sort: u64) -> u64 {
        let kinds: &[u64] = match sort {
            BIT if self.sorts[0] != BIT && self.random.chance(1, 2) => &[ULT, EQ],
            BIT => &[CONST, ULT, ULT, EQ, EQ, AND, AND, OR, OR, NOT, ITE, ITE, STATE],
            WORD if self.sorts.contains(&MEMORY) && self.random.chance(3, 4) => {
                &[READ, READ, READ, READ, ADD, ITE, STATE, CONST]
            }
            WORD => &[
                ADD, SUB, MUL, DIVU, DIV, REM, SLL, SRL, EXT, EXT, ITE, ITE, AND, OR, NOT, STATE,
                CONST,
            ],
            MEMORY => &[WRITE, WRITE, WRITE, WRITE, WRITE, ITE, STATE, INPUT],
            _ => &[CONST, AND, AND, OR, OR, NOT, NOT, ITE, STATE],
        };
        self.random.pick(kinds)
    }

    fn grow_leaf(&mut self, sort: u64) -> u64 {
        let kind = match sort {
            BIT => self.random.pick(&[CONST, STATE, STATE, INPUT]),
            _ => self.random.pick(&[CONST, CONST, CONST, STATE, STATE, INPUT]),
        };
        if kind == CONST && sort != MEMORY {
            let number = self.number(sort);
            return self.push(CONST, sort, [number, 0, 0], 0);
        }
        if kind == INPUT && !self.table.names.is_empty() {
            let name = 1 + self.random.below(self.table.names.len() as u64);
            return self.push(INPUT, sort, [0; 3], name);
        }
        let dumps = !self.table.names.is_empty() && sort == MEMORY && self.random.chance(3, 4);
        let name = if dumps { 1 } else { self.some_name() };
        self.push(STATE, sort, [0; 3], name)
    }

    fn push(&mut self, kind: u64, sort: u64, words: [u64; 3], name: u64) -> u64 {
        self.table.push(kind, sort, words, name)
    }

    fn draw_names(&mut self) {
        if self.random.chance(2, 3) {
            let name = self.random.pick(&DUMPS);
            self.push_name(name);
        }
        for _ in 0..self.random.below(3) {
            let name = self.random.pick(&NAMES);
            self.push_name(name);
        }
    }

    fn push_name(&mut self, name: &[u8]) {
        self.table.names.push(name.iter().map(|byte| *byte as u64).collect());
    }

    fn draw_inputs(&mut self) {
        if self.random.chance(1, 2) {
            for _ in 0..1 + self.random.below(5) {
                let input = match self.random.below(12) {
                    0 => self.random.near_power(),
                    1 | 2 => self.random.below(300),
                    3 | 4 => self.random.below(8),
                    _ => self.random.below(2),
                };
                self.table.inputs.push(input);
            }
        }
    }

    // Mostly replies that the questions of the mode can have.
    fn draw_replies(&mut self) {
        let replies: &[u64] = match (self.random.below(12), self.table.mode) {
            (0, _) => &[0, 1, 2, 3, u64::MAX],
            (_, 0 | 2) => &[0, 1, 2],
            (_, 1 | 3) => &[0, 0, 0, 0, 0, 0, 1, 1, 1, 2],
            _ => &[0, 0, 0, 0, 0, 0, 1, 1, 1, 1, 1, 1, 1, 2],
        };
        for _ in 0..self.random.below(9) {
            let reply = self.random.pick(replies);
            self.table.replies.push(reply);
        }
    }

    // A number that fits the sort.
    fn number(&mut self, sort: u64) -> u64 {
        let ones = largest(sort).unwrap_or(u64::MAX);
        if self.sorts.contains(&MEMORY) && self.random.chance(3, 4) {
            return ones & self.random.below(3);
        }
        ones & match self.random.below(8) {
            0 => 0,
            1 => ones,
            2 => self.random.near_power(),
            3 => self.random.of_any_length(),
            _ => self.random.below(6),
        }
    }

    fn some_name(&mut self) -> u64 {
        self.random.below(self.table.names.len() as u64 + 1)
    }

    fn places(&self, wanted: impl Fn(&Row) -> bool) -> Vec<u64> {
        let rows = self.table.nodes.iter().zip(0..);
        rows.filter(|(row, _)| wanted(row)).map(|(_, place)| place).collect()
    }

    // A node of the sort that can be an operand, often one of the last two.
    fn some(&mut self, sort: u64) -> Option<u64> {
        let places = self.places(|row| row.sort == sort && !matches!(row.kind, NEXT | BAD));
        if places.is_empty() {
            return None;
        }
        let last = &places[places.len().saturating_sub(2)..];
        Some(if self.random.chance(1, 2) {
            self.random.pick(last)
        } else {
            self.random.pick(&places)
        })
    }

    fn draw_lists(&mut self) {
        let mut states = Vec::new();
        for place in self.places(|row| row.kind == NEXT) {
            let state = self.table.nodes[place as usize].words[0];
            let has_init = !self.table.nodes[state as usize].operands().is_empty();
            if has_init && !states.contains(&state) && self.random.chance(9, 10) {
                states.push(state);
                self.table.sequentials.push(place);
            }
        }
        let bads = self.places(|row| row.kind == BAD);
        let mut lists = [vec![], vec![]];
        for list in &mut lists {
            for bad in &bads {
                if self.random.chance(2, 3) {
                    list.push(*bad);
                }
            }
            if !bads.is_empty() && self.random.chance(1, 5) {
                list.push(self.random.pick(&bads));
            }
            if self.random.chance(1, 4) {
                list.reverse();
            }
        }
        [self.table.initial_bads, self.table.sequential_bads] = lists;
        if self.random.chance(1, 4) {
            self.table.sequentials.reverse();
        }
    }
}
