// The house's numbers (docs/FORMAT.md) for the oracle, the benchmark and the programs of tests/: the words of a node, room, the highest mode,
// limits, and the codes of kinds and sorts. tests/constants.py holds them to the definitions.
#![allow(dead_code)] // no program needs all

pub const ROW_WIDTH: usize = 6;
pub const NODE_ROOM: usize = 22;
pub const BAD_ROOM: usize = 5;
pub const LEAST_ROOM: usize = 22;
pub const HIGHEST_MODE: u64 = 7;

pub const MOST_NODES: u64 = 4096;
pub const MOST_ENTRIES: u64 = 1024; // in each of sections 2, 3 and 4
pub const MOST_INPUTS: u64 = 4096;
pub const MOST_REPLIES: u64 = 16384;
pub const MOST_NAMES: u64 = 4096;
pub const LONGEST_NAME: u64 = 64;
pub const MOST_NUMBERS: usize = 4096; // in the program's text
pub const PROGRAM_ROOM: usize = 4096; // words of the program's result and scratch

// The limits of sections 1 to 7.
pub const LIMITS: [u64; 7] =
    [MOST_NODES, MOST_ENTRIES, MOST_ENTRIES, MOST_ENTRIES, MOST_INPUTS, MOST_REPLIES, MOST_NAMES];

// The words of an entry in the nine sections of a result.
pub const RESULT_WIDTHS: [usize; 9] = [ROW_WIDTH, 2, 2, 1, 1, 1, 1, 4, 1];

// The nodes that a table has at most in the program.
pub const PROGRAM_NODES: u64 = ((PROGRAM_ROOM - LEAST_ROOM) / NODE_ROOM) as u64;

pub const CONST: u64 = 1;
pub const READ: u64 = 2;
pub const WRITE: u64 = 3;
pub const ADD: u64 = 4;
pub const SUB: u64 = 5;
pub const MUL: u64 = 6;
pub const DIVU: u64 = 7;
pub const DIV: u64 = 8;
pub const REM: u64 = 9;
pub const SLL: u64 = 10;
pub const SRL: u64 = 11;
pub const ULT: u64 = 12;
pub const EXT: u64 = 13;
pub const ITE: u64 = 14;
pub const EQ: u64 = 15;
pub const AND: u64 = 16;
pub const OR: u64 = 17;
pub const NOT: u64 = 18;
pub const STATE: u64 = 19;
pub const NEXT: u64 = 20;
pub const INPUT: u64 = 21;
pub const BAD: u64 = 22;

pub const BIT: u64 = 1;
pub const WORD: u64 = 2;
pub const MEMORY: u64 = 3;
pub const BYTE: u64 = 11; // and one more for each byte more
pub const BYTES_7: u64 = BYTE + 6;

// The bits of a sort other than memory; nothing for a word that is no such sort.
pub fn width(sort: u64) -> Option<u64> {
    match sort {
        BIT => Some(1),
        WORD => Some(64),
        BYTE..=BYTES_7 => Some(8 * (sort - BYTE + 1)),
        _ => None,
    }
}

// The largest number of a sort; nothing for a memory and for what is no sort.
pub fn largest(sort: u64) -> Option<u64> {
    width(sort).map(|width| u64::MAX >> (64 - width))
}
