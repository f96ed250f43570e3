//! The house's numbers (docs/FORMAT.md): the words of a node, room, the highest mode, limits, and the codes of kinds and sorts.

/// The words of a node.
pub const ROW_WIDTH: usize = 6;
/// The room, in words, that each node needs.
pub const NODE_ROOM: usize = 22;
/// The room that each entry of the two lists of bad states needs.
pub const BAD_ROOM: usize = 5;
/// The room that a table without nodes and entries needs.
pub const LEAST_ROOM: usize = 22;
/// A mode above this is refused.
pub const HIGHEST_MODE: u64 = 7;

/// The nodes that a table has at most.
pub const MOST_NODES: usize = 4096;
/// The entries that each list has at most: sequentials, initial bads, sequential bads.
pub const MOST_ENTRIES: usize = 1024;
pub const MOST_INPUTS: usize = 4096;
pub const MOST_REPLIES: usize = 16384;
pub const MOST_NAMES: usize = 4096;
/// The bytes that a name has at most.
pub const LONGEST_NAME: usize = 64;

// The kinds.
pub(crate) const CONST: u64 = 1;
pub(crate) const READ: u64 = 2;
pub(crate) const WRITE: u64 = 3;
pub(crate) const ADD: u64 = 4;
pub(crate) const SUB: u64 = 5;
pub(crate) const MUL: u64 = 6;
pub(crate) const DIVU: u64 = 7;
pub(crate) const DIV: u64 = 8;
pub(crate) const REM: u64 = 9;
pub(crate) const SLL: u64 = 10;
pub(crate) const SRL: u64 = 11;
pub(crate) const ULT: u64 = 12;
pub(crate) const EXT: u64 = 13;
pub(crate) const ITE: u64 = 14;
pub(crate) const EQ: u64 = 15;
pub(crate) const AND: u64 = 16;
pub(crate) const OR: u64 = 17;
pub(crate) const NOT: u64 = 18;
pub(crate) const STATE: u64 = 19;
pub(crate) const NEXT: u64 = 20;
pub(crate) const INPUT: u64 = 21;
pub(crate) const BAD: u64 = 22;

// The sorts.
pub(crate) const BIT: u64 = 1;
pub(crate) const WORD: u64 = 2;
pub(crate) const MEMORY: u64 = 3;
pub(crate) const BYTE: u64 = 11; // and one more for each byte more
pub(crate) const BYTES_7: u64 = BYTE + 6;
