//! Sorts, nodes and names, and the words of a node.

use crate::house::*;

/// What a node's value is.
#[derive(Clone, Copy, Debug, PartialEq, Eq, Hash)]
pub enum Sort {
    Bit,
    /// 64 bits.
    Word,
    /// A word at each 64-bit address.
    Memory,
    /// 1 to 7 bytes. Another number is no sort, and draws refusal 3.
    Bytes(u8),
}

/// The number of a node: of the table, or past it one of the constants of a result.
#[derive(Clone, Copy, Debug, PartialEq, Eq, Hash, PartialOrd, Ord)]
pub struct NodeId(pub u64);

/// The number of a name, from 1.
#[derive(Clone, Copy, Debug, PartialEq, Eq, Hash)]
pub struct Name(pub u64);

/// A node of a BTOR2 model, with its operands.
#[derive(Clone, Copy, Debug, PartialEq, Eq, Hash)]
pub enum Node {
    Const { sort: Sort, number: u64 },
    Read { memory: NodeId, address: NodeId },
    Write { memory: NodeId, address: NodeId, value: NodeId },
    Add { left: NodeId, right: NodeId },
    Sub { left: NodeId, right: NodeId },
    Mul { left: NodeId, right: NodeId },
    Divu { left: NodeId, right: NodeId },
    Div { left: NodeId, right: NodeId },
    Rem { left: NodeId, right: NodeId },
    Sll { left: NodeId, right: NodeId },
    Srl { left: NodeId, right: NodeId },
    Ult { left: NodeId, right: NodeId },
    Ext { from: Sort, value: NodeId },
    Ite { sort: Sort, condition: NodeId, left: NodeId, right: NodeId },
    Eq { left: NodeId, right: NodeId },
    And { sort: Sort, left: NodeId, right: NodeId },
    Or { sort: Sort, left: NodeId, right: NodeId },
    Not { sort: Sort, value: NodeId },
    State { sort: Sort, init: Option<NodeId>, name: Option<Name> },
    Next { sort: Sort, state: NodeId, next: NodeId },
    Input { sort: Sort, name: Name },
    Bad { condition: NodeId, name: Option<Name> },
}

impl Sort {
    pub fn code(self) -> u64 {
        match self {
            Sort::Bit => BIT,
            Sort::Word => WORD,
            Sort::Memory => MEMORY,
            Sort::Bytes(bytes @ 1..=7) => BYTE - 1 + u64::from(bytes),
            Sort::Bytes(_) => 0,
        }
    }

    pub fn from_code(code: u64) -> Option<Sort> {
        match code {
            BIT => Some(Sort::Bit),
            WORD => Some(Sort::Word),
            MEMORY => Some(Sort::Memory),
            BYTE..=BYTES_7 => Some(Sort::Bytes((code - BYTE + 1) as u8)),
            _ => None,
        }
    }
}

impl Node {
    /// Kind, sort, a, b, c, name.
    pub fn words(&self) -> [u64; ROW_WIDTH] {
        let two = |kind, sort, left: NodeId, right: NodeId| (kind, sort, [left.0, right.0, 0], 0);
        let number = |name: Option<Name>| name.map_or(0, |name| name.0);
        let (kind, sort, [a, b, c], name) = match *self {
            Node::Const { sort, number } => (CONST, sort, [number, 0, 0], 0),
            Node::Read { memory, address } => two(READ, Sort::Word, memory, address),
            Node::Write { memory, address, value } => {
                (WRITE, Sort::Memory, [memory.0, address.0, value.0], 0)
            }
            Node::Add { left, right } => two(ADD, Sort::Word, left, right),
            Node::Sub { left, right } => two(SUB, Sort::Word, left, right),
            Node::Mul { left, right } => two(MUL, Sort::Word, left, right),
            Node::Divu { left, right } => two(DIVU, Sort::Word, left, right),
            Node::Div { left, right } => two(DIV, Sort::Word, left, right),
            Node::Rem { left, right } => two(REM, Sort::Word, left, right),
            Node::Sll { left, right } => two(SLL, Sort::Word, left, right),
            Node::Srl { left, right } => two(SRL, Sort::Word, left, right),
            Node::Ult { left, right } => two(ULT, Sort::Bit, left, right),
            Node::Ext { from, value } => (EXT, Sort::Word, [value.0, from.code(), 0], 0),
            Node::Ite { sort, condition, left, right } => {
                (ITE, sort, [condition.0, left.0, right.0], 0)
            }
            Node::Eq { left, right } => two(EQ, Sort::Bit, left, right),
            Node::And { sort, left, right } => two(AND, sort, left, right),
            Node::Or { sort, left, right } => two(OR, sort, left, right),
            Node::Not { sort, value } => (NOT, sort, [value.0, 0, 0], 0),
            Node::State { sort, init: Some(init), name } => {
                (STATE, sort, [init.0, 1, 0], number(name))
            }
            Node::State { sort, init: None, name } => (STATE, sort, [0; 3], number(name)),
            Node::Next { sort, state, next } => two(NEXT, sort, state, next),
            Node::Input { sort, name } => (INPUT, sort, [0; 3], name.0),
            Node::Bad { condition, name } => (BAD, Sort::Bit, [condition.0, 0, 0], number(name)),
        };
        [kind, sort.code(), a, b, c, name]
    }

    /// The node of words whose kind and sort codes are known. What the kind does not use is not looked at.
    pub fn from_words([kind, sort, a, b, c, name]: [u64; ROW_WIDTH]) -> Option<Node> {
        let sort = Sort::from_code(sort)?;
        let (left, right) = (NodeId(a), NodeId(b));
        let given = (name != 0).then_some(Name(name));
        Some(match kind {
            CONST => Node::Const { sort, number: a },
            READ => Node::Read { memory: left, address: right },
            WRITE => Node::Write { memory: left, address: right, value: NodeId(c) },
            ADD => Node::Add { left, right },
            SUB => Node::Sub { left, right },
            MUL => Node::Mul { left, right },
            DIVU => Node::Divu { left, right },
            DIV => Node::Div { left, right },
            REM => Node::Rem { left, right },
            SLL => Node::Sll { left, right },
            SRL => Node::Srl { left, right },
            ULT => Node::Ult { left, right },
            EXT => Node::Ext { from: Sort::from_code(b)?, value: left },
            ITE => Node::Ite { sort, condition: left, left: right, right: NodeId(c) },
            EQ => Node::Eq { left, right },
            AND => Node::And { sort, left, right },
            OR => Node::Or { sort, left, right },
            NOT => Node::Not { sort, value: left },
            STATE => Node::State { sort, init: (b == 1).then_some(left), name: given },
            NEXT => Node::Next { sort, state: left, next: right },
            INPUT => Node::Input { sort, name: Name(name) },
            BAD => Node::Bad { condition: left, name: given },
            _ => return None,
        })
    }
}
