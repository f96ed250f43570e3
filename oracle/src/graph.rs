// A judged table as the published Rust's graph of nodes, and a node of that graph as a row.

use crate::house::*;
use crate::table::Table;
use reference::unicorn::optimize::sort_code;
use reference::unicorn::{get_nodetype, Node, NodeRef, NodeType};

// The nodes and, if asked for, each Read's marker: an Or of 0 and the address, in its place. The
// fold always replaces a marker by the address, and says so just before it folds the Read.
pub fn build(table: &Table, marked: bool) -> (Vec<NodeRef>, Vec<Option<NodeRef>>) {
    let mut nodes: Vec<NodeRef> = Vec::new();
    let mut markers = Vec::new();
    let zero = NodeRef::from(Node::Const { nid: 0, sort: NodeType::Word, imm: 0 });
    for (at, row) in table.nodes.iter().enumerate() {
        let nid = at as u64;
        let operand = |k: usize| nodes[row.words[k] as usize].clone();
        let sort = node_type(row.sort);
        let name = (row.name.checked_sub(1)).map(|k| {
            table.names[k as usize].iter().map(|byte| char::from(*byte as u8)).collect::<String>()
        });
        let marker = (marked && row.kind == READ).then(|| {
            let (left, right) = (zero.clone(), operand(1));
            NodeRef::from(Node::Or { nid: 0, sort: NodeType::Word, left, right })
        });
        let left = || operand(0);
        let right = || operand(1);
        let node = match row.kind {
            CONST => Node::Const { nid, sort, imm: row.words[0] },
            READ => {
                let address = marker.clone().unwrap_or_else(right);
                Node::Read { nid, memory: operand(0), address }
            }
            WRITE => {
                Node::Write { nid, memory: operand(0), address: operand(1), value: operand(2) }
            }
            ADD => Node::Add { nid, left: left(), right: right() },
            SUB => Node::Sub { nid, left: left(), right: right() },
            MUL => Node::Mul { nid, left: left(), right: right() },
            DIVU => Node::Divu { nid, left: left(), right: right() },
            DIV => Node::Div { nid, left: left(), right: right() },
            REM => Node::Rem { nid, left: left(), right: right() },
            SLL => Node::Sll { nid, left: left(), right: right() },
            SRL => Node::Srl { nid, left: left(), right: right() },
            ULT => Node::Ult { nid, left: left(), right: right() },
            EXT => Node::Ext { nid, from: node_type(row.words[1]), value: operand(0) },
            ITE => Node::Ite { nid, sort, cond: operand(0), left: operand(1), right: operand(2) },
            EQ => Node::Eq { nid, left: left(), right: right() },
            AND => Node::And { nid, sort, left: left(), right: right() },
            OR => Node::Or { nid, sort, left: left(), right: right() },
            NOT => Node::Not { nid, sort, value: operand(0) },
            STATE => Node::State { nid, sort, init: (row.words[1] == 1).then(left), name },
            NEXT => Node::Next { nid, sort, state: operand(0), next: operand(1) },
            INPUT => Node::Input { nid, sort, name: name.expect("an Input's name") },
            BAD => Node::Bad { nid, cond: operand(0), name },
            _ => unreachable!("a judged kind"),
        };
        nodes.push(NodeRef::from(node));
        markers.push(marker);
    }
    (nodes, markers)
}

fn node_type(sort: u64) -> NodeType {
    match width(sort) {
        Some(width) => get_nodetype(width as usize, true),
        None => NodeType::Memory,
    }
}

// A node's kind, sort, a, b, c.
pub fn rewritten(node: &Node, number: impl Fn(&NodeRef) -> u64) -> [u64; 5] {
    let two = |kind, sort, left, right| [kind, sort, number(left), number(right), 0];
    match node {
        Node::Const { sort, imm, .. } => [CONST, sort_code(sort), *imm, 0, 0],
        Node::Read { memory, address, .. } => two(READ, WORD, memory, address),
        Node::Write { memory, address, value, .. } => {
            [WRITE, MEMORY, number(memory), number(address), number(value)]
        }
        Node::Add { left, right, .. } => two(ADD, WORD, left, right),
        Node::Sub { left, right, .. } => two(SUB, WORD, left, right),
        Node::Mul { left, right, .. } => two(MUL, WORD, left, right),
        Node::Divu { left, right, .. } => two(DIVU, WORD, left, right),
        Node::Div { left, right, .. } => two(DIV, WORD, left, right),
        Node::Rem { left, right, .. } => two(REM, WORD, left, right),
        Node::Sll { left, right, .. } => two(SLL, WORD, left, right),
        Node::Srl { left, right, .. } => two(SRL, WORD, left, right),
        Node::Ult { left, right, .. } => two(ULT, BIT, left, right),
        Node::Ext { from, value, .. } => [EXT, WORD, number(value), sort_code(from), 0],
        Node::Ite { sort, cond, left, right, .. } => {
            [ITE, sort_code(sort), number(cond), number(left), number(right)]
        }
        Node::Eq { left, right, .. } => two(EQ, BIT, left, right),
        Node::And { sort, left, right, .. } => two(AND, sort_code(sort), left, right),
        Node::Or { sort, left, right, .. } => two(OR, sort_code(sort), left, right),
        Node::Not { sort, value, .. } => [NOT, sort_code(sort), number(value), 0, 0],
        Node::State { sort, init, .. } => match init {
            Some(init) => [STATE, sort_code(sort), number(init), 1, 0],
            None => [STATE, sort_code(sort), 0, 0, 0],
        },
        Node::Next { sort, state, next, .. } => two(NEXT, sort_code(sort), state, next),
        Node::Input { sort, .. } => [INPUT, sort_code(sort), 0, 0, 0],
        Node::Bad { cond, .. } => [BAD, BIT, number(cond), 0, 0],
        Node::Comment(_) => unreachable!("no comments in a table"),
    }
}

pub fn constant(node: &NodeRef) -> Option<u64> {
    match &*node.borrow() {
        Node::Const { imm, .. } => Some(*imm),
        _ => None,
    }
}
