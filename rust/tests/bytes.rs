// Ands and Ors of bytes: the constant that a fold makes for one is of as many bytes, and has the machine's own number.

use gemtweed::{Constant, Mode, Node, NodeId, Sort, Table};

type Operator = fn(Sort, NodeId, NodeId) -> Node;

const AND: Operator = |sort, left, right| Node::And { sort, left, right };
const OR: Operator = |sort, left, right| Node::Or { sort, left, right };

// A Bad on whether an operator's value is its left one; the operator's own node is 2.
fn table(operator: Operator, sort: Sort, left: u64, right: u64) -> Table {
    let mut table = Table::default();
    let left = table.add(Node::Const { sort, number: left });
    let right = table.add(Node::Const { sort, number: right });
    let value = table.add(operator(sort, left, right));
    let condition = table.add(Node::Eq { left: value, right: left });
    let bad = table.add(Node::Bad { condition, name: None });
    table.initial_bads.push(bad);
    table
}

// The constant made for the operator.
fn made(operator: Operator, sort: Sort, left: u64, right: u64) -> Constant {
    let folded = table(operator, sort, left, right).fold(Mode::default()).unwrap();
    let made = NodeId(7);
    assert_eq!(folded.replacements[0], (NodeId(2), made));
    assert_eq!(folded.nodes[3], Node::Eq { left: made, right: NodeId(0) });
    assert_eq!(folded.constants.len(), 3);
    folded.constants[2]
}

#[test]
fn and_of_3_and_5_is_the_byte_1() {
    assert_eq!(made(AND, Sort::Bytes(1), 3, 5), Constant { sort: Sort::Bytes(1), number: 1 });
}

#[test]
fn each_sort_at_its_limits() {
    for bytes in 1..=7 {
        let sort = Sort::Bytes(bytes);
        let top = (1 << (8 * bytes)) - 1;
        assert_eq!(made(AND, sort, top - 1, 2), Constant { sort, number: 2 });
        assert_eq!(made(AND, sort, top - 1, 1), Constant { sort, number: 0 });
        assert_eq!(made(OR, sort, top / 2 + 1, 1), Constant { sort, number: top / 2 + 2 });
        assert_eq!(made(OR, sort, top - 1, 1), Constant { sort, number: top });
    }
}

#[test]
fn words_stay_words() {
    let sort = Sort::Word;
    assert_eq!(made(AND, sort, 3, 5), Constant { sort, number: 1 });
    assert_eq!(made(OR, sort, 3, 5), Constant { sort, number: 7 });
}

// An operand stands for an operator on all zeros or all ones, and nothing is made.
#[test]
fn zeros_and_ones_make_none() {
    let sort = Sort::Bytes(2);
    for (operator, left, right, stands) in
        [(AND, 0, 5, 0), (AND, 65535, 5, 1), (OR, 0, 5, 1), (OR, 65535, 5, 0)]
    {
        let folded = table(operator, sort, left, right).fold(Mode::default()).unwrap();
        assert_eq!(folded.constants.len(), 2);
        assert_eq!(folded.replacements[0], (NodeId(2), NodeId(stands)));
    }
}
