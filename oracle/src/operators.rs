// Prints the operator cases: kind, left, right, answer; Not has its sort's code on the right, Ext 0. Each answer is what the published fold
// makes of a model with that one operator, and is compared with the operator's own function. Before them stand two cases of each operator
// with a wrong answer, whose lowest or highest bit is another one. How many cases there are is said on standard error.

use judge::house::*;
use judge::random::Random;
use reference::unicorn::optimize::{all_ones, fold_model, sort_code, ConstantFolder};
use reference::unicorn::smt_solver::none_impl::NoneSolver;
use reference::unicorn::{get_nodetype, Model, Node, NodeRef, NodeType};
use std::collections::BTreeSet;

const BINARY: [u64; 12] = [ADD, SUB, MUL, DIVU, DIV, REM, SLL, SRL, ULT, EQ, AND, OR];
const WIDTHS: [u64; 9] = [1, 8, 16, 24, 32, 40, 48, 56, 64];

const LIMITS: [u64; 15] = [
    0,
    1,
    2,
    3,
    7,
    1 << 31,
    (1 << 32) - 1,
    1 << 32,
    (1 << 32) + 1,
    (1 << 63) - 1,
    1 << 63,
    (1 << 63) + 1,
    u64::MAX - 6,
    u64::MAX - 1,
    u64::MAX,
];
const AMOUNTS: [u64; 10] = [31, 32, 33, 62, 63, 64, 65, 127, 128, (1 << 32) + 63];

const SEED: u64 = 1;
const RANDOM_PAIRS: u64 = 250;

fn main() {
    let mut wrong = 0;
    for kind in BINARY.into_iter().chain([NOT, EXT]) {
        let left = u64::MAX - 6;
        let right = match kind {
            NOT => 64,
            EXT => 0,
            _ => 3,
        };
        let answer = folded(kind, left, right);
        print_case(kind, left, right, answer ^ 1);
        print_case(kind, left, right, answer ^ 1 << 63);
        wrong += 2;
    }

    let mut cases = Cases(BTreeSet::new());
    for kind in BINARY {
        for left in LIMITS {
            for right in LIMITS {
                cases.print(kind, left, right);
            }
        }
    }
    for kind in [SLL, SRL] {
        for left in LIMITS {
            for amount in AMOUNTS {
                cases.print(kind, left, amount);
            }
        }
    }
    for width in WIDTHS {
        for word in LIMITS {
            cases.print(NOT, word & mask(width), width);
        }
    }
    for value in LIMITS {
        cases.print(EXT, value, 0);
    }

    let mut random = Random(SEED);
    for kind in BINARY {
        for _ in 0..RANDOM_PAIRS {
            let (left, right) = random_pair(&mut random, kind);
            cases.print(kind, left, right);
        }
    }
    for _ in 0..RANDOM_PAIRS {
        let width = random.pick(&WIDTHS);
        let value = random_word(&mut random) & mask(width);
        cases.print(NOT, value, width);
    }
    for _ in 0..RANDOM_PAIRS {
        let value = random_word(&mut random);
        cases.print(EXT, value, 0);
    }
    eprintln!("{} cases, {wrong} wrong", wrong + cases.0.len());
}

fn mask(width: u64) -> u64 {
    all_ones(&get_nodetype(width as usize, true))
}

fn code(width: u64) -> u64 {
    sort_code(&get_nodetype(width as usize, true))
}

fn random_word(random: &mut Random) -> u64 {
    match random.below(3) {
        0 => random.near_power(),
        _ => random.of_any_length(),
    }
}

fn random_pair(random: &mut Random, kind: u64) -> (u64, u64) {
    let left = random_word(random);
    if matches!(kind, SLL | SRL) && random.chance(2, 3) {
        return (left, random.below(70));
    }
    let right = match random.below(6) {
        0 => left,
        1 => left.wrapping_add(random.below(3)).wrapping_sub(1),
        2 => random.below(17),
        3 => random.below(17).wrapping_neg(),
        _ => random_word(random),
    };
    (left, right)
}

// The cases printed so far: none is printed twice.
struct Cases(BTreeSet<(u64, u64, u64)>);

impl Cases {
    fn print(&mut self, kind: u64, left: u64, right: u64) {
        if self.0.insert((kind, left, right)) {
            let folded = folded(kind, left, right);
            assert_eq!(folded, direct(kind, left, right), "kind {kind} of {left} and {right}");
            print_case(kind, left, right, folded);
        }
    }
}

fn print_case(kind: u64, left: u64, right: u64, answer: u64) {
    let shown = if kind == NOT { code(right) } else { right };
    println!("{kind} {left} {shown} {answer}");
}

// The operator's own function, or Rust's operator where the published Rust has none.
fn direct(kind: u64, left: u64, right: u64) -> u64 {
    type Folder<'a> = ConstantFolder<'a, NoneSolver>;
    match kind {
        ADD => left.wrapping_add(right),
        SUB => left.wrapping_sub(right),
        MUL => left.wrapping_mul(right),
        DIVU => Folder::btor_u64_divu(left, right),
        DIV => Folder::btor_u64_div(left, right),
        REM => Folder::btor_u64_rem(left, right),
        SLL => Folder::btor_u64_sll(left, right),
        SRL => Folder::btor_u64_srl(left, right),
        ULT => (left < right) as u64,
        EQ => (left == right) as u64,
        AND => left & right,
        OR => left | right,
        NOT => !left & mask(right),
        EXT => left,
        _ => unreachable!("no operator"),
    }
}

// What the published fold makes of the operator: the number left as the next of a State.
fn folded(kind: u64, a: u64, b: u64) -> u64 {
    let operand_sort = match kind {
        NOT => get_nodetype(b as usize, true),
        EXT => narrowest(a),
        _ => NodeType::Word,
    };
    let sort = match kind {
        ULT | EQ => NodeType::Bit,
        NOT => operand_sort.clone(),
        _ => NodeType::Word,
    };
    let nid = 0;
    let left = constant(operand_sort.clone(), a);
    let right = constant(NodeType::Word, b);
    let operator = NodeRef::from(match kind {
        ADD => Node::Add { nid, left, right },
        SUB => Node::Sub { nid, left, right },
        MUL => Node::Mul { nid, left, right },
        DIVU => Node::Divu { nid, left, right },
        DIV => Node::Div { nid, left, right },
        REM => Node::Rem { nid, left, right },
        SLL => Node::Sll { nid, left, right },
        SRL => Node::Srl { nid, left, right },
        ULT => Node::Ult { nid, left, right },
        EQ => Node::Eq { nid, left, right },
        AND => Node::And { nid, sort: sort.clone(), left, right },
        OR => Node::Or { nid, sort: sort.clone(), left, right },
        NOT => Node::Not { nid, sort: sort.clone(), value: left },
        EXT => Node::Ext { nid, from: operand_sort, value: left },
        _ => unreachable!("no operator"),
    });
    let state = NodeRef::from(Node::State {
        nid,
        sort: sort.clone(),
        init: Some(constant(sort.clone(), 0)),
        name: None,
    });
    let sequential = NodeRef::from(Node::Next { nid, sort, state, next: operator });
    let mut model = Model {
        lines: vec![],
        sequentials: vec![sequential],
        bad_states_initial: vec![],
        bad_states_sequential: vec![],
        data_range: 0..0,
        heap_range: 0..0,
        stack_range: 0..0,
        memory_size: 0,
    };
    fold_model::<NoneSolver>(&mut model, &mut vec![], false, false, false);
    let Node::Next { ref next, .. } = *model.sequentials[0].borrow() else {
        panic!("the Next is kept");
    };
    let Node::Const { imm, .. } = *next.borrow() else {
        panic!("kind {kind} of {a} and {b} is not folded");
    };
    imm
}

fn constant(sort: NodeType, imm: u64) -> NodeRef {
    NodeRef::from(Node::Const { nid: 0, sort, imm })
}

fn narrowest(value: u64) -> NodeType {
    let width = WIDTHS.into_iter().find(|width| value <= mask(*width));
    get_nodetype(width.unwrap_or(64) as usize, true)
}
