// A refusal of every number, from 1 to 14 without 9: the case, its numbers, its words, and both buffers 0.

use gemtweed::*;

const WORD: Sort = Sort::Word;

fn number(number: u64) -> Node {
    Node::Const { sort: WORD, number }
}

fn of(nodes: &[Node]) -> Table {
    let mut table = Table { nodes: nodes.to_vec(), ..Table::default() };
    table.name(b"x");
    table
}

fn free_state(sort: Sort) -> Node {
    Node::State { sort, init: None, name: None }
}

// A Bad on an Input: nothing folds.
fn open_bad() -> Table {
    let input = Node::Input { sort: Sort::Bit, name: Name(1) };
    let mut table = of(&[input, Node::Bad { condition: NodeId(0), name: None }]);
    table.initial_bads.push(NodeId(1));
    table
}

fn refusal(mode: u64, words: &[u64], names: &[u8], room: [usize; 2]) -> Refusal {
    let (mut result, mut scratch) = (vec![7; room[0]], vec![9; room[1]]);
    let refused = optimize_model_impl(mode, words, names, &mut result, &mut scratch).unwrap_err();
    assert!(result.iter().chain(&scratch).all(|word| *word == 0), "a refusal leaves zeros");
    refused
}

#[track_caller]
fn refused(mode: u64, table: &Table, numbers: [u64; 3], words: &str) {
    let room = [table.room(); 2];
    let refused = refusal(mode, &table.words(), &table.names_bytes(), room);
    assert_eq!([refused.number(), refused.section(), refused.position()], numbers);
    assert_eq!(refused.to_string(), words);
}

#[test]
fn number_1_the_mode() {
    let words = format!("mode: above {HIGHEST_MODE}");
    refused(HIGHEST_MODE + 1, &of(&[]), [1, 0, 0], &words);
}

#[test]
fn number_1_short_or_left_over() {
    let room = [200; 2];
    assert_eq!(refusal(0, &[], &[0, 0], room), Refusal::Short { section: 1 });
    assert_eq!(refusal(0, &[0, 1], &[0, 0], room), Refusal::Short { section: 2 });
    assert_eq!(refusal(0, &[0; 7], &[0, 0], room), Refusal::Short { section: 6 });
    assert_eq!(refusal(0, &[0; 6], &[0, 0, 0], room), Refusal::Short { section: 7 });
    assert_eq!(Refusal::Short { section: 2 }.to_string(), "sequentials: too few words");
    let left_over = "replies: too few words, or words left over";
    assert_eq!(Refusal::Short { section: 6 }.to_string(), left_over);
}

#[test]
fn number_2() {
    let names = |count, length| Table { names: vec![vec![97; length]; count], ..Table::default() };
    let too_many = "names: too many, or one too long";
    refused(0, &names(1, LONGEST_NAME + 1), [2, 7, 0], too_many);
    refused(0, &names(1, 300), [2, 7, 0], too_many);
    refused(0, &names(MOST_NAMES + 1, 0), [2, 7, 0], too_many);
    refused(0, &of(&vec![number(0); MOST_NODES + 1]), [2, 1, 0], "nodes: too many");
}

// Every section at its limit: a Bad on 0, a Next for each of as many states as may be listed, and constants.
fn at_limits() -> Table {
    let zero = Node::Const { sort: Sort::Bit, number: 0 };
    let mut table = Table {
        nodes: vec![zero, Node::Bad { condition: NodeId(0), name: None }],
        initial_bads: vec![NodeId(1); MOST_ENTRIES],
        sequential_bads: vec![NodeId(1); MOST_ENTRIES],
        inputs: vec![0; MOST_INPUTS],
        replies: vec![Reply::No; MOST_REPLIES],
        names: vec![vec![97; LONGEST_NAME]; MOST_NAMES],
        ..Table::default()
    };
    for _ in 0..MOST_ENTRIES {
        let init = Some(NodeId(0));
        let state = table.add(Node::State { sort: Sort::Bit, init, name: None });
        let next = table.add(Node::Next { sort: Sort::Bit, state, next: NodeId(0) });
        table.sequentials.push(next);
    }
    table.nodes.resize(MOST_NODES, zero);
    table
}

#[test]
fn number_2_past_each_limit() {
    let whole = at_limits();
    assert!(whole.fold(Mode::default()).is_ok());
    let past: [(u64, fn(&mut Table)); 7] = [
        (1, |table| table.nodes.push(number(0))),
        (2, |table| table.sequentials.push(NodeId(3))),
        (3, |table| table.initial_bads.push(NodeId(1))),
        (4, |table| table.sequential_bads.push(NodeId(1))),
        (5, |table| table.inputs.push(0)),
        (6, |table| table.replies.push(Reply::No)),
        (7, |table| table.names.push(Vec::new())),
    ];
    for (section, more) in past {
        let mut table = whole.clone();
        more(&mut table);
        assert_eq!(table.fold(Mode::default()), Err(Refusal::OverLimit { section }));
    }
}

#[test]
fn number_3() {
    let unknown = "node 1: unknown kind or sort, a word that must be 0, or a name rule broken";
    let no_sort = Node::Const { sort: Sort::Bytes(8), number: 0 };
    refused(0, &of(&[number(0), no_sort]), [3, 1, 1], unknown);
    let past = Node::Input { sort: WORD, name: Name(2) };
    refused(0, &of(&[number(0), past]), [3, 1, 1], unknown);
}

#[test]
fn number_4() {
    let own = Node::Not { sort: WORD, value: NodeId(3) };
    let table = of(&[number(0), number(1), number(2), own]);
    refused(0, &table, [4, 1, 3], "node 3: operand not before its node");
}

#[test]
fn number_5() {
    let wide = Node::Const { sort: Sort::Bytes(1), number: 256 };
    refused(0, &of(&[wide]), [5, 1, 0], "node 0: its sorts do not fit, its number is too wide, or an operand is a Next, a Bad or no State");
}

#[test]
fn number_6() {
    let mut table = of(&[number(0)]);
    table.sequential_bads.push(NodeId(0));
    refused(0, &table, [6, 4, 0], "sequential bads, entry 0: not a Bad");
    table.sequentials.push(NodeId(1));
    refused(0, &table, [6, 2, 0], "sequentials, entry 0: not a Next whose state has an init");
}

#[test]
fn number_7() {
    let state = Node::State { sort: WORD, init: Some(NodeId(0)), name: None };
    let next = Node::Next { sort: WORD, state: NodeId(1), next: NodeId(0) };
    let mut table = of(&[number(0), state, next]);
    table.sequentials = vec![NodeId(2), NodeId(2)];
    refused(0, &table, [7, 2, 1], "sequentials, entry 1: a second Next for one state");
}

// A State without an init, of a sort, that takes an input on the way to a bad state.
fn takes(sort: Sort, input: u64) -> Table {
    let state = free_state(sort);
    let below = match sort {
        Sort::Memory => Node::Read { memory: NodeId(0), address: NodeId(1) },
        _ => Node::Ext { from: sort, value: NodeId(0) },
    };
    let equal = Node::Eq { left: NodeId(2), right: NodeId(1) };
    let bad = Node::Bad { condition: NodeId(3), name: None };
    let mut table = of(&[state, number(5), below, equal, bad]);
    table.initial_bads.push(NodeId(4));
    table.inputs.push(input);
    table
}

#[test]
fn number_8() {
    refused(0, &takes(Sort::Memory, 1), [8, 1, 0], "node 0: a memory would take an input");
}

// A refusal of each case: the numbers are those of FORMAT's table.
#[test]
fn number_9_is_not_used() {
    let (node, place, section) = (0, 0, 3);
    let each = [
        Refusal::Short { section },
        Refusal::OverLimit { section },
        Refusal::Malformed { node },
        Refusal::OperandNotBefore { node },
        Refusal::Sorts { node },
        Refusal::Entry { section, place },
        Refusal::SecondSequential { place },
        Refusal::MemoryInput { node },
        Refusal::InputTooWide { node },
        Refusal::Reply { place },
        Refusal::NoRoom { buffer: Buffer::Result },
        Refusal::AlwaysTrue { section, place },
        Refusal::Satisfiable { section, place },
    ];
    let listed: Vec<u64> = (1..=14).filter(|number| *number != 9).collect();
    assert_eq!(each.map(Refusal::number).to_vec(), listed);
    assert_eq!(Refusal::Mode.number(), 1);
}

#[test]
fn number_10() {
    assert!(takes(Sort::Bytes(1), 255).fold(Mode::default()).is_ok());
    refused(0, &takes(Sort::Bytes(1), 256), [10, 1, 0], "node 0: its input is too wide");
}

#[test]
fn number_11() {
    let mut words = open_bad().words();
    let names = open_bad().names_bytes();
    let end = words.len() - 1;
    words[end] = 1;
    words.push(3);
    let refused = refusal(0, &words, &names, [200; 2]);
    assert_eq!(refused, Refusal::Reply { place: 0 });
    assert_eq!([refused.number(), refused.section(), refused.position()], [11, 6, 0]);
    assert_eq!(refused.to_string(), "reply 0: not one that its question can have");
}

#[test]
fn number_12() {
    let (words, names) = ([0; 6], [0, 0]);
    let short = |room| refusal(0, &words, &names, room);
    let least = LEAST_ROOM;
    assert_eq!(short([least - 1, least]), Refusal::NoRoom { buffer: Buffer::Result });
    assert_eq!(short([least, least - 1]), Refusal::NoRoom { buffer: Buffer::Scratch });
    assert_eq!(short([0, 0]).to_string(), "result: too little room");
    assert_eq!([short([least, 0]).section(), short([least, 0]).position()], [8, 1]);
    assert!(of(&[]).fold(Mode::default()).is_ok());
}

#[test]
fn number_13() {
    let mut table = of(&[
        Node::Const { sort: Sort::Bit, number: 1 },
        Node::Bad { condition: NodeId(0), name: None },
    ]);
    table.sequential_bads.push(NodeId(1));
    assert!(table.fold(Mode::default()).is_ok());
    refused(2, &table, [13, 4, 0], "sequential bads, entry 0: always true");
}

#[test]
fn number_14() {
    let mut table = open_bad();
    table.replies = vec![Reply::Satisfiable];
    assert!(table.fold(Mode::default()).is_ok());
    refused(2, &table, [14, 3, 0], "initial bads, entry 0: satisfiable");
}
