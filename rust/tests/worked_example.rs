// The worked example of docs/FORMAT.md, as text, as Rust values and through all three entry points; and labels.

mod support;

use gemtweed::*;

const INPUT: &str = include_str!("../../crates/optimize_model/stdin");
const OUTPUT: &str = include_str!("../../crates/optimize_model/stdout");

fn table() -> Table {
    let mut table = Table::default();
    let name = table.name(b"hold-end");
    let hold_end = table.add(Node::State { sort: Sort::Word, init: None, name: Some(name) });
    let noon = table.add(Node::Const { sort: Sort::Word, number: 12 });
    let before = table.add(Node::Ult { left: hold_end, right: noon });
    let bad = table.add(Node::Bad { condition: before, name: None });
    table.initial_bads.push(bad);
    table.inputs.push(12);
    table
}

#[test]
fn as_text() {
    let call = support::read(INPUT.as_bytes()).unwrap();
    assert_eq!(support::fold(&call), OUTPUT);
}

#[test]
fn values_are_the_words_of_the_text() {
    let call = support::read(INPUT.as_bytes()).unwrap();
    assert_eq!(table().words(), call.words);
    assert_eq!(table().names_bytes(), call.names);
}

#[test]
fn as_values() {
    let folded = table().fold(Mode::default()).unwrap();
    let name = Some(Name(1));
    let [state, noon] = [NodeId(0), NodeId(1)];
    let [no, taken] = [NodeId(4), NodeId(6)];
    assert_eq!(
        folded,
        Folded {
            nodes: vec![
                Node::State { sort: Sort::Word, init: None, name },
                Node::Const { sort: Sort::Word, number: 12 },
                Node::Ult { left: taken, right: noon },
                Node::Bad { condition: no, name: None },
            ],
            constants: vec![
                Constant { sort: Sort::Bit, number: 0 },
                Constant { sort: Sort::Bit, number: 1 },
                Constant { sort: Sort::Word, number: 12 },
            ],
            replacements: vec![(state, taken), (NodeId(2), no)],
            sequentials: vec![],
            initial_bads: vec![],
            sequential_bads: vec![],
            inputs_left: vec![],
            questions: vec![],
            tally: Tally {
                inputs_taken: 1,
                replies_taken: 0,
                writes_looked_at: 0,
                unsettled_passed: 0,
                verdict: Verdict::NotOneQuery,
            },
        }
    );
}

#[test]
fn with_input_is_mode_0_without_replies() {
    let mut table = table();
    let folded = table.fold(Mode::default());
    table.replies.push(Reply::Satisfiable);
    assert_eq!(table.fold_with_input(), folded);
}

// No input is taken, so the bad state stays, and the question about it takes the reply.
#[test]
fn with_solver_brings_no_inputs() {
    let mut table = table();
    table.replies.push(Reply::Satisfiable);
    let folded = table.fold_with_solver(Mode::default()).unwrap();
    assert_eq!(folded.initial_bads, [NodeId(3)]);
    assert_eq!(folded.inputs_left, []);
    let question = Question { asked: Asked::Satisfiable(NodeId(2)), reply: Reply::Satisfiable };
    assert_eq!(folded.questions, [question]);
    let terminate = Mode { terminate: true, ..Mode::default() };
    let refused = table.fold_with_solver(terminate).unwrap_err();
    assert_eq!(refused.to_string(), "initial bads, entry 0: satisfiable");
}

#[test]
fn labels() {
    let table = table();
    assert_eq!(table.label(NodeId(0), b"?"), b"hold-end");
    assert_eq!(table.label(NodeId(3), b"no name"), b"no name");
    assert_eq!(table.label(NodeId(4), b""), b"");
    assert_eq!(table.label(NodeId(9), &[65; 200]), [65; 200]);
    assert_eq!(label(&table.words(), &[1, 0], b"short names", 0), b"short names");
}
