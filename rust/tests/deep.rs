// Chains of as many nodes as a table may have: folded from a thread with little stack, as the fold has its own; and on a thread's own 2 MiB and
// 1 MiB, which were measured to be enough.

use gemtweed::{here, Mode, Node, NodeId, Sort, Table, MOST_NODES};

const BIT: Sort = Sort::Bit;
const LAST: usize = MOST_NODES - 1;

fn chain(over: fn(NodeId) -> Node) -> Table {
    let mut table = Table::default();
    let name = table.name(b"x");
    let mut last = table.add(Node::Input { sort: BIT, name });
    while table.nodes.len() < LAST {
        last = table.add(over(last));
    }
    let bad = table.add(Node::Bad { condition: last, name: None });
    table.initial_bads.push(bad);
    table
}

fn on_thread(stack: usize, work: impl FnOnce() + Send + 'static) {
    let thread = std::thread::Builder::new().stack_size(stack).spawn(work).unwrap();
    thread.join().unwrap();
}

fn folds(over: fn(NodeId) -> Node) {
    on_thread(64 << 10, move || {
        let table = chain(over);
        for minimise in [false, true] {
            let folded = table.fold(Mode { minimise, ..Mode::default() }).unwrap();
            assert_eq!(folded.initial_bads, [NodeId(LAST as u64)]);
        }
    });
    // The header asks for 2 MiB. Half of that is enough too, unless a part of the walk is compiled apart from the rest.
    for stack in [2 << 20, 1 << 20] {
        on_thread(stack, move || {
            let table = chain(over);
            let mut result = vec![1; table.room()];
            let mut scratch = vec![1; table.room()];
            for mode in [0, 1] {
                let (words, names) = (table.words(), table.names_bytes());
                // Less than `stack_for` says, and enough.
                let folded = unsafe {
                    here::optimize_model_impl(mode, &words, &names, &mut result, &mut scratch)
                };
                assert!(folded.is_ok());
                assert!(scratch.iter().all(|word| *word == 0));
            }
        });
    }
}

#[test]
fn nots() {
    folds(|value| Node::Not { sort: BIT, value });
}

#[test]
fn ites_by_condition() {
    folds(|condition| Node::Ite { sort: BIT, condition, left: NodeId(0), right: NodeId(0) });
}

#[test]
fn ites_by_branch() {
    folds(|right| Node::Ite { sort: BIT, condition: NodeId(0), left: NodeId(0), right });
}

#[test]
fn equals() {
    folds(|left| Node::Eq { left, right: NodeId(0) });
}
