// The least thread stack that folds a chain of as many nodes as there may be of each kind, by trying sizes, a process for each try.
//     cargo run --release --offline --example stack
// Its lines: the kind, bytes of stack for half as many and for all, and by how many bytes a node they differ.

use gemtweed::{here, Mode, Name, Node, NodeId, Sort, Table, MOST_NODES};
use std::process::{Command, Stdio};

type Chain = fn(&mut Table, NodeId) -> Node;

const BIT: Sort = Sort::Bit;
const WORD: Sort = Sort::Word;

// Each kind: the sort of its chain, whether under minimise, and the node over the last one. Nodes 0, 1 and 2 are a bit, a word, a memory.
#[rustfmt::skip]
const CHAINS: [(&str, Sort, bool, Chain); 18] = [
    ("Not", WORD, false, |_, x| Node::Not { sort: WORD, value: x }),
    ("Ext", WORD, false, |_, x| Node::Ext { from: WORD, value: x }),
    ("State", WORD, false, |_, x| Node::State { sort: WORD, init: Some(x), name: None }),
    ("Add, left", WORD, false, |_, x| Node::Add { left: x, right: NodeId(1) }),
    ("Add, right", WORD, false, |_, x| Node::Add { left: NodeId(1), right: x }),
    ("Eq", BIT, false, |_, x| Node::Eq { left: x, right: NodeId(0) }),
    ("Eq, minimise", BIT, true, |_, x| Node::Eq { left: x, right: NodeId(0) }),
    ("And", BIT, false, |_, x| Node::And { sort: BIT, left: NodeId(0), right: x }),
    ("Ite, condition", BIT, false, |_, x| Node::Ite { sort: BIT, condition: x, left: NodeId(0), right: NodeId(0) }),
    ("Ite, left", BIT, false, |_, x| Node::Ite { sort: BIT, condition: NodeId(0), left: x, right: NodeId(0) }),
    ("Ite, right", BIT, false, |_, x| Node::Ite { sort: BIT, condition: NodeId(0), left: NodeId(0), right: x }),
    ("Ite, right, minimise", BIT, true, |_, x| Node::Ite { sort: BIT, condition: NodeId(0), left: NodeId(0), right: x }),
    ("Ite, word, minimise", WORD, true, |_, x| Node::Ite { sort: WORD, condition: NodeId(0), left: x, right: NodeId(1) }),
    ("Ite, settled", BIT, false, |_, x| Node::Ite { sort: BIT, condition: NodeId(3), left: x, right: NodeId(0) }),
    ("Ite, settled, right", BIT, false, |_, x| Node::Ite { sort: BIT, condition: NodeId(4), left: NodeId(0), right: x }),
    ("Write", Sort::Memory, false, |_, x| Node::Write { memory: x, address: NodeId(1), value: NodeId(1) }),
    ("Read, address", WORD, false, |_, x| Node::Read { memory: NodeId(2), address: x }),
    ("Read and Write", WORD, false, |table, x| {
        let memory = table.add(Node::Write { memory: NodeId(2), address: NodeId(1), value: x });
        Node::Read { memory, address: NodeId(1) }
    }),
];

fn chain(kind: usize, nodes: usize) -> Table {
    let (_, sort, _, over) = CHAINS[kind];
    let mut table = Table::default();
    let name: Name = table.name(b"x");
    for sort in [BIT, WORD, Sort::Memory] {
        table.add(Node::Input { sort, name });
    }
    table.add(Node::Const { sort: BIT, number: 1 });
    table.add(Node::Const { sort: BIT, number: 0 });
    let mut last = NodeId(if sort == BIT {
        0
    } else if sort == WORD {
        1
    } else {
        2
    });
    while table.nodes.len() < nodes - 3 {
        let node = over(&mut table, last);
        last = table.add(node);
    }
    if sort == Sort::Memory {
        last = table.add(Node::Read { memory: last, address: NodeId(1) });
    }
    if sort != BIT {
        last = table.add(Node::Eq { left: last, right: NodeId(1) });
    }
    let bad = table.add(Node::Bad { condition: last, name: None });
    table.initial_bads.push(bad);
    table
}

fn fold_on(kind: usize, nodes: usize, stack: usize) {
    let table = chain(kind, nodes);
    let mode = Mode { minimise: CHAINS[kind].2, ..Mode::default() };
    let (words, names) = (table.words(), table.names_bytes());
    let mut result = vec![0; table.room()];
    let mut scratch = vec![0; table.room()];
    let fold = move || {
        // Too little stack ends this process, which its parent expects.
        unsafe {
            here::optimize_model_impl(mode.number(), &words, &names, &mut result, &mut scratch)
        }
    };
    let thread = std::thread::Builder::new().stack_size(stack).spawn(fold).expect("a thread");
    thread.join().expect("no panic").expect("accepted");
}

fn works(kind: usize, nodes: usize, stack: usize) -> bool {
    let own = std::env::current_exe().expect("this program");
    let words = [kind, nodes, stack].map(|number| number.to_string());
    let mut child = Command::new(own);
    child.args(words).stdout(Stdio::null()).stderr(Stdio::null());
    child.status().expect("a try").success()
}

// To within 4 KiB.
fn least(kind: usize, nodes: usize) -> usize {
    let (mut low, mut high) = (16 << 10, 64 << 20);
    assert!(works(kind, nodes, high), "64 MiB are not enough");
    while high - low > 4096 {
        let middle = (low + high) / 2;
        if works(kind, nodes, middle) {
            high = middle;
        } else {
            low = middle;
        }
    }
    high
}

fn main() {
    let words: Vec<usize> =
        std::env::args().skip(1).map(|word| word.parse().expect("a number")).collect();
    if let [kind, nodes, stack] = words[..] {
        return fold_on(kind, nodes, stack);
    }
    for (kind, (name, ..)) in CHAINS.iter().enumerate() {
        let nodes = MOST_NODES / 2;
        let (half, whole) = (least(kind, nodes), least(kind, 2 * nodes));
        println!("{name}: {half} {whole}, {} a node", (whole - half) / nodes);
    }
}
