// What this crate's calls cost beside the C call, in microseconds, as the rows of a table of docs/PERFORMANCE.md.
//     cargo run --release --offline --example cost
// Each time is the fastest of at least 50 runs and a quarter of a second, in a process for each row: what an allocator keeps depends on what
// was freed before.

use gemtweed::{
    here, optimize_model_impl, stack_for, Folded, Mode, Node, NodeId, Sort, Table, MOST_NODES,
};
use std::hint::black_box;
use std::process::Command;
use std::time::{Duration, Instant};

const SHAPES: [(&str, fn(u64) -> Table); 2] =
    [("deep chain", deep_chain), ("wide tree", wide_tree)];
const SIZES: [u64; 4] = [64, 256, 1024, MOST_NODES as u64];
const LEAST_RUNS: u32 = 50;
const LEAST_TIME: Duration = Duration::from_millis(250);

// The exported functions, as the crate itself declares them.
#[allow(dead_code)]
#[path = "../src/ffi.rs"]
mod ffi;

fn number(number: u64) -> Node {
    Node::Const { sort: Sort::Word, number }
}

fn bad_if_below(table: &mut Table, left: NodeId, right: NodeId) {
    let condition = table.add(Node::Ult { left, right });
    let bad = table.add(Node::Bad { condition, name: None });
    table.initial_bads.push(bad);
}

// The first two shapes of bench/src/shapes.rs: Adds of the one before and 1, down to an Input, where nothing folds;
fn deep_chain(nodes: u64) -> Table {
    let mut table = Table::default();
    let name = table.name(b"x");
    let mut left = table.add(Node::Input { sort: Sort::Word, name });
    let right = table.add(number(1));
    for _ in 4..nodes {
        left = table.add(Node::Add { left, right });
    }
    bad_if_below(&mut table, left, right);
    table
}

// and Adds of two nodes each over half as many constants, where all folds.
fn wide_tree(nodes: u64) -> Table {
    let mut table = Table::default();
    let leaves = nodes / 2 - 1;
    for leaf in 0..=leaves {
        table.add(number(2 * leaf + 1));
    }
    for pair in 1..leaves {
        table.add(Node::Add { left: NodeId(2 * pair - 1), right: NodeId(2 * pair) });
    }
    bad_if_below(&mut table, NodeId(nodes - 3), NodeId(0));
    table
}

fn fastest<T>(mut run: impl FnMut() -> T) -> f64 {
    let begun = Instant::now();
    let mut best = Duration::MAX;
    let mut runs = 0;
    while runs < LEAST_RUNS || begun.elapsed() < LEAST_TIME {
        let start = Instant::now();
        black_box(run());
        best = best.min(start.elapsed());
        runs += 1;
    }
    best.as_nanos() as f64 / 1000.0
}

// A thread with the stack of the safe call, and nothing to do on it.
fn start_thread(words: &[u64]) {
    std::thread::scope(|scope| {
        let thread = std::thread::Builder::new().stack_size(stack_for(words));
        thread.spawn_scoped(scope, || ()).expect("a thread").join().expect("no panic");
    })
}

fn c_call(words: &[u64], names: &[u8], result: &mut [u64], scratch: &mut [u64]) -> usize {
    // Four slices that do not overlap.
    let answer = unsafe {
        ffi::gemtweed_optimize_model_impl(
            0,
            words.as_ptr(),
            words.len(),
            names.as_ptr(),
            names.len(),
            result.as_mut_ptr(),
            result.len(),
            scratch.as_mut_ptr(),
            scratch.len(),
        )
    };
    assert_eq!([answer.number, answer.section, answer.position], [0; 3], "refused");
    answer.words as usize
}

fn times(table: &Table) -> [f64; 7] {
    let (words, names) = (table.words(), table.names_bytes());
    let (mut result, mut scratch) = (vec![0; table.room()], vec![0; table.room()]);
    let end = c_call(&words, &names, &mut result, &mut scratch);
    [
        fastest(|| c_call(&words, &names, &mut result, &mut scratch)),
        // The main thread has 8 MiB where nothing else is said, enough for every table.
        fastest(|| unsafe {
            here::optimize_model_impl(0, &words, &names, &mut result, &mut scratch)
        }),
        fastest(|| optimize_model_impl(0, &words, &names, &mut result, &mut scratch)),
        fastest(|| start_thread(&words)),
        fastest(|| (table.words(), table.names_bytes())),
        fastest(|| Folded::read(&result[..end]).expect("a result")),
        fastest(|| table.fold(Mode::default())),
    ]
}

fn print_row(shape: usize, size: u64) {
    let (name, table) = SHAPES[shape];
    let cells = times(&table(size)).map(|time| format!("{time:.1}"));
    println!("| {name} | {size} | {} |", cells.join(" | "));
}

fn main() {
    let words: Vec<u64> =
        std::env::args().skip(1).map(|word| word.parse().expect("a number")).collect();
    if let [shape, size] = words[..] {
        return print_row(shape as usize, size);
    }
    println!("| shape | nodes | C call | `here` | safe call | a thread alone | words built | result read | whole |");
    println!("|---|---:|---:|---:|---:|---:|---:|---:|---:|");
    let own = std::env::current_exe().expect("this program");
    for shape in 0..SHAPES.len() {
        for size in SIZES {
            let words = [shape.to_string(), size.to_string()];
            let ended = Command::new(&own).args(words).status().expect("a row");
            assert!(ended.success(), "a row");
        }
    }
}
