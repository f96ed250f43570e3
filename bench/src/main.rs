// How long one fold takes: the published Rust, this library, and the floor under it, on the same models.
//     bench [SHAPE SIZE RUNS]      without words a table of all shapes and sizes; with them the library alone, for a profiler

#[path = "../../oracle/src/graph.rs"]
#[allow(dead_code)]
mod graph;
#[path = "../../oracle/src/house.rs"]
mod house;
mod measure;
mod shapes;
#[path = "../../oracle/src/table.rs"]
#[allow(dead_code)]
mod table;

use measure::{Lent, Times};
use shapes::SHAPES;

const SIZES: [u64; 4] = [64, 256, 1024, house::MOST_NODES];
const STACK: usize = 512 << 20; // the Rust recurses twice a node

fn main() {
    let words: Vec<String> = std::env::args().skip(1).collect();
    let work = move || match &words[..] {
        [] => print_times(),
        [shape, size, runs] => repeat(shape, number(size), number(runs)),
        _ => usage(),
    };
    std::thread::Builder::new().stack_size(STACK).spawn(work).unwrap().join().unwrap();
}

fn usage() -> ! {
    eprintln!("usage: bench [SHAPE SIZE RUNS]");
    std::process::exit(2)
}

fn number(word: &str) -> u64 {
    word.parse().unwrap_or_else(|_| usage())
}

// Nanoseconds, the fastest of all runs; what is being measured is said on standard error.
fn print_times() {
    println!("shape,nodes,rust,gemtweed,floor");
    for (name, shape) in SHAPES {
        for size in SIZES {
            eprintln!("bench: {name}, {size} nodes");
            let Times { rust, ours, floor } = measure::times(&shape(size));
            println!("{name},{size},{rust},{ours},{floor}");
        }
    }
}

fn repeat(name: &str, size: u64, runs: u64) {
    let Some((_, shape)) = SHAPES.iter().find(|(own, _)| *own == name) else { usage() };
    let mut lent = Lent::new(&shape(size));
    for _ in 0..runs {
        lent.fold();
    }
}
