// One model folded again and again: the fastest run of the Rust, of the library, and of the floor.

use crate::graph;
use crate::house::RESULT_WIDTHS;
use crate::table::Table;
use reference::unicorn::optimize::fold_model;
use reference::unicorn::smt_solver::{SMTSolution, SMTSolver};
use reference::unicorn::{Model, NodeRef};
use std::cell::{Cell, RefCell};
use std::hint::black_box;
use std::time::{Duration, Instant};

const LEAST_RUNS: u32 = 50;
const LEAST_TIME: Duration = Duration::from_millis(500);

pub struct Times {
    pub rust: u128,
    pub ours: u128,
    pub floor: u128,
}

#[repr(C)]
struct Answer {
    number: u64,
    section: u64,
    position: u64,
    words: u64,
}

#[link(name = "gemtweed", kind = "static")]
extern "C" {
    #[rustfmt::skip]
    fn gemtweed_optimize_model_impl(
        mode: u64,
        words: *const u64,
        words_len: usize,
        names: *const u8,
        names_len: usize,
        result: *mut u64,
        result_len: usize,
        scratch: *mut u64,
        scratch_len: usize,
    ) -> Answer;
}

pub fn times(table: &Table) -> Times {
    let mut lent = Lent::new(table);
    lent.fold();
    assert_eq!(lent.kept(), fold_in_rust(table).1, "the library and the Rust differ");
    Times {
        rust: fastest(|| fold_in_rust(table).0),
        ours: fastest(|| timed(|| lent.fold())),
        floor: fastest(|| timed(|| lent.floor())),
    }
}

fn timed<T>(work: impl FnOnce() -> T) -> Duration {
    let start = Instant::now();
    black_box(work());
    start.elapsed()
}

fn fastest(mut run: impl FnMut() -> Duration) -> u128 {
    let start = Instant::now();
    let mut best = run();
    let mut runs = 1;
    while runs < LEAST_RUNS || start.elapsed() < LEAST_TIME {
        best = best.min(run());
        runs += 1;
    }
    best.as_nanos()
}

// A call's words and names, and two buffers of exactly the room that it needs.
pub struct Lent {
    mode: u64,
    words: Vec<u64>,
    names: Vec<u8>,
    result: Vec<u64>,
    scratch: Vec<u64>,
    copy: Vec<u64>,
}

impl Lent {
    pub fn new(table: &Table) -> Lent {
        let numbers = table.numbers();
        let of_names = 1 + table.names.iter().map(|name| 1 + name.len()).sum::<usize>();
        let words = numbers[1..numbers.len() - of_names].to_vec();
        let mut names = (table.names.len() as u16).to_le_bytes().to_vec();
        for name in &table.names {
            names.push(name.len() as u8);
            names.extend(name.iter().map(|byte| *byte as u8));
        }
        let need = table.need();
        let copy = vec![0; words.len()];
        Lent { mode: table.mode, words, names, result: vec![0; need], scratch: vec![0; need], copy }
    }

    fn call(&mut self) -> Answer {
        // Four slices that do not overlap.
        unsafe {
            gemtweed_optimize_model_impl(
                self.mode,
                self.words.as_ptr(),
                self.words.len(),
                self.names.as_ptr(),
                self.names.len(),
                self.result.as_mut_ptr(),
                self.result.len(),
                self.scratch.as_mut_ptr(),
                self.scratch.len(),
            )
        }
    }

    pub fn fold(&mut self) {
        let answer = self.call();
        assert_eq!([answer.number, answer.section, answer.position], [0; 3], "refused");
        black_box(answer.words);
    }

    // Both lent buffers cleared, and the table's words copied once.
    fn floor(&mut self) {
        black_box(&mut self.result).fill(0);
        black_box(&mut self.scratch).fill(0);
        black_box(&mut self.copy).copy_from_slice(black_box(&self.words));
    }

    // How many entries of the three lists are kept, inputs are left and questions were asked.
    fn kept(&self) -> [u64; 5] {
        let mut at = 0;
        let counts = RESULT_WIDTHS.map(|width| {
            let count = self.result[at];
            at += 1 + width * count as usize;
            count
        });
        [counts[3], counts[4], counts[5], counts[6], counts[7]]
    }
}

// The graph is built anew for each run, and not timed.
fn fold_in_rust(table: &Table) -> (Duration, [u64; 5]) {
    let (nodes, _) = graph::build(table, false);
    let listed = |list: &[u64]| list.iter().map(|entry| nodes[*entry as usize].clone()).collect();
    let mut model = Model {
        sequentials: listed(&table.sequentials),
        bad_states_initial: listed(&table.initial_bads),
        bad_states_sequential: listed(&table.sequential_bads),
        lines: nodes,
        data_range: 0..0,
        heap_range: 0..0,
        stack_range: 0..0,
        memory_size: 0,
    };
    let mut inputs = table.inputs.clone();
    REPLIES.with(|replies| replies.borrow_mut().clone_from(&table.replies));
    TAKEN.with(|taken| taken.set(0));
    let bit = |value| table.mode & value != 0;
    let time = timed(|| fold_model::<Listed>(&mut model, &mut inputs, bit(1), bit(2), bit(4)));
    let kept = [
        model.sequentials.len() as u64,
        model.bad_states_initial.len() as u64,
        model.bad_states_sequential.len() as u64,
        inputs.len() as u64,
        TAKEN.with(Cell::get) as u64,
    ];
    unlink(&mut model);
    (time, kept)
}

// Drops the nodes from the last on, so that no drop goes deep.
fn unlink(model: &mut Model) {
    model.sequentials.clear();
    model.bad_states_initial.clear();
    model.bad_states_sequential.clear();
    while model.lines.pop().is_some() {}
}

thread_local! {
    static REPLIES: RefCell<Vec<u64>> = const { RefCell::new(Vec::new()) };
    static TAKEN: Cell<usize> = const { Cell::new(0) };
}

// A solver that takes its replies from a list; a missing one is 0.
struct Listed;

fn reply() -> u64 {
    let at = TAKEN.with(|taken| taken.replace(taken.get() + 1));
    REPLIES.with(|replies| replies.borrow().get(at).copied().unwrap_or(0))
}

impl SMTSolver for Listed {
    fn new(_timeout: Option<Duration>) -> Self {
        Listed
    }

    fn name() -> &'static str {
        "Listed"
    }

    fn is_always_true(&mut self, _node: &NodeRef) -> bool {
        reply() == 1
    }

    fn is_always_false(&mut self, _node: &NodeRef) -> bool {
        reply() == 1
    }

    fn is_always_equal(&mut self, _left: &NodeRef, _right: &NodeRef) -> bool {
        reply() == 1
    }

    fn solve(&mut self, _root: &NodeRef) -> SMTSolution {
        match reply() {
            0 => SMTSolution::Timeout,
            1 => SMTSolution::Unsat,
            _ => SMTSolution::Sat,
        }
    }
}
