// A judged table folded by the published `optimize_model_impl`, and what can be seen of it.

use crate::departures::HIGHEST_MODE_OF_THE_RUST;
use crate::graph::{build, constant, rewritten};
use crate::house::MEMORY;
use crate::making;
use crate::table::{fits, refusal, Refusal, Row, Table};
use reference::unicorn::optimize::{fold_model, last_folded, Folded};
use reference::unicorn::smt_solver::{SMTSolution, SMTSolver};
use reference::unicorn::{Model, Node, NodeRef};
use std::any::Any;
use std::cell::RefCell;
use std::collections::HashMap;
use std::panic::{catch_unwind, panic_any, resume_unwind, AssertUnwindSafe};
use std::rc::Rc;
use std::time::Duration;

// The result sections; the last is the tally.
pub type Sections = [Vec<u64>; 9];

type Numbers = HashMap<*const RefCell<Node>, u64>;

// Verdicts.
const FOUND: u64 = 1;
const NOT_FOUND: u64 = 2;
const ALL_REMOVED: u64 = 3;

// Panics of the published Rust.
const ALWAYS_TRUE: &str = "Bad state always true";
const SATISFIABLE: &str = "Bad state satisfiable";

// Places in the tally.
const LOOKED_AT: usize = 2;
const PASSED: usize = 3;

// What the plain run gives, each word the Rust's own, and from a run with markers the two counts of writes.
pub fn answer(table: &Table) -> Result<Sections, Refusal> {
    let refused = |(panic, run): Ended| refusal_of(panic, table, &run);
    let plain = run(table, false, true).map_err(refused);
    let mut marked = run(table, true, true).map_err(refused);
    let counted = marked.clone();
    if let Ok(sections) = &mut marked {
        sections[8][LOOKED_AT] = 0;
        sections[8][PASSED] = 0;
    }
    assert_eq!(plain, marked, "the markers are seen");
    counted
}

// What the plain run gives where no input is judged, without the two counts of writes; or the text of its panic.
pub fn unjudged(table: &Table) -> Result<Sections, String> {
    let ended = catch_unwind(|| run(table, false, false));
    ended.unwrap_or_else(|panic| Err((panic, Run::default()))).map_err(|(panic, _)| {
        let text = panic.downcast_ref::<&str>().map(|text| text.to_string());
        let text = text.or_else(|| panic.downcast_ref::<String>().cloned());
        text.unwrap_or("a reply that its question cannot have".to_string())
    })
}

// A panic, and what was noted until then.
type Ended = (Box<dyn Any + Send>, Run);

// What the listener and the solver note during a run.
#[derive(Default)]
struct Run {
    judges_inputs: bool,
    nodes: Vec<NodeRef>,
    markers: Vec<Option<NodeRef>>,
    sorts: Vec<u64>,
    replies: Vec<u64>,
    replies_taken: usize,
    questions: Vec<Question>,
    judged_bads: Vec<u64>,
    searches: Vec<Search>,
    forwarded: usize,
    verdict: u64,
}

struct Question {
    kind: u64,
    first: NodeRef,
    second: Option<NodeRef>,
    reply: u64,
}

// The moment at which a Read is folded: memory and, if constant, address of each Write below it.
struct Search {
    read: usize,
    writes: HashMap<*const RefCell<Node>, (NodeRef, Option<u64>)>,
}

thread_local! {
    static RUN: RefCell<Run> = RefCell::default();
}

fn with_run<T>(f: impl FnOnce(&mut Run) -> T) -> T {
    RUN.with(|run| f(&mut run.borrow_mut()))
}

fn run(table: &Table, marked: bool, judges_inputs: bool) -> Result<Sections, Ended> {
    assert!(table.mode <= HIGHEST_MODE_OF_THE_RUST, "the Rust has no mode {}", table.mode);
    let (nodes, markers) = build(table, marked);
    let listed = |list: &[u64]| list.iter().map(|entry| nodes[*entry as usize].clone()).collect();
    let mut model = Model {
        lines: nodes.clone(),
        sequentials: listed(&table.sequentials),
        bad_states_initial: listed(&table.initial_bads),
        bad_states_sequential: listed(&table.sequential_bads),
        data_range: 0..0,
        heap_range: 0..0,
        stack_range: 0..0,
        memory_size: 0,
    };
    let mut inputs = table.inputs.clone();
    let sorts = table.nodes.iter().map(|row| row.sort).collect();
    let replies = table.replies.clone();
    let fresh = Run { judges_inputs, nodes, markers, sorts, replies, ..Run::default() };
    let bit = |value| table.mode & value != 0;

    with_run(|run| *run = fresh);
    making::start();
    log::listen(Some(hear));
    let ended = catch_unwind(AssertUnwindSafe(|| {
        fold_model::<Scripted>(&mut model, &mut inputs, bit(1), bit(2), bit(4))
    }));
    log::listen(None);
    let run = with_run(std::mem::take);
    match ended {
        Ok(()) => Ok(sections(table, &run, &model, inputs)),
        Err(panic) => Err((panic, run)),
    }
}

fn sections(table: &Table, run: &Run, model: &Model, inputs: Vec<u64>) -> Sections {
    let folded = last_folded().expect("a folder that ended well");
    let (numbers, constants) = number_nodes(table, run, &folded);
    let number = |node: &NodeRef| numbers[&Rc::as_ptr(node)];
    let inputs_taken = (table.inputs.len() - inputs.len()) as u64;

    let mut sections = Sections::default();
    for (node, row) in run.nodes.iter().zip(&table.nodes) {
        let [kind, sort, a, b, c] = rewritten(&node.borrow(), number);
        sections[0].extend(Row { kind, sort, words: [a, b, c], ..row.clone() }.all_words());
    }
    for node in constants {
        let [_, sort, imm, ..] = rewritten(&node.borrow(), number);
        sections[1].extend([sort, imm]);
    }
    let is_marker = |node: &NodeRef| run.markers.iter().flatten().any(|own| Rc::ptr_eq(own, node));
    let mut replacements: Vec<_> = (folded.replacements.iter())
        .filter(|(node, _)| !is_marker(node))
        .map(|(node, replacement)| [number(node), number(replacement)])
        .collect();
    replacements.sort();
    sections[2] = replacements.concat();
    sections[3] = model.sequentials.iter().map(number).collect();
    sections[4] = model.bad_states_initial.iter().map(number).collect();
    sections[5] = model.bad_states_sequential.iter().map(number).collect();
    sections[6] = inputs;
    for question in &run.questions {
        let first = match question.kind {
            5 => joined_bads(&question.first),
            _ => number(&question.first),
        };
        let second = question.second.as_ref().map_or(0, number);
        sections[7].extend([question.kind, first, second, question.reply]);
    }
    let (looked_at, passed) = count_writes(run);
    let replies_taken = run.replies_taken as u64;
    sections[8] = vec![inputs_taken, replies_taken, looked_at, passed, run.verdict];
    sections
}

// The numbers of nodes: the table's, false and true, then those made; and the nodes from false on.
// A marker that was never visited counts as the address for which it stands.
fn number_nodes(table: &Table, run: &Run, folded: &Folded) -> (Numbers, Vec<NodeRef>) {
    let mut numbers = Numbers::new();
    for (at, node) in run.nodes.iter().enumerate() {
        numbers.insert(Rc::as_ptr(node), at as u64);
        if let Some(marker) = &run.markers[at] {
            numbers.insert(Rc::as_ptr(marker), table.nodes[at].words[1]);
        }
    }
    let mut constants = vec![folded.const_false.clone(), folded.const_true.clone()];
    let mut made: Vec<NodeRef> = (folded.replacements.iter())
        .map(|(_, replacement)| replacement.clone())
        .filter(|node| !numbers.contains_key(&Rc::as_ptr(node)))
        .filter(|node| !constants.iter().any(|shared| Rc::ptr_eq(shared, node)))
        .collect();
    made.sort_by_key(making::order);
    made.dedup_by_key(|node| Rc::as_ptr(node));
    constants.append(&mut made);
    for (node, number) in constants.iter().zip(run.nodes.len() as u64..) {
        numbers.insert(Rc::as_ptr(node), number);
    }
    (numbers, constants)
}

// The refusal that a panic stands for. Bads are judged in order of their lists, so the k-th time
// that one is found true or asked about is the k-th place at which it stands.
fn refusal_of(panic: Box<dyn Any + Send>, table: &Table, run: &Run) -> Refusal {
    if let Some(refusal) = panic.downcast_ref::<Refusal>() {
        return *refusal;
    }
    let number = match panic.downcast_ref::<&str>() {
        Some(&ALWAYS_TRUE) => 13,
        Some(&SATISFIABLE) => 14,
        _ => resume_unwind(panic),
    };
    let bad = run.judged_bads.last().expect("a judged bad");
    let times = run.judged_bads.iter().filter(|judged| *judged == bad).count();
    let places = (table.initial_bads.iter().zip(0..).map(|(entry, place)| (entry, 3, place)))
        .chain(table.sequential_bads.iter().zip(0..).map(|(entry, place)| (entry, 4, place)));
    let (_, section, place) =
        places.filter(|(entry, ..)| *entry == bad).nth(times - 1).expect("a place");
    refusal(number, section, place)
}

// Whether a panic stands for a refusal.
pub fn is_refusal(panic: &(dyn Any + Send)) -> bool {
    let text = panic.downcast_ref::<&str>();
    panic.is::<Refusal>() || text.is_some_and(|text| [ALWAYS_TRUE, SATISFIABLE].contains(text))
}

// A message of the published Rust.
fn hear(text: &str) {
    with_run(|run| {
        if run.judges_inputs && text.starts_with("Specializing to concrete input STATE(") {
            let (_, input) = text.rsplit_once(" -> ").expect("an input");
            run.judge_input(input.parse().expect("a number"));
        } else if text == "Folding OR(zeroes,x) -> x" {
            run.note_search();
        } else if text.starts_with("Folding READ(") {
            run.forwarded += 1;
        } else if text.ends_with("' became statically reachable!") {
            run.note_judged_bad();
        } else if text.starts_with("SMT solver 'Scripted' found bad state") {
            run.verdict = FOUND;
        } else if text.starts_with("SMT solver 'Scripted' cannot find bad state") {
            run.verdict = NOT_FOUND;
        } else if text == "Plain constant-folding already removed all bad states." {
            run.verdict = ALL_REMOVED;
        }
    })
}

impl Run {
    // The node being processed, or the marker in front of it. Processing borrows a node for
    // writing, and each node under way is an operand of the one before: the lowest is the last.
    fn in_process(&self) -> (usize, bool) {
        let borrowed = |node: &NodeRef| node.try_borrow().is_err();
        for (at, node) in self.nodes.iter().enumerate() {
            if self.markers[at].as_ref().is_some_and(borrowed) {
                return (at, true);
            }
            if borrowed(node) {
                return (at, false);
            }
        }
        panic!("no node is being processed");
    }

    // A State takes an input.
    fn judge_input(&self, input: u64) {
        let (state, _) = self.in_process();
        let sort = self.sorts[state];
        if sort == MEMORY {
            panic_any(refusal(8, 1, state as u64));
        }
        if !fits(input, sort) {
            panic_any(refusal(10, 1, state as u64));
        }
    }

    // A Read's operands are visited, and it is about to be folded.
    fn note_search(&mut self) {
        let (read, true) = self.in_process() else { return };
        let mut writes = HashMap::new();
        for node in &self.nodes[..read] {
            if let Node::Write { memory, address, .. } = &*node.borrow() {
                writes.insert(Rc::as_ptr(node), (memory.clone(), constant(address)));
            }
        }
        self.searches.push(Search { read, writes });
    }

    // The one node borrowed while a bad is judged is that Bad.
    fn note_judged_bad(&mut self) {
        let bad = self.nodes.iter().position(|node| node.try_borrow_mut().is_err());
        self.judged_bads.push(bad.expect("a Bad being judged") as u64);
    }

    fn ask(&mut self, kind: u64, first: &NodeRef, second: Option<&NodeRef>) -> u64 {
        let mut reply = 0;
        if let Some(given) = self.replies.get(self.replies_taken) {
            if *given > if kind == 4 { 2 } else { 1 } {
                panic_any(refusal(11, 6, self.replies_taken as u64));
            }
            reply = *given;
            self.replies_taken += 1;
        }
        self.questions.push(Question {
            kind,
            first: first.clone(),
            second: second.cloned(),
            reply,
        });
        reply
    }
}

// A solver that takes its replies from the list.
struct Scripted;

impl SMTSolver for Scripted {
    fn new(_timeout: Option<Duration>) -> Self {
        Scripted
    }

    fn name() -> &'static str {
        "Scripted"
    }

    fn is_always_true(&mut self, node: &NodeRef) -> bool {
        with_run(|run| run.ask(1, node, None)) == 1
    }

    fn is_always_false(&mut self, node: &NodeRef) -> bool {
        let kind = if joined_bads(node) > 1 { 5 } else { 2 };
        with_run(|run| run.ask(kind, node, None)) == 1
    }

    fn is_always_equal(&mut self, left: &NodeRef, right: &NodeRef) -> bool {
        with_run(|run| run.ask(3, left, Some(right))) == 1
    }

    fn solve(&mut self, root: &NodeRef) -> SMTSolution {
        let reply = with_run(|run| {
            run.note_judged_bad();
            run.ask(4, root, None)
        });
        match reply {
            0 => SMTSolution::Timeout,
            1 => SMTSolution::Unsat,
            _ => SMTSolution::Sat,
        }
    }
}

// The number of bads that one-query joins by Ors; no Or of the table is asked about.
fn joined_bads(node: &NodeRef) -> u64 {
    match &*node.borrow() {
        Node::Or { left, .. } => joined_bads(left) + 1,
        _ => 1,
    }
}

// Writes looked at, and unsettled writes passed by reads that found a value: each search walked
// again over the Writes as they stood at its moment.
fn count_writes(run: &Run) -> (u64, u64) {
    let mut looked_at = 0;
    let mut passed = 0;
    let mut found = 0;
    for search in &run.searches {
        let (mut memory, address) = match &*run.nodes[search.read].borrow() {
            Node::Read { memory, address, .. } => (memory.clone(), constant(address)),
            _ => unreachable!("a Read"),
        };
        if address.is_none() {
            continue;
        }
        let mut unsettled = 0;
        while let Some((below, held)) = search.writes.get(&Rc::as_ptr(&memory)) {
            looked_at += 1;
            if *held == address {
                passed += unsettled;
                found += 1;
                break;
            }
            if held.is_none() {
                unsettled += 1;
            }
            memory = below.clone();
        }
    }
    if run.markers.iter().any(Option::is_some) {
        assert_eq!(found, run.forwarded, "a search went another way");
    }
    (looked_at, passed)
}
