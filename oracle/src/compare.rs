// Random cases, asked of a program and of the published Rust; what was asked, how often a departure was met, and each other difference.
//     compare PROGRAM COUNT [SEED]     the exit status is 1 if anything differs, 2 if it could not be asked

use judge::answer::{hide_refusals, judged, printed, Answer};
use judge::departures;
use judge::mix::{self, Case};
use judge::random::Random;
use std::collections::BTreeMap;
use std::io::{self, Read, Write};
use std::process::{Command, Stdio};
use std::sync::mpsc::{sync_channel, Receiver};
use std::sync::Mutex;

const PROCESSES: usize = 2;
const SHOWN: usize = 10;

fn main() {
    let arguments: Vec<String> = std::env::args().skip(1).collect();
    let seed = arguments.get(2).map_or(Some(1), |seed| seed.parse().ok());
    let (program, count, seed) = match (arguments.len(), arguments.get(1), seed) {
        (2 | 3, Some(count), Some(seed)) if count.parse::<u64>().is_ok() => {
            (&arguments[0], count.parse().unwrap(), seed)
        }
        _ => fail("usage: compare PROGRAM COUNT [SEED]"),
    };
    if let Err(error) = run(program, b"") {
        fail(&format!("compare: cannot run {program}: {error}"));
    }
    hide_refusals();
    let (asked, found) = compare(program, count, seed);
    println!("{program}, {count} cases from seed {seed}");
    asked.print();
    found.print();
    std::process::exit((found.differences > 0) as i32);
}

fn fail(message: &str) -> ! {
    eprintln!("{message}");
    std::process::exit(2)
}

// A case on its way to the program.
struct Question {
    place: u64,
    case: Case,
    expected: Vec<u8>,
}

// What was asked.
#[derive(Default)]
struct Asked {
    kinds: BTreeMap<&'static str, u64>,
    labels: BTreeMap<&'static str, u64>,
    accepted: u64,
    refused: BTreeMap<(u64, u64), u64>,
    departed: BTreeMap<&'static str, Touched>,
}

// How often a departure was met.
#[derive(Default)]
struct Touched {
    cases: u64,
    constants: u64,
}

// What the program answered: how its runs ended, how many differ, and the first of those.
#[derive(Default)]
struct Found {
    ends: BTreeMap<String, u64>,
    differences: u64,
    first: BTreeMap<u64, (Question, Vec<u8>, String)>,
}

// One thread makes the cases and asks the Rust; others run the program, one process each.
fn compare(program: &str, count: u64, seed: u64) -> (Asked, Found) {
    let mut asked = Asked::default();
    let found = Mutex::new(Found::default());
    let (sender, receiver) = sync_channel(64);
    let receiver = Mutex::new(receiver);
    std::thread::scope(|scope| {
        for _ in 0..PROCESSES {
            scope.spawn(|| ask(program, &receiver, &found));
        }
        let mut random = Random(seed);
        for place in 0..count {
            let case = mix::case(&mut random);
            let (answer, departed) = judged(&case.text);
            asked.note(&case, &answer);
            asked.note_departures(&departed);
            let question = Question { place, case, expected: printed(&answer) };
            sender.send(question).expect("a thread that asks");
        }
        drop(sender);
    });
    (asked, found.into_inner().unwrap())
}

// Asks the program until no question is left.
fn ask(program: &str, questions: &Mutex<Receiver<Question>>, found: &Mutex<Found>) {
    loop {
        let received = questions.lock().unwrap().recv();
        let Ok(question) = received else { return };
        let (printed, end) = match run(program, &question.case.text) {
            Ok(ended) => ended,
            Err(error) => (vec![], format!("not run: {error}")),
        };
        found.lock().unwrap().note(question, printed, end);
    }
}

// What the program prints for a text, and how it ends. It need not read the whole text.
fn run(program: &str, text: &[u8]) -> io::Result<(Vec<u8>, String)> {
    let mut child = Command::new(program)
        .stdin(Stdio::piped())
        .stdout(Stdio::piped())
        .stderr(Stdio::null())
        .spawn()?;
    let mut input = child.stdin.take().expect("its input");
    let mut output = child.stdout.take().expect("its output");
    let mut printed = Vec::new();
    let read = std::thread::scope(|scope| {
        scope.spawn(move || input.write_all(text));
        output.read_to_end(&mut printed)
    });
    let end = child.wait()?;
    read?;
    Ok((printed, end.to_string()))
}

impl Asked {
    fn note(&mut self, case: &Case, answer: &Answer) {
        *self.kinds.entry(case.kind.name()).or_default() += 1;
        for label in &case.labels {
            *self.labels.entry(label).or_default() += 1;
        }
        match answer {
            Ok(_) => self.accepted += 1,
            Err(refused) => {
                *self.refused.entry((refused.number, refused.section)).or_default() += 1
            }
        }
    }

    fn note_departures(&mut self, departed: &[&'static str]) {
        for entry in departures::LIST {
            let constants = departed.iter().filter(|name| **name == entry.name).count() as u64;
            let touched = self.departed.entry(entry.name).or_default();
            touched.cases += (constants > 0) as u64;
            touched.constants += constants;
        }
    }

    fn print(&self) {
        println!("cases:");
        print_counts(&self.kinds);
        println!("variations and damages:");
        print_counts(&self.labels);
        println!("answers of the Rust:");
        println!("  {:>8}  accepted", self.accepted);
        let mut numbers: BTreeMap<u64, Vec<(u64, u64)>> = BTreeMap::new();
        for ((number, section), count) in &self.refused {
            numbers.entry(*number).or_default().push((*section, *count));
        }
        for (number, sections) in numbers {
            let total: u64 = sections.iter().map(|(_, count)| count).sum();
            let parts: Vec<String> =
                sections.iter().map(|(section, count)| format!("{section}: {count}")).collect();
            println!("  {total:>8}  refused {number} (by section {})", parts.join(", "));
        }
        println!("departures from the Rust:");
        for (name, Touched { cases, constants }) in &self.departed {
            println!("  {cases:>8}  cases, in {constants} constants: {name}");
        }
    }
}

impl Found {
    fn note(&mut self, question: Question, printed: Vec<u8>, end: String) {
        let by_signal = end.starts_with("signal") || end.starts_with("not run");
        *self.ends.entry(end.clone()).or_default() += 1;
        if printed == question.expected && !by_signal {
            return;
        }
        self.differences += 1;
        self.first.insert(question.place, (question, printed, end));
        if self.first.len() > SHOWN {
            self.first.pop_last();
        }
    }

    fn print(&self) {
        println!("ends of the program:");
        print_counts(&self.ends);
        for (place, (question, printed, end)) in &self.first {
            let case = &question.case;
            println!(
                "difference at case {place}, {}: {}",
                case.kind.name(),
                case.labels.join(", ")
            );
            println!("  text     {}", case.text.escape_ascii());
            println!("  expected {}", question.expected.escape_ascii());
            println!("  got      {} ({end})", printed.escape_ascii());
        }
        println!("differences: {}", self.differences);
    }
}

fn print_counts<K: AsRef<str>>(counts: &BTreeMap<K, u64>) {
    for (name, count) in counts {
        println!("  {count:>8}  {}", name.as_ref());
    }
}
