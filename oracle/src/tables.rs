// Whole tables: their answers by the published Rust but for the departures, and random cases.
//     tables answer                        a case a line on standard input, an answer a line
//     tables unjudged                      the same, with no refusal but 1 and 2 and no departure: what the Rust does by itself
//     tables random SEED COUNT [NODES]     cases, mostly accepted, of at most NODES nodes (14)
//     tables damaged SEED COUNT [NODES]    the same with one or two damages each

use judge::answer::{answer, hide_refusals, lines};
use judge::random::Random;
use judge::table::Table;
use judge::{cases, damages, fold};
use std::io::{self, BufRead, Write};

const USAGE: &str = "usage: tables answer
       tables unjudged
       tables random SEED COUNT [NODES]
       tables damaged SEED COUNT [NODES]";

fn main() -> io::Result<()> {
    let arguments: Vec<String> = std::env::args().skip(1).collect();
    let words: Vec<&str> = arguments.iter().map(String::as_str).collect();
    match words[..] {
        ["answer"] => {
            hide_refusals();
            answer_lines(|case| lines(&answer(case)).join(" "))
        }
        ["unjudged"] => {
            std::panic::set_hook(Box::new(|_| ()));
            answer_lines(unjudged)
        }
        ["random", ref numbers @ ..] => print_cases(numbers, |_, table| table.numbers()),
        ["damaged", ref numbers @ ..] => print_cases(numbers, damages::damaged),
        _ => usage(),
    }
}

fn usage() -> ! {
    eprintln!("{USAGE}");
    std::process::exit(2)
}

fn print_cases(arguments: &[&str], numbers: fn(&mut Random, Table) -> Vec<u64>) -> io::Result<()> {
    let arguments: Vec<u64> =
        arguments.iter().map(|word| word.parse().unwrap_or_else(|_| usage())).collect();
    let (seed, count, most_nodes) = match arguments[..] {
        [seed, count] => (seed, count, 14),
        [seed, count, most_nodes] if most_nodes > 0 => (seed, count, most_nodes),
        _ => usage(),
    };
    let mut random = Random(seed);
    let mut out = io::BufWriter::new(io::stdout().lock());
    for _ in 0..count {
        let table = cases::random(&mut random, most_nodes);
        let words: Vec<String> =
            numbers(&mut random, table).iter().map(|number| number.to_string()).collect();
        writeln!(out, "{}", words.join(" "))?;
    }
    out.flush()
}

fn answer_lines(answered: fn(&[u8]) -> String) -> io::Result<()> {
    let mut out = io::BufWriter::new(io::stdout().lock());
    for line in io::stdin().lock().split(b'\n') {
        writeln!(out, "{}", answered(&line?))?;
    }
    out.flush()
}

fn unjudged(case: &[u8]) -> String {
    match Table::cut(case) {
        Err(refused) => lines(&Err(refused)).join(" "),
        Ok(table) => match fold::unjudged(&table) {
            Ok(sections) => lines(&Ok(sections)).join(" "),
            Err(message) => format!("panicked: {message}"),
        },
    }
}
