// Runs a program on random bytes, random numbers, mutated good cases and tables of bytes, and demands one of its two answers each time: no
// signal, no hang, nothing else printed. Of an accepted one it demands that rows and replacements keep their sorts (rows.rs).
//     rustc -O tests/harden.rs -o target/harden
//     target/harden PROGRAM COUNT SEED [LIST]      LIST has the good cases, crates/replay/data/cases.list unless given
use std::io::{Read, Write};
use std::process::{Command, ExitCode, Stdio};
use std::sync::atomic::{AtomicU64, Ordering};
use std::sync::Arc;
use std::time::{Duration, Instant};

mod rows;

use rows::house::*;
use rows::Row;

// How long it may take until some run ends.
const PATIENCE: Duration = Duration::from_secs(20);

// Numbers by xorshift; the same seed gives the same cases.
struct Random(u64);

impl Random {
    fn next(&mut self) -> u64 {
        self.0 ^= self.0 << 13;
        self.0 ^= self.0 >> 7;
        self.0 ^= self.0 << 17;
        self.0
    }

    fn below(&mut self, n: usize) -> usize {
        (self.next() % n as u64) as usize
    }
}

// The texts of a list of cases: a line with the sizes of text and answer, the text, the answer, a line end.
fn good_texts(list: &[u8]) -> Vec<Vec<u8>> {
    let mut texts = Vec::new();
    let mut at = 0;
    while at < list.len() {
        let end = at + list[at..].iter().position(|b| *b == b'\n').expect("a line with two sizes");
        let line = String::from_utf8(list[at..end].to_vec()).expect("two sizes");
        let sizes: Vec<usize> = line.split(' ').map(|size| size.parse().expect("a size")).collect();
        texts.push(list[end + 1..end + 1 + sizes[0]].to_vec());
        at = end + 1 + sizes[0] + sizes[1] + 1;
    }
    texts
}

fn random_bytes(random: &mut Random) -> Vec<u8> {
    let size = random.below(400);
    (0..size).map(|_| random.next() as u8).collect()
}

// A number at which limits lie, or any.
fn random_number(random: &mut Random) -> u64 {
    let row = ROW_WIDTH as u64;
    let codes = [0, BIT, WORD, MEMORY, row, HIGHEST_MODE, HIGHEST_MODE + 1, BYTE, BYTES_7, BYTES_7 + 1, BAD, BAD + 1];
    let most = [LONGEST_NAME, 255, MOST_ENTRIES, MOST_NODES, MOST_REPLIES].map(|most| [most, most + 1]);
    let limits = [&codes[..], most.as_flattened(), &[u64::MAX]].concat();
    match random.below(4) {
        0 => limits[random.below(limits.len())],
        1 => random.next(),
        _ => random.next() % (BAD + 2),
    }
}

fn random_numbers(random: &mut Random) -> Vec<u8> {
    let size = if random.below(50) == 0 { MOST_NUMBERS - 96 + random.below(200) } else { random.below(120) };
    let numbers: Vec<String> = (0..size).map(|_| random_number(random).to_string()).collect();
    numbers.join(" ").into_bytes()
}

// A good text with one number changed: by one, or to any.
fn renumbered(random: &mut Random, texts: &[Vec<u8>]) -> Vec<u8> {
    let text = String::from_utf8_lossy(&texts[random.below(texts.len())]).into_owned();
    let mut words: Vec<String> = text.split_ascii_whitespace().map(str::to_string).collect();
    if !words.is_empty() {
        let at = random.below(words.len());
        let number: u64 = words[at].parse().unwrap_or(0);
        let near = [number.wrapping_add(1), number.wrapping_sub(1), random_number(random)];
        words[at] = near[random.below(3)].to_string();
    }
    words.join(" ").into_bytes()
}

// A good text with up to three changes: a byte changed, cut out or put in, a number put in, the end cut off.
fn mutated(random: &mut Random, texts: &[Vec<u8>]) -> Vec<u8> {
    let mut text = texts[random.below(texts.len())].clone();
    for _ in 0..random.below(4) {
        if text.is_empty() {
            break;
        }
        let at = random.below(text.len());
        match random.below(5) {
            0 => text[at] = random.next() as u8,
            1 => drop(text.remove(at)),
            2 => text.insert(at, b" 0123456789\n-"[random.below(13)]),
            3 => {
                let number = format!(" {} ", random_number(random));
                text.splice(at..at, number.into_bytes());
            }
            _ => text.truncate(at),
        }
    }
    text
}

// A table of one sort of bytes: a bit, constants, an Input and a State, Nots, Ites, Ands and Ors over them, a Next, and two Bads on tests.
fn bytes_table(random: &mut Random) -> Vec<u8> {
    let row = |kind: u64, sort: u64, [a, b, c]: [u64; 3], name: u64| -> Row { [kind, sort, a, b, c, name] };
    let sort = BYTE + random.next() % (BYTES_7 - BYTE + 1);
    let most = largest(sort).expect("a sort of bytes");
    let bit = if random.below(2) == 0 { row(INPUT, BIT, [0; 3], 1) } else { row(CONST, BIT, [random.next() % 2, 0, 0], 0) };
    let mut rows = vec![bit, row(INPUT, sort, [0; 3], 1), row(STATE, sort, [0; 3], 0)];
    rows.extend([0, 1, most - 1, most, random.next() & most].map(|number| row(CONST, sort, [number, 0, 0], 0)));
    for _ in 0..1 + random.below(20) {
        let count = rows.len() as u64 - 1;
        let [a, b] = [1 + random.next() % count, 1 + random.next() % count];
        rows.push(match random.below(8) {
            0 => row(NOT, sort, [a, 0, 0], 0),
            1 => row(ITE, sort, [0, a, b], 0),
            _ => row([AND, OR][random.below(2)], sort, [a, b, 0], 0),
        });
    }
    let last = rows.len() as u64 - 1;
    let init = 1 + random.next() % last;
    // a State with its Next, then whether two of them as words are below one another, and whether that State is its next value
    rows.extend([
        row(STATE, sort, [init, 1, 0], 0),
        row(NEXT, sort, [last + 1, last, 0], 0),
        row(EXT, WORD, [last, sort, 0], 0),
        row(EXT, WORD, [init, sort, 0], 0),
        row(ULT, BIT, [last + 3, last + 4, 0], 0),
        row(BAD, BIT, [last + 5, 0, 0], 0),
        row(EQ, BIT, [last + 1, last, 0], 0),
        row(BAD, BIT, [last + 7, 0, 0], 0),
    ]);
    let mut numbers = vec![random.next() % (HIGHEST_MODE + 1), rows.len() as u64];
    numbers.extend(rows.iter().flatten());
    // the three lists, an input, two replies and a name
    numbers.extend([1, last + 2, 1, last + 6, 1, last + 8, 1, random.next() & most, 2, 0, random.next() % 2, 1, 1, 120]);
    numbers.iter().map(u64::to_string).collect::<Vec<_>>().join(" ").into_bytes()
}

// Runs the program; what it printed, or what went wrong.
fn run(program: &str, text: &[u8]) -> Result<Vec<u8>, String> {
    let mut child = Command::new(program)
        .stdin(Stdio::piped())
        .stdout(Stdio::piped())
        .stderr(Stdio::piped())
        .spawn()
        .map_err(|error| format!("cannot run: {error}"))?;
    let mut input = child.stdin.take().expect("standard input");
    // A pipe holds 64 KiB, and the program prints nothing before it has read all.
    input.write_all(text).map_err(|error| format!("does not read: {error}"))?;
    drop(input);
    let mut printed = Vec::new();
    child.stdout.take().expect("standard output").read_to_end(&mut printed).map_err(|error| error.to_string())?;
    let status = child.wait().map_err(|error| error.to_string())?;
    if !status.success() {
        return Err(format!("ends with {status}"));
    }
    Ok(printed)
}

// Whether a line is numbers with single blanks between.
fn numbers(line: &str) -> Option<Vec<u64>> {
    line.split(' ').map(|number| number.parse().ok().filter(|n: &u64| n.to_string() == number)).collect()
}

enum Answer {
    Accepted(Vec<Vec<u64>>),
    Refused,
}

// One of the two answers, in its exact form; sections without their counts.
fn answer(printed: &[u8]) -> Option<Answer> {
    let text = std::str::from_utf8(printed).ok()?.strip_suffix('\n')?;
    if let Some(rest) = text.strip_prefix("refused ") {
        let known = |n: &Vec<u64>| n.len() == 3 && (1..=14).contains(&n[0]) && n[0] != 9 && n[1] <= 8;
        return numbers(rest).filter(known).map(|_| Answer::Refused);
    }
    let mut sections = Vec::new();
    for (line, width) in text.strip_prefix("accepted\n")?.split('\n').zip(RESULT_WIDTHS) {
        let section = numbers(line).filter(|n| n.len() as u64 == 1 + width as u64 * n[0])?;
        sections.push(section[1..].to_vec());
    }
    (sections.len() == 9 && text.split('\n').count() == 10).then(|| Answer::Accepted(sections))
}

// Whether the program refuses a text, or what is wrong with its answer.
fn refuses(program: &str, text: &[u8]) -> Result<bool, String> {
    let printed = run(program, text)?;
    match answer(&printed) {
        None => Err(format!("prints {}", printed.escape_ascii())),
        Some(Answer::Refused) => Ok(true),
        Some(Answer::Accepted(sections)) => rows::judge(text, &sections).map(|()| false),
    }
}

// Waits for all runs; false where none ends for so long.
fn all_end(tallies: &[AtomicU64; 3], count: u64) -> bool {
    let (mut done, mut since) = (0, Instant::now());
    while done < count {
        std::thread::sleep(Duration::from_millis(50));
        let now = tallies.iter().map(|tally| tally.load(Ordering::Relaxed)).sum();
        if now > done {
            (done, since) = (now, Instant::now());
        } else if since.elapsed() > PATIENCE {
            return false;
        }
    }
    true
}

fn main() -> ExitCode {
    let words: Vec<String> = std::env::args().collect();
    if words.len() < 4 {
        eprintln!("usage: harden PROGRAM COUNT SEED [LIST]");
        return ExitCode::from(2);
    }
    let count: u64 = words[2].parse().expect("a count");
    let seed: u64 = words[3].parse().expect("a seed");
    let list = words.get(4).map_or("crates/replay/data/cases.list", |name| name);
    let texts = Arc::new(good_texts(&std::fs::read(list).expect("the list")));
    let tallies: Arc<[AtomicU64; 3]> = Arc::default();
    let workers: Vec<_> = (0..2)
        .map(|worker| {
            let (program, texts, tallies) = (words[1].clone(), texts.clone(), tallies.clone());
            std::thread::spawn(move || {
                let mut random = Random(0x9E37_79B9_7F4A_7C15 ^ (2 * seed + worker + 1));
                for case in (worker..count).step_by(2) {
                    let text = match case / 2 % 5 {
                        0 => random_bytes(&mut random),
                        1 => random_numbers(&mut random),
                        2 => renumbered(&mut random, &texts),
                        3 => mutated(&mut random, &texts),
                        _ => bytes_table(&mut random),
                    };
                    let kind = refuses(&program, &text).map(usize::from).unwrap_or_else(|why| {
                        println!("wrong: {why} for {}", text.escape_ascii());
                        2
                    });
                    tallies[kind].fetch_add(1, Ordering::Relaxed);
                }
            })
        })
        .collect();
    if !all_end(&tallies, count) {
        println!("a run did not end within {PATIENCE:?}");
        return ExitCode::FAILURE;
    }
    for worker in workers {
        worker.join().expect("a worker");
    }
    let [accepted, refused, wrong] = [0, 1, 2].map(|k| tallies[k].load(Ordering::Relaxed));
    println!("{count} inputs: {accepted} accepted, {refused} refused, {wrong} wrong");
    ExitCode::from(u8::from(wrong > 0))
}
