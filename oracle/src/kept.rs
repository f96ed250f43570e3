// The kept list: cases with a wrong answer, then random cases picked so that together they show every feature many times, with their answers.
//     kept SEED POOL COUNT < TEXT     COUNT cases out of POOL on standard output, half of them accepted as far as there are so many; most of the
//                                     wrong ones are of TEXT, the worked example. How many cases there are is said on standard error.

use judge::answer::{answer, hide_refusals, printed};
use judge::features::{features, Feature, Features};
use judge::house::{BYTE, CONST, WORD};
use judge::mix;
use judge::random::Random;
use judge::table::Table;
use std::collections::{HashMap, HashSet};
use std::io::{self, Write};

// A case of more bytes, its answer included, is picked only for a feature that nothing else shows.
const LONG: usize = 9_000;

// A text, a part of its answer, and what is put for it: wrong in one small way, which must be counted.
const WRONG: [(Text, &str, &str); 20] = [
    (Text::Example, "accepted", "Accepted"),
    (Text::Example, "accepted\n4 ", "accepted\n5 "),
    (Text::Example, "2 0 6 2 4", "2 0 6 2 5"),
    (Text::Example, "5 1 0 0 0 0\n", "5 1 0 0 0 1\n"),
    (Text::Example, "5 1 0 0 0 0\n", "5 1 0 0 0 0 "),
    (Text::Example, "12\n2", "12 2"),
    (Text::Example, "5 1 0 0 0 0\n", "5 1 0 0 0 0"),
    (Text::Example, "5 1 0 0 0 0\n", "5 1 0 0 0\n"),
    (Text::Example, "5 1 0 0 0 0\n", ""),
    (Text::Example, "5 1 0 0 0 0\n", "5 1 0 0 0 0 0\n"),
    (Text::Example, "5 1 0 0 0 0\n", "5 1 0 0 0 0\n0\n"),
    (Text::Example, "5 1 0 0 0 0\n", "5 1 0 0 0 0\n\0"),
    (Text::Example, WHOLE, "refused 5 1 1\n"),
    (Text::TooWide, "refused 5 1 1", "refused 4 1 1"),
    (Text::TooWide, "refused 5 1 1", "refused 5 2 1"),
    (Text::TooWide, "refused 5 1 1", "refused 5 1 0"),
    (Text::TooWide, "refused 5 1 1", "refused 5 1 10"),
    (Text::TooWide, "refused 5 1 1\n", "refused 5 1 1"),
    (Text::TooWide, "refused 5 1 1", "accepted"),
    (Text::Nothing, "refused 1 0 0", "refused 1 1 0"),
];
const WHOLE: &str = "the whole answer";

#[derive(Clone, Copy)]
enum Text {
    Example,
    TooWide,
    Nothing,
}

impl Text {
    // The numbers on one line. What is too wide is a byte of 256.
    fn of(self, example: &str) -> String {
        let numbers: Vec<String> = match self {
            Text::Example => example.split_ascii_whitespace().map(str::to_string).collect(),
            Text::TooWide => {
                let mut table = Table::default();
                table.push(CONST, WORD, [5, 0, 0], 0);
                table.push(CONST, BYTE, [256, 0, 0], 0);
                table.numbers().iter().map(u64::to_string).collect()
            }
            Text::Nothing => vec![],
        };
        numbers.join(" ")
    }
}

struct Kept {
    text: Vec<u8>,
    answer: Vec<u8>,
    accepted: bool,
    shows: Features,
}

impl Kept {
    fn length(&self) -> usize {
        self.text.len() + self.answer.len()
    }
}

fn main() -> io::Result<()> {
    let numbers: Vec<u64> = std::env::args().skip(1).map_while(|word| word.parse().ok()).collect();
    let [seed, pool, count] = numbers[..] else {
        eprintln!("usage: kept SEED POOL COUNT");
        std::process::exit(2);
    };
    hide_refusals();
    let example = io::read_to_string(io::stdin())?;
    let (accepted, refused): (Vec<Kept>, Vec<Kept>) =
        draw(seed, pool).into_iter().partition(|case| case.accepted);
    let half = (count as usize / 2).min(accepted.len());
    let mut out = io::BufWriter::new(io::stdout().lock());
    for (text, own, other) in WRONG {
        let text = text.of(&example);
        put(&mut out, text.as_bytes(), wrong_answer(&text, own, other).as_bytes())?;
    }
    let mut cases = WRONG.len();
    for case in pick(&accepted, half).chain(pick(&refused, count as usize - half)) {
        put(&mut out, &case.text, &case.answer)?;
        cases += 1;
    }
    eprintln!("{cases} cases, {} wrong", WRONG.len());
    out.flush()
}

fn put(out: &mut impl Write, text: &[u8], answer: &[u8]) -> io::Result<()> {
    writeln!(out, "{} {}", text.len(), answer.len())?;
    out.write_all(text)?;
    out.write_all(answer)?;
    writeln!(out)
}

fn wrong_answer(text: &str, own: &str, other: &str) -> String {
    let right = String::from_utf8(printed(&answer(text.as_bytes()))).expect("an answer is text");
    let own = if own == WHOLE { &right } else { own };
    assert_eq!(right.matches(own).count(), 1, "{own:?} in the answer {right:?}");
    assert_ne!(own, other);
    right.replace(own, other)
}

// The cases to choose from; a text stands once.
fn draw(seed: u64, count: u64) -> Vec<Kept> {
    let mut random = Random(seed);
    let mut texts = HashSet::new();
    let mut pool = Vec::new();
    for _ in 0..count {
        let case = mix::case(&mut random);
        let answered = answer(&case.text);
        let shows = features(&case, &answered);
        let answer = printed(&answered);
        let text = case.text;
        if texts.insert(text.clone()) {
            pool.push(Kept { text, answer, accepted: answered.is_ok(), shows });
        }
    }
    pool
}

// Short cases first, round after round, each round showing each feature once more.
fn pick(pool: &[Kept], count: usize) -> impl Iterator<Item = &Kept> {
    let mut left: Vec<usize> = (0..pool.len()).collect();
    left.sort_by_key(|place| pool[*place].length());
    let mut shown: HashMap<Feature, u64> = HashMap::new();
    let mut picked = Vec::new();
    let mut round = 0;
    while picked.len() < count && !left.is_empty() {
        left.retain(|place| {
            let case = &pool[*place];
            let new = |feature| shown.get(feature).is_none_or(|times| *times <= round);
            if picked.len() == count || !case.shows.iter().any(new) {
                return true;
            }
            for feature in &case.shows {
                *shown.entry(*feature).or_default() += 1;
            }
            picked.push(*place);
            false
        });
        left.retain(|place| pool[*place].length() <= LONG);
        round += 1;
    }
    let features: HashSet<&Feature> = pool.iter().flat_map(|case| &case.shows).collect();
    eprintln!("{} features, {} of them shown, in {round} rounds", features.len(), shown.len());
    picked.sort();
    picked.into_iter().map(|place| &pool[place])
}
