// The text in front of a table: its numbers set out in lines or with odd blanks, and texts that are damaged.

use crate::damages::Labels;
use crate::house::{HIGHEST_MODE, LIMITS, LONGEST_NAME, MOST_NUMBERS, ROW_WIDTH};
use crate::random::Random;
use crate::table::Table;

const BLANKS: [&[u8]; 8] = [b" ", b" ", b" ", b"\n", b"\t", b"\r", b"\r\n", b" \t \n\n "];

// Tokens that are no number below 2^64.
const JUNK: [&[u8]; 28] = [
    b"x",
    b"-",
    b"+",
    b"-1",
    b"+1",
    b"-0",
    b"1,2",
    b"1_0",
    b"1e3",
    b"0x10",
    b"1.0",
    b"12u64",
    b"#",
    b"/",
    b":",
    b"1/",
    b":1",
    b"18446744073709551616",
    b"18446744073709551620",
    b"36893488147419103232",
    b"184467440737095516150",
    b"99999999999999999999999999999999999999999999999999",
    b"\0",
    b"1\x0b2",
    b"\x0c",
    b"3\xa0",
    b"\xff",
    b"\xd9\xa3",
];

// Bytes that separate nothing, and others beside those that do.
const BYTES: [u8; 14] = [0, 1, 8, 11, 12, 14, 31, 33, 47, 58, 127, 160, 255, b','];

// A text as its tokens.
type Tokens = Vec<Vec<u8>>;

pub fn tokens(numbers: &[u64]) -> Tokens {
    numbers.iter().map(|number| number.to_string().into_bytes()).collect()
}

// A line for each section.
pub fn in_lines(table: &Table) -> Vec<u8> {
    let counts = table.counts();
    let mut text = Vec::new();
    for (place, token) in tokens(&table.numbers()).iter().enumerate() {
        if place > 0 {
            text.push(if counts.contains(&place) { b'\n' } else { b' ' });
        }
        text.extend(token);
    }
    text.push(b'\n');
    text
}

// The tokens with single blanks between, or with blanks of every sort.
pub fn join(random: &mut Random, tokens: &Tokens, labels: &mut Labels) -> Vec<u8> {
    if random.chance(2, 3) {
        let mut text = tokens.join(&b' ');
        text.push(b'\n');
        return text;
    }
    labels.push("odd blanks");
    let mut text = Vec::new();
    if random.chance(1, 3) {
        text.extend(random.pick(&BLANKS));
    }
    for (place, token) in tokens.iter().enumerate() {
        if place > 0 {
            text.extend(random.pick(&BLANKS));
        }
        text.extend(token);
    }
    if random.chance(1, 3) {
        text.extend(random.pick(&BLANKS));
    }
    if random.chance(1, 200) {
        labels.push("very many blanks");
        let place = random.below(text.len() as u64 + 1) as usize;
        let blank = random.pick(b" \n\t\r");
        text.splice(place..place, vec![blank; 70_000]);
    }
    text
}

// A text of a table after one or two damages.
pub fn damaged(random: &mut Random, table: &mut Table, labels: &mut Labels) -> Vec<u8> {
    let given = labels.len();
    match random.below(8) {
        0 => return whole_text(random, labels),
        1 => labels.push(damage_names(random, table)),
        _ => (),
    }
    let mut tokens = tokens(&table.numbers());
    if random.chance(1, 8) {
        labels.push(raise_count(random, &table.counts(), &mut tokens));
    }
    let further = if labels.len() > given { random.below(2) } else { 1 + random.below(3) / 2 };
    for _ in 0..further {
        match random.below(8) {
            0..=2 => labels.push(put_junk(random, &mut tokens)),
            3 => labels.push(damage_mode(random, &mut tokens)),
            4 => labels.push(damage_size(random, &mut tokens)),
            5 | 6 => labels.push(rewrite_number(random, &mut tokens)),
            _ => (),
        }
    }
    let mut text = join(random, &tokens, labels);
    if random.chance(1, 4) {
        labels.push(damage_bytes(random, &mut text));
    }
    text
}

// A section's count at its limit, just past it, or far.
fn raise_count(random: &mut Random, counts: &[usize; 7], tokens: &mut Tokens) -> &'static str {
    let section = random.below(7) as usize;
    let far = random.pick(&[1 << 32, 1 << 61, u64::MAX / ROW_WIDTH as u64 + 1, u64::MAX]);
    let count = random.pick(&[LIMITS[section], LIMITS[section] + 1, LIMITS[section] + 1, far]);
    tokens[counts[section]] = count.to_string().into_bytes();
    "a count at its limit or past it"
}

// Junk for a token or beside one: at the ends more often than elsewhere.
fn put_junk(random: &mut Random, tokens: &mut Tokens) -> &'static str {
    let last = tokens.len().saturating_sub(1);
    let any = random.below(tokens.len() as u64 + 1) as usize;
    let place = random.pick(&[0, 1, any, any, any, any, last, tokens.len()]).min(tokens.len());
    let junk = random.pick(&JUNK).to_vec();
    if place < tokens.len() && random.chance(1, 2) {
        tokens[place] = junk;
        return "junk for a number";
    }
    tokens.insert(place, junk);
    "junk beside the numbers"
}

fn damage_mode(random: &mut Random, tokens: &mut Tokens) -> &'static str {
    if tokens.is_empty() {
        return "no harm";
    }
    match random.below(5) {
        0 => {
            tokens.remove(0);
            "the mode left out"
        }
        1 => {
            tokens[0].splice(0..0, [b'0'; 8]);
            "a mode with zeros in front"
        }
        _ => {
            let mode = random.pick(&[HIGHEST_MODE + 1, HIGHEST_MODE + 2, 256, u64::MAX]);
            tokens[0] = mode.to_string().into_bytes();
            "a mode that is too high"
        }
    }
}

// As many numbers as there may be, one more, and junk about there.
fn damage_size(random: &mut Random, tokens: &mut Tokens) -> &'static str {
    let (label, length) = match random.below(6) {
        0 => ("most numbers", MOST_NUMBERS),
        1 => ("one number too many", MOST_NUMBERS + 1),
        2 => ("junk as the last number", MOST_NUMBERS - 1),
        3 => ("junk after most numbers", MOST_NUMBERS),
        4 => ("junk after one too many", MOST_NUMBERS + 1),
        _ => ("very many numbers", MOST_NUMBERS + 1 + random.below(3000) as usize),
    };
    let fill = random.pick(&[b"0", b"1"]).to_vec();
    tokens.resize(length, fill);
    if label.starts_with("junk") {
        tokens.push(random.pick(&JUNK).to_vec());
    }
    label
}

// A number written otherwise, or another near a limit.
fn rewrite_number(random: &mut Random, tokens: &mut Tokens) -> &'static str {
    if tokens.is_empty() {
        return "no harm";
    }
    let place = random.below(tokens.len() as u64) as usize;
    let zeros = random.pick(&[1, 1, 2, 19, 20, 21, 30, 5000]);
    match random.below(6) {
        0..=2 => {
            tokens[place].splice(0..0, vec![b'0'; zeros]);
            "zeros in front"
        }
        3 => {
            tokens[place] = u64::MAX.to_string().into_bytes();
            "2^64 - 1"
        }
        4 => {
            let next = tokens.get(place + 1).cloned().unwrap_or_default();
            tokens[place].extend(next);
            "two numbers joined"
        }
        _ => {
            tokens[place].push(random.pick(b"0123456789"));
            "a digit more"
        }
    }
}

// Names: lengths and byte values at their limits and past them.
fn damage_names(random: &mut Random, table: &mut Table) -> &'static str {
    let wide = random.pick(&[256, 256, 256, 257, 1 << 32, u64::MAX]);
    let longest = LONGEST_NAME as usize;
    match random.below(7) {
        0 => {
            table.names.push(vec![97, wide]);
            if wide == 256 {
                "a byte of 256"
            } else {
                "a byte above 256"
            }
        }
        1 => {
            table.names.extend([vec![wide], vec![97; longest + 1]]);
            "a byte above 255 before a name that is too long"
        }
        2 => {
            table.names.extend([vec![97; longest + 1], vec![wide]]);
            "a name that is too long before a byte above 255"
        }
        3 => {
            table.names.push(vec![255; longest]);
            "a longest name of bytes 255"
        }
        4 => {
            table.names.resize(random.pick(&[1, 100, 3000]), vec![]);
            "many empty names"
        }
        5 => {
            table.names.extend([vec![65], vec![wide]]);
            "a name of 1 before a byte above 255"
        }
        _ => {
            table.names.extend([vec![65, 65], vec![]]);
            "a short name before an empty one"
        }
    }
}

// One byte put for another, put in, or taken out; or the text cut off.
fn damage_bytes(random: &mut Random, text: &mut Vec<u8>) -> &'static str {
    if text.is_empty() {
        return "no harm";
    }
    let place = random.below(text.len() as u64) as usize;
    let byte = random.pick(&BYTES);
    match random.below(6) {
        0 => {
            text[place] = byte;
            "a byte for another"
        }
        1 => {
            text[place] = random.below(256) as u8;
            "any byte for another"
        }
        2 => {
            text.insert(place, byte);
            "a byte more"
        }
        3 => {
            text.remove(place);
            "a byte fewer"
        }
        4 => {
            text.truncate(place);
            "a text cut off"
        }
        _ => {
            let blanks: Vec<usize> =
                (0..text.len()).filter(|at| b" \t\r\n".contains(&text[*at])).collect();
            if blanks.is_empty() {
                return "no harm";
            }
            text[random.pick(&blanks)] = byte;
            "a byte for a blank"
        }
    }
}

// A text with no table behind it.
fn whole_text(random: &mut Random, labels: &mut Labels) -> Vec<u8> {
    let length = random.below(40);
    match random.below(6) {
        0 => {
            labels.push("no text");
            vec![]
        }
        1 => {
            labels.push("blanks alone");
            (0..length).map(|_| random.pick(b" \t\r\n")).collect()
        }
        2 => {
            labels.push("any bytes");
            (0..length).map(|_| random.below(256) as u8).collect()
        }
        3 => {
            labels.push("digits and blanks");
            (0..length).map(|_| random.pick(b"0000001234567  \n")).collect()
        }
        _ => {
            labels.push("small numbers");
            let numbers: Vec<u64> = (0..length).map(|_| random.pick(&[0, 0, 0, 1, 2])).collect();
            join(random, &tokens(&numbers), labels)
        }
    }
}
