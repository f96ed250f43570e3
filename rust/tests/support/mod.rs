// The program's text form: read into a call, and a call's outcome printed.

#[path = "../../../oracle/src/house.rs"]
mod house;

use gemtweed::Refusal;
use house::*;

pub struct Call {
    pub mode: u64,
    pub words: Vec<u64>,
    pub names: Vec<u8>,
}

// Why a text makes no call: the program refuses it with section 0, or a number among the names is no byte.
#[derive(Debug)]
pub enum NoCall {
    Text,
    NoByte,
}

// The call that a text makes.
pub fn read(text: &[u8]) -> Result<Call, NoCall> {
    let numbers = numbers(text).ok_or(NoCall::Text)?;
    let (mode, rest) = numbers.split_first().ok_or(NoCall::Text)?;
    if *mode > HIGHEST_MODE {
        return Err(NoCall::Text);
    }
    let end = words_end(rest);
    let names = names(&rest[end..]).ok_or(NoCall::NoByte)?;
    Ok(Call { mode: *mode, words: rest[..end].to_vec(), names })
}

fn numbers(text: &[u8]) -> Option<Vec<u64>> {
    let numbers: Vec<u64> = text
        .split(|byte| b" \t\r\n".contains(byte))
        .filter(|token| !token.is_empty())
        .map(number)
        .collect::<Option<_>>()?;
    (numbers.len() <= MOST_NUMBERS).then_some(numbers)
}

fn number(token: &[u8]) -> Option<u64> {
    token.iter().try_fold(0u64, |number, byte| {
        let digit = char::from(*byte).to_digit(10)?;
        number.checked_mul(10)?.checked_add(u64::from(digit))
    })
}

// Where section 6 ends; all numbers where a section before is short or too long.
fn words_end(numbers: &[u64]) -> usize {
    let mut at = 0;
    for (width, most) in [ROW_WIDTH, 1, 1, 1, 1, 1].into_iter().zip(LIMITS) {
        match numbers.get(at) {
            Some(count) if *count <= most => at += 1 + width * *count as usize,
            _ => return numbers.len(),
        }
    }
    at.min(numbers.len())
}

// Names as bytes. A count or a length past what its bytes can say is the highest that they can, which is over its limit too.
fn names(numbers: &[u64]) -> Option<Vec<u8>> {
    let Some((count, mut rest)) = numbers.split_first() else { return Some(Vec::new()) };
    let mut bytes = u16::try_from(*count).unwrap_or(u16::MAX).to_le_bytes().to_vec();
    for _ in 0..*count {
        let Some((length, after)) = rest.split_first() else { break };
        bytes.push(u8::try_from(*length).unwrap_or(u8::MAX));
        let (name, after) = after.split_at(after.len().min((*length).min(255) as usize));
        for byte in name {
            bytes.push(u8::try_from(*byte).ok()?);
        }
        rest = after;
    }
    for byte in rest {
        bytes.push(u8::try_from(*byte).ok()?);
    }
    Some(bytes)
}

pub fn print(outcome: Result<&[u64], Refusal>) -> String {
    match outcome {
        Ok(result) => format!("accepted\n{}", sections(result)),
        Err(why) => format!("refused {} {} {}\n", why.number(), why.section(), why.position()),
    }
}

fn sections(mut rest: &[u64]) -> String {
    let mut text = String::new();
    for width in RESULT_WIDTHS {
        let (section, after) = rest.split_at(1 + width * rest[0] as usize);
        let words: Vec<String> = section.iter().map(u64::to_string).collect();
        text += &words.join(" ");
        text.push('\n');
        rest = after;
    }
    text
}

// The call by the library, both buffers as large as the program's and full of other words before.
pub fn fold(call: &Call) -> String {
    let mut result = vec![7; PROGRAM_ROOM];
    let mut scratch = vec![9; PROGRAM_ROOM];
    let outcome = gemtweed::optimize_model_impl(
        call.mode,
        &call.words,
        &call.names,
        &mut result,
        &mut scratch,
    );
    assert!(scratch.iter().all(|word| *word == 0), "scratch is 0 after each call");
    let end = outcome.unwrap_or(0);
    assert!(result[end..].iter().all(|word| *word == 0), "words past the result are 0");
    print(outcome.map(|words| &result[..words]))
}
