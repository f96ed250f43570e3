// A text's answer: refusals 1 to 7 and 12 as docs/FORMAT.md has them, all else by the published Rust but for the departures; and how the
// program prints it.

use crate::departures::depart;
use crate::fold::{self, Sections};
use crate::house::RESULT_WIDTHS;
use crate::table::{Refusal, Table};

pub type Answer = Result<Sections, Refusal>;

pub fn answer(text: &[u8]) -> Answer {
    judged(text).0
}

// A text's answer, and a name for each departure in it.
pub fn judged(text: &[u8]) -> (Answer, Vec<&'static str>) {
    let folded = Table::read(text).and_then(|table| Ok((fold::answer(&table)?, table)));
    match folded {
        Ok((mut sections, table)) => {
            let departed = depart(&table, &mut sections);
            (Ok(sections), departed)
        }
        Err(refused) => (Err(refused), vec![]),
    }
}

// The lines that the program prints, without their ends.
pub fn lines(answer: &Answer) -> Vec<String> {
    match answer {
        Ok(sections) => {
            let sections = sections.iter().zip(RESULT_WIDTHS);
            let printed = sections.map(|(section, width)| line(section, width));
            std::iter::once("accepted".to_string()).chain(printed).collect()
        }
        Err(refused) => {
            vec![format!("refused {} {} {}", refused.number, refused.section, refused.position)]
        }
    }
}

// What the program prints, each line ended by a line feed.
pub fn printed(answer: &Answer) -> Vec<u8> {
    let mut out = lines(answer).join("\n");
    out.push('\n');
    out.into_bytes()
}

// A section after its count, with `width` words for each that is counted.
fn line(section: &[u64], width: usize) -> String {
    let count = section.len() / width;
    let words = std::iter::once(count as u64).chain(section.iter().copied());
    words.map(|word| word.to_string()).collect::<Vec<_>>().join(" ")
}

// No message for a panic that stands for a refusal.
pub fn hide_refusals() {
    let usual = std::panic::take_hook();
    std::panic::set_hook(Box::new(move |panic| {
        if !fold::is_refusal(panic.payload()) {
            usual(panic);
        }
    }));
}
