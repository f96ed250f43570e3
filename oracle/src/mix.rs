// The mix of cases: tables as they should be, damaged tables and damaged texts, each as a text of the program.

use crate::cases;
use crate::damages::{self, Labels};
use crate::departures::HIGHEST_MODE_OF_THE_RUST;
use crate::house::PROGRAM_NODES;
use crate::random::Random;
use crate::table::Table;
use crate::texts;
use crate::varied;

#[derive(Clone, Copy, PartialEq, Eq, PartialOrd, Ord)]
pub enum Kind {
    Whole,
    DamagedTable,
    DamagedText,
}

// A text, and what was done to come by it.
pub struct Case {
    pub kind: Kind,
    pub labels: Labels,
    pub text: Vec<u8>,
}

impl Kind {
    pub fn name(self) -> &'static str {
        match self {
            Kind::Whole => "whole tables",
            Kind::DamagedTable => "damaged tables",
            Kind::DamagedText => "damaged texts",
        }
    }
}

// Of ten cases, six are whole, two have a damaged table and two a damaged text.
pub fn case(random: &mut Random) -> Case {
    let kind = match random.below(10) {
        0..=5 => Kind::Whole,
        6 | 7 => Kind::DamagedTable,
        _ => Kind::DamagedText,
    };
    let mut labels = Labels::new();
    let mut table = draw_table(random, &mut labels);
    let text = match kind {
        Kind::Whole if random.chance(1, 2) => texts::in_lines(&table),
        Kind::Whole => texts::join(random, &texts::tokens(&table.numbers()), &mut labels),
        Kind::DamagedTable => {
            let numbers = damages::labelled(random, table, &mut labels);
            texts::join(random, &texts::tokens(&numbers), &mut labels)
        }
        Kind::DamagedText => texts::damaged(random, &mut table, &mut labels),
    };
    Case { kind, labels, text }
}

// Of ten tables, seven have at most 14 nodes, two at most 40 and one at most as many as the program takes.
fn draw_table(random: &mut Random, labels: &mut Labels) -> Table {
    let most = match random.below(10) {
        0..=6 => 14,
        7 | 8 => 40,
        _ => PROGRAM_NODES,
    };
    let mut table = if random.chance(1, 100) {
        labels.push("no nodes");
        let mode = random.below(HIGHEST_MODE_OF_THE_RUST + 1);
        Table { mode, ..Table::default() }
    } else {
        cases::random(random, most)
    };
    varied::vary(random, &mut table, labels);
    table
}
