// A table, read from text and judged: refusals 1 to 7 and 12, of which the published Rust has little.

use crate::house::*;

#[derive(Clone, Copy, Debug, PartialEq)]
pub struct Refusal {
    pub number: u64,
    pub section: u64,
    pub position: u64,
}

pub fn refusal(number: u64, section: u64, position: u64) -> Refusal {
    Refusal { number, section, position }
}

#[derive(Clone)]
pub struct Row {
    pub kind: u64,
    pub sort: u64,
    pub words: [u64; 3],
    pub name: u64,
}

#[derive(Clone, Default)]
pub struct Table {
    pub mode: u64,
    pub nodes: Vec<Row>,
    pub sequentials: Vec<u64>,
    pub initial_bads: Vec<u64>,
    pub sequential_bads: Vec<u64>,
    pub inputs: Vec<u64>,
    pub replies: Vec<u64>,
    pub names: Vec<Vec<u64>>,
}

pub fn fits(number: u64, sort: u64) -> bool {
    largest(sort).is_some_and(|largest| number <= largest)
}

impl Row {
    pub fn of(words: &[u64; ROW_WIDTH]) -> Row {
        let [kind, sort, a, b, c, name] = *words;
        Row { kind, sort, words: [a, b, c], name }
    }

    pub fn all_words(&self) -> [u64; ROW_WIDTH] {
        let [a, b, c] = self.words;
        [self.kind, self.sort, a, b, c, self.name]
    }

    // The words that name nodes. A State's a does so where its b is 1.
    pub fn operands(&self) -> &[u64] {
        let count = match self.kind {
            CONST | INPUT => 0,
            EXT | NOT | BAD => 1,
            WRITE | ITE => 3,
            STATE => (self.words[1] == 1) as usize,
            _ => 2,
        };
        &self.words[..count]
    }
}

impl Table {
    pub fn read(text: &[u8]) -> Result<Table, Refusal> {
        let table = Table::cut(text)?;
        table.judge_room()?;
        table.judge_nodes()?;
        table.judge_lists()?;
        Ok(table)
    }

    // The table of a text, with neither room nor nodes nor lists judged.
    pub fn cut(text: &[u8]) -> Result<Table, Refusal> {
        let numbers = numbers(text)?;
        let mut rest = &numbers[1..];
        let nodes = section(&mut rest, 1, MOST_NODES, ROW_WIDTH)?;
        Ok(Table {
            mode: numbers[0],
            nodes: nodes.as_chunks().0.iter().map(Row::of).collect(),
            sequentials: section(&mut rest, 2, MOST_ENTRIES, 1)?,
            initial_bads: section(&mut rest, 3, MOST_ENTRIES, 1)?,
            sequential_bads: section(&mut rest, 4, MOST_ENTRIES, 1)?,
            inputs: section(&mut rest, 5, MOST_INPUTS, 1)?,
            replies: section(&mut rest, 6, MOST_REPLIES, 1)?,
            names: names(rest)?,
        })
    }

    // A node after the others; its number.
    pub fn push(&mut self, kind: u64, sort: u64, words: [u64; 3], name: u64) -> u64 {
        self.nodes.push(Row { kind, sort, words, name });
        self.nodes.len() as u64 - 1
    }

    pub fn numbers(&self) -> Vec<u64> {
        let mut out = vec![self.mode, self.nodes.len() as u64];
        out.extend(self.nodes.iter().flat_map(Row::all_words));
        for list in self.lists() {
            out.push(list.len() as u64);
            out.extend(list);
        }
        out.push(self.names.len() as u64);
        for name in &self.names {
            out.push(name.len() as u64);
            out.extend(name);
        }
        out
    }

    // Sections 2 to 6.
    fn lists(&self) -> [&Vec<u64>; 5] {
        let bads = [&self.initial_bads, &self.sequential_bads];
        [&self.sequentials, bads[0], bads[1], &self.inputs, &self.replies]
    }

    // Where the counts of sections 1 to 7 stand among the numbers.
    pub fn counts(&self) -> [usize; 7] {
        let mut counts = [1; 7];
        counts[1] = 2 + ROW_WIDTH * self.nodes.len();
        for (at, list) in self.lists().into_iter().enumerate() {
            counts[at + 2] = counts[at + 1] + 1 + list.len();
        }
        counts
    }

    // The words that result and scratch need.
    pub fn need(&self) -> usize {
        let bads = self.initial_bads.len() + self.sequential_bads.len();
        let entries = self.sequentials.len() + self.inputs.len();
        NODE_ROOM * self.nodes.len() + BAD_ROOM * bads + entries + LEAST_ROOM
    }

    fn judge_room(&self) -> Result<(), Refusal> {
        if self.need() > PROGRAM_ROOM {
            return Err(refusal(12, 8, 0));
        }
        Ok(())
    }

    fn judge_nodes(&self) -> Result<(), Refusal> {
        for (at, row) in self.nodes.iter().enumerate() {
            if !self.well_formed(row) {
                return Err(refusal(3, 1, at as u64));
            }
            if row.operands().iter().any(|operand| *operand >= at as u64) {
                return Err(refusal(4, 1, at as u64));
            }
            if !self.sorts_agree(row) {
                return Err(refusal(5, 1, at as u64));
            }
        }
        Ok(())
    }

    // Known codes, words that must be 0, and the name.
    fn well_formed(&self, row: &Row) -> bool {
        let known_sort = |sort| sort == MEMORY || width(sort).is_some();
        let [a, b, c] = row.words;
        let words = match row.kind {
            CONST => b == 0 && c == 0,
            EXT => known_sort(b) && c == 0,
            STATE => (b == 1 || b == 0 && a == 0) && c == 0,
            READ..=BAD => row.words[row.operands().len()..].iter().all(|word| *word == 0),
            _ => false,
        };
        let name = match row.kind {
            STATE | BAD => row.name <= self.names.len() as u64,
            INPUT => 1 <= row.name && row.name <= self.names.len() as u64,
            _ => row.name == 0,
        };
        words && known_sort(row.sort) && name
    }

    fn sorts_agree(&self, row: &Row) -> bool {
        let operand = |k: usize| &self.nodes[row.words[k] as usize];
        let sort = |k: usize| operand(k).sort;
        let mut operands = (0..row.operands().len()).map(operand);
        if operands.any(|operand| matches!(operand.kind, NEXT | BAD)) {
            return false;
        }
        match row.kind {
            CONST => fits(row.words[0], row.sort),
            READ => row.sort == WORD && sort(0) == MEMORY && sort(1) == WORD,
            WRITE => [row.sort, sort(0), sort(1), sort(2)] == [MEMORY, MEMORY, WORD, WORD],
            ADD..=SRL => [row.sort, sort(0), sort(1)] == [WORD, WORD, WORD],
            ULT | EQ => row.sort == BIT && sort(0) == sort(1) && sort(0) != MEMORY,
            EXT => row.sort == WORD && sort(0) == row.words[1] && sort(0) != MEMORY,
            ITE => sort(0) == BIT && sort(1) == row.sort && sort(2) == row.sort,
            AND | OR => row.sort != MEMORY && sort(0) == row.sort && sort(1) == row.sort,
            NOT => row.sort != MEMORY && sort(0) == row.sort,
            STATE => row.operands().is_empty() || sort(0) == row.sort,
            NEXT => operand(0).kind == STATE && sort(0) == row.sort && sort(1) == row.sort,
            BAD => row.sort == BIT && sort(0) == BIT,
            _ => true,
        }
    }

    fn judge_lists(&self) -> Result<(), Refusal> {
        let mut states = Vec::new();
        for (place, entry) in self.sequentials.iter().enumerate() {
            let Some(row) = self.nodes.get(*entry as usize).filter(|row| row.kind == NEXT) else {
                return Err(refusal(6, 2, place as u64));
            };
            let state = row.words[0];
            if self.nodes[state as usize].operands().is_empty() {
                return Err(refusal(6, 2, place as u64));
            }
            if states.contains(&state) {
                return Err(refusal(7, 2, place as u64));
            }
            states.push(state);
        }
        for (section, list) in [(3, &self.initial_bads), (4, &self.sequential_bads)] {
            for (place, entry) in list.iter().enumerate() {
                if self.nodes.get(*entry as usize).is_none_or(|row| row.kind != BAD) {
                    return Err(refusal(6, section, place as u64));
                }
            }
        }
        Ok(())
    }
}

// What stands between blanks: spaces, tabs, carriage returns and line feeds.
pub fn tokens(text: &[u8]) -> impl Iterator<Item = &[u8]> {
    text.split(|byte| b" \t\r\n".contains(byte)).filter(|token| !token.is_empty())
}

// The numbers of the text, the first of them a mode.
fn numbers(text: &[u8]) -> Result<Vec<u64>, Refusal> {
    let mut numbers = Vec::new();
    for token in tokens(text) {
        let place = numbers.len();
        if place == MOST_NUMBERS {
            return Err(refusal(2, 0, place as u64));
        }
        match number(token) {
            Some(mode) if place == 0 && mode > HIGHEST_MODE => return Err(refusal(1, 0, 0)),
            Some(number) => numbers.push(number),
            None => return Err(refusal(1, 0, place as u64)),
        }
    }
    if numbers.is_empty() {
        return Err(refusal(1, 0, 0));
    }
    Ok(numbers)
}

fn number(token: &[u8]) -> Option<u64> {
    token.iter().try_fold(0u64, |number, byte| {
        let digit = char::from(*byte).to_digit(10)?;
        number.checked_mul(10)?.checked_add(digit as u64)
    })
}

// A section's words, cut from the front of the rest; its entries have `width` words each.
fn section(rest: &mut &[u64], section: u64, most: u64, width: usize) -> Result<Vec<u64>, Refusal> {
    let short = refusal(1, section, 0);
    let (count, after) = rest.split_first().ok_or(short)?;
    if *count > most {
        return Err(refusal(2, section, 0));
    }
    let (words, after) = after.split_at_checked(*count as usize * width).ok_or(short)?;
    *rest = after;
    Ok(words.to_vec())
}

// Section 7 in the text: each name after its length, one number a byte, and nothing left over.
fn names(words: &[u64]) -> Result<Vec<Vec<u64>>, Refusal> {
    let wrong = refusal(1, 7, 0);
    let (count, mut rest) = words.split_first().ok_or(wrong)?;
    if *count > MOST_NAMES {
        return Err(refusal(2, 7, 0));
    }
    let mut names = Vec::new();
    for _ in 0..*count {
        names.push(section(&mut rest, 7, LONGEST_NAME, 1)?);
    }
    if !rest.is_empty() || names.iter().flatten().any(|byte| *byte > 255) {
        return Err(wrong);
    }
    Ok(names)
}
