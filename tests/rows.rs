// Judges an accepted answer from its text and its sections alone, and folds nothing: every row passes the rules for nodes again, and every
// replacement has its node's sort (docs/FORMAT.md, "Nodes", "Folding" and "Result").

#[path = "../oracle/src/house.rs"]
pub mod house;

use self::house::*;
use std::array::from_fn;

pub type Row = [u64; ROW_WIDTH];

struct Folded {
    given: Vec<Row>,
    rows: Vec<Row>,
    constants: Vec<[u64; 2]>,
    replaced: Vec<[u64; 2]>,
}

// Says what is wrong with the sections of an accepted answer, each without its count.
pub fn judge(text: &[u8], sections: &[Vec<u64>]) -> Result<(), String> {
    let folded = Folded {
        given: given_rows(text).ok_or("accepted, though the text has no rows")?,
        rows: entries(&sections[0]),
        constants: entries(&sections[1]),
        replaced: entries(&sections[2]),
    };
    if folded.rows.len() != folded.given.len() {
        return Err(format!("{} rows for {}", folded.rows.len(), folded.given.len()));
    }
    folded.judge_constants()?;
    folded.judge_replacements()?;
    match (0..folded.rows.len()).find(|node| !folded.kept(*node) || !folded.fits(*node)) {
        Some(node) => Err(format!("row {node} is {:?}", folded.rows[node])),
        None => Ok(()),
    }
}

// The rows of section 1, which stands after the mode.
fn given_rows(text: &[u8]) -> Option<Vec<Row>> {
    let text = String::from_utf8(text.to_vec()).ok()?;
    let numbers: Option<Vec<u64>> = text.split_ascii_whitespace().map(|number| number.parse().ok()).collect();
    let numbers = numbers?;
    let count = *numbers.get(1)? as usize;
    Some(entries(numbers.get(2..2 + ROW_WIDTH * count)?))
}

fn entries<const WIDTH: usize>(words: &[u64]) -> Vec<[u64; WIDTH]> {
    words.chunks(WIDTH).map(|entry| from_fn(|word| entry[word])).collect()
}

impl Folded {
    // Shared false and true; then numbers that fit their sorts, each in place of some node.
    fn judge_constants(&self) -> Result<(), String> {
        if !self.constants.starts_with(&[[BIT, 0], [BIT, 1]]) {
            return Err("the shared constants are others".to_string());
        }
        for (number, [sort, value]) in (self.rows.len() as u64..).zip(&self.constants).skip(2) {
            let stands = self.replaced.iter().any(|[_, replacement]| *replacement == number);
            if !stands || largest(*sort).map_or(true, |largest| *value > largest) {
                return Err(format!("constant {number} is {value} of sort {sort}, in place of a node: {stands}"));
            }
        }
        Ok(())
    }

    fn judge_replacements(&self) -> Result<(), String> {
        if !self.replaced.windows(2).all(|pairs| pairs[0][0] < pairs[1][0]) {
            return Err("replaced nodes do not rise".to_string());
        }
        for [node, replacement] in &self.replaced {
            let own = self.given.get(*node as usize).map(|row| row[1]);
            let sort = self.operand(*node, *replacement);
            if own.is_none() || sort != own {
                return Err(format!("{replacement}, of sort {sort:?}, stands for node {node}, of sort {own:?}"));
            }
        }
        Ok(())
    }

    // The sort of what a node may name: a constant, or a node before it that is no Next and no Bad.
    fn operand(&self, node: u64, named: u64) -> Option<u64> {
        match self.rows.get(named as usize) {
            Some(row) => (named < node && row[0] != NEXT && row[0] != BAD).then(|| row[1]),
            None => self.constants.get((named as usize).checked_sub(self.rows.len())?).map(|constant| constant[0]),
        }
    }

    // A row keeps its kind, sort and name and the words that are no operands; what its kind does not use is 0.
    fn kept(&self, node: usize) -> bool {
        let (given, row) = (self.given[node], self.rows[node]);
        let (operands, used) = match row[0] {
            CONST => (2..2, 2..3),
            INPUT => (2..2, 2..2),
            EXT => (2..3, 2..4),
            NOT | BAD => (2..3, 2..3),
            WRITE | ITE => (2..5, 2..5),
            STATE if given[3] == 0 => (2..2, 3..4),
            STATE => (2..3, 2..4),
            NEXT => (3..4, 2..4),
            _ => (2..4, 2..4),
        };
        (0..ROW_WIDTH).all(|word| operands.contains(&word) || row[word] == given[word])
            && (2..5).all(|word| used.contains(&word) || row[word] == 0)
    }

    // The table of kinds, read again.
    fn fits(&self, node: usize) -> bool {
        let [kind, sort, a, b, c, _] = self.rows[node];
        let sort_of = |named| self.operand(node as u64, named);
        let are = |named: &[u64], sorts: &[u64]| named.iter().zip(sorts).all(|(named, sort)| sort_of(*named) == Some(*sort));
        let is_state = |named: u64| self.rows.get(named as usize).map_or(false, |row| row[0] == STATE);
        match kind {
            CONST => largest(sort).map_or(false, |largest| a <= largest),
            READ => sort == WORD && are(&[a, b], &[MEMORY, WORD]),
            WRITE => sort == MEMORY && are(&[a, b, c], &[MEMORY, WORD, WORD]),
            ADD..=SRL => sort == WORD && are(&[a, b], &[WORD, WORD]),
            ULT | EQ => sort == BIT && sort_of(a).and_then(largest).is_some() && sort_of(a) == sort_of(b),
            EXT => sort == WORD && largest(b).is_some() && are(&[a], &[b]),
            ITE => are(&[a, b, c], &[BIT, sort, sort]),
            AND | OR => largest(sort).is_some() && are(&[a, b], &[sort, sort]),
            NOT => largest(sort).is_some() && are(&[a], &[sort]),
            STATE => b == 0 || are(&[a], &[sort]),
            NEXT => is_state(a) && are(&[a, b], &[sort, sort]),
            INPUT => true,
            BAD => sort == BIT && are(&[a], &[BIT]),
            _ => false,
        }
    }
}
