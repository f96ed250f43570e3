// Damaged tables: each damage has a name, and draws a refusal of its own or another one where it does no harm.

use crate::house::*;
use crate::random::Random;
use crate::table::{Row, Table};

pub type Labels = Vec<&'static str>;

const UNKNOWN: [u64; 6] = [0, MEMORY + 1, BYTE - 1, BYTES_7 + 1, (1 << 32) + WORD, u64::MAX];

// The numbers of the table after one or two damages.
pub fn damaged(random: &mut Random, table: Table) -> Vec<u64> {
    labelled(random, table, &mut Labels::new())
}

pub fn labelled(random: &mut Random, mut table: Table, labels: &mut Labels) -> Vec<u64> {
    let mut of_words = 0;
    for _ in 0..1 + random.below(2) {
        match random.below(8) {
            0 | 1 => labels.push(damage_code(random, &mut table)),
            2 | 3 => labels.push(damage_operand(random, &mut table)),
            4 => labels.push(damage_list(random, &mut table)),
            5 => labels.push(damage_sequential(random, &mut table)),
            _ => of_words += 1,
        }
    }
    let mut words = table.numbers();
    for _ in 0..of_words {
        labels.push(damage_words(random, &table, &mut words));
    }
    words
}

// Changes a node of one of the kinds, if there is one; any kind will do where none is named.
fn change(
    random: &mut Random,
    table: &mut Table,
    kinds: &[u64],
    label: &'static str,
    change: impl FnOnce(&mut Random, &mut Row),
) -> &'static str {
    let wanted = |row: &Row| kinds.is_empty() || kinds.contains(&row.kind);
    let places: Vec<usize> =
        (0..table.nodes.len()).filter(|place| wanted(&table.nodes[*place])).collect();
    if places.is_empty() {
        return "no harm";
    }
    let place = random.pick(&places);
    change(random, &mut table.nodes[place]);
    label
}

// Codes, words that must be 0, names, and numbers that do not fit.
fn damage_code(random: &mut Random, table: &mut Table) -> &'static str {
    let names = table.names.len() as u64;
    match random.below(10) {
        0 => change(random, table, &[], "another kind", |random, row| {
            row.kind = CONST + random.below(BAD);
        }),
        1 => change(random, table, &[], "an unknown kind", |random, row| {
            row.kind = random.pick(&[0, BAD + 1, row.kind | 256, u64::MAX]);
        }),
        2 => change(random, table, &[], "another sort", |random, row| {
            row.sort = random.pick(&[BIT, WORD, MEMORY, BYTE, BYTE + 1, BYTES_7]);
        }),
        3 => change(random, table, &[], "an unknown sort", |random, row| {
            row.sort = random.pick(&UNKNOWN);
        }),
        4 => change(random, table, &[], "another name", |random, row| {
            row.name = random.pick(&[0, 1, names, names + 1, u64::MAX]);
        }),
        5 => change(random, table, &[], "another word", |random, row| {
            row.words[random.below(3) as usize] = random.pick(&[1, 7, u64::MAX]);
        }),
        6 => change(random, table, &[CONST], "a Const that does not fit", |_, row| {
            match width(row.sort) {
                Some(width) if width < 64 => row.words[0] = 1 << width,
                _ => row.sort = MEMORY,
            }
        }),
        7 => change(random, table, &[STATE], "a State's other words", |random, row| {
            row.words = random.pick(&[[1, 0, 0], [0, 2, 0], [row.words[0], 1, 1], [0, 1, 0]]);
        }),
        8 => change(random, table, &[EXT], "an Ext from a memory", |_, row| {
            row.words[1] = MEMORY;
        }),
        _ => change(random, table, &[EXT], "another sort in an Ext", |random, row| {
            let sorts = [0, BIT, WORD, MEMORY + 1, BYTE, BYTES_7, BYTES_7 + 1];
            row.words[1] = random.pick(&sorts);
        }),
    }
}

// Operands at or past their node, and other ones before it.
fn damage_operand(random: &mut Random, table: &mut Table) -> &'static str {
    let nodes = table.nodes.len() as u64;
    let places: Vec<usize> =
        (0..table.nodes.len()).filter(|at| !table.nodes[*at].operands().is_empty()).collect();
    if places.is_empty() {
        return "no harm";
    }
    let at = random.pick(&places);
    let operands = table.nodes[at].operands().len() as u64;
    let word = &mut table.nodes[at].words[random.below(operands) as usize];
    let at = at as u64;
    let (label, operand) = match random.below(6) {
        0 => ("the node itself as an operand", at),
        1 => ("an operand past its node", at + 1 + random.below(nodes)),
        2 => ("an operand near 2^64", u64::MAX - random.below(3)),
        3 => ("an operand that is before its node in 32 bits", *word | 1 << 32),
        _ => ("another operand", random.below(at.max(1))),
    };
    *word = operand;
    label
}

// List entries, inputs, replies and names.
fn damage_list(random: &mut Random, table: &mut Table) -> &'static str {
    let nodes = table.nodes.len() as u64;
    let other = random.below(nodes.max(1));
    let lists = [&mut table.sequentials, &mut table.initial_bads, &mut table.sequential_bads];
    let list = lists.into_iter().nth(random.below(3) as usize).unwrap();
    let (label, entry) = match random.below(6) {
        0 => ("an entry past the table", random.pick(&[nodes, nodes + 1, u64::MAX, 1 << 32])),
        1 | 2 => ("another entry", other),
        3 => {
            let length = LONGEST_NAME + random.pick(&[0, 1, 2]);
            table.names.push(vec![b'x' as u64; length as usize]);
            return "a name that may be too long";
        }
        4 => {
            let sorts: Vec<u64> = [BIT].into_iter().chain(BYTE..=BYTES_7).collect();
            let fits = largest(random.pick(&sorts)).expect("a sort of numbers");
            table.inputs.insert(0, fits + 1);
            return "an input that is one too wide for some sort";
        }
        _ => {
            let reply = random.pick(&[2, 3, 1 << 32, (1 << 32) + 1, u64::MAX]);
            let place = random.below(table.replies.len() as u64 + 1);
            table.replies.insert(place as usize, reply);
            return "a reply that may be wrong";
        }
    };
    let place = random.below(list.len() as u64 + 1) as usize;
    list.insert(place, entry);
    label
}

// A State's second sequential, or one where it has no init; and a Next or a Bad with another sort.
fn damage_sequential(random: &mut Random, table: &mut Table) -> &'static str {
    let other_sort = |random: &mut Random, row: &mut Row| {
        row.sort = random.pick(&[BIT, WORD, MEMORY, BYTE, BYTES_7]);
    };
    let nodes = table.nodes.len() as u64;
    let listed = table.sequentials.first().copied().filter(|entry| *entry < nodes);
    match (random.below(5), listed) {
        (0, _) => change(random, table, &[NEXT], "a Next's own sort", other_sort),
        (1, _) => change(random, table, &[BAD], "a Bad's own sort", other_sort),
        (_, None) => "no harm",
        (2, Some(entry)) => {
            table.sequentials.push(entry);
            "a listed Next again"
        }
        (3, Some(entry)) => {
            let row = table.nodes[entry as usize].clone();
            table.nodes.push(row);
            table.sequentials.push(nodes);
            "a second Next of one State"
        }
        (_, Some(entry)) => {
            let state = table.nodes[entry as usize].words[0];
            table.nodes[(state % nodes) as usize].words[..2].fill(0);
            "a listed State without its init"
        }
    }
}

fn damage_words(random: &mut Random, table: &Table, words: &mut Vec<u64>) -> &'static str {
    if words.is_empty() {
        return "no harm";
    }
    let at = random.below(words.len() as u64) as usize;
    match random.below(10) {
        0 => drop(words.remove(at)),
        1 => words.truncate(at),
        2 => words.extend([0, 1, 2].into_iter().take(1 + random.below(3) as usize)),
        3 => words.insert(at, random.below(4)),
        4 => {
            // From a section's count on, nothing.
            words.truncate(random.pick(&table.counts()));
            return "a section's count missing";
        }
        5..=7 => {
            let Some(count) = words.get_mut(random.pick(&table.counts())) else { return "no harm" };
            let above = count.wrapping_add(1);
            let below = count.wrapping_sub(1);
            let [e, n, r] = [MOST_ENTRIES, MOST_NODES, MOST_REPLIES];
            *count = random.pick(&[above, below, e, e + 1, n, n + 1, r, r + 1, 1 << 63]);
            return "another count";
        }
        _ => {
            let word = words[at];
            let (length, any) = (LONGEST_NAME, random.word());
            let changed =
                [0, 1, length, length + 1, 256, word ^ 1, word ^ (1 << 32), any, u64::MAX];
            words[at] = random.pick(&changed);
            return "another number";
        }
    }
    "a number more or fewer"
}
