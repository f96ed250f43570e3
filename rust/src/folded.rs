//! What an accepted call hands back, read as Rust values.

use crate::house::ROW_WIDTH;
use crate::node::{Node, NodeId, Sort};

/// What the solver answers to a question.
#[derive(Clone, Copy, Debug, PartialEq, Eq, Hash)]
pub enum Reply {
    /// No, or a timeout.
    No,
    /// Yes, or unsatisfiable.
    Yes,
    /// To [`Asked::Satisfiable`] only.
    Satisfiable,
}

/// A question, by the nodes that it is about.
#[derive(Clone, Copy, Debug, PartialEq, Eq, Hash)]
pub enum Asked {
    AlwaysTrue(NodeId),
    AlwaysFalse(NodeId),
    AlwaysEqual(NodeId, NodeId),
    Satisfiable(NodeId),
    /// Whether so many kept bad states are all always false.
    AllAlwaysFalse(u64),
}

#[derive(Clone, Copy, Debug, PartialEq, Eq, Hash)]
pub struct Question {
    pub asked: Asked,
    pub reply: Reply,
}

/// A constant of the result. One that was made for a node has that node's own sort.
#[derive(Clone, Copy, Debug, PartialEq, Eq, Hash)]
pub struct Constant {
    pub sort: Sort,
    pub number: u64,
}

/// What one-query came to.
#[derive(Clone, Copy, Debug, PartialEq, Eq, Hash)]
pub enum Verdict {
    NotOneQuery,
    Found,
    NotFound,
    AllRemoved,
}

#[derive(Clone, Copy, Debug, PartialEq, Eq, Hash)]
pub struct Tally {
    pub inputs_taken: u64,
    pub replies_taken: u64,
    /// Writes looked at by Reads with a constant address.
    pub writes_looked_at: u64,
    /// Writes with an unknown address that were passed by Reads that found a value. Values are promised only where this is 0.
    pub unsettled_passed: u64,
    pub verdict: Verdict,
}

/// The nine result sections.
#[derive(Clone, Debug, PartialEq, Eq)]
pub struct Folded {
    /// The nodes, rewritten.
    pub nodes: Vec<Node>,
    /// Constants; the first is numbered after the last node. The first two are false and true.
    pub constants: Vec<Constant>,
    /// Nodes, and what stands for each now.
    pub replacements: Vec<(NodeId, NodeId)>,
    pub sequentials: Vec<NodeId>,
    pub initial_bads: Vec<NodeId>,
    pub sequential_bads: Vec<NodeId>,
    pub inputs_left: Vec<u64>,
    pub questions: Vec<Question>,
    pub tally: Tally,
}

impl Reply {
    pub fn number(self) -> u64 {
        match self {
            Reply::No => 0,
            Reply::Yes => 1,
            Reply::Satisfiable => 2,
        }
    }

    pub fn from_number(number: u64) -> Option<Reply> {
        match number {
            0 => Some(Reply::No),
            1 => Some(Reply::Yes),
            2 => Some(Reply::Satisfiable),
            _ => None,
        }
    }
}

impl Folded {
    /// Reads the words of a result; nothing if they are no result.
    pub fn read(words: &[u64]) -> Option<Folded> {
        let mut rest = words;
        let nodes = section(&mut rest, ROW_WIDTH)?;
        let constants = section(&mut rest, 2)?;
        let replacements = section(&mut rest, 2)?;
        let sequentials = numbers(&mut rest)?;
        let initial_bads = numbers(&mut rest)?;
        let sequential_bads = numbers(&mut rest)?;
        let inputs_left = section(&mut rest, 1)?.to_vec();
        let questions = section(&mut rest, 4)?;
        let tally = Tally::read(section(&mut rest, 1)?)?;
        rest.is_empty().then_some(())?;
        Some(Folded {
            nodes: nodes.chunks(ROW_WIDTH).map(read_node).collect::<Option<_>>()?,
            constants: constants.chunks(2).map(read_constant).collect::<Option<_>>()?,
            replacements: replacements.chunks(2).map(|w| (NodeId(w[0]), NodeId(w[1]))).collect(),
            sequentials,
            initial_bads,
            sequential_bads,
            inputs_left,
            questions: questions.chunks(4).map(read_question).collect::<Option<_>>()?,
            tally,
        })
    }
}

// A section's words, cut from the front of the rest; its entries have `width` words each.
fn section<'a>(rest: &mut &'a [u64], width: usize) -> Option<&'a [u64]> {
    let (count, after) = rest.split_first()?;
    let words = usize::try_from(*count).ok()?.checked_mul(width)?;
    let (own, after) = after.split_at_checked(words)?;
    *rest = after;
    Some(own)
}

fn numbers(rest: &mut &[u64]) -> Option<Vec<NodeId>> {
    Some(section(rest, 1)?.iter().map(|number| NodeId(*number)).collect())
}

fn read_node(words: &[u64]) -> Option<Node> {
    Node::from_words(words.try_into().ok()?)
}

fn read_constant(words: &[u64]) -> Option<Constant> {
    Some(Constant { sort: Sort::from_code(words[0])?, number: words[1] })
}

fn read_question(words: &[u64]) -> Option<Question> {
    let first = NodeId(words[1]);
    let asked = match words[0] {
        1 => Asked::AlwaysTrue(first),
        2 => Asked::AlwaysFalse(first),
        3 => Asked::AlwaysEqual(first, NodeId(words[2])),
        4 => Asked::Satisfiable(first),
        5 => Asked::AllAlwaysFalse(words[1]),
        _ => return None,
    };
    Some(Question { asked, reply: Reply::from_number(words[3])? })
}

impl Tally {
    fn read(words: &[u64]) -> Option<Tally> {
        let [inputs_taken, replies_taken, writes_looked_at, unsettled_passed, verdict] = *words
        else {
            return None;
        };
        let verdict = match verdict {
            0 => Verdict::NotOneQuery,
            1 => Verdict::Found,
            2 => Verdict::NotFound,
            3 => Verdict::AllRemoved,
            _ => return None,
        };
        Some(Tally { inputs_taken, replies_taken, writes_looked_at, unsettled_passed, verdict })
    }
}
