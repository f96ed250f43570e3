//! Why a call is refused.

use crate::ffi::Answer;
use crate::house::HIGHEST_MODE;
use std::fmt;

/// Which of the two lent buffers.
#[derive(Clone, Copy, Debug, PartialEq, Eq, Hash)]
pub enum Buffer {
    Result,
    Scratch,
}

/// Why a call is refused, and where. Each case has a number from 1 to 14, none has 9; lists and places count from 0, sections from 1.
#[derive(Clone, Copy, Debug, PartialEq, Eq, Hash)]
pub enum Refusal {
    /// 1: a mode above [`HIGHEST_MODE`].
    Mode,
    /// 1: a section is short, or something is left over after the last (6 for words, 7 for names).
    Short { section: u64 },
    /// 2: a count or a name's length is over its limit.
    OverLimit { section: u64 },
    /// 3: an unknown kind or sort code, a word that must be 0, or a name rule broken.
    Malformed { node: u64 },
    /// 4: an operand that is not before its node.
    OperandNotBefore { node: u64 },
    /// 5: sorts that do not fit, a number too wide for its sort, or an operand that is a Next, a Bad or no State.
    Sorts { node: u64 },
    /// 6: a list entry past the table or of the wrong kind, or a Next whose state has no init.
    Entry { section: u64, place: u64 },
    /// 7: a second sequential for one state.
    SecondSequential { place: u64 },
    /// 8: a memory State would take an input.
    MemoryInput { node: u64 },
    /// 10: an input is too wide for its state.
    InputTooWide { node: u64 },
    /// 11: a reply that its question cannot have.
    Reply { place: u64 },
    /// 12: no room.
    NoRoom { buffer: Buffer },
    /// 13: a bad state is always true, under terminate.
    AlwaysTrue { section: u64, place: u64 },
    /// 14: a bad state is satisfiable, under terminate.
    Satisfiable { section: u64, place: u64 },
}

impl Refusal {
    /// From 1 to 14, and never 9.
    pub fn number(self) -> u64 {
        match self {
            Refusal::Mode | Refusal::Short { .. } => 1,
            Refusal::OverLimit { .. } => 2,
            Refusal::Malformed { .. } => 3,
            Refusal::OperandNotBefore { .. } => 4,
            Refusal::Sorts { .. } => 5,
            Refusal::Entry { .. } => 6,
            Refusal::SecondSequential { .. } => 7,
            Refusal::MemoryInput { .. } => 8,
            Refusal::InputTooWide { .. } => 10,
            Refusal::Reply { .. } => 11,
            Refusal::NoRoom { .. } => 12,
            Refusal::AlwaysTrue { .. } => 13,
            Refusal::Satisfiable { .. } => 14,
        }
    }

    /// The section: 0 is the mode, 8 the lent buffers.
    pub fn section(self) -> u64 {
        match self {
            Refusal::Mode => 0,
            Refusal::Short { section }
            | Refusal::OverLimit { section }
            | Refusal::Entry { section, .. }
            | Refusal::AlwaysTrue { section, .. }
            | Refusal::Satisfiable { section, .. } => section,
            Refusal::SecondSequential { .. } => 2,
            Refusal::Reply { .. } => 6,
            Refusal::NoRoom { .. } => 8,
            _ => 1,
        }
    }

    /// The place in its section.
    pub fn position(self) -> u64 {
        match self {
            Refusal::Mode | Refusal::Short { .. } | Refusal::OverLimit { .. } => 0,
            Refusal::Malformed { node }
            | Refusal::OperandNotBefore { node }
            | Refusal::Sorts { node }
            | Refusal::MemoryInput { node }
            | Refusal::InputTooWide { node } => node,
            Refusal::Entry { place, .. }
            | Refusal::SecondSequential { place }
            | Refusal::Reply { place }
            | Refusal::AlwaysTrue { place, .. }
            | Refusal::Satisfiable { place, .. } => place,
            Refusal::NoRoom { buffer: Buffer::Result } => 0,
            Refusal::NoRoom { buffer: Buffer::Scratch } => 1,
        }
    }

    // The refusal of an answer whose number is not 0.
    pub(crate) fn of(answer: &Answer) -> Refusal {
        let (section, node, place) = (answer.section, answer.position, answer.position);
        match answer.number {
            1 if section == 0 => Refusal::Mode,
            1 => Refusal::Short { section },
            2 => Refusal::OverLimit { section },
            3 => Refusal::Malformed { node },
            4 => Refusal::OperandNotBefore { node },
            5 => Refusal::Sorts { node },
            6 => Refusal::Entry { section, place },
            7 => Refusal::SecondSequential { place },
            8 => Refusal::MemoryInput { node },
            10 => Refusal::InputTooWide { node },
            11 => Refusal::Reply { place },
            12 if place == 0 => Refusal::NoRoom { buffer: Buffer::Result },
            12 => Refusal::NoRoom { buffer: Buffer::Scratch },
            13 => Refusal::AlwaysTrue { section, place },
            14 => Refusal::Satisfiable { section, place },
            number => unreachable!("refusal {number}"),
        }
    }
}

fn section_name(section: u64) -> &'static str {
    match section {
        1 => "nodes",
        2 => "sequentials",
        3 => "initial bads",
        4 => "sequential bads",
        5 => "inputs",
        6 => "replies",
        _ => "names",
    }
}

impl fmt::Display for Refusal {
    fn fmt(&self, f: &mut fmt::Formatter) -> fmt::Result {
        let named = section_name(self.section());
        let place = self.position();
        match self {
            Refusal::Mode => write!(f, "mode: above {HIGHEST_MODE}"),
            Refusal::Short { section: 6 } => {
                write!(f, "replies: too few words, or words left over")
            }
            Refusal::Short { section: 7 } => write!(f, "names: too few bytes, or bytes left over"),
            Refusal::Short { .. } => write!(f, "{named}: too few words"),
            Refusal::OverLimit { section: 7 } => write!(f, "names: too many, or one too long"),
            Refusal::OverLimit { .. } => write!(f, "{named}: too many"),
            Refusal::Malformed { .. } => write!(
                f,
                "node {place}: unknown kind or sort, a word that must be 0, or a name rule broken"
            ),
            Refusal::OperandNotBefore { .. } => {
                write!(f, "node {place}: operand not before its node")
            }
            Refusal::Sorts { .. } => write!(
                f,
                "node {place}: its sorts do not fit, its number is too wide, or an operand is a Next, a Bad or no State"
            ),
            Refusal::Entry { section: 2, .. } => {
                write!(f, "{named}, entry {place}: not a Next whose state has an init")
            }
            Refusal::Entry { .. } => write!(f, "{named}, entry {place}: not a Bad"),
            Refusal::SecondSequential { .. } => {
                write!(f, "{named}, entry {place}: a second Next for one state")
            }
            Refusal::MemoryInput { .. } => write!(f, "node {place}: a memory would take an input"),
            Refusal::InputTooWide { .. } => write!(f, "node {place}: its input is too wide"),
            Refusal::Reply { .. } => write!(f, "reply {place}: not one that its question can have"),
            Refusal::NoRoom { buffer: Buffer::Result } => write!(f, "result: too little room"),
            Refusal::NoRoom { buffer: Buffer::Scratch } => write!(f, "scratch: too little room"),
            Refusal::AlwaysTrue { .. } => write!(f, "{named}, entry {place}: always true"),
            Refusal::Satisfiable { .. } => write!(f, "{named}, entry {place}: satisfiable"),
        }
    }
}

impl std::error::Error for Refusal {}
