//! Folds BTOR2 models by the proved library `libgemtweed.a`. docs/FORMAT.md in the repository says what tables, results and refusals mean.
//!
//! A [`Table`] is built from Rust values and folded; the result sections come back as a [`Folded`], a refusal as a [`Refusal`]:
//!
//! ```
//! use gemtweed::{Mode, Node, Sort, Table};
//!
//! // A hold that ends just before noon: the bad state is dropped, as 12 is not below 12.
//! let mut table = Table::default();
//! let name = table.name(b"hold-end");
//! let hold_end = table.add(Node::State { sort: Sort::Word, init: None, name: Some(name) });
//! let noon = table.add(Node::Const { sort: Sort::Word, number: 12 });
//! let before = table.add(Node::Ult { left: hold_end, right: noon });
//! let bad = table.add(Node::Bad { condition: before, name: None });
//! table.initial_bads.push(bad);
//! table.inputs.push(12);
//!
//! let folded = table.fold(Mode::default()).unwrap();
//! assert_eq!(folded.initial_bads, []);
//! assert_eq!(folded.tally.inputs_taken, 1);
//! ```
//!
//! # Stack
//!
//! The library visits a node by visiting its operands, so each node of a chain takes stack (docs/PERFORMANCE.md, "Stack", says how much), and
//! what a caller has left of its own is not known. Every function of this crate that folds therefore starts a thread of its own with
//! [`stack_for`] bytes, so what its caller has left does not matter. [`here`] has the same calls without that thread, for a
//! caller who has seen to the stack. "The Rust crate's calls" there says what the thread costs.
//!
//! # Panics
//!
//! A fold panics if no thread can be started.

mod call;
mod ffi;
mod folded;
mod house;
mod node;
mod refusal;
mod table;

pub use call::{
    here, label, optimize_model_impl, optimize_model_with_input, optimize_model_with_solver,
    stack_for, STACK_BASE, STACK_PER_NODE,
};
pub use folded::{Asked, Constant, Folded, Question, Reply, Tally, Verdict};
pub use house::{
    BAD_ROOM, HIGHEST_MODE, LEAST_ROOM, LONGEST_NAME, MOST_ENTRIES, MOST_INPUTS, MOST_NAMES,
    MOST_NODES, MOST_REPLIES, NODE_ROOM, ROW_WIDTH,
};
pub use node::{Name, Node, NodeId, Sort};
pub use refusal::{Buffer, Refusal};
pub use table::{room_for, Mode, Table};
