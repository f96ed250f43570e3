//! A table built from Rust values, and its words and names bytes.

use crate::call;
use crate::folded::{Folded, Reply};
use crate::house::{BAD_ROOM, LEAST_ROOM, NODE_ROOM};
use crate::node::{Name, Node, NodeId};
use crate::refusal::Refusal;

/// What a fold is asked for besides folding.
#[derive(Clone, Copy, Debug, Default, PartialEq, Eq, Hash)]
pub struct Mode {
    /// Ask the solver about nodes that did not fold.
    pub minimise: bool,
    /// Refuse a bad state that is always true or satisfiable.
    pub terminate: bool,
    /// Put one question about all initial bad states at the end. Turns terminate on, and leaves the sequential bad states unvisited.
    pub one_query: bool,
}

impl Mode {
    pub fn number(self) -> u64 {
        u64::from(self.minimise) + 2 * u64::from(self.terminate) + 4 * u64::from(self.one_query)
    }
}

/// A model: nodes, lists of them, inputs, the solver's replies, and names.
#[derive(Clone, Debug, Default, PartialEq, Eq)]
pub struct Table {
    pub nodes: Vec<Node>,
    /// The Nexts of the model.
    pub sequentials: Vec<NodeId>,
    pub initial_bads: Vec<NodeId>,
    pub sequential_bads: Vec<NodeId>,
    /// Concrete numbers for States without an init.
    pub inputs: Vec<u64>,
    pub replies: Vec<Reply>,
    pub names: Vec<Vec<u8>>,
}

impl Table {
    /// Puts a node after the others, and gives its number.
    pub fn add(&mut self, node: Node) -> NodeId {
        self.nodes.push(node);
        NodeId(self.nodes.len() as u64 - 1)
    }

    /// Puts a name after the others, and gives its number. A fold refuses a name of more than [`LONGEST_NAME`](crate::LONGEST_NAME) bytes.
    pub fn name(&mut self, name: &[u8]) -> Name {
        self.names.push(name.to_vec());
        Name(self.names.len() as u64)
    }

    /// Sections 1 to 6.
    pub fn words(&self) -> Vec<u64> {
        let mut words = vec![self.nodes.len() as u64];
        words.extend(self.nodes.iter().flat_map(Node::words));
        for list in [&self.sequentials, &self.initial_bads, &self.sequential_bads] {
            words.push(list.len() as u64);
            words.extend(list.iter().map(|node| node.0));
        }
        words.push(self.inputs.len() as u64);
        words.extend(&self.inputs);
        words.push(self.replies.len() as u64);
        words.extend(self.replies.iter().map(|reply| reply.number()));
        words
    }

    /// Section 7. A count or a length past what its bytes can say is the highest that they can, which is refused too.
    pub fn names_bytes(&self) -> Vec<u8> {
        let count = u16::try_from(self.names.len()).unwrap_or(u16::MAX);
        let mut bytes = count.to_le_bytes().to_vec();
        for name in &self.names {
            bytes.push(u8::try_from(name.len()).unwrap_or(u8::MAX));
            bytes.extend(name);
        }
        bytes
    }

    /// The words that result and scratch need.
    pub fn room(&self) -> usize {
        let bads = self.initial_bads.len() + self.sequential_bads.len();
        room_for(self.nodes.len(), self.sequentials.len(), bads, self.inputs.len())
    }

    /// Folds the table: inputs and replies both count.
    pub fn fold(&self, mode: Mode) -> Result<Folded, Refusal> {
        self.read_back(|words, names, result, scratch| {
            call::optimize_model_impl(mode.number(), words, names, result, scratch)
        })
    }

    /// Folds the table as though it had no inputs.
    pub fn fold_with_solver(&self, mode: Mode) -> Result<Folded, Refusal> {
        self.read_back(|words, names, result, scratch| {
            call::optimize_model_with_solver(mode.number(), words, names, result, scratch)
        })
    }

    /// Folds the table in no mode, as though it had no replies.
    pub fn fold_with_input(&self) -> Result<Folded, Refusal> {
        self.read_back(call::optimize_model_with_input)
    }

    fn read_back(
        &self,
        fold: impl FnOnce(&[u64], &[u8], &mut [u64], &mut [u64]) -> Result<usize, Refusal>,
    ) -> Result<Folded, Refusal> {
        let mut result = vec![0; self.room()];
        let mut scratch = vec![0; self.room()];
        let words = fold(&self.words(), &self.names_bytes(), &mut result, &mut scratch)?;
        Ok(Folded::read(&result[..words]).expect("nine result sections"))
    }

    /// The name of a node, or the substitute if it has none.
    pub fn label(&self, node: NodeId, substitute: &[u8]) -> Vec<u8> {
        call::label(&self.words(), &self.names_bytes(), substitute, node.0)
    }
}

/// The words that result and scratch need; `bads` counts both lists.
pub fn room_for(nodes: usize, sequentials: usize, bads: usize, inputs: usize) -> usize {
    NODE_ROOM * nodes + BAD_ROOM * bads + sequentials + inputs + LEAST_ROOM
}
