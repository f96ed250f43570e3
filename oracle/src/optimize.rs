// The published optimize.rs, unchanged, and beside it what lets a test reach its private items.

include!("published_optimize.rs");
include!("calls.rs");

pub fn all_ones(sort: &NodeType) -> u64 {
    ones(sort)
}

// What a folder held when it was dropped.
pub struct Folded {
    pub const_false: NodeRef,
    pub const_true: NodeRef,
    pub replacements: Vec<(NodeRef, NodeRef)>,
}

thread_local! {
    static LAST: RefCell<Option<Folded>> = const { RefCell::new(None) };
}

// What the last folder of this thread held; nothing if it ended by a panic.
pub fn last_folded() -> Option<Folded> {
    LAST.with(|last| last.borrow_mut().take())
}

impl<'a, S> Drop for ConstantFolder<'a, S> {
    fn drop(&mut self) {
        let folded = Folded {
            const_false: self.const_false.clone(),
            const_true: self.const_true.clone(),
            replacements: (self.mapping.iter())
                .map(|(node, replacement)| (node.value.clone(), replacement.clone()))
                .collect(),
        };
        LAST.with(|last| *last.borrow_mut() = (!std::thread::panicking()).then_some(folded));
    }
}
