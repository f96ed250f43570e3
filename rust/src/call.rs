//! The calls over slices: on a thread with stack enough, or on the caller's own.

use crate::ffi;
use crate::house::{LONGEST_NAME, MOST_NODES};
use crate::refusal::Refusal;

/// The stack given for each node of a table, in bytes: some five times what was measured (docs/PERFORMANCE.md, "Stack").
pub const STACK_PER_NODE: usize = 1024;

/// The stack given besides, in bytes.
pub const STACK_BASE: usize = 65536;

/// The stack, in bytes, that a fold of these words is given. A table of more nodes than its limit is refused before any is visited.
pub fn stack_for(words: &[u64]) -> usize {
    let nodes = words.first().map_or(0, |count| (*count).min(MOST_NODES as u64));
    STACK_BASE + STACK_PER_NODE * nodes as usize
}

// Runs a fold on a thread of its own.
fn on_own_stack(
    words: &[u64],
    fold: impl FnOnce() -> Result<usize, Refusal> + Send,
) -> Result<usize, Refusal> {
    std::thread::scope(|scope| {
        let thread =
            std::thread::Builder::new().name("gemtweed".into()).stack_size(stack_for(words));
        let running = thread.spawn_scoped(scope, fold).expect("a thread for the fold");
        running.join().expect("a fold does not panic")
    })
}

/// The reference: inputs and replies both count. Answers how many words the result has; the words past it are 0, and scratch is 0 after
/// every call. A refusal leaves both buffers 0.
pub fn optimize_model_impl(
    mode: u64,
    words: &[u64],
    names: &[u8],
    result: &mut [u64],
    scratch: &mut [u64],
) -> Result<usize, Refusal> {
    // The thread has the stack that is asked for.
    on_own_stack(words, || unsafe {
        here::optimize_model_impl(mode, words, names, result, scratch)
    })
}

/// As [`optimize_model_impl`], but the inputs do not count.
pub fn optimize_model_with_solver(
    mode: u64,
    words: &[u64],
    names: &[u8],
    result: &mut [u64],
    scratch: &mut [u64],
) -> Result<usize, Refusal> {
    on_own_stack(words, || unsafe {
        here::optimize_model_with_solver(mode, words, names, result, scratch)
    })
}

/// As [`optimize_model_impl`] at mode 0, but the replies do not count.
pub fn optimize_model_with_input(
    words: &[u64],
    names: &[u8],
    result: &mut [u64],
    scratch: &mut [u64],
) -> Result<usize, Refusal> {
    on_own_stack(words, || unsafe {
        here::optimize_model_with_input(words, names, result, scratch)
    })
}

/// The name of a node, or the substitute: for a node past the table, without a name, or where nodes or names are refused as 1 or 2.
pub fn label(words: &[u64], names: &[u8], substitute: &[u8], node: u64) -> Vec<u8> {
    let mut out = vec![0; substitute.len().max(LONGEST_NAME)];
    // Slices of Rust do not overlap a buffer lent for writing.
    let length = unsafe {
        ffi::gemtweed_label(
            words.as_ptr(),
            words.len(),
            names.as_ptr(),
            names.len(),
            substitute.as_ptr(),
            substitute.len(),
            node,
            out.as_mut_ptr(),
            out.len(),
        )
    };
    out.truncate(length as usize);
    out
}

/// The same calls on the caller's own stack.
///
/// # Safety
///
/// Each needs [`stack_for`](crate::stack_for) bytes of stack left for its words. With less, it may run past the end of the stack.
pub mod here {
    use crate::ffi::{self, Answer};
    use crate::refusal::Refusal;

    fn outcome(answer: Answer) -> Result<usize, Refusal> {
        match answer.number {
            0 => Ok(answer.words as usize),
            _ => Err(Refusal::of(&answer)),
        }
    }

    /// # Safety
    ///
    /// The stack that [`stack_for`](crate::stack_for) says.
    pub unsafe fn optimize_model_impl(
        mode: u64,
        words: &[u64],
        names: &[u8],
        result: &mut [u64],
        scratch: &mut [u64],
    ) -> Result<usize, Refusal> {
        outcome(ffi::gemtweed_optimize_model_impl(
            mode,
            words.as_ptr(),
            words.len(),
            names.as_ptr(),
            names.len(),
            result.as_mut_ptr(),
            result.len(),
            scratch.as_mut_ptr(),
            scratch.len(),
        ))
    }

    /// # Safety
    ///
    /// The stack that [`stack_for`](crate::stack_for) says.
    pub unsafe fn optimize_model_with_solver(
        mode: u64,
        words: &[u64],
        names: &[u8],
        result: &mut [u64],
        scratch: &mut [u64],
    ) -> Result<usize, Refusal> {
        outcome(ffi::gemtweed_optimize_model_with_solver(
            mode,
            words.as_ptr(),
            words.len(),
            names.as_ptr(),
            names.len(),
            result.as_mut_ptr(),
            result.len(),
            scratch.as_mut_ptr(),
            scratch.len(),
        ))
    }

    /// # Safety
    ///
    /// The stack that [`stack_for`](crate::stack_for) says.
    pub unsafe fn optimize_model_with_input(
        words: &[u64],
        names: &[u8],
        result: &mut [u64],
        scratch: &mut [u64],
    ) -> Result<usize, Refusal> {
        outcome(ffi::gemtweed_optimize_model_with_input(
            words.as_ptr(),
            words.len(),
            names.as_ptr(),
            names.len(),
            result.as_mut_ptr(),
            result.len(),
            scratch.as_mut_ptr(),
            scratch.len(),
        ))
    }
}
