//! What a step of a walk answers.

use crate::refusal::{number, Refusal};

/// What stands at a place of a file, with the place of the next step: an item,
/// or none at the file's end, or the refusal of a place that has no item.
#[derive(Clone, Copy, Debug, PartialEq, Eq)]
pub struct Step<T> {
    pub found: Result<Option<T>, Refusal>,
    pub next: usize,
}

impl<T> Step<T> {
    /// The step at any place at all of a file of that length. `item` says what
    /// stands at a place inside of the file, and the place behind it.
    pub(crate) fn at(
        file_len: usize,
        at: usize,
        item: impl FnOnce(usize) -> Option<(T, usize)>,
    ) -> Self {
        if at == file_len {
            return Step {
                found: Ok(None),
                next: at,
            };
        }
        let inside = (at < file_len).then_some(at);
        match inside.and_then(item) {
            Some((item, next)) => Step {
                found: Ok(Some(item)),
                next,
            },
            // Past the end, so that no later step takes it for a whole walk.
            None => Step {
                found: Err(Refusal::of_call(number::OUT_OF_RANGE)),
                next: file_len + 1,
            },
        }
    }
}
