//! Two stores of the same contents, one for the reference and one for the library.

use crate::difference::{agree_runs, Checked};
use crate::lent::Canary;
use reference::chunks::STORE_LEN;
use std::ops::Range;

/// Bytes lent past those of a store, and canaries on each side of what is lent.
const LONGER: usize = 23;
const MARGIN: usize = 17;

pub struct Stores {
    before: Vec<u8>,
    expected: Vec<u8>,
    found: Vec<u8>,
    lent: Range<usize>,
}

impl Stores {
    pub fn new() -> Self {
        let before: Vec<u8> = (0..STORE_LEN + LONGER + 2 * MARGIN).map(u8::at).collect();
        Stores {
            expected: before.clone(),
            found: before.clone(),
            before,
            lent: MARGIN..MARGIN + STORE_LEN,
        }
    }

    /// Lends the exact need from now on, or more.
    pub fn lend(&mut self, longer: bool) {
        let more = if longer { LONGER } else { 0 };
        self.lent = MARGIN..MARGIN + STORE_LEN + more;
    }

    pub fn for_reference(&mut self) -> &mut [u8] {
        &mut self.expected[self.lent.clone()]
    }

    pub fn for_library(&mut self) -> &mut [u8] {
        &mut self.found[self.lent.clone()]
    }

    /// One byte less than is needed.
    pub fn too_short(&mut self) -> &mut [u8] {
        &mut self.found[MARGIN..MARGIN + STORE_LEN - 1]
    }

    /// The library's store begins with these bytes, and past them, and around it,
    /// nothing has changed; so does the reference's.
    pub fn begin_with(&self, colours: &[u8]) -> Checked {
        let end = MARGIN + colours.len();
        for (whose, store) in [("reference", &self.expected), ("library", &self.found)] {
            let call = || format!("the store that the {whose} left");
            agree_runs(call, colours, &store[MARGIN..end])?;
            agree_runs(call, &self.before[..MARGIN], &store[..MARGIN])?;
            agree_runs(call, &self.before[end..], &store[end..])?;
        }
        Ok(())
    }

    /// Nothing outside of a store has changed.
    pub fn kept_around(&self) -> Checked {
        let end = MARGIN + STORE_LEN;
        let call = || "what lies around the store".to_string();
        agree_runs(call, &self.before[..MARGIN], &self.found[..MARGIN])?;
        agree_runs(call, &self.before[end..], &self.found[end..])
    }

    /// As they were, for the next file; the first `used` bytes may have changed.
    pub fn restore(&mut self, used: usize) {
        let used = ..MARGIN + used;
        self.expected[used].copy_from_slice(&self.before[used]);
        self.found[used].copy_from_slice(&self.before[used]);
    }
}
