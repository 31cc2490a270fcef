//! What a writer is lent.

use crate::raw::Written;
use crate::{Refusal, Units};

/// The bytes that names lie in.
#[derive(Default)]
pub struct Text(pub Vec<u8>);

impl Text {
    /// Adds a name, and gives its place and its number of units. A number that
    /// 32 bits cannot hold is given as the largest: such a name or text is past
    /// the limit anyhow, which a writer judges first.
    pub fn add(&mut self, name: Units<'_>) -> [u32; 2] {
        let place = self.0.len();
        self.0.extend_from_slice(name.bytes());
        [held(place), held(name.len())]
    }
}

/// A number in 32 bits, the largest where they cannot hold it.
pub fn held(number: usize) -> u32 {
    u32::try_from(number).unwrap_or(u32::MAX)
}

/// The length that a writer needs or has written, or its refusal.
pub fn length(written: Written) -> Result<usize, Refusal> {
    Refusal::unless(written.number, 0)?;
    Ok(written.length)
}

/// What a writer writes into bytes of the exact length.
pub fn exact(
    needed: Written,
    write: impl FnOnce(&mut [u8]) -> Written,
) -> Result<Vec<u8>, Refusal> {
    let mut out = vec![0; length(needed)?];
    length(write(&mut out))?;
    Ok(out)
}
