//! What the ends answered, and how the chunks were cut.

use crate::tally::Counts;
use reference::number;
use std::fmt::{self, Display, Formatter};

const ENDS: [u32; 9] = [
    0,
    number::TOO_LONG,
    number::CUT,
    number::WRONG_VERSION,
    number::UNKNOWN_SPACE,
    number::OUT_OF_RANGE,
    number::LEFT_OVER,
    number::LISTS_DISAGREE,
    number::BADLY_CLOSED,
];
const CALLS: [u32; 2] = [number::OUT_OF_RANGE, number::NO_ROOM];

#[derive(Default)]
pub struct Tally {
    files: u64,
    chunks: u64,
    ends: Counts,
    calls: Counts,
    altered: Counts,
}

impl Tally {
    /// A file in so many chunks, with the number that its end gives.
    pub fn file(&mut self, number: u32, chunks: usize) {
        self.files += 1;
        self.chunks += chunks as u64;
        self.ends.add(number);
    }

    /// A call that is refused for its stream or its store.
    pub fn refused(&mut self, number: u32) {
        self.calls.add(number);
    }

    /// An altered stream, by what its end or its first call answers.
    pub fn altered(&mut self, number: u32) {
        self.altered.add(number);
    }

    /// Complains where some answer never came up: a run that does not get
    /// there compares too little.
    pub fn all_reached(&self) -> Result<(), String> {
        let ends = self.ends.missing(&ENDS);
        let calls = self.calls.missing(&CALLS);
        let altered = self.altered.missing(&ENDS);
        if ends.is_empty() && calls.is_empty() && altered.is_empty() {
            return Ok(());
        }
        Err(format!(
            "answers not reached: ends {ends:?}, calls {calls:?}, altered {altered:?}; {self}"
        ))
    }
}

impl Display for Tally {
    fn fmt(&self, f: &mut Formatter<'_>) -> fmt::Result {
        write!(
            f,
            "{} cuttings, {} chunks (by number {}), calls refused ({}), altered streams ({})",
            self.files, self.chunks, self.ends, self.calls, self.altered
        )
    }
}
