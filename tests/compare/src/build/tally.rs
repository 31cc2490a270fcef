//! How often each refusal was given.

use crate::tally::Counts;
use reference::number;
use std::fmt::{self, Display, Formatter};

const BUILDING: [u32; 9] = [
    0,
    number::TOO_LONG,
    number::CUT,
    number::UNKNOWN_TYPE,
    number::OUT_OF_RANGE,
    number::LEFT_OVER,
    number::BADLY_CLOSED,
    number::TOO_DEEP,
    number::NO_ROOM,
];
const FILES: [u32; 10] = [
    0,
    number::TOO_LONG,
    number::CUT,
    number::WRONG_VERSION,
    number::UNKNOWN_TYPE,
    number::OUT_OF_RANGE,
    number::LEFT_OVER,
    number::BADLY_CLOSED,
    number::TOO_DEEP,
    number::NO_ROOM,
];

#[derive(Default)]
pub struct Tally {
    lots: u64,
    built: Counts,
    files: Counts,
}

impl Tally {
    /// A lot, with what asking for its length says.
    pub fn lot(&mut self, number: u32) {
        self.lots += 1;
        self.built.add(number);
    }

    /// A refusal that is the room's.
    pub fn room(&mut self, number: u32) {
        if number == number::NO_ROOM {
            self.built.add(number);
        }
    }

    /// What asking for the entries of a file says.
    pub fn file(&mut self, number: u32) {
        self.files.add(number);
    }

    /// Complains where some answer never came up: a run that does not get there
    /// compares too little.
    pub fn all_reached(&self) -> Result<(), String> {
        let building = self.built.missing(&BUILDING);
        let files = self.files.missing(&FILES);
        if building.is_empty() && files.is_empty() {
            return Ok(());
        }
        Err(format!(
            "answers not reached: building {building:?}, entries of files {files:?}; {self}"
        ))
    }
}

impl Display for Tally {
    fn fmt(&self, f: &mut Formatter<'_>) -> fmt::Result {
        write!(
            f,
            "{} lots of entries (by number {}), entries of files (by number {})",
            self.lots, self.built, self.files
        )
    }
}
