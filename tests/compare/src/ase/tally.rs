//! How often each refusal was given.

use crate::tally::Counts;
use proved::ase::Answer;
use reference::number;
use std::fmt::{self, Display, Formatter};

const READING: [u32; 12] = [
    number::TOO_LONG,
    number::CUT,
    number::WRONG_SIGNATURE,
    number::UNKNOWN_BLOCK,
    number::OUT_OF_RANGE,
    number::LEFT_OVER,
    number::BADLY_CLOSED,
    number::UNBALANCED,
    number::TOO_DEEP,
    number::NO_ROOM,
    number::NO_RECORD,
    number::WRONG_LENGTH,
];
const WRITING: [u32; 9] = [
    number::TOO_LONG,
    number::CUT,
    number::UNKNOWN_BLOCK,
    number::OUT_OF_RANGE,
    number::BADLY_CLOSED,
    number::UNBALANCED,
    number::TOO_DEEP,
    number::NO_ROOM,
    number::NO_COUNTERPART,
];

#[derive(Default)]
pub struct Tally {
    files: u64,
    lots: u64,
    read: Counts,
    written: Counts,
}

impl Tally {
    /// A file, with what judging it says.
    pub fn file(&mut self, judged: &Answer) {
        self.files += 1;
        self.read.add(judged.number);
    }

    /// A refusal that is the call's and not the file's.
    pub fn reading_call(&mut self, number: u32) {
        if number == number::NO_ROOM || number == number::NO_RECORD {
            self.read.add(number);
        }
    }

    /// A lot of records, with what asking for its length says.
    pub fn lot(&mut self, number: u32) {
        self.lots += 1;
        self.written.add(number);
    }

    pub fn writing_call(&mut self, number: u32) {
        if number == number::NO_ROOM {
            self.written.add(number);
        }
    }

    /// Complains where some refusal never came up: a run that does not get
    /// there compares too little.
    pub fn all_reached(&self) -> Result<(), String> {
        let reading = self.read.missing(&READING);
        let writing = self.written.missing(&WRITING);
        if reading.is_empty() && writing.is_empty() {
            return Ok(());
        }
        Err(format!(
            "refusals not reached: reading {reading:?}, writing {writing:?}; {self}"
        ))
    }
}

impl Display for Tally {
    fn fmt(&self, f: &mut Formatter<'_>) -> fmt::Result {
        write!(
            f,
            "{} files (by number {}), {} lots of records (by number {})",
            self.files, self.read, self.lots, self.written
        )
    }
}
