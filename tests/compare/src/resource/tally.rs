//! How often each refusal was given.

use crate::tally::Counts;
use proved::resource::{Answer, Section};
use reference::number;
use std::fmt::{self, Display, Formatter};

const READING: [u32; 6] = [
    number::TOO_LONG,
    number::CUT,
    number::WRONG_SIGNATURE,
    number::OUT_OF_RANGE,
    number::NO_ROOM,
    number::NO_RECORD,
];
const WRITING: [u32; 4] = [
    number::TOO_LONG,
    number::CUT,
    number::OUT_OF_RANGE,
    number::NO_ROOM,
];
const DOCUMENTS: [u32; 5] = [
    0,
    number::TOO_LONG,
    number::CUT,
    number::WRONG_SIGNATURE,
    number::OUT_OF_RANGE,
];

#[derive(Default)]
pub struct Tally {
    sections: u64,
    documents: u64,
    lots: u64,
    read: Counts,
    located: Counts,
    written: Counts,
}

impl Tally {
    /// A section, with what judging it says.
    pub fn section(&mut self, judged: &Answer) {
        self.sections += 1;
        self.read.add(judged.number);
    }

    /// A document, with what asking for its section says.
    pub fn document(&mut self, section: &Section) {
        self.documents += 1;
        self.located.add(section.number);
    }

    /// A refusal that is the call's and not the section's.
    pub fn reading_call(&mut self, number: u32) {
        if number == number::NO_ROOM || number == number::NO_RECORD {
            self.read.add(number);
        }
    }

    /// A lot of records, with what asking for its length says.
    pub fn lot(&mut self, number: u32) {
        self.lots += 1;
        self.written.add(number);
    }

    pub fn writing_call(&mut self, number: u32) {
        if number == number::NO_ROOM {
            self.written.add(number);
        }
    }

    /// Complains where some refusal never came up: a run that does not get
    /// there compares too little.
    pub fn all_reached(&self) -> Result<(), String> {
        let reading = self.read.missing(&READING);
        let writing = self.written.missing(&WRITING);
        let documents = self.located.missing(&DOCUMENTS);
        if reading.is_empty() && writing.is_empty() && documents.is_empty() {
            return Ok(());
        }
        Err(format!(
            "refusals not reached: reading {reading:?}, writing {writing:?}, \
             documents {documents:?}; {self}"
        ))
    }
}

impl Display for Tally {
    fn fmt(&self, f: &mut Formatter<'_>) -> fmt::Result {
        write!(
            f,
            "{} sections (by number {}), {} documents (by number {}), \
             {} lots of records (by number {})",
            self.sections, self.read, self.documents, self.located, self.lots, self.written
        )
    }
}
