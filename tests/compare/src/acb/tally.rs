//! How often each refusal was given.

use crate::tally::Counts;
use proved::acb::Answer;
use reference::number;
use std::fmt::{self, Display, Formatter};

const READING: [u32; 8] = [
    number::TOO_LONG,
    number::CUT,
    number::WRONG_SIGNATURE,
    number::UNKNOWN_SPACE,
    number::OUT_OF_RANGE,
    number::LEFT_OVER,
    number::NO_ROOM,
    number::NO_RECORD,
];
const NAMING: [u32; 3] = [0, number::NO_ROOM, number::NO_RECORD];
const SHOWING: [u32; 2] = [0, number::NO_RECORD];
const PAGING: [u32; 2] = [0, number::NO_PAGE];
const WRITING: [u32; 8] = [
    0,
    number::TOO_LONG,
    number::CUT,
    number::WRONG_TAG,
    number::UNKNOWN_SPACE,
    number::OUT_OF_RANGE,
    number::NO_ROOM,
    number::NO_COUNTERPART,
];

/// Names, components and pages count the calls on accepted files alone.
#[derive(Default)]
pub struct Tally {
    files: u64,
    strings: u64,
    lots: u64,
    read: Counts,
    named: Counts,
    shown: Counts,
    paged: Counts,
    written: Counts,
}

impl Tally {
    /// A file, with what judging it says.
    pub fn file(&mut self, judged: &Answer) {
        self.files += 1;
        self.read.add(judged.number);
    }

    /// A refusal that is the call's and not the file's.
    pub fn reading_call(&mut self, number: u32) {
        if number == number::NO_ROOM || number == number::NO_RECORD {
            self.read.add(number);
        }
    }

    pub fn naming_call(&mut self, number: u32) {
        self.named.add(number);
    }

    pub fn showing_call(&mut self, number: u32) {
        self.shown.add(number);
    }

    pub fn paging_call(&mut self, number: u32) {
        self.paged.add(number);
    }

    pub fn string(&mut self) {
        self.strings += 1;
    }

    /// A lot of records, with what asking for its length says.
    pub fn lot(&mut self, number: u32) {
        self.lots += 1;
        self.written.add(number);
    }

    pub fn writing_call(&mut self, number: u32) {
        if number == number::NO_ROOM {
            self.written.add(number);
        }
    }

    /// Complains where some answer never came up: a run that does not get there
    /// compares too little.
    pub fn all_reached(&self) -> Result<(), String> {
        let parts = [
            ("reading", self.read.missing(&READING)),
            ("full names", self.named.missing(&NAMING)),
            ("components", self.shown.missing(&SHOWING)),
            ("pages", self.paged.missing(&PAGING)),
            ("writing", self.written.missing(&WRITING)),
        ];
        if parts.iter().all(|(_, missing)| missing.is_empty()) {
            return Ok(());
        }
        Err(format!("answers not reached: {parts:?}; {self}"))
    }
}

impl Display for Tally {
    fn fmt(&self, f: &mut Formatter<'_>) -> fmt::Result {
        write!(
            f,
            "{} files (by number {}), full names (by number {}), components (by number {}), \
             pages (by number {}), {} strings, {} lots of records (by number {})",
            self.files,
            self.read,
            self.named,
            self.shown,
            self.paged,
            self.strings,
            self.lots,
            self.written
        )
    }
}
