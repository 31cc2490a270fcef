//! How often each refusal was given.

use proved::Answer;
use reference::number;
use std::fmt::{self, Display, Formatter};

const NUMBERS: usize = 15;

const READING: [u32; 10] = [
    number::TOO_LONG,
    number::CUT,
    number::WRONG_VERSION,
    number::UNKNOWN_SPACE,
    number::OUT_OF_RANGE,
    number::LEFT_OVER,
    number::LISTS_DISAGREE,
    number::BADLY_CLOSED,
    number::NO_ROOM,
    number::NO_RECORD,
];
const WRITING: [u32; 7] = [
    number::TOO_LONG,
    number::CUT,
    number::UNKNOWN_SPACE,
    number::OUT_OF_RANGE,
    number::BADLY_CLOSED,
    number::NO_ROOM,
    number::NO_COUNTERPART,
];

/// A sample is never out of range, so that the way there has no 5.
const THERE: [u32; 3] = [0, number::UNKNOWN_SPACE, number::NO_COUNTERPART];
const BACK: [u32; 4] = [
    0,
    number::UNKNOWN_MODEL,
    number::OUT_OF_RANGE,
    number::NO_COUNTERPART,
];

const RUNS: [u32; 5] = [
    0,
    number::UNKNOWN_MODEL,
    number::OUT_OF_RANGE,
    number::NO_ROOM,
    number::NO_COUNTERPART,
];

/// Counts by refusal number; 0 counts what was accepted.
#[derive(Default)]
pub struct Counts([u64; NUMBERS]);

impl Counts {
    pub fn add(&mut self, number: u32) {
        self.0[number as usize] += 1;
    }

    /// Those of the numbers that never came up.
    pub fn missing(&self, numbers: &[u32]) -> Vec<u32> {
        numbers
            .iter()
            .copied()
            .filter(|&number| self.0[number as usize] == 0)
            .collect()
    }
}

impl Display for Counts {
    fn fmt(&self, f: &mut Formatter<'_>) -> fmt::Result {
        let reached = self.0.iter().enumerate().filter(|(_, &count)| count > 0);
        let shown: Vec<String> = reached
            .map(|(number, count)| format!("{number}: {count}"))
            .collect();
        f.write_str(&shown.join(", "))
    }
}

#[derive(Default)]
pub struct Tally {
    files: u64,
    lots: u64,
    read: Counts,
    /// Differing records by their field; the sixth is a differing count.
    fields: [u64; 6],
    written: Counts,
}

impl Tally {
    /// A file, with what judging it says.
    pub fn file(&mut self, judged: &Answer) {
        self.files += 1;
        self.read.add(judged.number);
        if judged.number == number::LISTS_DISAGREE {
            self.fields[judged.field] += 1;
        }
    }

    /// A refusal that is the call's and not the file's.
    pub fn reading_call(&mut self, number: u32) {
        if number == number::NO_ROOM || number == number::NO_RECORD {
            self.read.add(number);
        }
    }

    /// A lot of records, with what asking for its length says.
    pub fn lot(&mut self, number: u32) {
        self.lots += 1;
        self.written.add(number);
    }

    pub fn writing_call(&mut self, number: u32) {
        if number == number::NO_ROOM {
            self.written.add(number);
        }
    }

    /// Complains where some refusal, or some differing field, never came up:
    /// a run that does not get there compares too little.
    pub fn all_reached(&self) -> Result<(), String> {
        let reading = self.read.missing(&READING);
        let writing = self.written.missing(&WRITING);
        let fields = self.fields.contains(&0);
        if reading.is_empty() && writing.is_empty() && !fields {
            return Ok(());
        }
        Err(format!(
            "refusals not reached: reading {reading:?}, writing {writing:?}, \
             differing fields {:?}; {self}",
            self.fields
        ))
    }
}

impl Display for Tally {
    fn fmt(&self, f: &mut Formatter<'_>) -> fmt::Result {
        write!(
            f,
            "{} files (by number {}), {} lots of records (by number {})",
            self.files, self.read, self.lots, self.written
        )
    }
}

/// Conversions, and how many patterns each known model was given.
#[derive(Default)]
pub struct Conversions {
    pub patterns: u64,
    there: Counts,
    back: Counts,
    /// Whole runs, both ways.
    pub runs: Counts,
}

impl Conversions {
    pub fn there(&mut self, number: u32) {
        self.there.add(number);
    }

    pub fn back(&mut self, number: u32) {
        self.back.add(number);
    }

    /// Complains where some answer never came up.
    pub fn all_reached(&self) -> Result<(), String> {
        let there = self.there.missing(&THERE);
        let back = self.back.missing(&BACK);
        let runs = self.runs.missing(&RUNS);
        if there.is_empty() && back.is_empty() && runs.is_empty() {
            return Ok(());
        }
        Err(format!(
            "answers not reached: there {there:?}, back {back:?}, runs {runs:?}; {self}"
        ))
    }
}

impl Display for Conversions {
    fn fmt(&self, f: &mut Formatter<'_>) -> fmt::Result {
        write!(
            f,
            "samples to channels by number {}; channels to samples by number {}; \
             {} patterns for each known model; runs by number {}",
            self.there, self.back, self.patterns, self.runs
        )
    }
}
