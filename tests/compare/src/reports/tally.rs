//! What reports answered.

use crate::tally::Counts;
use proved::report::Reported;
use reference::number;
use std::fmt::{self, Display, Formatter};

const ADDED: [u32; 3] = [0, number::UNKNOWN_TYPE, number::OUT_OF_RANGE];
/// No file is refused by 11, 12 or 14: these are of calls, or of records.
const FILES: [u32; 12] = [0, 1, 2, 3, 4, 5, 6, 7, 8, 9, 10, 13];
const MERGED: [u32; 2] = [0, number::OUT_OF_RANGE];

#[derive(Default)]
pub struct Tally {
    runs: u64,
    added: Counts,
    files: Counts,
    full: Counts,
    merged: Counts,
}

impl Tally {
    /// Files in two orders and in parts.
    pub fn run(&mut self) {
        self.runs += 1;
    }

    pub fn added(&mut self, reported: &Reported) {
        self.added.add(reported.number);
        let files = match reported.number {
            0 => &mut self.files,
            number::OUT_OF_RANGE => &mut self.full,
            _ => return,
        };
        files.add(reported.file_number);
    }

    pub fn merged(&mut self, number: u32) {
        self.merged.add(number);
    }

    /// Complains where some answer never came up: a run that does not get there
    /// compares too little.
    pub fn all_reached(&self) -> Result<(), String> {
        let parts = [
            ("added", self.added.missing(&ADDED)),
            ("files", self.files.missing(&FILES)),
            ("files of full totals", self.full.missing(&FILES)),
            ("merged", self.merged.missing(&MERGED)),
        ];
        if parts.iter().all(|(_, missing)| missing.is_empty()) {
            return Ok(());
        }
        Err(format!("answers not reached: {parts:?}; {self}"))
    }
}

impl Display for Tally {
    fn fmt(&self, f: &mut Formatter<'_>) -> fmt::Result {
        write!(
            f,
            "files added (by number {}), by the file's number {}, with a full total {}; \
             reports merged (by number {}), {} runs in any order and in parts",
            self.added, self.files, self.full, self.merged, self.runs
        )
    }
}
