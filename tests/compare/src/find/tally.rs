//! How often each refusal was given.

use crate::tally::Counts;
use proved::descriptor::Found;
use reference::number;
use std::fmt::{self, Display, Formatter};

const FILES: [u32; 9] = [
    0,
    number::TOO_LONG,
    number::CUT,
    number::WRONG_VERSION,
    number::UNKNOWN_TYPE,
    number::OUT_OF_RANGE,
    number::LEFT_OVER,
    number::BADLY_CLOSED,
    number::TOO_DEEP,
];
/// On an accepted file 2 is the keys' and 5 the table's.
const CALLS: [u32; 4] = [0, number::CUT, number::OUT_OF_RANGE, number::NO_ROOM];

#[derive(Default)]
pub struct Tally {
    files: Counts,
    calls: Counts,
    keys: u64,
    /// Keys that no pair has.
    absent: u64,
}

impl Tally {
    /// A call, on a file that judging answers with this number.
    pub fn call(&mut self, judged: u32, found: &Found) {
        self.files.add(judged);
        if judged == 0 {
            self.calls.add(found.number);
        }
    }

    pub fn answers(&mut self, answers: &[u32], rows: usize) {
        self.keys += answers.len() as u64;
        let absent = answers.iter().filter(|&&row| row as usize == rows);
        self.absent += absent.count() as u64;
    }

    /// Complains where some answer never came up: a run that does not get there
    /// compares too little.
    pub fn all_reached(&self) -> Result<(), String> {
        let files = self.files.missing(&FILES);
        let calls = self.calls.missing(&CALLS);
        let keys = self.absent > 0 && self.absent < self.keys;
        if files.is_empty() && calls.is_empty() && keys {
            return Ok(());
        }
        Err(format!(
            "answers not reached: files {files:?}, calls {calls:?}, or keys; {self}"
        ))
    }
}

impl Display for Tally {
    fn fmt(&self, f: &mut Formatter<'_>) -> fmt::Result {
        write!(
            f,
            "calls by the file's number {}; on the accepted ones by number {}; \
             {} keys answered, {} of them absent",
            self.files, self.calls, self.keys, self.absent
        )
    }
}
