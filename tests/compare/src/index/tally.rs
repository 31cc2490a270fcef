//! What building and searching answered.

use crate::tally::Counts;
use reference::number;
use std::fmt::{self, Display, Formatter};

const FILES: [u32; 6] = [
    number::TOO_LONG,
    number::CUT,
    number::WRONG_SIGNATURE,
    number::UNKNOWN_SPACE,
    number::OUT_OF_RANGE,
    number::LEFT_OVER,
];
const BUILT: [u32; 2] = [0, number::NO_ROOM];
const FOUND: [u32; 3] = [0, number::OUT_OF_RANGE, number::NO_RECORD];

/// Of accepted files the answers of each call; the refusals of files apart.
#[derive(Default)]
pub struct Tally {
    files: Counts,
    built: Counts,
    found: Counts,
}

impl Tally {
    pub fn file(&mut self, number: u32) {
        self.files.add(number);
    }

    pub fn built(&mut self, number: u32) {
        self.built.add(number);
    }

    pub fn found(&mut self, number: u32) {
        self.found.add(number);
    }

    /// Complains where some answer never came up: a run that does not get there
    /// compares too little.
    pub fn all_reached(&self) -> Result<(), String> {
        let parts = [
            ("files", self.files.missing(&FILES)),
            ("built", self.built.missing(&BUILT)),
            ("found", self.found.missing(&FOUND)),
        ];
        if parts.iter().all(|(_, missing)| missing.is_empty()) {
            return Ok(());
        }
        Err(format!("answers not reached: {parts:?}; {self}"))
    }
}

impl Display for Tally {
    fn fmt(&self, f: &mut Formatter<'_>) -> fmt::Result {
        write!(
            f,
            "books (by number {}), of those accepted indexes built (by number {}), names \
             looked for (by number {})",
            self.files, self.built, self.found
        )
    }
}
