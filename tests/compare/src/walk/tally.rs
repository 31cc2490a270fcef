//! How often each start was refused, and what the steps came to.

use super::steps::Outcome;
use crate::tally::Counts;
use reference::number;
use std::fmt::{self, Display, Formatter};

/// What a start can answer: what the reader can say of a file.
const ACO_STARTS: [u32; 9] = [
    0,
    number::TOO_LONG,
    number::CUT,
    number::WRONG_VERSION,
    number::UNKNOWN_SPACE,
    number::OUT_OF_RANGE,
    number::LEFT_OVER,
    number::LISTS_DISAGREE,
    number::BADLY_CLOSED,
];
const ASE_STARTS: [u32; 11] = [
    0,
    number::TOO_LONG,
    number::CUT,
    number::WRONG_SIGNATURE,
    number::UNKNOWN_BLOCK,
    number::OUT_OF_RANGE,
    number::LEFT_OVER,
    number::BADLY_CLOSED,
    number::UNBALANCED,
    number::TOO_DEEP,
    number::WRONG_LENGTH,
];

/// Steps by what they came to.
#[derive(Default)]
pub struct Taken {
    given: u64,
    done: u64,
    refused: u64,
}

impl Taken {
    pub fn add(&mut self, outcome: Outcome) {
        match outcome {
            Outcome::Given => self.given += 1,
            Outcome::Done => self.done += 1,
            Outcome::Refused => self.refused += 1,
        }
    }

    fn all_reached(&self) -> bool {
        self.given > 0 && self.done > 0 && self.refused > 0
    }
}

impl Display for Taken {
    fn fmt(&self, f: &mut Formatter<'_>) -> fmt::Result {
        write!(
            f,
            "{} given, {} done, {} refused",
            self.given, self.done, self.refused
        )
    }
}

/// A format's files, by what the start on them says, and its colour steps.
#[derive(Default)]
pub struct Walked {
    files: u64,
    starts: Counts,
    pub colours: Taken,
}

impl Walked {
    /// A file, with the number that the start on it gives.
    pub fn file(&mut self, number: u32) {
        self.files += 1;
        self.starts.add(number);
    }
}

impl Display for Walked {
    fn fmt(&self, f: &mut Formatter<'_>) -> fmt::Result {
        write!(
            f,
            "{} files (by number {}), colour steps {}",
            self.files, self.starts, self.colours
        )
    }
}

#[derive(Default)]
pub struct Tally {
    pub aco: Walked,
    pub ase: Walked,
    pub ase_blocks: Taken,
}

impl Tally {
    /// Complains where some answer never came up: a run that does not get
    /// there compares too little.
    pub fn all_reached(&self) -> Result<(), String> {
        let aco = self.aco.starts.missing(&ACO_STARTS);
        let ase = self.ase.starts.missing(&ASE_STARTS);
        let steps = [&self.aco.colours, &self.ase.colours, &self.ase_blocks];
        let all_taken = steps.iter().all(|taken| taken.all_reached());
        if aco.is_empty() && ase.is_empty() && all_taken {
            return Ok(());
        }
        Err(format!(
            "answers not reached: starts on ACO {aco:?}, on ASE {ase:?}; {self}"
        ))
    }
}

impl Display for Tally {
    fn fmt(&self, f: &mut Formatter<'_>) -> fmt::Result {
        write!(
            f,
            "ACO {}; ASE {}, block steps {}",
            self.aco, self.ase, self.ase_blocks
        )
    }
}
