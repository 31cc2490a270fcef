//! What was found at positions, and how often each refusal was given.

use crate::tally::Counts;
use proved::compare::Compared;
use reference::number;
use std::fmt::{self, Display, Formatter};

/// Refusals that are not a file's.
const CALLS: [u32; 3] = [0, number::UNKNOWN_TYPE, number::NO_ROOM];
const FILES: [u32; 11] = [
    number::TOO_LONG,
    number::CUT,
    number::WRONG_SIGNATURE,
    number::UNKNOWN_MODEL,
    number::OUT_OF_RANGE,
    number::LEFT_OVER,
    number::LISTS_DISAGREE,
    number::BADLY_CLOSED,
    number::UNBALANCED,
    number::TOO_DEEP,
    number::WRONG_LENGTH,
];

/// Two of ACO, two of ASE, one of each.
const PAIRS: usize = 3;
const FOUND: usize = 6;

#[derive(Default)]
pub struct Tally {
    pairs: u64,
    calls: u64,
    of_call: Counts,
    of_first: Counts,
    of_second: Counts,
    found: [[u64; FOUND]; PAIRS],
}

impl Tally {
    pub fn pair(&mut self) {
        self.pairs += 1;
    }

    pub fn call(&mut self, compared: &Compared) {
        self.calls += 1;
        let counts = match compared.file {
            0 => &mut self.of_call,
            1 => &mut self.of_first,
            _ => &mut self.of_second,
        };
        counts.add(compared.number);
    }

    /// The rows of an accepted pair, by the kinds of its palettes.
    pub fn rows(&mut self, kinds: [u32; 2], rows: &[u32]) {
        let pair = match kinds {
            [0, 0] => 0,
            [1, 1] => 1,
            _ => 2,
        };
        for row in rows.as_chunks::<2>().0 {
            self.found[pair][row[1] as usize] += 1;
        }
    }

    /// Complains where some answer never came up: a run that does not get there
    /// compares too little.
    pub fn all_reached(&self) -> Result<(), String> {
        let calls = self.of_call.missing(&CALLS);
        let first = self.of_first.missing(&FILES);
        let second = self.of_second.missing(&FILES);
        let found = self.found.as_flattened().contains(&0);
        if calls.is_empty() && first.is_empty() && second.is_empty() && !found {
            return Ok(());
        }
        Err(format!(
            "answers not reached: calls {calls:?}, first {first:?}, second {second:?}, \
             positions {:?}; {self}",
            self.found
        ))
    }
}

impl Display for Tally {
    fn fmt(&self, f: &mut Formatter<'_>) -> fmt::Result {
        let [aco, ase, both] = self.found;
        write!(
            f,
            "{} pairs in {} calls (by number {}; the first file's {}; the second's {}), \
             positions by what was found: of two ACO {aco:?}, of two ASE {ase:?}, across {both:?}",
            self.pairs, self.calls, self.of_call, self.of_first, self.of_second
        )
    }
}
