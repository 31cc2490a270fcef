//! How often each refusal was given.

use crate::tally::Counts;
use proved::descriptor::{Answer, Typed};
use reference::number;
use std::collections::BTreeMap;
use std::fmt::{self, Display, Formatter};

const READING: [u32; 9] = [
    0,
    number::TOO_LONG,
    number::CUT,
    number::WRONG_VERSION,
    number::UNKNOWN_TYPE,
    number::OUT_OF_RANGE,
    number::LEFT_OVER,
    number::BADLY_CLOSED,
    number::TOO_DEEP,
];
const CALLS: [u32; 3] = [0, number::NO_ROOM, number::NO_ROW];
/// The kinds with a typed value, and no kind for all the others.
const TYPED: [[u8; 4]; 6] = [*b"bool", *b"long", *b"comp", *b"doub", *b"UntF", [0; 4]];

/// Calls and kinds are those on accepted files.
#[derive(Default)]
pub struct Tally {
    files: u64,
    rows: u64,
    judged: Counts,
    calls: Counts,
    typed: BTreeMap<[u8; 4], u64>,
}

impl Tally {
    /// A file, with what judging it says.
    pub fn file(&mut self, judged: &Answer) {
        self.files += 1;
        self.rows += judged.rows as u64;
        self.judged.add(judged.number);
    }

    /// What a call on an accepted file answers.
    pub fn call(&mut self, number: u32) {
        self.calls.add(number);
    }

    pub fn typed(&mut self, found: &Typed) {
        self.call(found.number);
        if found.number == 0 {
            *self.typed.entry(found.kind.to_be_bytes()).or_default() += 1;
        }
    }

    /// Complains where some answer never came up: a run that does not get there
    /// compares too little.
    pub fn all_reached(&self) -> Result<(), String> {
        let judged = self.judged.missing(&READING);
        let calls = self.calls.missing(&CALLS);
        let typed = TYPED.iter().all(|kind| self.typed.contains_key(kind));
        if judged.is_empty() && calls.is_empty() && typed {
            return Ok(());
        }
        Err(format!(
            "answers not reached: judging {judged:?}, calls {calls:?}, or a kind; {self}"
        ))
    }
}

impl Display for Tally {
    fn fmt(&self, f: &mut Formatter<'_>) -> fmt::Result {
        let kinds = self.typed.iter().map(|(kind, count)| match kind {
            [0, 0, 0, 0] => format!("others: {count}"),
            kind => format!("{}: {count}", kind.escape_ascii()),
        });
        let kinds: Vec<String> = kinds.collect();
        write!(
            f,
            "{} files (by number {}) of {} rows, calls on the accepted ones (by number {}), \
             typed values ({})",
            self.files,
            self.judged,
            self.rows,
            self.calls,
            kinds.join(", ")
        )
    }
}
