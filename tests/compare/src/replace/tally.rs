//! How often each refusal was given.

use crate::tally::Counts;
use reference::number;
use std::collections::BTreeMap;
use std::fmt::{self, Display, Formatter};

const FILES: [u32; 9] = [
    0,
    number::TOO_LONG,
    number::CUT,
    number::WRONG_VERSION,
    number::UNKNOWN_TYPE,
    number::OUT_OF_RANGE,
    number::LEFT_OVER,
    number::BADLY_CLOSED,
    number::TOO_DEEP,
];
/// On an accepted file 5 is the table's or the value's.
const CALLS: [u32; 6] = [
    0,
    number::UNKNOWN_UNIT,
    number::OUT_OF_RANGE,
    number::NO_ROOM,
    number::NO_ROW,
    number::NO_COUNTERPART,
];
const KINDS: [[u8; 4]; 5] = [*b"bool", *b"long", *b"comp", *b"doub", *b"UntF"];

#[derive(Default)]
pub struct Tally {
    files: Counts,
    calls: Counts,
    /// Refusals of a value in its turn.
    values: Counts,
    kinds: BTreeMap<[u8; 4], u64>,
}

impl Tally {
    /// A call on a file that judging answers with this number.
    pub fn call(&mut self, judged: u32, number: u32) {
        self.files.add(judged);
        if judged == 0 {
            self.calls.add(number);
        }
    }

    /// A call whose file, table, row and kind are right.
    pub fn value(&mut self, kind: u32, number: u32) {
        self.values.add(number);
        if number == 0 {
            *self.kinds.entry(kind.to_be_bytes()).or_default() += 1;
        }
    }

    /// Complains where some answer never came up: a run that does not get there
    /// compares too little.
    pub fn all_reached(&self) -> Result<(), String> {
        let files = self.files.missing(&FILES);
        let calls = self.calls.missing(&CALLS);
        let values = self.values.missing(&[0, 4, 5]);
        let kinds = KINDS.iter().all(|kind| self.kinds.contains_key(kind));
        if files.is_empty() && calls.is_empty() && values.is_empty() && kinds {
            return Ok(());
        }
        Err(format!(
            "answers not reached: files {files:?}, calls {calls:?}, values {values:?}, \
             or a kind; {self}"
        ))
    }
}

impl Display for Tally {
    fn fmt(&self, f: &mut Formatter<'_>) -> fmt::Result {
        let kinds = self.kinds.iter();
        let kinds: Vec<String> = kinds
            .map(|(kind, count)| format!("{}: {count}", kind.escape_ascii()))
            .collect();
        write!(
            f,
            "calls by the file's number {}; on the accepted ones by number {}; \
             values by number {}, replaced {}",
            self.files,
            self.calls,
            self.values,
            kinds.join(", ")
        )
    }
}
