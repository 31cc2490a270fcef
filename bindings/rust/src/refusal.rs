//! Refusals.

use std::error::Error;
use std::fmt::{self, Display, Formatter};
use std::sync::OnceLock;

use crate::raw;

/// Why a call was refused. `place` is that of the offending field's first byte;
/// it is 0 for 1, 11, 12 and 14, of a writer and of a conversion. `record` and
/// `field` are those of the first difference for 7, and else 0.
#[derive(Clone, Copy, Debug, PartialEq, Eq, Hash)]
pub struct Refusal {
    /// The number in the table of refusals, from 1 to 14.
    pub number: u32,
    /// Where the offending field begins.
    pub place: usize,
    /// The first differing record of the two lists of an ACO file, from 0.
    pub record: usize,
    /// In it the first differing field: 0 the space, 1 to 4 the samples; 5 is
    /// the count of list 2.
    pub field: usize,
}

/// The sentences of the table, from that of 0, asked of the library once.
fn sentences() -> &'static [String] {
    static SENTENCES: OnceLock<Vec<String>> = OnceLock::new();
    SENTENCES.get_or_init(|| (0..).map_while(said).collect())
}

/// What the library says of a number, or nothing where the table does not have it.
fn said(number: u32) -> Option<String> {
    let mut room = [0; raw::text::SENTENCE];
    let answer = raw::text::refusal_sentence(number, &mut room);
    let said = String::from_utf8_lossy(&room[..answer.length]);
    (answer.number == 0).then(|| said.into_owned())
}

impl Refusal {
    /// What the table of refusals says of the number.
    pub fn sentence(&self) -> &'static str {
        let sentence = sentences().get(self.number as usize);
        sentence.map_or("no number of the table", String::as_str)
    }

    /// Whether an answer's number is 0, or its refusal.
    pub(crate) fn unless(number: u32, place: usize) -> Result<(), Refusal> {
        Refusal::unless_differing(number, place, 0, 0)
    }

    /// The same with the record and field that 7 names.
    pub(crate) fn unless_differing(
        number: u32,
        place: usize,
        record: usize,
        field: usize,
    ) -> Result<(), Refusal> {
        if number == 0 {
            return Ok(());
        }
        Err(Refusal {
            number,
            place,
            record,
            field,
        })
    }
}

impl Display for Refusal {
    fn fmt(&self, f: &mut Formatter<'_>) -> fmt::Result {
        let (number, place, sentence) = (self.number, self.place, self.sentence());
        write!(f, "refused {number} at {place}: {sentence}")?;
        if number == 7 {
            write!(f, " (record {}, field {})", self.record, self.field)?;
        }
        Ok(())
    }
}

impl Error for Refusal {}
