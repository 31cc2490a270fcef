//! Comparing one call.

use super::tally::Tally;
use crate::difference::{agree, agree_runs, hex, Checked};
use crate::lent::{Lent, Shown};
use crate::tables::Runs;
use generate::descriptor::{root_keys, Laid};
use proved::descriptor::{self as library, Found};
use reference::descriptor::{find, judge, NotFound};
use reference::Refusal;

/// What is lent to a call, answers aside.
#[derive(Clone, Copy)]
pub struct Asked<'a> {
    pub file: &'a [u8],
    pub runs: &'a Runs,
    pub keys: &'a [u8],
}

impl Asked<'_> {
    /// Compares the call with room for so many answers, and gives these.
    pub fn check(self, room: usize, tally: &mut Tally) -> Checked<Vec<u32>> {
        self.check_call(room, tally).map_err(|difference| {
            difference
                .given("file", hex(self.file))
                .given("table", self.runs.describe())
                .given("keys", hex(self.keys))
        })
    }

    fn check_call(self, room: usize, tally: &mut Tally) -> Checked<Vec<u32>> {
        let mut answers = Lent::<u32>::of(room);
        let (runs, keys) = (self.runs.shown(), Shown::of(self.keys));
        let wanted = expected(find(
            self.file,
            runs.for_reference(),
            keys.lent(),
            answers.for_reference(),
        ));
        let found = library::find(
            self.file,
            runs.for_library(),
            keys.lent(),
            answers.for_library(),
        );
        let call = format!("find with room for {room} answers");
        agree(|| call.clone(), &wanted, &found)?;
        answers.agree(&call, wanted.keys)?;
        runs.agree(&call)?;
        keys.agree(&call)?;
        let judged = judge(self.file);
        tally.call(judged.map_or_else(|refusal| refusal.number, |_| 0), &found);
        let answers = answers.found(found.keys).to_vec();
        tally.answers(&answers, judged.unwrap_or(0));
        Ok(answers)
    }
}

/// The room for so many answers, one less, more, and none.
pub fn rooms(keys: usize) -> [usize; 4] {
    [keys, keys.saturating_sub(1), keys + 3, 0]
}

/// Holds the answers to those that the rows laid out give, by a look at all.
pub fn check_laid(laid: &Laid, keys: &[Vec<u8>], answers: &[u32]) -> Checked {
    let known = root_keys(laid);
    let first = |key: &Vec<u8>| known.iter().find(|(_, known)| known == key);
    let wanted = keys
        .iter()
        .map(|key| first(key).map_or(laid.rows.len(), |(row, _)| *row) as u32);
    let wanted: Vec<u32> = wanted.collect();
    agree_runs(|| "the rows of keys laid out".to_string(), &wanted, answers).map_err(|difference| {
        difference
            .given("file", hex(&laid.file))
            .given("keys", hex(&keys.concat()))
    })
}

fn expected(result: Result<usize, NotFound>) -> Found {
    let refused = |refusal: Refusal, in_keys| Found {
        number: refusal.number,
        in_keys,
        place: refusal.place,
        keys: 0,
    };
    match result {
        Ok(keys) => Found {
            keys,
            ..Found::default()
        },
        Err(NotFound::Call(refusal)) => refused(refusal, 0),
        Err(NotFound::Keys(refusal)) => refused(refusal, 1),
    }
}
