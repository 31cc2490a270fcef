//! Comparing one call.

use super::tally::Tally;
use crate::difference::{agree, agree_runs, hex, Checked};
use crate::expected;
use crate::lent::{Lent, Shown};
use crate::tables::{agree_tables, Runs};
use generate::Random;
use proved::descriptor::{self as library, Typed};
use reference::descriptor::{judge, replace, Replacement};

/// What is lent to a call, the output aside.
#[derive(Clone, Copy)]
pub struct Asked<'a> {
    pub file: &'a [u8],
    pub runs: &'a Runs,
    pub row: usize,
    pub with: Replacement,
}

impl Asked<'_> {
    /// Compares the call with an output of so many bytes, and gives what was
    /// written, where anything was.
    pub fn check(self, room: usize, tally: &mut Tally) -> Checked<Option<Vec<u8>>> {
        self.check_call(room, tally).map_err(|difference| {
            difference
                .given("file", hex(self.file))
                .given("table", self.runs.describe())
                .given("row", self.row.to_string())
                .given("replacement", format!("{:X?}", self.with))
        })
    }

    fn check_call(self, room: usize, tally: &mut Tally) -> Checked<Option<Vec<u8>>> {
        let mut out = Lent::<u8>::of(room);
        let (runs, file) = (self.runs.shown(), Shown::of(self.file));
        let wanted = expected::written(replace(
            file.lent(),
            runs.for_reference(),
            self.row,
            self.with,
            out.for_reference(),
        ));
        let Replacement { kind, unit, bits } = self.with;
        let with = library::Replacement { kind, unit, bits };
        let found = library::replace(
            file.lent(),
            runs.for_library(),
            self.row,
            with,
            out.for_library(),
        );
        let call = format!("replace into {room} bytes");
        agree(|| call.clone(), &wanted, &found)?;
        out.agree(&call, wanted.length)?;
        runs.agree(&call)?;
        file.agree(&call)?;
        let judged = judge(self.file).map_or_else(|refusal| refusal.number, |_| 0);
        tally.call(judged, found.number);
        if found.number != 0 {
            return Ok(None);
        }
        Ok(Some(out.found(found.length).to_vec()))
    }

    /// What was written is the file but for the value, has its table, and reads
    /// as what was asked for.
    pub fn check_written(self, out: &[u8]) -> Checked {
        let Replacement { kind, unit, bits } = self.with;
        let given = |difference: crate::difference::Difference| {
            difference
                .given("file", hex(self.file))
                .given("row", self.row.to_string())
                .given("replacement", format!("{:X?}", self.with))
        };
        let value = library::value(self.file, self.row);
        let mut wanted = self.file.to_vec();
        let end = value.first + value.length;
        wanted[value.first..end].copy_from_slice(&out[value.first..end]);
        agree_runs(|| "all but the value".to_string(), &wanted, out).map_err(given)?;
        let wanted = Typed {
            kind,
            unit: if kind == UNIT_DOUBLE { unit } else { 0 },
            bits,
            ..Typed::default()
        };
        let found = library::typed(out, self.row);
        agree(|| "the value replaced".to_string(), &wanted, &found).map_err(given)?;
        let table = Runs::of(out, &mut Random::new(0));
        agree_tables(
            "what was replaced",
            &Runs::of(self.file, &mut Random::new(0)),
            &table,
        )
        .map_err(given)
    }
}

const UNIT_DOUBLE: u32 = u32::from_be_bytes(*b"UntF");
