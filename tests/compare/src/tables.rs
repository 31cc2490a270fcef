//! Tables of descriptors that are lent to be looked at.

use crate::difference::{agree_runs, Checked};
use crate::lent::Shown;
use generate::descriptor::any_number;
use generate::Random;
use proved::descriptor as library;
use reference::descriptor::{self, Columns};

/// First byte, length, next sibling, depth, kind.
pub const RUNS: usize = 5;

const NAMES: [&str; RUNS] = ["first byte", "length", "next sibling", "depth", "kind"];
/// Rows of a table that goes with a refused file.
const SPARE_ROWS: usize = 6;

/// A table's runs, which may be of any length and hold anything.
#[derive(Clone)]
pub struct Runs(pub [Vec<u32>; RUNS]);

impl Runs {
    /// The rows of a file, or noise where it is refused.
    pub fn of(file: &[u8], random: &mut Random) -> Self {
        let Ok(rows) = descriptor::judge(file) else {
            return Runs([(); RUNS].map(|()| (0..SPARE_ROWS).map(|_| random.u32()).collect()));
        };
        let mut runs = [(); RUNS].map(|()| vec![0; rows]);
        let [first, length, next, depth, kind] = &mut runs;
        let columns = Columns {
            first,
            length,
            next,
            depth,
            kind,
        };
        descriptor::read(file, columns).expect("a judged file is read");
        Runs(runs)
    }

    /// How many numbers the longest run has.
    pub fn rows(&self) -> usize {
        self.0.iter().map(Vec::len).max().unwrap_or(0)
    }

    /// With another number in one place of one run.
    pub fn with(&self, run: usize, row: usize, number: u32) -> Self {
        let mut runs = self.clone();
        runs.0[run][row] = number;
        runs
    }

    /// With any other number in any place of any run that has one; the last rows
    /// are as likely as all others together.
    pub fn altered(&self, random: &mut Random) -> Self {
        let run = random.below(RUNS);
        let len = self.0[run].len();
        if len == 0 {
            return self.clone();
        }
        let row = if random.one_in(2) {
            len - 1
        } else {
            random.below(len)
        };
        self.with(run, row, any_number(self.0[run][row], random))
    }

    /// With one run of so many numbers; those past its end are noise.
    pub fn with_length(&self, run: usize, len: usize, random: &mut Random) -> Self {
        let mut runs = self.clone();
        runs.0[run].resize_with(len, || random.u32());
        runs
    }

    /// With some runs longer than they were, by noise.
    pub fn longer(&self, random: &mut Random) -> Self {
        let mut runs = self.clone();
        for run in &mut runs.0 {
            let more = random.below(4);
            run.extend((0..more).map(|_| random.u32()));
        }
        runs
    }

    pub fn shown(&self) -> ShownRuns {
        ShownRuns(self.0.each_ref().map(|run| Shown::of(run)))
    }

    pub fn describe(&self) -> String {
        let runs = NAMES.iter().zip(&self.0);
        let runs = runs.map(|(name, run)| format!("{name} {:X?}", &run[..run.len().min(20)]));
        runs.collect::<Vec<_>>().join("; ")
    }
}

/// The runs as they are lent to be looked at, with canaries around each.
pub struct ShownRuns([Shown<u32>; RUNS]);

impl ShownRuns {
    pub fn for_reference(&self) -> descriptor::Table<'_> {
        let [first, length, next, depth, kind] = self.0.each_ref().map(Shown::lent);
        descriptor::Table {
            first,
            length,
            next,
            depth,
            kind,
        }
    }

    pub fn for_library(&self) -> library::Table<'_> {
        let [first, length, next, depth, kind] = self.0.each_ref().map(Shown::lent);
        library::Table {
            first,
            length,
            next,
            depth,
            kind,
        }
    }

    /// Nothing of them may have changed.
    pub fn agree(&self, call: &str) -> Checked {
        self.0.iter().try_for_each(|run| run.agree(call))
    }
}

/// Holds two tables to each other.
pub fn agree_tables(call: &str, expected: &Runs, found: &Runs) -> Checked {
    for (run, name) in NAMES.iter().enumerate() {
        let call = || format!("{name} of {call}");
        agree_runs(call, &expected.0[run], &found.0[run])?;
    }
    Ok(())
}
