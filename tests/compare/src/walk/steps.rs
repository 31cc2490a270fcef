//! Comparing steps: one, those at every place, and those of a whole walk.

use super::tally::Taken;
use crate::difference::{agree, agree_runs, Checked};
use std::fmt::Debug;

/// Steps past the end besides the one that comes to it.
const LATER_STEPS: usize = 2;
/// Places past the end of a file that are stepped to.
const PLACES_PAST: usize = 2;

#[derive(Clone, Copy, Debug, PartialEq, Eq)]
pub enum Outcome {
    Given,
    Done,
    Refused,
}

impl Outcome {
    /// By a step's number and its `done`.
    pub fn of(number: u32, done: u32) -> Self {
        match (number, done) {
            (0, 0) => Outcome::Given,
            (0, _) => Outcome::Done,
            _ => Outcome::Refused,
        }
    }
}

/// One of the library's steps.
pub trait Steps {
    const CALL: &'static str;
    type Step: PartialEq + Debug;

    fn expected(file: &[u8], at: usize) -> Self::Step;
    fn found(file: &[u8], at: usize) -> Self::Step;
    fn outcome(step: &Self::Step) -> Outcome;
    fn next(step: &Self::Step) -> usize;
    /// What was given, as the reader's table has it.
    fn row(step: &Self::Step) -> Vec<u32>;
}

/// A step at every place of a file, at some past its end, and at the largest.
pub fn check_places<S: Steps>(file: &[u8], taken: &mut Taken) -> Checked {
    (0..=file.len() + PLACES_PAST)
        .chain([usize::MAX])
        .try_for_each(|at| check_step::<S>(file, at, taken).map(drop))
}

/// A walk from `start`: it gives the rows of the reader's table, and then says
/// done however often it is asked.
pub fn check_walk<S: Steps>(file: &[u8], start: usize, rows: &[u32], taken: &mut Taken) -> Checked {
    let mut given = Vec::new();
    let mut step = check_step::<S>(file, start, taken)?;
    while S::outcome(&step) == Outcome::Given {
        given.extend(S::row(&step));
        step = check_step::<S>(file, S::next(&step), taken)?;
    }
    agree_runs(|| format!("what {} gives in turn", S::CALL), rows, &given)?;
    for _ in 0..LATER_STEPS {
        agree_done::<S>(&step)?;
        step = check_step::<S>(file, S::next(&step), taken)?;
    }
    agree_done::<S>(&step)
}

/// A step held to the reference's. That one goes forward while it gives
/// something, so that no walk goes on without end.
pub fn check_step<S: Steps>(file: &[u8], at: usize, taken: &mut Taken) -> Checked<S::Step> {
    let found = S::found(file, at);
    agree(
        || format!("{} at {at}", S::CALL),
        &S::expected(file, at),
        &found,
    )?;
    taken.add(S::outcome(&found));
    Ok(found)
}

fn agree_done<S: Steps>(step: &S::Step) -> Checked {
    agree(
        || format!("{} at the end of a walk", S::CALL),
        &Outcome::Done,
        &S::outcome(step),
    )
}
