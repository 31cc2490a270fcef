//! Comparing walks over one ACO file.

use super::steps::{check_places, check_step, check_walk, Outcome, Steps};
use super::tally::Walked;
use super::SMALL_LEN;
use crate::difference::{agree, hex, Checked};
use proved::{Start, Step};
use reference::{Refusal, Swatch, ROW_LEN};

/// Compares a file's walk where it starts, and all steps where the file is small.
pub fn check_file(file: &[u8], tally: &mut Walked) -> Checked {
    check_calls(file, tally).map_err(|difference| difference.given("ACO file", hex(file)))
}

fn check_calls(file: &[u8], tally: &mut Walked) -> Checked {
    let start = check_start(file)?;
    tally.file(start.number);
    if start.number == 0 {
        check_walk::<Colours>(file, start.at, &rows(file), &mut tally.colours)?;
    }
    if file.len() <= SMALL_LEN {
        check_places::<Colours>(file, &mut tally.colours)?;
    }
    Ok(())
}

/// Compares the start on a file, and steps at some of its places: for one too
/// long to be stepped into at all of them.
pub fn check_at(file: &[u8], places: &[usize], tally: &mut Walked) -> Checked {
    tally.file(check_start(file)?.number);
    places
        .iter()
        .try_for_each(|&at| check_step::<Colours>(file, at, &mut tally.colours).map(drop))
        .map_err(|difference| difference.given("ACO file", hex(file)))
}

fn check_start(file: &[u8]) -> Checked<Start> {
    let wanted = expected_start(reference::walk_start(file));
    let found = proved::walk_start(file);
    agree(|| "the start of an ACO walk".to_string(), &wanted, &found)?;
    Ok(wanted)
}

fn expected_start(result: Result<usize, Refusal>) -> Start {
    match result {
        Ok(at) => Start {
            at,
            ..Start::default()
        },
        Err(Refusal {
            number,
            place,
            record,
            field,
        }) => Start {
            number,
            place,
            record,
            field,
            at: 0,
        },
    }
}

/// The reference's table of an accepted file.
fn rows(file: &[u8]) -> Vec<u32> {
    let colours = reference::judge(file).map_or(0, |accepted| accepted.colours);
    let mut table = vec![0; colours * ROW_LEN];
    reference::read(file, &mut table).expect("an accepted file is read");
    table
}

struct Colours;

impl Steps for Colours {
    const CALL: &'static str = "the ACO step";
    type Step = Step;

    fn expected(file: &[u8], at: usize) -> Step {
        let step = reference::walk(file, at);
        let nothing = Step {
            next: step.next,
            ..Step::default()
        };
        match step.found {
            Ok(Some(Swatch {
                space,
                samples,
                name,
                units,
                ink,
            })) => Step {
                space,
                samples,
                name,
                units,
                ink,
                ..nothing
            },
            Ok(None) => Step { done: 1, ..nothing },
            // A step's refusal is at place 0, so the library does not say it.
            Err(refusal) => Step {
                number: refusal.number,
                ..nothing
            },
        }
    }

    fn found(file: &[u8], at: usize) -> Step {
        proved::walk(file, at)
    }

    fn outcome(step: &Step) -> Outcome {
        Outcome::of(step.number, step.done)
    }

    fn next(step: &Step) -> usize {
        step.next
    }

    fn row(step: &Step) -> Vec<u32> {
        let [a, b, c, d] = step.samples.map(u32::from);
        let space = u32::from(step.space);
        let name = step.name as u32;
        vec![space, a, b, c, d, name, step.units, step.ink]
    }
}
