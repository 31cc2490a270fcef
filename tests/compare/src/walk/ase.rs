//! Comparing walks over one ASE file.

use super::steps::{check_places, check_step, check_walk, Outcome, Steps};
use super::tally::{Taken, Walked};
use super::SMALL_LEN;
use crate::difference::{agree, hex, Checked};
use proved::ase::{Start, Step};
use reference::ase::{Record, COLOUR, ROW_LEN};
use reference::Refusal;

/// Compares a file's walks where they start, and all steps where the file is
/// small.
pub fn check_file(file: &[u8], tally: &mut Walked, blocks: &mut Taken) -> Checked {
    check_calls(file, tally, blocks).map_err(|difference| difference.given("ASE file", hex(file)))
}

fn check_calls(file: &[u8], tally: &mut Walked, blocks: &mut Taken) -> Checked {
    let start = check_start(file)?;
    tally.file(start.number);
    if start.number == 0 {
        let rows = rows(file);
        check_walk::<Blocks>(file, start.at, &rows, blocks)?;
        check_walk::<Colours>(file, start.at, &colours_of(&rows), &mut tally.colours)?;
    }
    if file.len() <= SMALL_LEN {
        check_places::<Blocks>(file, blocks)?;
        check_places::<Colours>(file, &mut tally.colours)?;
    }
    Ok(())
}

/// Compares the start on a file, and steps at some of its places: for one too
/// long to be stepped into at all of them.
pub fn check_at(file: &[u8], places: &[usize], tally: &mut Walked, blocks: &mut Taken) -> Checked {
    tally.file(check_start(file)?.number);
    places
        .iter()
        .try_for_each(|&at| {
            check_step::<Blocks>(file, at, blocks)?;
            check_step::<Colours>(file, at, &mut tally.colours).map(drop)
        })
        .map_err(|difference| difference.given("ASE file", hex(file)))
}

fn check_start(file: &[u8]) -> Checked<Start> {
    let wanted = expected_start(reference::ase::walk_start(file));
    let found = proved::ase::walk_start(file);
    agree(|| "the start of an ASE walk".to_string(), &wanted, &found)?;
    Ok(wanted)
}

fn expected_start(result: Result<usize, Refusal>) -> Start {
    match result {
        Ok(at) => Start {
            at,
            ..Start::default()
        },
        Err(Refusal { number, place, .. }) => Start {
            number,
            place,
            at: 0,
        },
    }
}

/// The reference's table of an accepted file.
fn rows(file: &[u8]) -> Vec<u32> {
    let blocks = reference::ase::judge(file).map_or(0, |accepted| accepted.blocks);
    let mut table = vec![0; blocks * ROW_LEN];
    reference::ase::read(file, &mut table).expect("an accepted file is read");
    table
}

fn colours_of(rows: &[u32]) -> Vec<u32> {
    let (rows, _) = rows.as_chunks::<ROW_LEN>();
    let colours = rows.iter().filter(|row| row[0] == u32::from(COLOUR));
    colours.flatten().copied().collect()
}

fn expected_step(step: reference::Step<Record>) -> Step {
    let nothing = Step {
        next: step.next,
        ..Step::default()
    };
    match step.found {
        Ok(Some(Record {
            block,
            name,
            units,
            model,
            channels,
            ink,
        })) => Step {
            block: u32::from(block),
            name,
            units,
            model,
            channels,
            ink,
            ..nothing
        },
        Ok(None) => Step { done: 1, ..nothing },
        // A step's refusal is at place 0, so the library does not say it.
        Err(refusal) => Step {
            number: refusal.number,
            ..nothing
        },
    }
}

fn row_of(step: &Step) -> Vec<u32> {
    let [a, b, c, d] = step.channels;
    let name = step.name as u32;
    vec![
        step.block, name, step.units, step.model, a, b, c, d, step.ink,
    ]
}

struct Colours;

impl Steps for Colours {
    const CALL: &'static str = "the ASE colour step";
    type Step = Step;

    fn expected(file: &[u8], at: usize) -> Step {
        expected_step(reference::ase::walk(file, at))
    }

    fn found(file: &[u8], at: usize) -> Step {
        proved::ase::walk(file, at)
    }

    fn outcome(step: &Step) -> Outcome {
        Outcome::of(step.number, step.done)
    }

    fn next(step: &Step) -> usize {
        step.next
    }

    fn row(step: &Step) -> Vec<u32> {
        row_of(step)
    }
}

struct Blocks;

impl Steps for Blocks {
    const CALL: &'static str = "the ASE block step";
    type Step = Step;

    fn expected(file: &[u8], at: usize) -> Step {
        expected_step(reference::ase::walk_block(file, at))
    }

    fn found(file: &[u8], at: usize) -> Step {
        proved::ase::walk_block(file, at)
    }

    fn outcome(step: &Step) -> Outcome {
        Outcome::of(step.number, step.done)
    }

    fn next(step: &Step) -> usize {
        step.next
    }

    fn row(step: &Step) -> Vec<u32> {
        row_of(step)
    }
}
