//! Colours or blocks one a call, from any place of a file.

use super::layout::{COLOUR, GROUP_START, HEAD_LEN};
use super::reader::{
    judge, judge_colour, judge_envelope, judge_group_end, judge_group_start, Content, Record,
    Records,
};
use crate::refusal::Refusal;
use crate::step::Step;

/// A walk does not count groups: one stands open at every place, so that a
/// group may start there or end.
const OPEN: usize = 1;

/// Judges a whole file, then gives the place of a walk's first step.
pub fn walk_start(file: &[u8]) -> Result<usize, Refusal> {
    judge(file).map(|_| HEAD_LEN)
}

/// The step of a walk over colours at any place of any file: groups are passed
/// over, up to the first block that is none.
pub fn walk(file: &[u8], mut at: usize) -> Step<Record> {
    loop {
        let step = walk_block(file, at);
        match step.found {
            Ok(Some(record)) if record.block != COLOUR => at = step.next,
            _ => return step,
        }
    }
}

/// The step of a walk over blocks at any place of any file.
pub fn walk_block(file: &[u8], at: usize) -> Step<Record> {
    Step::at(file.len(), at, |at| {
        let next = judge_block(file, at).ok()?;
        let record = Records::starting_at(file, at, 1).next()?;
        Some((record, next))
    })
}

/// Judges the block at a place inside of the file, and gives the place behind it.
fn judge_block(file: &[u8], at: usize) -> Result<usize, Refusal> {
    let envelope = judge_envelope(file, at)?;
    let content = Content::of(file, at, envelope)?;
    let end = content.end;
    match envelope.block {
        COLOUR => judge_colour(content)?,
        GROUP_START => judge_group_start(content, OPEN)?,
        _ => judge_group_end(content, OPEN)?,
    }
    Ok(end)
}
