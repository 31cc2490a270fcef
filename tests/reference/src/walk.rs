//! Colours one a call, from any place of a file.

use crate::colour::{field_at, judge_colour, COLOUR_LEN, FIELD_LEN, HEAD_LEN, NAME_COUNT_LEN};
use crate::reader::{judge, judge_name, list_one_len, name_count, Swatch};
use crate::refusal::Refusal;
use crate::step::Step;

/// Judges a whole file, then gives the place of a walk's first step.
pub fn walk_start(file: &[u8]) -> Result<usize, Refusal> {
    let accepted = judge(file)?;
    if accepted.lists == 1 {
        return Ok(HEAD_LEN);
    }
    Ok(list_one_len(accepted.colours) + HEAD_LEN)
}

/// The step of a walk at any place of any file: a record of list 2, or of
/// list 1 where that is all that the file has room for.
pub fn walk(file: &[u8], at: usize) -> Step<Swatch> {
    Step::at(file.len(), at, |at| swatch_at(file, at))
}

fn swatch_at(file: &[u8], at: usize) -> Option<(Swatch, usize)> {
    let colour = file[at..].first_chunk()?;
    judge_colour(colour).ok()?;
    let behind = at + COLOUR_LEN;
    if is_plain(file) {
        return Some((Swatch::of(colour, (0, 0)), behind));
    }
    let next = judge_name(file, behind).ok()?;
    let units = name_count(file, behind)? - 1;
    Some((Swatch::of(colour, (behind + NAME_COUNT_LEN, units)), next))
}

/// Whether the file is as long as its list 1, whatever stands in it.
fn is_plain(file: &[u8]) -> bool {
    let colours = field_at(file, FIELD_LEN).map_or(0, usize::from);
    file.len() == list_one_len(colours)
}
