//! What a book shows: texts, full names, components and pages.

use super::header::Text;
use super::layout::{CMYK, COMPONENTS, LAB};
use super::reader::{judge_whole, string, Judged, Record};
use crate::name::UNIT_LEN;
use crate::output::put;
use crate::refusal::{number, Refusal};

/// `$$$/` and `=` in units.
const KEY_START: [u8; 8] = *b"\0$\0$\0$\0/";
const EQUALS: [u8; UNIT_LEN] = *b"\0=";

const FULL_SCALE: i32 = 255;
const MIDDLE: i32 = 128;

/// The components as they are shown; those that the space does not have are 0.
#[derive(Clone, Copy, Debug, Default, PartialEq, Eq)]
pub struct Shown {
    pub count: usize,
    pub values: [i32; COMPONENTS],
}

/// Where the shown text of a string's bytes begins: behind the first `=` where
/// the string begins with `$$$/` and holds one, else at its start.
pub fn shown_start(string: &[u8]) -> usize {
    if !string.starts_with(&KEY_START) {
        return 0;
    }
    let (units, _) = string.as_chunks::<UNIT_LEN>();
    let equals = units.iter().position(|unit| *unit == EQUALS);
    equals.map_or(0, |index| UNIT_LEN * (index + 1))
}

/// The shown text of a string, a part of its bytes.
pub fn shown_text(string: &[u8]) -> &[u8] {
    &string[shown_start(string)..]
}

/// Judges the file, then gives what the components of a colour show.
pub fn shown(file: &[u8], index: usize) -> Result<Shown, Refusal> {
    let judged = judge_whole(file)?;
    let record = judged.record(file, index)?;
    Ok(Shown {
        count: judged.components(),
        values: shown_values(judged.accepted.header.space, record.components),
    })
}

fn shown_values(space: u16, components: [u8; COMPONENTS]) -> [i32; COMPONENTS] {
    let [a, b, c, d] = components.map(i32::from);
    match space {
        CMYK => [a, b, c, d].map(|ink| percent(FULL_SCALE - ink)),
        LAB => [percent(a), b - MIDDLE, c - MIDDLE, 0],
        _ => [a, b, c, 0],
    }
}

/// A part of the full scale in percent, halves upward.
fn percent(part: i32) -> i32 {
    (200 * part + FULL_SCALE) / (2 * FULL_SCALE)
}

/// Judges the file, then gives the length in bytes of a colour's full name.
pub fn full_length(file: &[u8], index: usize) -> Result<usize, Refusal> {
    full_parts(file, index).map(|parts| full_len(&parts))
}

/// Judges the file, then puts a colour's full name into `out`, and gives its
/// length. Nothing of `out` changes on a refusal, nor past that length.
pub fn full_name(file: &[u8], index: usize, out: &mut [u8]) -> Result<usize, Refusal> {
    let parts = full_parts(file, index)?;
    let need = full_len(&parts);
    let mut rest = out
        .get_mut(..need)
        .ok_or(Refusal::of_call(number::NO_ROOM))?;
    parts.iter().for_each(|part| put(&mut rest, part));
    Ok(need)
}

/// The prefix's text, the name and the suffix's text. A name is never cut.
fn full_parts(file: &[u8], index: usize) -> Result<[&[u8]; 3], Refusal> {
    let judged = judge_whole(file)?;
    let name = judged.record(file, index)?.name;
    let header = judged.accepted.header;
    let shown = |text: Text| shown_text(string(file, text));
    Ok([
        shown(header.prefix),
        string(file, name),
        shown(header.suffix),
    ])
}

fn full_len(parts: &[&[u8]; 3]) -> usize {
    parts.iter().map(|part| part.len()).sum()
}

/// Judges the file, then gives the number of the colour that a page shows as
/// its sample.
pub fn page(file: &[u8], page: usize) -> Result<usize, Refusal> {
    let judged = judge_whole(file)?;
    let header = judged.accepted.header;
    let size = usize::from(header.page_size);
    // A page so far on that its first colour has no number is not there either.
    let first = page.saturating_mul(size);
    let records = judged.records(file).skip(first).take(size);
    sample(records, header.page_offset)
        .map(|index| first + index)
        .ok_or(Refusal::of_call(number::NO_PAGE))
}

/// The samples of all pages that there are, in one go.
pub(super) fn samples(file: &[u8], judged: &Judged) -> Vec<Option<usize>> {
    let header = judged.accepted.header;
    let size = usize::from(header.page_size);
    let mut records = judged.records(file);
    let firsts = (0..judged.accepted.count).step_by(size);
    let page = |first: usize| {
        let sample = sample(records.by_ref().take(size), header.page_offset);
        sample.map(|index| first + index)
    };
    firsts.map(page).collect()
}

/// Among a page's colours that are not dummies the one that the offset counts
/// to, or the last; by its number on the page.
fn sample(records: impl Iterator<Item = Record>, offset: u16) -> Option<usize> {
    let colours = records.enumerate().filter(|(_, record)| !record.is_dummy());
    // The rest of the page is gone over as well: the next begins behind it.
    let mut found = None;
    for (number, (index, _)) in colours.enumerate() {
        if number <= usize::from(offset) {
            found = Some(index);
        }
    }
    found
}
