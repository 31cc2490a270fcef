//! Comparing what becomes of one section, or of one document.

use super::expected;
use super::tally::Tally;
use super::writing::check_records;
use crate::difference::{agree, agree_runs, hex, Checked};
use crate::lent::Lent;
use generate::Random;
use proved::resource::{Answer, Section};
use reference::resource::ROW_LEN;

/// Rows lent with a section that is refused.
const SPARE_ROWS: usize = 6;
/// In a section of more blocks only some records are asked for, since each call
/// judges the whole section.
const FEW_BLOCKS: usize = 40;

/// Compares every call on a section, and writing it back where it is accepted.
pub fn check_section(section: &[u8], random: &mut Random, tally: &mut Tally) -> Checked {
    check_calls(section, random, tally)
        .map_err(|difference| difference.given("section", hex(section)))
}

/// Compares where a document's section lies, and every call on the section.
pub fn check_document(document: &[u8], random: &mut Random, tally: &mut Tally) -> Checked {
    let located = check_located(document, tally)
        .map_err(|difference| difference.given("document", hex(document)))?;
    if located.number == 0 {
        let section = &document[located.first..][..located.length];
        check_section(section, random, tally)?;
    }
    Ok(())
}

/// Compares where a document's section lies, and no more.
pub fn check_located(document: &[u8], tally: &mut Tally) -> Checked<Section> {
    let wanted = expected::section(reference::resource::section_of(document));
    let found = proved::resource::section_of(document);
    agree(|| "a document's section".to_string(), &wanted, &found)?;
    tally.document(&wanted);
    Ok(wanted)
}

fn check_calls(section: &[u8], random: &mut Random, tally: &mut Tally) -> Checked {
    let judged = check_judge(section)?;
    tally.section(&judged);
    for len in table_lengths(&judged, random) {
        let read = check_read(section, len)?;
        tally.reading_call(read.number);
    }
    for index in record_numbers(&judged, random) {
        let found = proved::resource::record(section, index);
        let wanted = expected::record(reference::resource::record(section, index));
        agree(|| format!("record {index}"), &wanted, &found)?;
        tally.reading_call(found.number);
    }
    for id in ids(section, &judged, random) {
        let found = proved::resource::find(section, id);
        let wanted = expected::found(reference::resource::find(section, id));
        agree(|| format!("the block with the ID {id}"), &wanted, &found)?;
        tally.reading_call(found.number);
    }
    if judged.number == 0 {
        check_write_back(section, &judged, random, tally)?;
    }
    Ok(())
}

/// Judges and reads a section alone: for one of so many blocks that all calls
/// would take long.
pub fn check_briefly(section: &[u8], tally: &mut Tally) -> Checked {
    let read = |judged: Answer| check_read(section, judged.blocks * ROW_LEN);
    let judged = check_judge(section)
        .and_then(read)
        .map_err(|difference| difference.given("section", hex(section)))?;
    tally.section(&judged);
    Ok(())
}

/// Holds the library's judgement to the reference's, which is given back.
pub fn check_judge(section: &[u8]) -> Checked<Answer> {
    let wanted = expected::answer(reference::resource::judge(section));
    let found = proved::resource::judge(section);
    agree(|| "judge".to_string(), &wanted, &found)?;
    Ok(wanted)
}

/// Tables of the exact need, one less, a row less and some, more, none and any.
/// A refused section has no need, but there has to be room for the rows that must
/// not be filled.
fn table_lengths(judged: &Answer, random: &mut Random) -> [usize; 6] {
    let rows = if judged.number == 0 {
        judged.blocks
    } else {
        SPARE_ROWS
    };
    let need = rows * ROW_LEN;
    [
        need,
        need.saturating_sub(1),
        need.saturating_sub(1 + random.below(2 * ROW_LEN)),
        need + 1 + random.below(2 * ROW_LEN),
        0,
        random.below(need + 2 * ROW_LEN),
    ]
}

fn check_read(section: &[u8], len: usize) -> Checked<Answer> {
    let mut table = Lent::<u32>::of(len);
    let wanted = expected::answer(reference::resource::read(section, table.for_reference()));
    let found = proved::resource::read(section, table.for_library());
    let call = || format!("read into a table of {len} numbers");
    agree(call, &wanted, &found)?;
    table.agree(&call(), wanted.blocks * ROW_LEN)?;
    Ok(wanted)
}

/// Every record that is there, or some of them where they are many, and
/// numbers past the last: the next, any, the largest, and one whose row lies
/// where no place does.
fn record_numbers(judged: &Answer, random: &mut Random) -> Vec<usize> {
    let blocks = judged.blocks;
    let mut numbers = some_below(blocks, random);
    numbers.extend([
        blocks,
        blocks + random.below(usize::MAX - blocks),
        usize::MAX / ROW_LEN + 1,
        usize::MAX,
    ]);
    numbers
}

/// All numbers of so many blocks, or some where they are many, the first and
/// the last among them.
fn some_below(blocks: usize, random: &mut Random) -> Vec<usize> {
    if blocks <= FEW_BLOCKS {
        (0..blocks).collect()
    } else {
        vec![0, random.below(blocks), random.below(blocks), blocks - 1]
    }
}

/// The IDs that blocks have, each with one that differs in a bit; the least, the
/// largest and any.
fn ids(section: &[u8], judged: &Answer, random: &mut Random) -> Vec<u16> {
    let mut table = vec![0; judged.blocks * ROW_LEN];
    proved::resource::read(section, &mut table);
    let mut ids = vec![0, u16::MAX, random.u16()];
    for index in some_below(judged.blocks, random) {
        let id = table[index * ROW_LEN] as u16;
        ids.extend([id, id ^ (1 << random.below(16))]);
    }
    ids
}

/// Writes an accepted section's records with the section as the text of their
/// names and data; it comes back byte for byte.
fn check_write_back(
    section: &[u8],
    judged: &Answer,
    random: &mut Random,
    tally: &mut Tally,
) -> Checked {
    let mut records = vec![0; judged.blocks * ROW_LEN];
    proved::resource::read(section, &mut records);
    let written = check_records(&records, section, random, tally)?;
    agree(
        || "writing an accepted section back".to_string(),
        &true,
        &written.is_some(),
    )?;
    agree_runs(
        || "the section written back".to_string(),
        section,
        &written.unwrap_or_default(),
    )
}
