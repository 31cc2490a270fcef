//! Comparing what becomes of one file.

use super::expected;
use super::tally::Tally;
use super::writing::check_records;
use crate::difference::{agree, agree_runs, hex, Checked};
use crate::lent::Lent;
use generate::Random;
use proved::ase::Answer;
use reference::ase::ROW_LEN;

/// Rows lent with a file that is refused.
const SPARE_ROWS: usize = 6;
/// In a file of more blocks only some records are asked for, since each call
/// judges the whole file.
const FEW_BLOCKS: usize = 40;

/// Compares every call on a file, and writing it back where it is accepted.
pub fn check_file(file: &[u8], random: &mut Random, tally: &mut Tally) -> Checked {
    check_calls(file, random, tally).map_err(|difference| difference.given("file", hex(file)))
}

fn check_calls(file: &[u8], random: &mut Random, tally: &mut Tally) -> Checked {
    let judged = check_judge(file)?;
    tally.file(&judged);
    for len in table_lengths(&judged, random) {
        let read = check_read(file, len)?;
        tally.reading_call(read.number);
    }
    for index in record_numbers(&judged, random) {
        let found = proved::ase::record(file, index);
        let wanted = expected::record(reference::ase::record(file, index));
        agree(|| format!("record {index}"), &wanted, &found)?;
        tally.reading_call(found.number);
    }
    if judged.number == 0 {
        check_write_back(file, &judged, random, tally)?;
    }
    Ok(())
}

/// Judges and reads a file alone: for one of so many blocks that all calls
/// would take long.
pub fn check_briefly(file: &[u8], tally: &mut Tally) -> Checked {
    let read = |judged: Answer| check_read(file, judged.blocks * ROW_LEN);
    let judged = check_judge(file)
        .and_then(read)
        .map_err(|difference| difference.given("file", hex(file)))?;
    tally.file(&judged);
    Ok(())
}

/// Holds the library's judgement to the reference's, which is given back.
pub fn check_judge(file: &[u8]) -> Checked<Answer> {
    let wanted = expected::answer(reference::ase::judge(file));
    agree(|| "judge".to_string(), &wanted, &proved::ase::judge(file))?;
    Ok(wanted)
}

/// Tables of the exact need, one less, a row less and some, more, none and any.
/// A refused file has no need, but there has to be room for the rows that must
/// not be filled.
fn table_lengths(judged: &Answer, random: &mut Random) -> [usize; 6] {
    let rows = if judged.number == 0 {
        judged.blocks
    } else {
        SPARE_ROWS
    };
    let need = rows * ROW_LEN;
    [
        need,
        need.saturating_sub(1),
        need.saturating_sub(1 + random.below(2 * ROW_LEN)),
        need + 1 + random.below(2 * ROW_LEN),
        0,
        random.below(need + 2 * ROW_LEN),
    ]
}

fn check_read(file: &[u8], len: usize) -> Checked<Answer> {
    let mut table = Lent::<u32>::of(len);
    let wanted = expected::answer(reference::ase::read(file, table.for_reference()));
    let found = proved::ase::read(file, table.for_library());
    let call = || format!("read into a table of {len} numbers");
    agree(call, &wanted, &found)?;
    table.agree(&call(), wanted.blocks * ROW_LEN)?;
    Ok(wanted)
}

/// Every record that is there, or some of them where they are many, and
/// numbers past the last: the next, any, the largest, and one whose row lies
/// where no place does.
fn record_numbers(judged: &Answer, random: &mut Random) -> Vec<usize> {
    let blocks = judged.blocks;
    let mut numbers: Vec<usize> = if blocks <= FEW_BLOCKS {
        (0..blocks).collect()
    } else {
        vec![0, random.below(blocks), random.below(blocks), blocks - 1]
    };
    numbers.extend([
        blocks,
        blocks + random.below(usize::MAX - blocks),
        usize::MAX / ROW_LEN + 1,
        usize::MAX,
    ]);
    numbers
}

/// Writes an accepted file's records with the file as the text of their names;
/// it comes back byte for byte.
fn check_write_back(
    file: &[u8],
    judged: &Answer,
    random: &mut Random,
    tally: &mut Tally,
) -> Checked {
    let mut records = vec![0; judged.blocks * ROW_LEN];
    proved::ase::read(file, &mut records);
    let written = check_records(&records, file, random, tally)?;
    agree(
        || "writing an accepted file back".to_string(),
        &true,
        &written.is_some(),
    )?;
    agree_runs(
        || "the file written back".to_string(),
        file,
        &written.unwrap_or_default(),
    )
}
