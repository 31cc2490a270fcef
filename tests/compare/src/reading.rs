//! Comparing what becomes of one file.

use crate::difference::{agree, agree_runs, hex, Checked};
use crate::expected;
use crate::lent::Lent;
use crate::tally::Tally;
use crate::writing;
use generate::Random;
use proved::Answer;
use reference::ROW_LEN;

/// Rows lent with a file that is refused.
const SPARE_ROWS: usize = 6;

/// Compares every call on a file, and writing it back where it is accepted.
pub fn check_file(file: &[u8], random: &mut Random, tally: &mut Tally) -> Checked {
    check_calls(file, random, tally).map_err(|difference| difference.given("file", hex(file)))
}

fn check_calls(file: &[u8], random: &mut Random, tally: &mut Tally) -> Checked {
    let judged = check_judge(file)?;
    tally.file(&judged);
    for len in table_lengths(&judged, random) {
        let read = check_read(file, len)?;
        tally.reading_call(read.number);
    }
    for index in record_numbers(&judged, random) {
        let found = proved::record(file, index);
        let wanted = expected::record(reference::record(file, index));
        agree(|| format!("record {index}"), &wanted, &found)?;
        tally.reading_call(found.number);
    }
    if judged.number == 0 {
        check_write_back(file, &judged, random, tally)?;
    }
    Ok(())
}

/// Holds the library's judgement to the reference's, which is given back.
pub fn check_judge(file: &[u8]) -> Checked<Answer> {
    let wanted = expected::answer(reference::judge(file));
    agree(|| "judge".to_string(), &wanted, &proved::judge(file))?;
    Ok(wanted)
}

/// Tables of the exact need, one less, more, none and any. A refused file has
/// no need, but there has to be room for the rows that must not be filled.
fn table_lengths(judged: &Answer, random: &mut Random) -> [usize; 5] {
    let rows = if judged.number == 0 {
        judged.colours
    } else {
        SPARE_ROWS
    };
    let need = rows * ROW_LEN;
    [
        need,
        need.saturating_sub(1),
        need + 1 + random.below(2 * ROW_LEN),
        0,
        random.below(need + 2 * ROW_LEN),
    ]
}

fn check_read(file: &[u8], len: usize) -> Checked<Answer> {
    let mut table = Lent::<u32>::of(len);
    let wanted = expected::answer(reference::read(file, table.for_reference()));
    let found = proved::read(file, table.for_library());
    let call = || format!("read into a table of {len} numbers");
    agree(call, &wanted, &found)?;
    table.agree(&call(), wanted.colours * ROW_LEN)?;
    Ok(wanted)
}

/// Numbers of records that are there and of some that are not.
fn record_numbers(judged: &Answer, random: &mut Random) -> [usize; 6] {
    let colours = judged.colours;
    [
        0,
        colours.saturating_sub(1),
        colours,
        random.below(colours + 1),
        colours + random.below(usize::MAX - colours),
        usize::MAX,
    ]
}

/// Writes an accepted file's records with the file as the text of their names.
/// Two lists come back byte for byte, and one list with empty names added.
fn check_write_back(
    file: &[u8],
    judged: &Answer,
    random: &mut Random,
    tally: &mut Tally,
) -> Checked {
    let mut records = vec![0; judged.colours * ROW_LEN];
    proved::read(file, &mut records);
    let out = writing::check_records(&records, file, random, tally)?;
    let written = agreed_output(out)?;
    if judged.lists == 2 {
        return agree_runs(|| "the file written back".to_string(), file, &written);
    }
    agree_runs(
        || "list 1 written back".to_string(),
        file,
        &written[..file.len()],
    )
}

/// What was written, where anything was: an accepted file's records are sound.
fn agreed_output(out: Option<Vec<u8>>) -> Checked<Vec<u8>> {
    agree(
        || "writing an accepted file back".to_string(),
        &true,
        &out.is_some(),
    )?;
    Ok(out.unwrap_or_default())
}
