//! Comparing what becomes of records to be written.

use super::reading::check_judge;
use super::tally::Tally;
use crate::difference::{agree, agree_runs, hex, rows, Checked};
use crate::expected;
use crate::lent::Lent;
use generate::resource::Lot;
use generate::Random;
use proved::resource::Answer;
use proved::Written;
use reference::resource::ROW_LEN;

/// Room lent to a writer that refuses whatever the room.
const SPARE_ROOM: usize = 80;

/// Where a record has the place and length of its name, and of its data.
const PARTS: [(&str, usize); 2] = [("name", 1), ("data", 3)];

pub fn check_lot(lot: &Lot, random: &mut Random, tally: &mut Tally) -> Checked {
    check_records(&lot.records, &lot.text, random, tally).map(|_| ())
}

/// Compares the length and the writing of records, and what was written as a
/// section; gives back what was written, where anything was.
pub fn check_records(
    records: &[u32],
    text: &[u8],
    random: &mut Random,
    tally: &mut Tally,
) -> Checked<Option<Vec<u8>>> {
    check_calls(records, text, random, tally).map_err(|difference| {
        difference
            .given("records", rows(records, ROW_LEN))
            .given("text", hex(text))
    })
}

fn check_calls(
    records: &[u32],
    text: &[u8],
    random: &mut Random,
    tally: &mut Tally,
) -> Checked<Option<Vec<u8>>> {
    let length = expected::written(reference::resource::length(records, text));
    agree(
        || "length".to_string(),
        &length,
        &proved::resource::length(records, text),
    )?;
    tally.lot(length.number);
    for len in output_lengths(&length, random) {
        let (written, _) = check_write(records, text, len)?;
        tally.writing_call(written.number);
    }
    if length.number != 0 {
        return Ok(None);
    }
    let (_, out) = check_write(records, text, length.length)?;
    check_read_back(records, text, &out)?;
    Ok(Some(out))
}

/// Outputs one short, longer, of no room and of any; the exact need is
/// compared with what is read back from it.
fn output_lengths(length: &Written, random: &mut Random) -> [usize; 4] {
    let need = if length.number == 0 {
        length.length
    } else {
        SPARE_ROOM
    };
    [
        need.saturating_sub(1),
        need + 1 + random.below(SPARE_ROOM),
        0,
        random.below(need + SPARE_ROOM),
    ]
}

fn check_write(records: &[u32], text: &[u8], len: usize) -> Checked<(Written, Vec<u8>)> {
    let mut out = Lent::<u8>::of(len);
    let wanted = expected::written(reference::resource::write(
        records,
        text,
        out.for_reference(),
    ));
    let found = proved::resource::write(records, text, out.for_library());
    let call = || format!("write into {len} bytes");
    agree(call, &wanted, &found)?;
    out.agree(&call(), wanted.length)?;
    Ok((wanted, out.found(wanted.length).to_vec()))
}

/// What was written is a section with the same records: their IDs, and their
/// names and data wherever these lie.
fn check_read_back(records: &[u32], text: &[u8], out: &[u8]) -> Checked {
    let (given, _) = records.as_chunks::<ROW_LEN>();
    let wanted = Answer {
        blocks: given.len(),
        ..Answer::default()
    };
    let judged = check_judge(out)?;
    agree(|| "judging what was written".to_string(), &wanted, &judged)?;
    let mut table = vec![0; given.len() * ROW_LEN];
    agree(
        || "reading what was written".to_string(),
        &wanted,
        &proved::resource::read(out, &mut table),
    )?;
    let (got, _) = table.as_chunks::<ROW_LEN>();
    for (index, (given, got)) in given.iter().zip(got).enumerate() {
        agree(|| format!("ID {index} read back"), &given[0], &got[0])?;
        for (what, place) in PARTS {
            agree_runs(
                || format!("{what} {index} read back"),
                part(given, place, text),
                part(got, place, out),
            )?;
        }
    }
    Ok(())
}

/// A sound record's name or data in the bytes it lies in; one of no bytes may
/// give any place.
fn part<'a>(row: &[u32; ROW_LEN], place: usize, bytes: &'a [u8]) -> &'a [u8] {
    let (place, len) = (row[place] as usize, row[place + 1] as usize);
    if len == 0 {
        return &[];
    }
    &bytes[place..place + len]
}
