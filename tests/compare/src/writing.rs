//! Comparing what becomes of records to be written.

use crate::difference::{agree, agree_runs, hex, rows, Checked};
use crate::expected;
use crate::lent::Lent;
use crate::reading::check_judge;
use crate::tally::Tally;
use generate::{Lot, Random};
use proved::Written;
use reference::{ROW_LEN, SAMPLES, UNIT_LEN};

/// Room lent to a writer that refuses whatever the room.
const SPARE_ROOM: usize = 80;
const COLOUR_FIELDS: usize = 1 + SAMPLES;
const INK: usize = 7;

pub fn check_lot(lot: &Lot, random: &mut Random, tally: &mut Tally) -> Checked {
    check_records(&lot.records, &lot.text, random, tally).map(|_| ())
}

/// Compares the length and the writing of records, and what was written as a
/// file; gives back what was written, where anything was.
pub fn check_records(
    records: &[u32],
    text: &[u8],
    random: &mut Random,
    tally: &mut Tally,
) -> Checked<Option<Vec<u8>>> {
    check_calls(records, text, random, tally).map_err(|difference| {
        difference
            .given("records", rows(records, ROW_LEN))
            .given("text", hex(text))
    })
}

fn check_calls(
    records: &[u32],
    text: &[u8],
    random: &mut Random,
    tally: &mut Tally,
) -> Checked<Option<Vec<u8>>> {
    let length = expected::written(reference::length(records, text));
    agree(
        || "length".to_string(),
        &length,
        &proved::length(records, text),
    )?;
    tally.lot(length.number);
    for len in output_lengths(&length, random) {
        let (written, _) = check_write(records, text, len)?;
        tally.writing_call(written.number);
    }
    if length.number != 0 {
        return Ok(None);
    }
    let (_, out) = check_write(records, text, length.length)?;
    check_read_back(records, text, &out)?;
    Ok(Some(out))
}

/// Outputs one short, longer, of no room and of any; the exact need is
/// compared with what is read back from it.
fn output_lengths(length: &Written, random: &mut Random) -> [usize; 4] {
    let need = if length.number == 0 {
        length.length
    } else {
        SPARE_ROOM
    };
    [
        need - 1,
        need + 1 + random.below(SPARE_ROOM),
        0,
        random.below(need + SPARE_ROOM),
    ]
}

fn check_write(records: &[u32], text: &[u8], len: usize) -> Checked<(Written, Vec<u8>)> {
    let mut out = Lent::<u8>::of(len);
    let wanted = expected::written(reference::write(records, text, out.for_reference()));
    let found = proved::write(records, text, out.for_library());
    let call = || format!("write into {len} bytes");
    agree(call, &wanted, &found)?;
    out.agree(&call(), wanted.length)?;
    Ok((wanted, out.found(wanted.length).to_vec()))
}

/// What was written is a file of two lists with the same records: their
/// numbers, and their names as units wherever these lie.
fn check_read_back(records: &[u32], text: &[u8], out: &[u8]) -> Checked {
    let count = records.len() / ROW_LEN;
    let judged = check_judge(out)?;
    let wanted = proved::Answer {
        colours: count,
        lists: 2,
        ..Default::default()
    };
    agree(|| "judging what was written".to_string(), &wanted, &judged)?;
    let mut table = vec![0; count * ROW_LEN];
    agree(
        || "reading what was written".to_string(),
        &wanted,
        &proved::read(out, &mut table),
    )?;
    let rows = records
        .chunks_exact(ROW_LEN)
        .zip(table.chunks_exact(ROW_LEN));
    for (index, (given, got)) in rows.enumerate() {
        let (given_colour, got_colour) = (&given[..COLOUR_FIELDS], &got[..COLOUR_FIELDS]);
        agree_runs(
            || format!("colour {index} read back"),
            given_colour,
            got_colour,
        )?;
        agree_runs(
            || format!("name {index} read back"),
            name(given, text),
            name(got, out),
        )?;
        agree(|| format!("ink {index} read back"), &given[INK], &got[INK])?;
    }
    Ok(())
}

/// A sound record's name in the bytes it lies in; with no units it may give
/// any place.
fn name<'a>(row: &[u32], bytes: &'a [u8]) -> &'a [u8] {
    let (place, len) = (row[5] as usize, UNIT_LEN * row[6] as usize);
    if len == 0 {
        return &[];
    }
    &bytes[place..place + len]
}
