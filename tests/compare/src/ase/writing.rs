//! Comparing what becomes of records to be written.

use super::reading::check_judge;
use super::tally::Tally;
use crate::difference::{agree, agree_runs, hex, rows, Checked};
use crate::expected;
use crate::lent::Lent;
use generate::ase::{Lot, MODELS};
use generate::Random;
use proved::ase::Answer;
use proved::Written;
use reference::ase::{CHANNELS, COLOUR, GROUP_END, ROW_LEN};
use reference::UNIT_LEN;

/// Room lent to a writer that refuses whatever the room.
const SPARE_ROOM: usize = 80;

const NAME: usize = 1;
const UNITS: usize = 2;
const MODEL: usize = 3;
const FIRST_CHANNEL: usize = 4;

pub fn check_lot(lot: &Lot, random: &mut Random, tally: &mut Tally) -> Checked {
    check_records(&lot.records, &lot.text, random, tally).map(|_| ())
}

/// Compares the length and the writing of records, and what was written as a
/// file; gives back what was written, where anything was.
pub fn check_records(
    records: &[u32],
    text: &[u8],
    random: &mut Random,
    tally: &mut Tally,
) -> Checked<Option<Vec<u8>>> {
    check_calls(records, text, random, tally).map_err(|difference| {
        difference
            .given("records", rows(records, ROW_LEN))
            .given("text", hex(text))
    })
}

fn check_calls(
    records: &[u32],
    text: &[u8],
    random: &mut Random,
    tally: &mut Tally,
) -> Checked<Option<Vec<u8>>> {
    let length = expected::written(reference::ase::length(records, text));
    agree(
        || "length".to_string(),
        &length,
        &proved::ase::length(records, text),
    )?;
    tally.lot(length.number);
    for len in output_lengths(&length, random) {
        let (written, _) = check_write(records, text, len)?;
        tally.writing_call(written.number);
    }
    if length.number != 0 {
        return Ok(None);
    }
    let (_, out) = check_write(records, text, length.length)?;
    check_read_back(records, text, &out)?;
    Ok(Some(out))
}

/// Outputs one short, longer, of no room and of any; the exact need is
/// compared with what is read back from it.
fn output_lengths(length: &Written, random: &mut Random) -> [usize; 4] {
    let need = if length.number == 0 {
        length.length
    } else {
        SPARE_ROOM
    };
    [
        need - 1,
        need + 1 + random.below(SPARE_ROOM),
        0,
        random.below(need + SPARE_ROOM),
    ]
}

fn check_write(records: &[u32], text: &[u8], len: usize) -> Checked<(Written, Vec<u8>)> {
    let mut out = Lent::<u8>::of(len);
    let wanted = expected::written(reference::ase::write(records, text, out.for_reference()));
    let found = proved::ase::write(records, text, out.for_library());
    let call = || format!("write into {len} bytes");
    agree(call, &wanted, &found)?;
    out.agree(&call(), wanted.length)?;
    Ok((wanted, out.found(wanted.length).to_vec()))
}

/// What was written is a file with the same records: their numbers, and their
/// names as units wherever these lie.
fn check_read_back(records: &[u32], text: &[u8], out: &[u8]) -> Checked {
    let (given, _) = records.as_chunks::<ROW_LEN>();
    let is_colour = |row: &&[u32; ROW_LEN]| row[0] == u32::from(COLOUR);
    let wanted = Answer {
        blocks: given.len(),
        colours: given.iter().filter(is_colour).count(),
        ..Answer::default()
    };
    let judged = check_judge(out)?;
    agree(|| "judging what was written".to_string(), &wanted, &judged)?;
    let mut table = vec![0; given.len() * ROW_LEN];
    agree(
        || "reading what was written".to_string(),
        &wanted,
        &proved::ase::read(out, &mut table),
    )?;
    let (got, _) = table.as_chunks::<ROW_LEN>();
    for (index, (given, got)) in given.iter().zip(got).enumerate() {
        let given = used(given);
        let read_back = || format!("record {index} read back");
        agree(read_back, &placeless(given), &placeless(*got))?;
        agree_runs(
            || format!("name {index} read back"),
            name(&given, text),
            name(got, out),
        )?;
    }
    Ok(())
}

/// A sound record with 0 wherever it uses nothing, as a reader fills it in.
fn used(row: &[u32; ROW_LEN]) -> [u32; ROW_LEN] {
    let mut row = *row;
    if row[0] == u32::from(GROUP_END) {
        row[1..].fill(0);
    } else if row[0] == u32::from(COLOUR) {
        let known = MODELS.iter().find(|known| known.0 == row[MODEL]);
        let channels = known.map_or(CHANNELS, |known| known.1);
        row[FIRST_CHANNEL..][channels..CHANNELS].fill(0);
    } else {
        row[MODEL..].fill(0);
    }
    row
}

/// A name's place is no part of its record.
fn placeless(mut row: [u32; ROW_LEN]) -> [u32; ROW_LEN] {
    row[NAME] = 0;
    row
}

/// A sound record's name in the bytes it lies in; with no units it may give
/// any place.
fn name<'a>(row: &[u32; ROW_LEN], bytes: &'a [u8]) -> &'a [u8] {
    let (place, len) = (row[NAME] as usize, UNIT_LEN * row[UNITS] as usize);
    if len == 0 {
        return &[];
    }
    &bytes[place..place + len]
}
