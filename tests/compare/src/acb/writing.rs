//! Comparing what becomes of records to be written.

use super::expected;
use super::reading::check_judge;
use super::tally::Tally;
use crate::difference::{agree, agree_runs, hex, rows, Checked};
use crate::lent::Lent;
use generate::acb::{components, Lot};
use generate::Random;
use proved::acb::{Answer, Header, Text};
use proved::Written;
use reference::acb::ROW_LEN;
use reference::UNIT_LEN;

/// Room lent to a writer that refuses whatever the room.
const SPARE_ROOM: usize = 80;

const FIRST_COMPONENT: usize = 8;
const INK: usize = 12;

pub fn check_lot(lot: &Lot, random: &mut Random, tally: &mut Tally) -> Checked {
    let header = expected::made_header(&lot.header);
    check_records(header, &lot.records, &lot.text, random, tally).map(|_| ())
}

/// Compares the length and the writing of records, and what was written as a
/// file; gives back what was written, where anything was.
pub fn check_records(
    header: Header,
    records: &[u32],
    text: &[u8],
    random: &mut Random,
    tally: &mut Tally,
) -> Checked<Option<Vec<u8>>> {
    let given = Given {
        header,
        records,
        text,
    };
    check_calls(given, random, tally).map_err(|difference| {
        difference
            .given("header", format!("{header:?}"))
            .given("records", rows(records, ROW_LEN))
            .given("text", hex(text))
    })
}

/// What a writer is handed besides the output.
#[derive(Clone, Copy)]
struct Given<'a> {
    header: Header,
    records: &'a [u32],
    text: &'a [u8],
}

fn check_calls(given: Given, random: &mut Random, tally: &mut Tally) -> Checked<Option<Vec<u8>>> {
    let Given {
        header,
        records,
        text,
    } = given;
    let length = expected::written(&header, |header| {
        reference::acb::length(header, records, text)
    });
    agree(
        || "length".to_string(),
        &length,
        &proved::acb::length(header, records, text),
    )?;
    tally.lot(length.number);
    for len in output_lengths(&length, random) {
        let (written, _) = check_write(given, len)?;
        tally.writing_call(written.number);
    }
    if length.number != 0 {
        return Ok(None);
    }
    let (_, out) = check_write(given, length.length)?;
    check_read_back(given, &out)?;
    Ok(Some(out))
}

/// Outputs one short, longer, of no room and of any; the exact need is
/// compared with what is read back from it.
fn output_lengths(length: &Written, random: &mut Random) -> [usize; 4] {
    let need = if length.number == 0 {
        length.length
    } else {
        SPARE_ROOM
    };
    [
        need - 1,
        need + 1 + random.below(SPARE_ROOM),
        0,
        random.below(need + SPARE_ROOM),
    ]
}

fn check_write(given: Given, len: usize) -> Checked<(Written, Vec<u8>)> {
    let Given {
        header,
        records,
        text,
    } = given;
    let mut out = Lent::<u8>::of(len);
    let wanted = expected::written(&header, |header| {
        reference::acb::write(header, records, text, out.for_reference())
    });
    let found = proved::acb::write(header, records, text, out.for_library());
    let call = || format!("write into {len} bytes");
    agree(call, &wanted, &found)?;
    out.agree(&call(), wanted.length)?;
    Ok((wanted, out.found(wanted.length).to_vec()))
}

/// What was written is a file with the same header and records: their numbers,
/// and their strings as units wherever these lie.
fn check_read_back(given: Given, out: &[u8]) -> Checked {
    let (rows, _) = given.records.as_chunks::<ROW_LEN>();
    let judged = check_judge(out)?;
    let wanted = Answer {
        count: rows.len(),
        header: placeless(given.header),
        ..Answer::default()
    };
    let found = Answer {
        header: placeless(judged.header),
        ..judged
    };
    agree(|| "judging what was written".to_string(), &wanted, &found)?;
    let strings = strings(given.header)
        .into_iter()
        .zip(strings(judged.header));
    for (index, (wanted, found)) in strings.enumerate() {
        agree_runs(
            || format!("string {index} read back"),
            units(wanted, given.text),
            units(found, out),
        )?;
    }
    let mut table = vec![0; rows.len() * ROW_LEN];
    agree(
        || "reading what was written".to_string(),
        &judged,
        &proved::acb::read(out, &mut table),
    )?;
    let (got, _) = table.as_chunks::<ROW_LEN>();
    for (index, (wanted, found)) in rows.iter().zip(got).enumerate() {
        let numbers = used(wanted, given.header.space);
        agree_runs(
            || format!("record {index} read back"),
            &numbers[1..],
            &found[1..],
        )?;
        agree_runs(
            || format!("name {index} read back"),
            units(name(wanted), given.text),
            units(name(found), out),
        )?;
    }
    Ok(())
}

/// A sound record with 0 for a component to spare, as a reader fills it in.
fn used(row: &[u32; ROW_LEN], space: u16) -> [u32; ROW_LEN] {
    let mut row = *row;
    row[FIRST_COMPONENT + components(space)..INK].fill(0);
    row
}

fn name(row: &[u32; ROW_LEN]) -> Text {
    Text {
        place: row[0] as usize,
        units: row[1],
    }
}

fn strings(header: Header) -> [Text; 4] {
    [
        header.title,
        header.prefix,
        header.suffix,
        header.description,
    ]
}

/// The place of a string is no part of a book.
fn placeless(header: Header) -> Header {
    let text = |text: Text| Text { place: 0, ..text };
    Header {
        title: text(header.title),
        prefix: text(header.prefix),
        suffix: text(header.suffix),
        description: text(header.description),
        ..header
    }
}

/// A sound string in the bytes it lies in; with no units it may give any place.
fn units(text: Text, bytes: &[u8]) -> &[u8] {
    if text.units == 0 {
        return &[];
    }
    &bytes[text.place..][..UNIT_LEN * text.units as usize]
}
