//! Comparing what becomes of one lot or file.

use super::tally::Tally;
use crate::difference::{agree, agree_runs, hex, rows, Checked};
use crate::expected;
use crate::lent::{Lent, Shown};
use generate::Random;
use proved::descriptor::{self as library, Answer};
use proved::Written;
use reference::descriptor::{self, ENTRY_LEN};
use reference::Refusal;

/// Room lent to a writer that refuses whatever the room, and entries with a file
/// that is refused.
const SPARE_ROOM: usize = 80;
const SPARE_ENTRIES: usize = 3;

/// Compares the length and the building of entries, and what was built as a
/// file; gives back what was built, where anything was.
pub fn check_lot(
    entries: &[u32],
    text: &[u8],
    random: &mut Random,
    tally: &mut Tally,
) -> Checked<Option<Vec<u8>>> {
    check_building(entries, text, random, tally).map_err(|difference| {
        difference
            .given("entries", rows(entries, ENTRY_LEN))
            .given("text", hex(text))
    })
}

fn check_building(
    entries: &[u32],
    text: &[u8],
    random: &mut Random,
    tally: &mut Tally,
) -> Checked<Option<Vec<u8>>> {
    let (entries, text) = (Shown::of(entries), Shown::of(text));
    let length = expected::written(descriptor::build_length(entries.lent(), text.lent()));
    let found = library::build_length(entries.lent(), text.lent());
    agree(|| "build_length".to_string(), &length, &found)?;
    tally.lot(length.number);
    for room in rooms(&length, random) {
        let (built, _) = check_build(&entries, &text, room)?;
        tally.room(built.number);
    }
    if length.number != 0 {
        return Ok(None);
    }
    let (_, out) = check_build(&entries, &text, length.length)?;
    check_read_back(entries.lent().len() / ENTRY_LEN, &out)?;
    Ok(Some(out))
}

/// Outputs one short, longer, of no room and of any; the exact need is lent
/// where what was built is read back.
fn rooms(length: &Written, random: &mut Random) -> [usize; 4] {
    let need = if length.number == 0 {
        length.length
    } else {
        SPARE_ROOM
    };
    [
        need - 1,
        need + 1 + random.below(SPARE_ROOM),
        0,
        random.below(need + SPARE_ROOM),
    ]
}

fn check_build(entries: &Shown<u32>, text: &Shown<u8>, room: usize) -> Checked<(Written, Vec<u8>)> {
    let mut out = Lent::<u8>::of(room);
    let wanted = descriptor::build(entries.lent(), text.lent(), out.for_reference());
    let wanted = expected::written(wanted);
    let found = library::build(entries.lent(), text.lent(), out.for_library());
    let call = format!("build into {room} bytes");
    agree(|| call.clone(), &wanted, &found)?;
    out.agree(&call, wanted.length)?;
    entries.agree(&call)?;
    text.agree(&call)?;
    Ok((wanted, out.found(wanted.length).to_vec()))
}

/// What was built is a file with a row for each entry.
fn check_read_back(rows: usize, out: &[u8]) -> Checked {
    let wanted = Answer {
        rows,
        ..Answer::default()
    };
    let found = library::judge(out);
    agree(|| "judging what was built".to_string(), &wanted, &found)
}

/// Compares the entries of a file, and gives back those of an accepted one.
pub fn check_file(
    file: &[u8],
    random: &mut Random,
    tally: &mut Tally,
) -> Checked<Option<Vec<u32>>> {
    check_entries(file, random, tally).map_err(|difference| difference.given("file", hex(file)))
}

fn check_entries(file: &[u8], random: &mut Random, tally: &mut Tally) -> Checked<Option<Vec<u32>>> {
    let judged = descriptor::judge(file);
    let need = ENTRY_LEN * judged.unwrap_or(SPARE_ENTRIES);
    for room in [
        need - 1,
        need + 1 + random.below(2 * ENTRY_LEN),
        random.below(need),
        0,
    ] {
        check_entries_in(file, room, tally)?;
    }
    let entries = check_entries_in(file, need, tally)?;
    Ok(judged.is_ok().then_some(entries))
}

fn check_entries_in(file: &[u8], room: usize, tally: &mut Tally) -> Checked<Vec<u32>> {
    let mut run = Lent::<u32>::of(room);
    let wanted = answer(descriptor::entries(file, run.for_reference()));
    let found = library::entries(file, run.for_library());
    let call = format!("the entries in a run of {room} numbers");
    agree(|| call.clone(), &wanted, &found)?;
    run.agree(&call, wanted.rows * ENTRY_LEN)?;
    tally.file(found.number);
    Ok(run.found(wanted.rows * ENTRY_LEN).to_vec())
}

fn answer(result: Result<usize, Refusal>) -> Answer {
    match result {
        Ok(rows) => Answer {
            rows,
            ..Answer::default()
        },
        Err(Refusal { number, place, .. }) => Answer {
            number,
            place,
            ..Answer::default()
        },
    }
}

/// What was built from the entries of a file, or from those laid out for it, is
/// that file.
pub fn check_same(file: &[u8], built: Option<Vec<u8>>) -> Checked {
    let built = built.unwrap_or_default();
    agree_runs(|| "a file built from its entries".to_string(), file, &built)
        .map_err(|difference| difference.given("file", hex(file)))
}
