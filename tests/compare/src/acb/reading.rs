//! Comparing what becomes of one file.

use super::expected;
use super::tally::Tally;
use super::writing::check_records;
use crate::difference::{agree, agree_runs, hex, Checked};
use crate::lent::Lent;
use generate::Random;
use proved::acb::{Answer, Header, Page, Text};
use reference::acb::ROW_LEN;
use reference::{number, UNIT_LEN};

/// Rows lent with a file that is refused.
const SPARE_ROWS: usize = 6;
/// Bytes lent for a full name of a file that is refused, or of no record.
const SPARE_ROOM: usize = 40;
/// In a file of more colours only some are asked for, since each call judges the
/// whole file.
const FEW_COLOURS: usize = 12;
/// Every page is asked for where judging the file for each goes over no more
/// bytes.
const PAGED_BYTES: usize = 1 << 18;

/// Compares every call on a file, and writing it back where it is accepted.
pub fn check_file(file: &[u8], random: &mut Random, tally: &mut Tally) -> Checked {
    check_calls(file, random, tally).map_err(|difference| difference.given("file", hex(file)))
}

fn check_calls(file: &[u8], random: &mut Random, tally: &mut Tally) -> Checked {
    let judged = check_judge(file)?;
    tally.file(&judged);
    for len in table_lengths(&judged, random) {
        let read = check_read(file, len)?;
        tally.reading_call(read.number);
    }
    for index in numbers(judged.count, random) {
        check_record(file, &judged, index, tally)?;
        check_full_name(file, &judged, index, random, tally)?;
    }
    let mut records = vec![0; judged.count * ROW_LEN];
    proved::acb::read(file, &mut records);
    let pages = pages(&judged);
    let mut asked = numbers(pages, random);
    if pages > FEW_COLOURS && pages * file.len() <= PAGED_BYTES {
        asked.extend(0..pages);
    }
    for page in asked {
        check_page(file, &judged, &records, page, tally)?;
    }
    if judged.number == 0 {
        check_header_strings(file, &judged, tally)?;
        check_write_back(file, &judged, &records, random, tally)?;
    }
    Ok(())
}

/// Judges a file and reads it into a table of the exact need alone: for small
/// files that are very many.
pub fn check_briefly(file: &[u8], tally: &mut Tally) -> Checked {
    let read = |judged: Answer| check_read(file, judged.count * ROW_LEN);
    let judged = check_judge(file)
        .and_then(read)
        .map_err(|difference| difference.given("file", hex(file)))?;
    tally.file(&judged);
    Ok(())
}

/// Holds the library's judgement to the reference's, which is given back.
pub fn check_judge(file: &[u8]) -> Checked<Answer> {
    let wanted = expected::answer(reference::acb::judge(file));
    agree(|| "judge".to_string(), &wanted, &proved::acb::judge(file))?;
    Ok(wanted)
}

/// Tables of the exact need, one less, a row less and some, more, none and any.
/// A refused file has no need, but there has to be room for the rows that must
/// not be filled.
fn table_lengths(judged: &Answer, random: &mut Random) -> [usize; 6] {
    let rows = if judged.number == 0 {
        judged.count
    } else {
        SPARE_ROWS
    };
    let need = rows * ROW_LEN;
    [
        need,
        need.saturating_sub(1),
        need.saturating_sub(1 + random.below(2 * ROW_LEN)),
        need + 1 + random.below(2 * ROW_LEN),
        0,
        random.below(need + 2 * ROW_LEN),
    ]
}

fn check_read(file: &[u8], len: usize) -> Checked<Answer> {
    let mut table = Lent::<u32>::of(len);
    let wanted = expected::answer(reference::acb::read(file, table.for_reference()));
    let found = proved::acb::read(file, table.for_library());
    let call = || format!("read into a table of {len} numbers");
    agree(call, &wanted, &found)?;
    table.agree(&call(), wanted.count * ROW_LEN)?;
    Ok(wanted)
}

/// Every number that is there, or some where they are many, and numbers past the
/// last: the next, any, the largest, and some that pass it when multiplied.
fn numbers(count: usize, random: &mut Random) -> Vec<usize> {
    let mut numbers: Vec<usize> = if count <= FEW_COLOURS {
        (0..count).collect()
    } else {
        vec![0, random.below(count), random.below(count), count - 1]
    };
    numbers.extend([
        count,
        count + random.below(usize::MAX - count),
        1 << (64 - 16 + random.below(16)),
        usize::MAX,
    ]);
    numbers
}

/// How many pages there are; none of a refused file.
fn pages(judged: &Answer) -> usize {
    let size = usize::from(judged.header.page_size).max(1);
    judged.count.div_ceil(size)
}

fn check_record(file: &[u8], judged: &Answer, index: usize, tally: &mut Tally) -> Checked {
    let found = proved::acb::record(file, index);
    let wanted = expected::record(reference::acb::record(file, index));
    agree(|| format!("record {index}"), &wanted, &found)?;
    tally.reading_call(found.number);
    let found = proved::acb::shown(file, index);
    let wanted = expected::shown(reference::acb::shown(file, index));
    agree(|| format!("what record {index} shows"), &wanted, &found)?;
    if judged.number == 0 {
        tally.showing_call(found.number);
    }
    Ok(())
}

/// The length of a full name, and the name put into outputs of the exact need,
/// one less, more and any.
fn check_full_name(
    file: &[u8],
    judged: &Answer,
    index: usize,
    random: &mut Random,
    tally: &mut Tally,
) -> Checked {
    let wanted = expected::full(reference::acb::full_length(file, index));
    let found = proved::acb::full_length(file, index);
    agree(|| format!("length of full name {index}"), &wanted, &found)?;
    let need = if wanted.number == 0 {
        wanted.length
    } else {
        SPARE_ROOM
    };
    let any = random.below(need + SPARE_ROOM);
    for len in [need, need.saturating_sub(1), need + 1, any] {
        let mut out = Lent::<u8>::of(len);
        let wanted = expected::full(reference::acb::full_name(file, index, out.for_reference()));
        let found = proved::acb::full_name(file, index, out.for_library());
        let call = || format!("full name {index} into {len} bytes");
        agree(call, &wanted, &found)?;
        out.agree(&call(), wanted.length)?;
        if judged.number == 0 {
            tally.naming_call(found.number);
        }
    }
    Ok(())
}

/// A page by the file, and where that is accepted by its records too.
fn check_page(
    file: &[u8],
    judged: &Answer,
    records: &[u32],
    page: usize,
    tally: &mut Tally,
) -> Checked {
    let found = proved::acb::page(file, page);
    let wanted = expected::page(reference::acb::page(file, page));
    agree(|| format!("page {page}"), &wanted, &found)?;
    if judged.number == 0 {
        tally.paging_call(found.number);
        let found = page_in(records, judged.count, judged, page);
        agree(|| format!("page {page} by the records"), &wanted, &found)?;
    }
    Ok(())
}

fn page_in(records: &[u32], count: usize, judged: &Answer, page: usize) -> Page {
    let Header {
        page_size,
        page_offset,
        ..
    } = judged.header;
    proved::acb::page_in(records, count, page_size, page_offset, page)
}

/// Pages by the first records alone of an accepted file, which are those of
/// another file: by a count below theirs, and by a table that ends before the
/// next record does. A page of the size 0 shows none.
pub fn check_pages_cut(file: &[u8], first: &[u8]) -> Checked {
    let judged = check_judge(file)?;
    let mut records = vec![0; judged.count * ROW_LEN];
    proved::acb::read(file, &mut records);
    let count = check_judge(first)?.count;
    let none = Page {
        number: number::NO_PAGE,
        ..Page::default()
    };
    for page in 0..=judged.count {
        let offset = judged.header.page_offset;
        let found = proved::acb::page_in(&records, judged.count, 0, offset, page);
        agree(|| format!("page {page} of no records"), &none, &found)?;
        let wanted = expected::page(reference::acb::page(first, page));
        let found = page_in(&records, count, &judged, page);
        agree(
            || format!("page {page} of {count} records"),
            &wanted,
            &found,
        )?;
        for len in count * ROW_LEN..((count + 1) * ROW_LEN).min(records.len() + 1) {
            for told in [judged.count, usize::MAX] {
                let found = page_in(&records[..len], told, &judged, page);
                agree(|| format!("page {page} by {len} numbers"), &wanted, &found)?;
            }
        }
    }
    Ok(())
}

fn check_header_strings(file: &[u8], judged: &Answer, tally: &mut Tally) -> Checked {
    let header = judged.header;
    let texts = [
        header.title,
        header.prefix,
        header.suffix,
        header.description,
    ];
    texts.into_iter().try_for_each(|Text { place, units }| {
        check_string(&file[place..][..UNIT_LEN * units as usize], tally)
    })
}

/// Compares where the shown text of a string begins.
pub fn check_string(string: &[u8], tally: &mut Tally) -> Checked {
    tally.string();
    agree(
        || "where the shown text begins".to_string(),
        &reference::acb::shown_start(string),
        &proved::acb::shown_start(string),
    )
    .map_err(|difference| difference.given("string", hex(string)))
}

/// Writes an accepted file's records with the file as the text of its strings
/// and names; it comes back byte for byte.
fn check_write_back(
    file: &[u8],
    judged: &Answer,
    records: &[u32],
    random: &mut Random,
    tally: &mut Tally,
) -> Checked {
    let written = check_records(judged.header, records, file, random, tally)?;
    agree(
        || "writing an accepted file back".to_string(),
        &true,
        &written.is_some(),
    )?;
    agree_runs(
        || "the file written back".to_string(),
        file,
        &written.unwrap_or_default(),
    )
}
