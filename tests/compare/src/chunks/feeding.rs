//! Comparing one file, cut in one way.

use super::stores::Stores;
use super::tally::Tally;
use crate::difference::{agree, hex, Checked};
use crate::expected;
use generate::{chunks, Random};
use proved::stream::{feed, finish, start, Stream};
use proved::Answer;
use reference::chunks as by_reference;
use reference::{number, COLOUR_LEN, HEAD_LEN, LIMIT};

/// Feeds a file, cut at these places, to the library and to the reference, and
/// holds the end to the whole-file reader of each.
pub fn check_cut(
    file: &[u8],
    places: &[usize],
    stores: &mut Stores,
    random: &mut Random,
    tally: &mut Tally,
) -> Checked {
    stores.lend(random.one_in(2));
    let colours = kept(file);
    let checked = check_calls(file, places, colours, stores, random, tally);
    stores.restore(colours.len());
    checked.map_err(|difference| {
        let difference = difference.given("file", hex(file));
        difference.given("cut at", format!("{places:?}"))
    })
}

fn check_calls(
    file: &[u8],
    places: &[usize],
    colours: &[u8],
    stores: &mut Stores,
    random: &mut Random,
    tally: &mut Tally,
) -> Checked {
    let mut stream = started(stores)?;
    let mut reference = by_reference::start(stores.for_reference()).stream;
    let mut came = 0;
    for chunk in chunks(file, places) {
        if random.one_in(32) {
            refused(stream, number::NO_ROOM, stores.too_short(), chunk)?;
            tally.refused(number::NO_ROOM);
        }
        let fed = feed(stream, stores.for_library(), chunk);
        let wanted = by_reference::feed(reference, stores.for_reference(), chunk);
        agree(|| format!("a chunk at {came}"), &wanted.number, &fed.number)?;
        agree(|| format!("a chunk at {came}"), &0, &fed.number)?;
        came = (came + chunk.len()).min(LIMIT + 1);
        agree(|| "the bytes that came".into(), &came, &fed.stream.total)?;
        (stream, reference) = (fed.stream, wanted.stream);
    }
    let found = finish(stream, stores.for_library());
    let wanted = by_reference::finish(reference, stores.for_reference());
    agree_answers(file, &found.answer, expected::answer(wanted.answer))?;
    stores.begin_with(colours)?;
    tally.file(found.answer.number, places.len() + 1);
    let ended = Stream { ended: 1, ..stream };
    agree(|| "the stream at the end".into(), &ended, &found.stream)?;
    refused(ended, number::OUT_OF_RANGE, stores.for_library(), file)?;
    refused(ended, number::OUT_OF_RANGE, stores.too_short(), &[])?;
    tally.refused(number::OUT_OF_RANGE);
    stores.begin_with(colours)
}

fn started(stores: &mut Stores) -> Checked<Stream> {
    let short = start(stores.too_short());
    agree(|| "a short start".into(), &number::NO_ROOM, &short.number)?;
    refused(
        short.stream,
        number::OUT_OF_RANGE,
        stores.for_library(),
        &[1],
    )?;
    let begun = start(stores.for_library());
    agree(|| "the start".into(), &0, &begun.number)?;
    Ok(begun.stream)
}

/// A chunk and the end are refused by this number, and the stream stays.
pub fn refused(stream: Stream, number: u32, store: &mut [u8], chunk: &[u8]) -> Checked {
    let fed = feed(stream, store, chunk);
    agree(|| "a refused chunk".into(), &number, &fed.number)?;
    agree(
        || "the stream of a refused chunk".into(),
        &stream,
        &fed.stream,
    )?;
    let found = finish(stream, store);
    let wanted = Answer {
        number,
        ..Answer::default()
    };
    agree(|| "a refused end".into(), &wanted, &found.answer)?;
    agree(
        || "the stream of a refused end".into(),
        &stream,
        &found.stream,
    )
}

/// The end's answer, by the reference's, and by both whole-file readers.
fn agree_answers(file: &[u8], found: &Answer, by_chunks: Answer) -> Checked {
    agree(|| "the end".into(), &by_chunks, found)?;
    let whole = expected::answer(reference::judge(file));
    agree(|| "the end, by the whole file".into(), &whole, found)?;
    agree(|| "judge".into(), &proved::judge(file), found)
}

/// The colours of list 1 that stand whole before the first fault, 1 aside: by the
/// place where the whole-file reader finds that fault.
fn kept(file: &[u8]) -> &[u8] {
    let within = &file[..file.len().min(LIMIT)];
    let judged = reference::judge(within).map_err(|refusal| refusal.place);
    if matches!(judged, Err(place) if place < HEAD_LEN) {
        return &[];
    }
    let count = usize::from(u16::from_be_bytes([file[2], file[3]]));
    let before = judged.map_or_else(|place| (place - HEAD_LEN) / COLOUR_LEN, |_| count);
    &file[HEAD_LEN..HEAD_LEN + COLOUR_LEN * before.min(count)]
}
