//! Streams handed back altered: any numbers at all.

use super::feeding::refused;
use super::stores::Stores;
use super::tally::Tally;
use crate::difference::{agree, Checked};
use generate::Random;
use proved::stream::{feed, finish, Stream};
use reference::chunks::STORE_LEN;
use reference::number;

/// The bytes of what is due at each stage; the last two carry none.
const SIZES: [usize; 7] = [4, 10, 4, 14, 2, 1, 1];
const EDGES: [u64; 8] = [
    0,
    1,
    4_095,
    4_096,
    0xFFFF,
    0x0100_0000,
    0xFFFF_FFFF,
    u64::MAX,
];

/// A call on an altered stream gives a number of the table, keeps to the store, and
/// where it is refused changes nothing.
pub fn check_altered(
    stream: Stream,
    chunk: &[u8],
    stores: &mut Stores,
    random: &mut Random,
    tally: &mut Tally,
) -> Checked {
    stores.lend(random.one_in(2));
    let altered = altered(stream, random);
    let checked = check_calls(altered, chunk, stores, tally);
    stores.restore(STORE_LEN);
    checked.map_err(|difference| difference.given("stream", format!("{altered:?}")))
}

fn check_calls(stream: Stream, chunk: &[u8], stores: &mut Stores, tally: &mut Tally) -> Checked {
    if !is_usable(&stream) {
        refused(stream, number::OUT_OF_RANGE, stores.for_library(), chunk)?;
        refused(stream, number::OUT_OF_RANGE, stores.too_short(), chunk)?;
        tally.altered(number::OUT_OF_RANGE);
        return stores.begin_with(&[]);
    }
    refused(stream, number::NO_ROOM, stores.too_short(), chunk)?;
    stores.begin_with(&[])?;
    let fed = feed(stream, stores.for_library(), chunk);
    agree(|| "a chunk to an altered stream".into(), &0, &fed.number)?;
    stores.kept_around()?;
    let finished = finish(fed.stream, stores.for_library());
    stores.kept_around()?;
    let ended = Stream {
        ended: 1,
        ..fed.stream
    };
    agree(
        || "an altered stream's end".into(),
        &ended,
        &finished.stream,
    )?;
    agree(
        || "the number is one of a file".into(),
        &true,
        &(finished.answer.number <= number::BADLY_CLOSED),
    )?;
    tally.altered(finished.answer.number);
    Ok(())
}

fn is_usable(stream: &Stream) -> bool {
    let size = SIZES.get(stream.stage as usize).copied().unwrap_or(0);
    stream.ended == 0 && stream.got < size
}

/// A few numbers of a stream altered, or all of them.
fn altered(stream: Stream, random: &mut Random) -> Stream {
    let mut altered = stream;
    let changes = random.pick(&[1, 1, 2, 4, 40]);
    for _ in 0..changes {
        alter(&mut altered, random);
    }
    altered
}

fn alter(stream: &mut Stream, random: &mut Random) {
    let any = match random.below(3) {
        0 => random.pick(&EDGES),
        1 => random.below(20) as u64,
        _ => random.u64(),
    };
    match random.below(15) {
        0 => stream.total = any as usize,
        1 => stream.got = any as usize,
        2 => stream.place = any as usize,
        3 => stream.stage = any as u32,
        4 => stream.stage = (any % 7) as u32,
        5 => stream.ended = any as u32,
        6 => stream.at = any as u32,
        7 => stream.left = any as u32,
        8 => stream.zero = any as u32,
        9 => stream.count = any as u16,
        10 => stream.index = any as u16,
        11 => (stream.record, stream.field) = (any as u16, (any >> 16) as u16),
        12 => stream.got = (any % 14) as usize,
        13 => stream.number = any as u32,
        _ => stream.carry[random.below(16)] = any as u8,
    }
}
