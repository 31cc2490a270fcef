//! Long descriptors, of exactly the length that is asked for: to be timed, and
//! for the limit. They are put together from the bytes of their pairs.

use super::laid::Laid;
use super::tree::Object;
use super::MAX_DEPTH;
use crate::random::Random;

/// A file, and how many rows it has.
pub struct Long {
    pub file: Vec<u8>,
    pub rows: usize,
}

/// What stands before the root's pair count: the version and a class.
const ROOT: &[u8] = b"\0\0\0\x10\0\0\0\0\0\0\0\x01a";
const ROOT_LEN: usize = ROOT.len() + 4;
/// A pair with a key of one byte, up to its type.
const KEY: &[u8] = b"\0\0\0\x01k";
/// A pair of no raw data.
const RAW_PAIR_LEN: usize = 13;
const BOOL: &[u8] = b"bool\x01";
const LIST_OF_ONE: &[u8] = b"VlLs\0\0\0\x01";

/// One list of booleans, the smallest members there are.
pub fn flat(len: usize) -> Long {
    let room = len - ROOT_LEN - RAW_PAIR_LEN - KEY.len() - LIST_OF_ONE.len();
    let items = room / BOOL.len();
    let count = (items as u32).to_be_bytes();
    let pair = [KEY, b"VlLs", &count, &BOOL.repeat(items)].concat();
    filled(1, pair, 1 + items, len)
}

/// Pairs of every type directly below the root, each with few members or none.
pub fn wide(random: &mut Random, len: usize) -> Long {
    let room = len - ROOT_LEN - RAW_PAIR_LEN;
    let (mut pairs, mut bytes, mut rows) = (0, Vec::new(), 0);
    loop {
        let tag = random.pick(&super::TYPES);
        let laid = Laid::of(&Object::of_type(random, tag));
        let first = laid.rows[1][2] as usize;
        if bytes.len() + laid.file.len() - first > room {
            return filled(pairs, bytes, rows, len);
        }
        bytes.extend(&laid.file[first..]);
        rows += laid.rows.len() - 1;
        pairs += 1;
    }
}

/// Pairs directly below the root, each a list of four booleans.
pub fn lists(len: usize) -> Long {
    let pair = [KEY, b"VlLs\0\0\0\x04", &BOOL.repeat(4)].concat();
    let pairs = (len - ROOT_LEN - RAW_PAIR_LEN) / pair.len();
    filled(pairs, pair.repeat(pairs), pairs * 5, len)
}

/// Pairs directly below the root, each with a key of its own, eight bytes, and a
/// list of twenty booleans.
pub fn keyed(len: usize) -> Long {
    const ITEMS: usize = 20;
    let list = [&b"VlLs\0\0\0\x14"[..], &BOOL.repeat(ITEMS)].concat();
    let pair_len = 4 + 8 + list.len();
    let pairs = (len - ROOT_LEN - RAW_PAIR_LEN) / pair_len;
    let mut bytes = Vec::with_capacity(len);
    for pair in 0..pairs {
        bytes.extend(8u32.to_be_bytes());
        bytes.extend((pair as u64).to_be_bytes());
        bytes.extend(&list);
    }
    filled(pairs, bytes, pairs * (1 + ITEMS), len)
}

/// Lists in lists down to the greatest depth, many times over.
pub fn deep(len: usize) -> Long {
    let lists = MAX_DEPTH - 1;
    let pair = [KEY, &LIST_OF_ONE.repeat(lists), BOOL].concat();
    let pairs = (len - ROOT_LEN - RAW_PAIR_LEN) / pair.len();
    filled(pairs, pair.repeat(pairs), pairs * (lists + 1), len)
}

/// The root, its pairs, and one of raw data that makes up the length.
fn filled(pairs: usize, bytes: Vec<u8>, rows: usize, len: usize) -> Long {
    let raw = len - ROOT_LEN - bytes.len() - RAW_PAIR_LEN;
    let file = [
        ROOT,
        &(pairs as u32 + 1).to_be_bytes(),
        &bytes,
        KEY,
        b"tdta",
        &(raw as u32).to_be_bytes(),
        &vec![0; raw],
    ]
    .concat();
    debug_assert_eq!(file.len(), len);
    Long {
        file,
        rows: rows + 2,
    }
}
