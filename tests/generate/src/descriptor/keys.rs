//! Keys to be looked for, as IDs: a length field and the bytes.

use super::laid::Laid;
use crate::random::Random;

/// The type behind a key.
const TYPE_LEN: usize = 4;
const LENGTH_LEN: usize = 4;

/// The keys of the root's pairs, in file order, each with its row.
pub fn root_keys(laid: &Laid) -> Vec<(usize, &[u8])> {
    let rows = laid.rows.iter().zip(&laid.values).enumerate();
    rows.filter(|(_, (row, _))| row[4] == 1)
        .map(|(number, (row, &value))| (number, &laid.file[row[2] as usize..value - TYPE_LEN]))
        .collect()
}

/// A few keys one after the other: those of a file, nearly those, and others;
/// some more than once.
pub fn any_keys(random: &mut Random, known: &[(usize, &[u8])]) -> Vec<Vec<u8>> {
    let count = match random.below(12) {
        0 => 0,
        1 => random.below(40),
        _ => 1 + random.below(5),
    };
    let mut keys: Vec<Vec<u8>> = Vec::new();
    for _ in 0..count {
        let key = match random.below(8) {
            0 if !keys.is_empty() => keys[random.below(keys.len())].clone(),
            1..=4 if !known.is_empty() => random.pick(known).1.to_vec(),
            5 | 6 if !known.is_empty() => nearly(random.pick(known).1, random),
            _ => any_key(random),
        };
        keys.push(key);
    }
    keys
}

/// A key that is whole, mostly of no file.
fn any_key(random: &mut Random) -> Vec<u8> {
    let len = random.below(7);
    let body = if len == 0 { 4 } else { len };
    [&(len as u32).to_be_bytes()[..], &random.bytes(body)].concat()
}

/// Another whole key: four characters as a name or the other way, a byte changed,
/// one more or one less.
fn nearly(key: &[u8], random: &mut Random) -> Vec<u8> {
    let (length, body) = key.split_at(LENGTH_LEN);
    let mut body = body.to_vec();
    let mut length = u32::from_be_bytes(*length.first_chunk().expect("a length field"));
    match random.below(4) {
        0 if body.len() == 4 => length = if length == 0 { 4 } else { 0 },
        1 if body.len() > 1 => {
            body.pop();
            length = body.len() as u32;
        }
        2 => {
            body.push(random.byte());
            length = body.len() as u32;
        }
        _ => {
            let at = random.below(body.len());
            body[at] ^= 1 << random.below(8);
        }
    }
    [&length.to_be_bytes()[..], &body].concat()
}
