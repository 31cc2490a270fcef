//! Sound sections, and the bytes laid out from them.

use super::{BARE_BLOCK_LEN, MAX_NAME, SIGNATURE};
use crate::random::Random;

/// IDs that are used often, and the ends of what their field holds.
pub(super) const IDS: [u16; 10] = [0, 1, 1005, 1032, 1036, 1057, 2000, 2999, 0x3842, 0xFFFF];

#[derive(Clone, Debug, PartialEq, Eq)]
pub struct Block {
    pub id: u16,
    pub name: Vec<u8>,
    pub data: Vec<u8>,
}

impl Block {
    pub fn any(random: &mut Random, name: usize, data: usize) -> Self {
        Block {
            id: any_id(random),
            name: any_run(random, name),
            data: any_run(random, data),
        }
    }

    fn put(&self, bytes: &mut Vec<u8>) {
        bytes.extend(SIGNATURE);
        bytes.extend(self.id.to_be_bytes());
        bytes.push(self.name.len() as u8);
        bytes.extend(&self.name);
        if self.name.len().is_multiple_of(2) {
            bytes.push(0);
        }
        bytes.extend((self.data.len() as u32).to_be_bytes());
        bytes.extend(&self.data);
        if self.data.len() % 2 == 1 {
            bytes.push(0);
        }
    }
}

#[derive(Clone, Debug, PartialEq, Eq)]
pub struct Section {
    pub blocks: Vec<Block>,
}

impl Section {
    /// Mostly a few blocks with short names and little data; now and then many,
    /// or long ones.
    pub fn any(random: &mut Random) -> Self {
        let blocks = any_count(random);
        let long = blocks < 64 && random.one_in(20);
        Section::of(random, blocks, |random| {
            (any_name_len(random), any_data_len(random, long))
        })
    }

    /// A small section, for going through all of its lengths or bytes.
    pub fn small(random: &mut Random) -> Self {
        let blocks = random.below(4);
        Section::of(random, blocks, |random| (random.below(5), random.below(6)))
    }

    /// Blocks without name and data: the shortest.
    pub fn bare(blocks: usize) -> Self {
        let block = Block {
            id: 0,
            name: Vec::new(),
            data: Vec::new(),
        };
        Section {
            blocks: vec![block; blocks],
        }
    }

    /// A section to be timed: names, and data, of the same length.
    pub fn uniform(random: &mut Random, blocks: usize, name: usize, data: usize) -> Self {
        Section::of(random, blocks, |_| (name, data))
    }

    /// Blocks without names that are exactly `len` bytes together. An even length
    /// with room for the blocks is the caller's to choose.
    pub fn of_length(random: &mut Random, blocks: usize, len: usize) -> Self {
        let pairs = (len - blocks * BARE_BLOCK_LEN) / 2;
        let mut longer = pairs % blocks;
        let section = Section::of(random, blocks, |random| {
            let spare = usize::from(longer > 0);
            longer -= spare;
            let padded = 2 * (pairs / blocks + spare);
            // Data of an odd length has a pad in its last byte's place.
            (0, padded.saturating_sub(random.below(2)))
        });
        debug_assert_eq!(section.bytes().len(), len);
        section
    }

    fn of(
        random: &mut Random,
        blocks: usize,
        mut lengths: impl FnMut(&mut Random) -> (usize, usize),
    ) -> Self {
        let mut any_block = || {
            let (name, data) = lengths(random);
            Block::any(random, name, data)
        };
        Section {
            blocks: (0..blocks).map(|_| any_block()).collect(),
        }
    }

    pub fn bytes(&self) -> Vec<u8> {
        let mut bytes = Vec::new();
        self.blocks.iter().for_each(|block| block.put(&mut bytes));
        bytes
    }
}

fn any_count(random: &mut Random) -> usize {
    match random.below(4000) {
        0 => random.pick(&[1000, 5000]),
        1..=40 => random.below(300),
        41..=400 => random.below(40),
        _ => random.below(7),
    }
}

pub(super) fn any_name_len(random: &mut Random) -> usize {
    match random.below(40) {
        0 => random.pick(&[MAX_NAME - 2, MAX_NAME - 1, MAX_NAME]),
        1 => random.below(MAX_NAME + 1),
        2..=15 => 0,
        _ => random.below(9),
    }
}

fn any_data_len(random: &mut Random, long: bool) -> usize {
    match random.below(8) {
        0 if long => random.below(3000),
        1 | 2 => 0,
        _ => random.below(20),
    }
}

/// An ID that other blocks have as well, or any.
fn any_id(random: &mut Random) -> u16 {
    if random.one_in(3) {
        random.u16()
    } else {
        random.pick(&IDS)
    }
}

/// Bytes that are anything, or nothing but zeros, or begin like a block.
fn any_run(random: &mut Random, len: usize) -> Vec<u8> {
    match random.below(8) {
        0 => vec![0; len],
        1 => {
            let mut run = random.bytes(len);
            let signature = len.min(SIGNATURE.len());
            run[..signature].copy_from_slice(&SIGNATURE[..signature]);
            run
        }
        _ => random.bytes(len),
    }
}
