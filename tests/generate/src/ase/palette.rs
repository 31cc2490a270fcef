//! Sound palettes, and the files laid out from them.

use super::kinds::{balanced, nested, Kind};
use super::{COLOUR, GROUP_END, GROUP_START, HEAD_LEN};
use crate::channels::{CMYK_TAG, EACH_CLASS, GRAY_TAG, LAB_TAG, ONE, RGB_TAG};
use crate::palette::{any_unit, put_u16};
use crate::random::Random;

/// The models, each with the number of its channels.
pub const MODELS: [(u32, usize); 4] = [(RGB_TAG, 3), (CMYK_TAG, 4), (LAB_TAG, 3), (GRAY_TAG, 1)];

/// What an RGB colour's block has besides its name's units.
const UNNAMED_LEN: usize = 28;

#[derive(Clone, Copy, Debug, PartialEq, Eq)]
pub struct Colour {
    pub model: u32,
    /// The bits of the channels; those that the model does not have are 0.
    pub channels: [u32; 4],
    pub colour_type: u16,
}

impl Colour {
    pub fn any(random: &mut Random) -> Self {
        let known = random.pick(&MODELS);
        Colour::of_model(random, known)
    }

    pub fn rgb(random: &mut Random) -> Self {
        Colour::of_model(random, MODELS[0])
    }

    fn of_model(random: &mut Random, (model, count): (u32, usize)) -> Self {
        let mut channels = [0; 4];
        for channel in &mut channels[..count] {
            *channel = any_channel(random, model);
        }
        Colour {
            model,
            channels,
            colour_type: random.below(3) as u16,
        }
    }

    /// The channels that the model has.
    pub fn used(&self) -> &[u32] {
        let known = MODELS.iter().find(|known| known.0 == self.model);
        &self.channels[..known.map_or(4, |known| known.1)]
    }
}

#[derive(Clone, Debug, PartialEq, Eq)]
pub enum Block {
    /// A group's start with its name, without the closing zero.
    Start(Vec<u16>),
    End,
    Colour(Vec<u16>, Colour),
}

#[derive(Clone, Debug, PartialEq, Eq)]
pub struct Palette {
    pub blocks: Vec<Block>,
}

impl Palette {
    /// Mostly a few blocks with short names; now and then many, or long ones.
    pub fn any(random: &mut Random) -> Self {
        let blocks = any_count(random);
        let longest = match random.below(40) {
            0 if blocks < 64 => 400,
            1..=5 => 0,
            _ => 9,
        };
        let kinds = balanced(random, blocks);
        Palette::of_kinds(random, &kinds, |random| random.below(longest + 1))
    }

    /// A small palette, for going through all of its lengths or bytes.
    pub fn small(random: &mut Random) -> Self {
        let blocks = random.below(5);
        let kinds = balanced(random, blocks);
        Palette::of_kinds(random, &kinds, |random| random.below(4))
    }

    /// Groups inside each other; from 17 on this is not sound.
    pub fn nested(random: &mut Random, depth: usize) -> Self {
        Palette::of_kinds(random, &nested(depth), |random| random.below(3))
    }

    /// A colour of the given model alone.
    pub fn single(random: &mut Random, known: (u32, usize), units: usize) -> Self {
        let name = any_name(random, units);
        Palette {
            blocks: vec![Block::Colour(name, Colour::of_model(random, known))],
        }
    }

    /// Empty groups alone, each opened and closed: the shortest blocks.
    pub fn empty_groups(groups: usize) -> Self {
        let group = [Block::Start(Vec::new()), Block::End];
        Palette {
            blocks: group.into_iter().cycle().take(2 * groups).collect(),
        }
    }

    /// A palette to be timed: RGB colours with names of the same length.
    pub fn uniform(random: &mut Random, colours: usize, units: usize) -> Self {
        Palette::of_rgb(random, colours, |_| units)
    }

    /// RGB colours whose file is exactly `len` bytes long. An even length with
    /// room for the colours, and not too much for their names, is the caller's
    /// to choose.
    pub fn of_length(random: &mut Random, colours: usize, len: usize) -> Self {
        let units = (len - HEAD_LEN - colours * UNNAMED_LEN) / 2;
        let mut longer = units % colours;
        let palette = Palette::of_rgb(random, colours, |_| {
            let spare = usize::from(longer > 0);
            longer -= spare;
            units / colours + spare
        });
        debug_assert_eq!(palette.file().len(), len);
        palette
    }

    fn of_rgb(
        random: &mut Random,
        colours: usize,
        mut units: impl FnMut(&mut Random) -> usize,
    ) -> Self {
        let mut any_colour = || {
            let units = units(random);
            Block::Colour(any_name(random, units), Colour::rgb(random))
        };
        Palette {
            blocks: (0..colours).map(|_| any_colour()).collect(),
        }
    }

    fn of_kinds(
        random: &mut Random,
        kinds: &[Kind],
        mut units: impl FnMut(&mut Random) -> usize,
    ) -> Self {
        let any_block = |kind: &Kind| {
            let units = units(random);
            match kind {
                Kind::Start => Block::Start(any_name(random, units)),
                Kind::End => Block::End,
                Kind::Colour => Block::Colour(any_name(random, units), Colour::any(random)),
            }
        };
        Palette {
            blocks: kinds.iter().map(any_block).collect(),
        }
    }

    pub fn colours(&self) -> usize {
        let is_colour = |block: &&Block| matches!(block, Block::Colour(..));
        self.blocks.iter().filter(is_colour).count()
    }

    pub fn file(&self) -> Vec<u8> {
        let mut file = b"ASEF\0\x01\0\0".to_vec();
        put_u32(&mut file, self.blocks.len() as u32);
        self.blocks
            .iter()
            .for_each(|block| put_block(&mut file, block));
        file
    }
}

fn any_count(random: &mut Random) -> usize {
    match random.below(4000) {
        0 => random.pick(&[1000, 5000]),
        1..=40 => random.below(300),
        41..=400 => random.below(40),
        _ => random.below(7),
    }
}

fn any_name(random: &mut Random, units: usize) -> Vec<u16> {
    (0..units).map(|_| any_unit(random)).collect()
}

/// A channel in its range, as often at an end of it as not.
pub(super) fn any_channel(random: &mut Random, model: u32) -> u32 {
    let drawn = if random.one_in(2) {
        random.pick(&EACH_CLASS)
    } else if model == LAB_TAG {
        random.u32()
    } else {
        random.below(ONE as usize + 1) as u32
    };
    let sound = if model == LAB_TAG {
        f32::from_bits(drawn).is_finite()
    } else {
        drawn <= ONE || drawn == 0x8000_0000
    };
    if sound {
        drawn
    } else {
        ONE
    }
}

fn put_u32(file: &mut Vec<u8>, value: u32) {
    file.extend(value.to_be_bytes());
}

fn put_block(file: &mut Vec<u8>, block: &Block) {
    match block {
        Block::Start(name) => {
            put_envelope(file, GROUP_START, name_len(name));
            put_name(file, name);
        }
        Block::End => put_envelope(file, GROUP_END, 0),
        Block::Colour(name, colour) => {
            let len = name_len(name) + 6 + 4 * colour.used().len();
            put_envelope(file, COLOUR, len);
            put_name(file, name);
            put_u32(file, colour.model);
            colour.used().iter().for_each(|&bits| put_u32(file, bits));
            put_u16(file, colour.colour_type);
        }
    }
}

fn put_envelope(file: &mut Vec<u8>, block: u16, len: usize) {
    put_u16(file, block);
    put_u32(file, len as u32);
}

fn name_len(name: &[u16]) -> usize {
    2 + 2 * (name.len() + 1)
}

fn put_name(file: &mut Vec<u8>, name: &[u16]) {
    put_u16(file, name.len() as u16 + 1);
    name.iter().for_each(|&unit| put_u16(file, unit));
    put_u16(file, 0);
}
