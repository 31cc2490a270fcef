//! Pairs of palettes: the same twice, one converted to the other format, and either
//! with some change, or two that have nothing to do with each other.

use crate::ase::{self, Block};
use crate::channels::{CMYK_TAG, GRAY_TAG, ONE, RGB_TAG};
use crate::palette::{any_unit, Colour, Palette};
use crate::random::Random;

const MINUS_ZERO: u32 = 0x8000_0000;
const MAX_SWATCHES: usize = 4096;

/// A palette of either format.
#[derive(Clone, Debug, PartialEq, Eq)]
pub enum Season {
    Aco(Palette),
    Ase(ase::Palette),
}

/// One way to change a palette.
#[derive(Clone, Copy, Debug, PartialEq, Eq)]
pub enum Change {
    NameUnit,
    NameLonger,
    NameShorter,
    NameEmpty,
    /// A name moved to another colour.
    NamesSwapped,
    /// Of ACO: list 2 left out.
    NamesAbsent,
    /// One sample, or one channel by its last bit.
    Sample,
    /// Of ASE: zero and minus zero for each other.
    Sign,
    /// Another space or model with the same numbers.
    Model,
    ColourAny,
    Removed,
    Repeated,
    Inserted,
    /// The first put last.
    Turned,
    /// Of ASE, and no difference: groups around and between the colours.
    Grouped,
    /// Of ASE, and no difference.
    Ink,
}

impl Change {
    pub const ALL: [Change; 16] = [
        Change::NameUnit,
        Change::NameLonger,
        Change::NameShorter,
        Change::NameEmpty,
        Change::NamesSwapped,
        Change::NamesAbsent,
        Change::Sample,
        Change::Sign,
        Change::Model,
        Change::ColourAny,
        Change::Removed,
        Change::Repeated,
        Change::Inserted,
        Change::Turned,
        Change::Grouped,
        Change::Ink,
    ];
}

impl Season {
    pub fn any(random: &mut Random) -> Self {
        if random.one_in(2) {
            Season::Aco(Palette::any(random))
        } else {
            Season::Ase(ase::Palette::any(random))
        }
    }

    pub fn small(random: &mut Random) -> Self {
        if random.one_in(2) {
            Season::Aco(Palette::small(random))
        } else {
            Season::Ase(ase::Palette::small(random))
        }
    }

    /// A palette and another, that is one of these: the same, what the first becomes
    /// in the other format, or any other.
    pub fn pair(random: &mut Random) -> [Season; 2] {
        let first = Season::any(random);
        let second = match random.below(8) {
            0 => Season::any(random),
            1..=3 => first.clone(),
            _ => first.converted(random),
        };
        [first, second]
    }

    /// The kind that a caller says: 0 for ACO, 1 for ASE.
    pub fn kind(&self) -> u32 {
        match self {
            Season::Aco(_) => 0,
            Season::Ase(_) => 1,
        }
    }

    pub fn file(&self) -> Vec<u8> {
        match self {
            Season::Aco(palette) => palette.file(),
            Season::Ase(palette) => palette.file(),
        }
    }

    /// The palette in the other format: each colour as its counterpart, or as any where
    /// it has none; names are kept, and groups of the other format added.
    pub fn converted(&self, random: &mut Random) -> Season {
        match self {
            Season::Aco(palette) => {
                let colours = palette.colours.iter().enumerate();
                let blocks = colours.map(|(index, colour)| {
                    let names = palette.names.as_ref();
                    let name = names.map_or_else(Vec::new, |names| names[index].clone());
                    let any = ase::Colour::any(random);
                    Block::Colour(name, counterpart(colour).unwrap_or(any))
                });
                let blocks = blocks.collect();
                let mut converted = Season::Ase(ase::Palette { blocks });
                converted.change(Change::Grouped, random);
                converted
            }
            // Few channels are those of a sample: the way back is not always the same.
            Season::Ase(palette) => {
                let mut colours = Vec::new();
                let mut names = Vec::new();
                for block in &palette.blocks {
                    if let Block::Colour(name, colour) = block {
                        let any = Colour::any(random);
                        colours.push(nearest(colour).unwrap_or(any));
                        names.push(name.clone());
                    }
                }
                colours.truncate(MAX_SWATCHES);
                names.truncate(MAX_SWATCHES);
                let named = random.below(4) > 0;
                Season::Aco(Palette {
                    colours,
                    names: named.then_some(names),
                })
            }
        }
    }

    /// Does one change; one that the palette gives no hold for changes nothing.
    pub fn change(&mut self, change: Change, random: &mut Random) {
        match self {
            Season::Aco(palette) => change_aco(palette, change, random),
            Season::Ase(palette) => change_ase(palette, change, random),
        }
    }
}

/// What a swatch becomes in ASE, with any ink; none of HSB and Lab.
fn counterpart(colour: &Colour) -> Option<ase::Colour> {
    let [a, b, c, d] = colour.samples;
    let of = |sample: u16, full: f32| (f32::from(sample) / full).to_bits();
    let rgb = |sample| of(sample, 65_535.0);
    let ink = |sample: u16| of(65_535 - sample, 65_535.0);
    let (model, channels) = match colour.space {
        0 => (RGB_TAG, [rgb(a), rgb(b), rgb(c), 0]),
        2 => (CMYK_TAG, [ink(a), ink(b), ink(c), ink(d)]),
        8 => (GRAY_TAG, [of(a, 10_000.0), 0, 0, 0]),
        _ => return None,
    };
    Some(ase::Colour {
        model,
        channels,
        colour_type: a % 3,
    })
}

/// The swatch that is about what an ASE colour is; none of LAB.
fn nearest(colour: &ase::Colour) -> Option<Colour> {
    let [a, b, c, d] = colour.channels.map(f32::from_bits);
    let of = |channel: f32, full: f32| (channel * full).round() as u16;
    let rgb = |channel| of(channel, 65_535.0);
    let ink = |channel| 65_535 - of(channel, 65_535.0);
    let (space, samples) = match colour.model {
        RGB_TAG => (0, [rgb(a), rgb(b), rgb(c), 0]),
        CMYK_TAG => (2, [ink(a), ink(b), ink(c), ink(d)]),
        GRAY_TAG => (8, [of(a, 10_000.0), 0, 0, 0]),
        _ => return None,
    };
    Some(Colour { space, samples })
}

fn change_aco(palette: &mut Palette, change: Change, random: &mut Random) {
    let count = palette.colours.len();
    if let Change::Inserted = change {
        if count < MAX_SWATCHES {
            let seam = random.below(count + 1);
            palette.colours.insert(seam, Colour::any(random));
            if let Some(names) = &mut palette.names {
                names.insert(seam, vec![any_unit(random)]);
            }
        }
        return;
    }
    if count == 0 {
        return;
    }
    let index = random.below(count);
    let colour = &mut palette.colours[index];
    match change {
        Change::NamesAbsent => palette.names = None,
        Change::Sample => change_sample(colour, random),
        Change::Model => {
            // Those whose samples have the same range; CMYK's fourth may be in the way.
            colour.space = match colour.space {
                0 => 1,
                1 => 0,
                2 if colour.samples[3] == 0 => 0,
                space => space,
            }
        }
        Change::ColourAny => *colour = Colour::any(random),
        Change::Removed => {
            palette.colours.remove(index);
            palette.names.as_mut().map(|names| names.remove(index));
        }
        Change::Repeated if count < MAX_SWATCHES => {
            palette.colours.push(palette.colours[index]);
            if let Some(names) = &mut palette.names {
                names.push(names[index].clone());
            }
        }
        Change::Turned => {
            palette.colours.rotate_left(1);
            palette
                .names
                .iter_mut()
                .for_each(|names| names.rotate_left(1));
        }
        Change::NamesSwapped => {
            if let Some(names) = &mut palette.names {
                names.swap(index, count - 1 - index);
            }
        }
        _ => {
            if let Some(names) = &mut palette.names {
                change_name(&mut names[index], change, random);
            }
        }
    }
}

/// One of the samples that the space uses, by one, up or down as its range allows.
fn change_sample(colour: &mut Colour, random: &mut Random) {
    let used = match colour.space {
        2 => 4,
        8 => 1,
        _ => 3,
    };
    let sample = &mut colour.samples[random.below(used)];
    *sample = match *sample {
        0 => 1,
        // The highest of Lab's negative chrominances has a neighbour below it.
        sample => sample - 1,
    };
    // The lowest chrominance has none, and keeps to its range.
    if colour.space == 7 && colour.samples[1..].contains(&52_735) {
        colour.samples = [0; 4];
    }
}

fn change_ase(palette: &mut ase::Palette, change: Change, random: &mut Random) {
    let places: Vec<usize> = (0..palette.blocks.len())
        .filter(|&index| matches!(palette.blocks[index], Block::Colour(..)))
        .collect();
    match change {
        Change::Grouped => return group(palette, random),
        Change::Inserted => {
            let seam = random.below(palette.blocks.len() + 1);
            let colour = Block::Colour(vec![any_unit(random)], ase::Colour::any(random));
            return palette.blocks.insert(seam, colour);
        }
        _ if places.is_empty() => return,
        _ => {}
    }
    let place = random.pick(&places);
    if let Change::NamesSwapped = change {
        let names = [place, places[places.len() - 1]].map(|at| name_of(&palette.blocks[at]));
        set_name(&mut palette.blocks[place], names[1].clone());
        return set_name(
            &mut palette.blocks[places[places.len() - 1]],
            names[0].clone(),
        );
    }
    if let Change::Turned = change {
        let first = palette.blocks.remove(places[0]);
        return palette.blocks.push(first);
    }
    let Block::Colour(name, colour) = &mut palette.blocks[place] else {
        return;
    };
    let channel = random.below(colour.used().len());
    let bits = &mut colour.channels[channel];
    match change {
        // Up or down by the last bit; 0 and 1 have one neighbour each.
        Change::Sample => {
            *bits = match *bits {
                0 | MINUS_ZERO => 1,
                ONE => ONE - 1,
                other => other ^ 1,
            }
        }
        Change::Sign => {
            *bits = match *bits {
                0 => MINUS_ZERO,
                MINUS_ZERO => 0,
                other => other,
            }
        }
        // Of three channels, or of one that may be any.
        Change::Model if colour.model == RGB_TAG => colour.model = crate::channels::LAB_TAG,
        Change::Model if colour.model == GRAY_TAG => colour.model = RGB_TAG,
        Change::ColourAny => *colour = ase::Colour::any(random),
        Change::Ink => colour.colour_type = (colour.colour_type + 1) % 3,
        Change::Removed => drop(palette.blocks.remove(place)),
        Change::Repeated => {
            let again = palette.blocks[place].clone();
            palette.blocks.push(again);
        }
        _ => change_name(name, change, random),
    }
}

/// Pairs of a group's start and end put in anywhere: around what lies between, or empty.
fn group(palette: &mut ase::Palette, random: &mut Random) {
    for _ in 0..random.below(3) {
        // Where groups stand open already, an empty one may be one too many.
        let open = |blocks: &[Block]| {
            let starts = blocks
                .iter()
                .filter(|block| matches!(block, Block::Start(_)));
            let ends = blocks.iter().filter(|block| matches!(block, Block::End));
            starts.count() - ends.count()
        };
        let start = random.below(palette.blocks.len() + 1);
        if open(&palette.blocks[..start]) >= ase::MAX_OPEN {
            continue;
        }
        let groupless = palette.blocks[start..].iter();
        let room = groupless.take_while(|block| matches!(block, Block::Colour(..)));
        let end = start + random.below(room.count() + 1);
        palette.blocks.insert(end, Block::End);
        palette
            .blocks
            .insert(start, Block::Start(vec![any_unit(random)]));
    }
}

fn name_of(block: &Block) -> Vec<u16> {
    match block {
        Block::Start(name) | Block::Colour(name, _) => name.clone(),
        Block::End => Vec::new(),
    }
}

fn set_name(block: &mut Block, new: Vec<u16>) {
    if let Block::Start(name) | Block::Colour(name, _) = block {
        *name = new;
    }
}

fn change_name(name: &mut Vec<u16>, change: Change, random: &mut Random) {
    match change {
        Change::NameLonger => name.push(any_unit(random)),
        Change::NameShorter => drop(name.pop()),
        Change::NameEmpty => name.clear(),
        Change::NameUnit if !name.is_empty() => {
            let unit = random.below(name.len());
            let bit = 1 << random.below(16);
            // No unit of a name is zero.
            name[unit] = if name[unit] == bit {
                !bit
            } else {
                name[unit] ^ bit
            };
        }
        _ => {}
    }
}
