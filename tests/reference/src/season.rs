//! Two palettes compared by position, over their colours.

use crate::colour::{CMYK, GRAY, RGB, SAMPLES};
use crate::convert::to_channel;
use crate::name::UNIT_LEN;
use crate::reader::{judge, Swatch, Swatches};
use crate::refusal::{number, Refusal};
use crate::{ase, kind, model};

/// The numbers that stand for a position in a table: the position and what was found.
pub const ROW_LEN: usize = 2;

/// What is found at a position.
pub mod found {
    pub const SAME: u32 = 0;
    pub const NAME_DIFFERS: u32 = 1;
    pub const COLOUR_DIFFERS: u32 = 2;
    pub const BOTH_DIFFER: u32 = 3;
    pub const ONLY_FIRST: u32 = 4;
    pub const ONLY_SECOND: u32 = 5;
}

/// A palette as a caller says it is.
#[derive(Clone, Copy)]
pub struct Palette<'a> {
    pub kind: u32,
    pub file: &'a [u8],
}

/// How many positions there are, and how many are not the same.
#[derive(Clone, Copy, Debug, PartialEq, Eq)]
pub struct Compared {
    pub positions: usize,
    pub differences: usize,
}

/// A refusal, and whose it is: 1 the first file's, 2 the second's, 0 the call's.
#[derive(Clone, Copy, Debug, PartialEq, Eq)]
pub struct Refused {
    pub refusal: Refusal,
    pub file: u32,
}

/// Judges both palettes, then fills a row of the table for each position of the
/// longer one. Nothing of the table changes on a refusal, nor past the rows.
pub fn compare(first: Palette, second: Palette, table: &mut [u32]) -> Result<Compared, Refused> {
    let of_call = |number| Refused {
        refusal: Refusal::of_call(number),
        file: 0,
    };
    if ![first.kind, second.kind].iter().all(is_palette) {
        return Err(of_call(number::UNKNOWN_TYPE));
    }
    let first = Colours::of(first).map_err(|refusal| Refused { refusal, file: 1 })?;
    let second = Colours::of(second).map_err(|refusal| Refused { refusal, file: 2 })?;
    let positions = first.count().max(second.count());
    let (rows, _) = table.as_chunks_mut::<ROW_LEN>();
    let rows = rows.get_mut(..positions).ok_or(of_call(number::NO_ROOM))?;
    Ok(fill(rows, first, second))
}

fn is_palette(kind: &u32) -> bool {
    matches!(*kind, kind::ACO | kind::ASE)
}

fn fill(rows: &mut [[u32; ROW_LEN]], mut first: Colours, mut second: Colours) -> Compared {
    let mut differences = 0;
    for (position, row) in rows.iter_mut().enumerate() {
        let found = match (first.next(), second.next()) {
            (Some(first), Some(second)) => difference(&first, &second),
            (Some(_), None) => found::ONLY_FIRST,
            // As many rows as the longer palette has colours.
            (None, _) => found::ONLY_SECOND,
        };
        differences += usize::from(found != found::SAME);
        *row = [position as u32, found];
    }
    Compared {
        positions: rows.len(),
        differences,
    }
}

/// A colour of either format and its name's units.
struct Named<'a> {
    colour: Colour,
    name: &'a [u8],
}

enum Colour {
    Aco {
        space: u16,
        samples: [u16; SAMPLES],
    },
    /// Channels that the model does not have are 0.
    Ase {
        model: u32,
        channels: [u32; ase::CHANNELS],
    },
}

#[inline(always)]
fn difference(first: &Named, second: &Named) -> u32 {
    let name_differs = first.name != second.name;
    let colour_differs = !same_colour(&first.colour, &second.colour);
    match (name_differs, colour_differs) {
        (false, false) => found::SAME,
        (true, false) => found::NAME_DIFFERS,
        (false, true) => found::COLOUR_DIFFERS,
        (true, true) => found::BOTH_DIFFER,
    }
}

#[inline(always)]
fn same_colour(first: &Colour, second: &Colour) -> bool {
    match (first, second) {
        (
            Colour::Aco { space, samples },
            Colour::Aco {
                space: other_space,
                samples: other_samples,
            },
        ) => space == other_space && samples == other_samples,
        (
            Colour::Ase { model, channels },
            Colour::Ase {
                model: other_model,
                channels: other_channels,
            },
        ) => model == other_model && channels == other_channels,
        (Colour::Aco { space, samples }, Colour::Ase { model, channels })
        | (Colour::Ase { model, channels }, Colour::Aco { space, samples }) => {
            converts_to(*space, samples, *model, channels)
        }
    }
}

/// Whether an ACO colour becomes this ASE colour, bit by bit. HSB and Lab become none.
fn converts_to(
    space: u16,
    samples: &[u16; SAMPLES],
    model: u32,
    channels: &[u32; ase::CHANNELS],
) -> bool {
    let (counterpart, used) = match space {
        RGB => (model::RGB, 3),
        CMYK => (model::CMYK, 4),
        GRAY => (model::GRAY, 1),
        _ => return false,
    };
    let mut pairs = samples[..used].iter().zip(channels);
    model == counterpart
        && pairs.all(|(&sample, &bits)| {
            to_channel(space, sample).is_ok_and(|channel| channel.to_bits() == bits)
        })
}

/// The colours of an accepted palette, in file order; groups are passed over.
enum Colours<'a> {
    Aco {
        file: &'a [u8],
        swatches: Swatches<'a>,
        count: usize,
    },
    Ase {
        file: &'a [u8],
        records: ase::Records<'a>,
        count: usize,
    },
}

impl<'a> Colours<'a> {
    fn of(Palette { kind, file }: Palette<'a>) -> Result<Self, Refusal> {
        if kind == kind::ACO {
            let accepted = judge(file)?;
            return Ok(Colours::Aco {
                file,
                swatches: Swatches::new(file, accepted),
                count: accepted.colours,
            });
        }
        let accepted = ase::judge(file)?;
        Ok(Colours::Ase {
            file,
            records: ase::Records::new(file, accepted),
            count: accepted.colours,
        })
    }

    fn count(&self) -> usize {
        match self {
            Colours::Aco { count, .. } | Colours::Ase { count, .. } => *count,
        }
    }

    #[inline(always)]
    fn next(&mut self) -> Option<Named<'a>> {
        match self {
            Colours::Aco { file, swatches, .. } => {
                let Swatch {
                    space,
                    samples,
                    name,
                    units,
                    ..
                } = swatches.next()?;
                Some(Named {
                    colour: Colour::Aco { space, samples },
                    name: units_at(file, name, units),
                })
            }
            Colours::Ase { file, records, .. } => {
                let ase::Record {
                    name,
                    units,
                    model,
                    channels,
                    ..
                } = records.find(|record| record.block == ase::COLOUR)?;
                Some(Named {
                    colour: Colour::Ase { model, channels },
                    name: units_at(file, name, units),
                })
            }
        }
    }
}

#[inline(always)]
fn units_at(file: &[u8], place: usize, units: u32) -> &[u8] {
    &file[place..][..UNIT_LEN * units as usize]
}
