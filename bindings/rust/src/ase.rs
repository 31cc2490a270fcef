//! ASE palettes.
//!
//! ```
//! use khuyurek::ase::{self, Block, Channels, Colour};
//! use khuyurek::{Ink, Units};
//!
//! # fn main() -> Result<(), khuyurek::Refusal> {
//! let (group, name) = (Units::encode("Inks"), Units::encode("Cyan"));
//! let cyan = Colour {
//!     name: Units::new(&name),
//!     channels: Channels::Cmyk([1.0, 0.0, 0.0, 0.0]),
//!     ink: Ink::Spot,
//! };
//! let blocks = [Block::Start(Units::new(&group)), Block::Colour(cyan), Block::Stop];
//! let file = ase::write(&blocks)?;
//! assert!(ase::read(&file)?.iter().eq(blocks));
//! // A walk of colours passes over groups.
//! assert!(ase::walk(&file)?.eq([cyan]));
//! // A group that is left open is refused.
//! assert_eq!(ase::write(&blocks[..2]).unwrap_err().number, 9);
//! # Ok(())
//! # }
//! ```

use crate::raw::ase as raw;
use crate::text::{exact, length, Text};
use crate::{Ink, Model, Refusal, Units};

/// How many numbers a record has in a table.
pub const WIDTH: usize = 9;

const START: u32 = 0xC001;
const STOP: u32 = 0xC002;
const COLOUR: u32 = 0x0001;

/// What an accepted file holds.
#[derive(Clone, Copy, Debug, PartialEq, Eq)]
pub struct Counts {
    /// How many blocks: group starts, group ends and colours.
    pub blocks: usize,
    /// How many of them are colours.
    pub colours: usize,
}

/// A block of a palette.
#[derive(Clone, Copy, Debug, PartialEq)]
pub enum Block<'a> {
    /// A group starts, with its name.
    Start(Units<'a>),
    /// The innermost group ends.
    Stop,
    /// A colour.
    Colour(Colour<'a>),
}

/// A colour and its name.
#[derive(Clone, Copy, Debug, PartialEq)]
pub struct Colour<'a> {
    /// The name, without its closing zero.
    pub name: Units<'a>,
    /// The channels by their model.
    pub channels: Channels,
    /// Its ink: global, spot or normal in a file.
    pub ink: Ink,
}

/// Channels by their model: from 0 to 1, save in Lab.
#[derive(Clone, Copy, Debug, PartialEq)]
pub enum Channels {
    /// Red, green, blue.
    Rgb([f32; 3]),
    /// Cyan, magenta, yellow, black; 1 is full ink.
    Cmyk([f32; 4]),
    /// Lightness, a, b: any finite numbers.
    Lab([f32; 3]),
    /// Gray.
    Gray(f32),
}

/// The blocks of an accepted file, in a table of the exact length.
#[derive(Clone, Debug)]
pub struct Palette<'a> {
    file: &'a [u8],
    table: Vec<u32>,
}

/// Judges a file.
pub fn judge(file: &[u8]) -> Result<Counts, Refusal> {
    counts(raw::judge(file))
}

/// Reads a file.
pub fn read(file: &[u8]) -> Result<Palette<'_>, Refusal> {
    let Counts { blocks, .. } = judge(file)?;
    let mut table = vec![0; WIDTH * blocks];
    counts(raw::read(file, &mut table))?;
    Ok(Palette { file, table })
}

/// A block by its number, from 0. The whole file is judged first.
pub fn record_at(file: &[u8], index: usize) -> Result<Block<'_>, Refusal> {
    let r = raw::record(file, index);
    Refusal::unless(r.number, r.place)?;
    let name = Units::lying(file, r.name, r.units);
    Ok(block(r.block, name, r.model, r.channels, r.ink))
}

fn counts(answer: raw::Answer) -> Result<Counts, Refusal> {
    Refusal::unless(answer.number, answer.place)?;
    Ok(Counts {
        blocks: answer.blocks,
        colours: answer.colours,
    })
}

/// An accepted block by its numbers.
fn block(kind: u32, name: Units<'_>, model: u32, bits: [u32; 4], ink: u32) -> Block<'_> {
    match kind {
        START => Block::Start(name),
        STOP => Block::Stop,
        COLOUR => Block::Colour(Colour {
            name,
            channels: Channels::from_bits(Model::known(model), bits),
            ink: Ink::known(ink),
        }),
        _ => unreachable!("an accepted block has a known type"),
    }
}

impl Channels {
    /// The model.
    pub fn model(&self) -> Model {
        match self {
            Channels::Rgb(_) => Model::Rgb,
            Channels::Cmyk(_) => Model::Cmyk,
            Channels::Lab(_) => Model::Lab,
            Channels::Gray(_) => Model::Gray,
        }
    }

    /// The channels in their order.
    pub fn values(&self) -> &[f32] {
        match self {
            Channels::Rgb(values) | Channels::Lab(values) => values,
            Channels::Cmyk(values) => values,
            Channels::Gray(value) => std::slice::from_ref(value),
        }
    }

    fn from_bits(model: Model, bits: [u32; 4]) -> Channels {
        let [a, b, c, d] = bits.map(f32::from_bits);
        match model {
            Model::Rgb => Channels::Rgb([a, b, c]),
            Model::Cmyk => Channels::Cmyk([a, b, c, d]),
            Model::Lab => Channels::Lab([a, b, c]),
            Model::Gray => Channels::Gray(a),
        }
    }

    fn bits(&self) -> [u32; 4] {
        let mut bits = [0; 4];
        for (bits, value) in bits.iter_mut().zip(self.values()) {
            *bits = value.to_bits();
        }
        bits
    }
}

impl<'a> Palette<'a> {
    /// How many blocks there are.
    pub fn len(&self) -> usize {
        self.table.len() / WIDTH
    }

    /// Whether there is no block.
    pub fn is_empty(&self) -> bool {
        self.table.is_empty()
    }

    /// The blocks in file order.
    pub fn iter(&self) -> impl ExactSizeIterator<Item = Block<'a>> + '_ {
        let rows = self.table.chunks_exact(WIDTH);
        rows.map(|row| self.block(row))
    }

    /// A block by its number, from 0.
    pub fn get(&self, index: usize) -> Option<Block<'a>> {
        let row = self.table.chunks_exact(WIDTH).nth(index)?;
        Some(self.block(row))
    }

    /// The table, as [`raw::write`](fn@raw::write) takes it with the file.
    pub fn numbers(&self) -> &[u32] {
        &self.table
    }

    /// The file written back: the same bytes.
    pub fn write(&self) -> Result<Vec<u8>, Refusal> {
        write_numbers(&self.table, self.file)
    }

    fn block(&self, row: &[u32]) -> Block<'a> {
        let name = Units::lying(self.file, row[1] as usize, row[2]);
        block(
            row[0],
            name,
            row[3],
            [row[4], row[5], row[6], row[7]],
            row[8],
        )
    }
}

/// How many bytes writing takes.
pub fn write_length(blocks: &[Block<'_>]) -> Result<usize, Refusal> {
    let (numbers, text) = laid_out(blocks);
    length(raw::length(&numbers, &text))
}

/// Writes a file.
pub fn write(blocks: &[Block<'_>]) -> Result<Vec<u8>, Refusal> {
    let (numbers, text) = laid_out(blocks);
    write_numbers(&numbers, &text)
}

fn laid_out(blocks: &[Block<'_>]) -> (Vec<u32>, Vec<u8>) {
    let mut numbers = Vec::with_capacity(WIDTH * blocks.len());
    let mut text = Text::default();
    for block in blocks {
        match block {
            Block::Start(name) => {
                numbers.push(START);
                numbers.extend(text.add(*name));
                numbers.extend([0; 6]);
            }
            Block::Stop => {
                numbers.push(STOP);
                numbers.extend([0; 8]);
            }
            Block::Colour(colour) => {
                numbers.push(COLOUR);
                numbers.extend(text.add(colour.name));
                numbers.push(colour.channels.model().tag());
                numbers.extend(colour.channels.bits());
                numbers.push(colour.ink.number());
            }
        }
    }
    (numbers, text.0)
}

fn write_numbers(numbers: &[u32], text: &[u8]) -> Result<Vec<u8>, Refusal> {
    exact(raw::length(numbers, text), |out| {
        raw::write(numbers, text, out)
    })
}

/// The place where a walk starts; the whole file is judged.
pub fn start_at(file: &[u8]) -> Result<usize, Refusal> {
    let start = raw::walk_start(file);
    Refusal::unless(start.number, start.place)?;
    Ok(start.at)
}

/// The first colour from a place on and the place behind it, or none where the
/// blocks end; groups are passed over. A place where no block stands that the
/// layout allows is 5.
pub fn step_at(file: &[u8], at: usize) -> Result<Option<(Colour<'_>, usize)>, Refusal> {
    Ok(match stepped(file, raw::walk(file, at))? {
        Some((Block::Colour(colour), next)) => Some((colour, next)),
        Some(_) => unreachable!("a walk passes over groups"),
        None => None,
    })
}

/// The block at a place and the place behind it, or none at the file's end. A
/// place where no block stands that the layout allows is 5.
pub fn block_at(file: &[u8], at: usize) -> Result<Option<(Block<'_>, usize)>, Refusal> {
    stepped(file, raw::walk_block(file, at))
}

fn stepped(file: &[u8], step: raw::Step) -> Result<Option<(Block<'_>, usize)>, Refusal> {
    Refusal::unless(step.number, 0)?;
    if step.done != 0 {
        return Ok(None);
    }
    let name = Units::lying(file, step.name, step.units);
    let block = block(step.block, name, step.model, step.channels, step.ink);
    Ok(Some((block, step.next)))
}

/// The colours of an accepted file one a call, without a table.
#[derive(Clone, Debug)]
pub struct Walk<'a> {
    file: &'a [u8],
    at: usize,
}

/// The blocks of an accepted file one a call, without a table.
#[derive(Clone, Debug)]
pub struct BlockWalk<'a> {
    file: &'a [u8],
    at: usize,
}

/// Starts a walk of colours alone; the whole file is judged.
pub fn walk(file: &[u8]) -> Result<Walk<'_>, Refusal> {
    let at = start_at(file)?;
    Ok(Walk { file, at })
}

/// Starts a walk of blocks, group starts and ends too; the whole file is judged.
pub fn walk_blocks(file: &[u8]) -> Result<BlockWalk<'_>, Refusal> {
    let at = start_at(file)?;
    Ok(BlockWalk { file, at })
}

const SOUND: &str = "no step of an accepted file is refused";

impl<'a> Iterator for Walk<'a> {
    type Item = Colour<'a>;

    fn next(&mut self) -> Option<Colour<'a>> {
        let (colour, next) = step_at(self.file, self.at).expect(SOUND)?;
        self.at = next;
        Some(colour)
    }
}

impl<'a> Iterator for BlockWalk<'a> {
    type Item = Block<'a>;

    fn next(&mut self) -> Option<Block<'a>> {
        let (block, next) = block_at(self.file, self.at).expect(SOUND)?;
        self.at = next;
        Some(block)
    }
}

impl std::iter::FusedIterator for Walk<'_> {}
impl std::iter::FusedIterator for BlockWalk<'_> {}
