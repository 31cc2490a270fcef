//! ACO swatches.
//!
//! ```
//! use khuyurek::aco;
//!
//! # fn main() -> Result<(), khuyurek::Refusal> {
//! # let path = concat!(env!("CARGO_MANIFEST_DIR"), "/../../examples/files/swatches.aco");
//! let file = std::fs::read(path).expect("the file is there");
//! let palette = aco::read(&file)?;
//! for swatch in palette.iter() {
//!     println!("{:?} {:?} {}", swatch.space, swatch.samples, swatch.name);
//! }
//! assert_eq!(palette.get(0).unwrap().name.to_string(), "Orange");
//! // Its records, written, are the same bytes.
//! let swatches: Vec<_> = palette.iter().collect();
//! assert_eq!(aco::write(&swatches)?, file);
//! // A file whose lists disagree says where.
//! let mut damaged = file.clone();
//! damaged[6] ^= 1;
//! let refusal = aco::read(&damaged).unwrap_err();
//! assert_eq!((refusal.number, refusal.record, refusal.field), (7, 0, 1));
//! # Ok(())
//! # }
//! ```

use crate::text::{exact, length, Text};
use crate::{raw, Ink, Refusal, Space, Units};

/// How many numbers a record has in a table.
pub const WIDTH: usize = 8;

/// What an accepted file holds.
#[derive(Clone, Copy, Debug, PartialEq, Eq)]
pub struct Counts {
    /// How many colours.
    pub colours: usize,
    /// How many lists: 2 where the colours have names, else 1.
    pub lists: usize,
}

/// A colour and its name, which is empty in a file of one list.
#[derive(Clone, Copy, Debug, PartialEq, Eq)]
pub struct Swatch<'a> {
    /// The space of the samples.
    pub space: Space,
    /// The samples; those that the space does not use are 0.
    pub samples: [u16; 4],
    /// The name, without its closing zero.
    pub name: Units<'a>,
    /// Its ink, which a file does not state.
    pub ink: Ink,
}

/// The records of an accepted file, in a table of the exact length.
#[derive(Clone, Debug)]
pub struct Palette<'a> {
    file: &'a [u8],
    lists: usize,
    table: Vec<u32>,
}

/// Judges a file.
pub fn judge(file: &[u8]) -> Result<Counts, Refusal> {
    Counts::of(raw::judge(file))
}

/// Reads a file.
pub fn read(file: &[u8]) -> Result<Palette<'_>, Refusal> {
    let Counts { colours, lists } = judge(file)?;
    let mut table = vec![0; WIDTH * colours];
    Counts::of(raw::read(file, &mut table))?;
    Ok(Palette { file, lists, table })
}

/// A record by its number, from 0. The whole file is judged first.
pub fn record_at(file: &[u8], index: usize) -> Result<Swatch<'_>, Refusal> {
    let r = raw::record(file, index);
    Refusal::unless_differing(r.number, r.place, r.record, r.field)?;
    Ok(Swatch {
        space: Space::known(r.space),
        samples: r.samples,
        name: Units::lying(file, r.name, r.units),
        ink: Ink::known(r.ink),
    })
}

impl Counts {
    pub(crate) fn of(answer: raw::Answer) -> Result<Counts, Refusal> {
        Refusal::unless_differing(answer.number, answer.place, answer.record, answer.field)?;
        Ok(Counts {
            colours: answer.colours,
            lists: answer.lists,
        })
    }
}

impl<'a> Palette<'a> {
    /// How many colours there are.
    pub fn len(&self) -> usize {
        self.table.len() / WIDTH
    }

    /// Whether there is no colour.
    pub fn is_empty(&self) -> bool {
        self.table.is_empty()
    }

    /// How many lists the file has.
    pub fn lists(&self) -> usize {
        self.lists
    }

    /// The records in file order.
    pub fn iter(&self) -> impl ExactSizeIterator<Item = Swatch<'a>> + '_ {
        let rows = self.table.chunks_exact(WIDTH);
        rows.map(|row| self.swatch(row))
    }

    /// A record by its number, from 0.
    pub fn get(&self, index: usize) -> Option<Swatch<'a>> {
        let row = self.table.chunks_exact(WIDTH).nth(index)?;
        Some(self.swatch(row))
    }

    /// The table, as [`raw::write`](fn@raw::write) takes it with the file.
    pub fn numbers(&self) -> &[u32] {
        &self.table
    }

    /// The file written back, with both lists.
    pub fn write(&self) -> Result<Vec<u8>, Refusal> {
        write_numbers(&self.table, self.file)
    }

    fn swatch(&self, row: &[u32]) -> Swatch<'a> {
        Swatch {
            space: Space::known(row[0] as u16),
            samples: [1, 2, 3, 4].map(|i| row[i] as u16),
            name: Units::lying(self.file, row[5] as usize, row[6]),
            ink: Ink::known(row[7]),
        }
    }
}

/// How many bytes writing takes.
pub fn write_length(swatches: &[Swatch<'_>]) -> Result<usize, Refusal> {
    let (numbers, text) = laid_out(swatches);
    length(raw::length(&numbers, &text))
}

/// Writes a file of both lists.
pub fn write(swatches: &[Swatch<'_>]) -> Result<Vec<u8>, Refusal> {
    let (numbers, text) = laid_out(swatches);
    write_numbers(&numbers, &text)
}

fn laid_out(swatches: &[Swatch<'_>]) -> (Vec<u32>, Vec<u8>) {
    let mut numbers = Vec::with_capacity(WIDTH * swatches.len());
    let mut text = Text::default();
    for swatch in swatches {
        numbers.push(swatch.space.number().into());
        numbers.extend(swatch.samples.map(u32::from));
        numbers.extend(text.add(swatch.name));
        numbers.push(swatch.ink.number());
    }
    (numbers, text.0)
}

fn write_numbers(numbers: &[u32], text: &[u8]) -> Result<Vec<u8>, Refusal> {
    exact(raw::length(numbers, text), |out| {
        raw::write(numbers, text, out)
    })
}

/// The colours of an accepted file one a call, without a table.
#[derive(Clone, Debug)]
pub struct Walk<'a> {
    file: &'a [u8],
    at: usize,
}

/// Starts a walk; the whole file is judged.
pub fn walk(file: &[u8]) -> Result<Walk<'_>, Refusal> {
    let at = start_at(file)?;
    Ok(Walk { file, at })
}

/// The place where a walk starts; the whole file is judged.
pub fn start_at(file: &[u8]) -> Result<usize, Refusal> {
    let start = raw::walk_start(file);
    Refusal::unless_differing(start.number, start.place, start.record, start.field)?;
    Ok(start.at)
}

/// The colour at a place and the place of the next, or none at the file's end. A
/// place where no colour stands that the layout allows is 5.
pub fn step_at(file: &[u8], at: usize) -> Result<Option<(Swatch<'_>, usize)>, Refusal> {
    let step = raw::walk(file, at);
    Refusal::unless(step.number, 0)?;
    if step.done != 0 {
        return Ok(None);
    }
    let swatch = Swatch {
        space: Space::known(step.space),
        samples: step.samples,
        name: Units::lying(file, step.name, step.units),
        ink: Ink::known(step.ink),
    };
    Ok(Some((swatch, step.next)))
}

impl<'a> Iterator for Walk<'a> {
    type Item = Swatch<'a>;

    fn next(&mut self) -> Option<Swatch<'a>> {
        let step = step_at(self.file, self.at).expect("no step of an accepted file is refused");
        let (swatch, next) = step?;
        self.at = next;
        Some(swatch)
    }
}

impl std::iter::FusedIterator for Walk<'_> {}
