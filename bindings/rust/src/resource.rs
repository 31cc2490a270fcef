//! Image resource blocks, and where they lie in a Photoshop document.
//!
//! ```
//! use khuyurek::resource::{self, Block};
//!
//! # fn main() -> Result<(), khuyurek::Refusal> {
//! let blocks = [1005, 1036].map(|id| Block { id, name: b"small", data: b"dots" });
//! let section = resource::write(&blocks)?;
//! assert!(resource::read(&section)?.iter().eq(blocks));
//! assert_eq!(resource::find(&section, 1036)?, 1);
//! # Ok(())
//! # }
//! ```

use crate::raw::resource as raw;
use crate::text::{exact, held, length};
use crate::Refusal;

/// How many numbers a record has in a table.
pub const WIDTH: usize = 5;

/// A block: its ID, the bytes of its name, and its data.
#[derive(Clone, Copy, Debug, PartialEq, Eq)]
pub struct Block<'a> {
    /// The ID. It is not judged, and several blocks may have the same.
    pub id: u16,
    /// The name's bytes, often none.
    pub name: &'a [u8],
    /// The data.
    pub data: &'a [u8],
}

/// The blocks of an accepted section, in a table of the exact length.
#[derive(Clone, Debug)]
pub struct Section<'a> {
    bytes: &'a [u8],
    table: Vec<u32>,
}

/// Judges a section: the number of its blocks.
pub fn judge(section: &[u8]) -> Result<usize, Refusal> {
    blocks(raw::judge(section))
}

/// Reads a section.
pub fn read(section: &[u8]) -> Result<Section<'_>, Refusal> {
    let mut table = vec![0; WIDTH * judge(section)?];
    blocks(raw::read(section, &mut table))?;
    let bytes = section;
    Ok(Section { bytes, table })
}

/// A block by its number, from 0. The whole section is judged first.
pub fn record_at(section: &[u8], index: usize) -> Result<Block<'_>, Refusal> {
    let r = raw::record(section, index);
    Refusal::unless(r.number, r.place)?;
    Ok(Block {
        id: known_id(r.id),
        name: &section[r.name..r.name + r.name_length],
        data: &section[r.data..r.data + r.data_length],
    })
}

/// The number of the first block with an ID. The whole section is judged first.
pub fn find(section: &[u8], id: u16) -> Result<usize, Refusal> {
    let found = raw::find(section, id);
    Refusal::unless(found.number, found.place)?;
    Ok(found.index)
}

/// The resource section of a Photoshop document, from the document's first
/// bytes, as many as reach the section's end or more.
pub fn section_of(document: &[u8]) -> Result<&[u8], Refusal> {
    let section = raw::section_of(document);
    Refusal::unless(section.number, section.place)?;
    Ok(&document[section.first..section.first + section.length])
}

/// How many bytes writing takes.
pub fn write_length(blocks: &[Block<'_>]) -> Result<usize, Refusal> {
    let (numbers, text) = laid_out(blocks);
    length(raw::length(&numbers, &text))
}

/// Writes a section.
pub fn write(blocks: &[Block<'_>]) -> Result<Vec<u8>, Refusal> {
    let (numbers, text) = laid_out(blocks);
    write_numbers(&numbers, &text)
}

fn blocks(answer: raw::Answer) -> Result<usize, Refusal> {
    Refusal::unless(answer.number, answer.place)?;
    Ok(answer.blocks)
}

fn known_id(id: u32) -> u16 {
    u16::try_from(id).expect("an accepted block's ID has 16 bits")
}

fn laid_out(blocks: &[Block<'_>]) -> (Vec<u32>, Vec<u8>) {
    let mut numbers = Vec::with_capacity(WIDTH * blocks.len());
    let mut text = Vec::new();
    for block in blocks {
        numbers.push(block.id.into());
        for part in [block.name, block.data] {
            numbers.push(held(text.len()));
            numbers.push(held(part.len()));
            text.extend_from_slice(part);
        }
    }
    (numbers, text)
}

fn write_numbers(numbers: &[u32], text: &[u8]) -> Result<Vec<u8>, Refusal> {
    exact(raw::length(numbers, text), |out| {
        raw::write(numbers, text, out)
    })
}

impl<'a> Section<'a> {
    /// How many blocks there are.
    pub fn len(&self) -> usize {
        self.table.len() / WIDTH
    }

    /// Whether there are none.
    pub fn is_empty(&self) -> bool {
        self.table.is_empty()
    }

    /// The blocks in file order.
    pub fn iter(&self) -> impl ExactSizeIterator<Item = Block<'a>> + '_ {
        self.table.chunks_exact(WIDTH).map(|row| self.block(row))
    }

    /// A block by its number, from 0.
    pub fn get(&self, index: usize) -> Option<Block<'a>> {
        let row = self.table.chunks_exact(WIDTH).nth(index)?;
        Some(self.block(row))
    }

    /// The table, as [`raw::write`](fn@raw::write) takes it with the section.
    pub fn numbers(&self) -> &[u32] {
        &self.table
    }

    /// The section written back: the same bytes.
    pub fn write(&self) -> Result<Vec<u8>, Refusal> {
        write_numbers(&self.table, self.bytes)
    }

    fn block(&self, row: &[u32]) -> Block<'a> {
        let part = |first: u32, length: u32| {
            let first = first as usize;
            &self.bytes[first..first + length as usize]
        };
        Block {
            id: known_id(row[0]),
            name: part(row[1], row[2]),
            data: part(row[3], row[4]),
        }
    }
}
