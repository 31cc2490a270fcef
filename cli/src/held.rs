//! What a file holds, by the library's readers.

use crate::files::{Kind, Taken};
use crate::json::Object;
use crate::places::DOCUMENT;
use crate::text::many;
use khuyurek::{acb, aco, ase, descriptor, raw, resource, Refusal};
use std::io;

/// How much an accepted file holds: the words and their numbers, in order.
pub struct Counts(Vec<(&'static str, usize)>);

/// The records of an accepted file.
pub enum Held<'a> {
    Aco(aco::Palette<'a>),
    Ase(ase::Palette<'a>),
    Acb(acb::Book<'a>),
    Descriptor(descriptor::Rows<'a>),
    /// The blocks, and the place of their section in its file.
    Resource(resource::Section<'a>, usize),
}

impl Counts {
    /// In words, as `5 colours in 2 lists`.
    pub fn words(&self) -> String {
        let words: Vec<String> = self.0.iter().map(|(what, n)| many(*n, what)).collect();
        words.join(" in ")
    }

    pub fn pairs(&self, mut object: Object<'_>) -> io::Result<()> {
        for (what, count) in &self.0 {
            object.plain(&format!("{what}s"), count)?;
        }
        object.end()
    }
}

/// Judges a file.
pub fn judge(file: &Taken) -> Result<Counts, Refusal> {
    let bytes = &file.bytes;
    Ok(Counts(match file.kind {
        Kind::Aco => {
            let aco::Counts { colours, lists } = aco::judge(bytes)?;
            vec![("colour", colours), ("list", lists)]
        }
        Kind::Ase => {
            let ase::Counts { blocks, colours } = ase::judge(bytes)?;
            vec![("colour", colours), ("block", blocks)]
        }
        Kind::Acb => vec![("record", acb::judge(bytes)?.0)],
        Kind::Descriptor => vec![("row", descriptor::judge(bytes)?)],
        Kind::Resource => {
            let (section, first) = section(bytes)?;
            let judged = resource::judge(section).map_err(|refusal| behind(first, refusal))?;
            vec![("block", judged)]
        }
    }))
}

/// Reads a file.
pub fn read(file: &Taken) -> Result<Held<'_>, Refusal> {
    let bytes = &file.bytes;
    Ok(match file.kind {
        Kind::Aco => Held::Aco(aco::read(bytes)?),
        Kind::Ase => Held::Ase(ase::read(bytes)?),
        Kind::Acb => Held::Acb(acb::read(bytes)?),
        Kind::Descriptor => Held::Descriptor(descriptor::read(bytes)?),
        Kind::Resource => {
            let (section, first) = section(bytes)?;
            let read = resource::read(section).map_err(|refusal| behind(first, refusal))?;
            Held::Resource(read, first)
        }
    })
}

/// The section of a document and its place, or the bytes themselves.
fn section(bytes: &[u8]) -> Result<(&[u8], usize), Refusal> {
    if !bytes.starts_with(DOCUMENT) {
        return Ok((bytes, 0));
    }
    let section = resource::section_of(bytes)?;
    Ok((section, raw::resource::section_of(bytes).first))
}

/// A section's refusal with the place in its document.
fn behind(first: usize, refusal: Refusal) -> Refusal {
    Refusal {
        place: first + refusal.place,
        ..refusal
    }
}
