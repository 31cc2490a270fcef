//! In which record or block of a refused file a place is.
//!
//! The library says which field is at fault; this follows the layout as far as that
//! place, so that people find it. Nothing is accepted or refused here.

use crate::files::{Kind, Taken};
use crate::rows;
use khuyurek::{aco, ase, raw, Refusal};

/// The two lists of an ACO file disagree.
const DISAGREE: u32 = 7;
/// Bytes are left over.
const LEFT_OVER: u32 = 6;
/// Groups are not balanced.
const UNBALANCED: u32 = 9;

/// What a place is in.
#[derive(Clone, Debug, PartialEq, Eq)]
pub enum Where {
    /// A record, from 0, and in ACO the list.
    Record(usize, Option<u32>),
    /// A record of both lists, and its field by number.
    Field(usize, usize),
    /// A block, from 0.
    Block(usize),
    /// A row of a descriptor, and the keys that lead to it.
    Row(usize, Vec<String>),
    /// A part that is no record.
    Part(&'static str),
}

impl Where {
    /// In words.
    pub fn words(&self) -> String {
        match self {
            Where::Record(record, None) => format!("record {record}"),
            Where::Record(record, Some(list)) => format!("record {record} of list {list}"),
            Where::Field(record, field) => format!("record {record}, field {field}"),
            Where::Block(block) => format!("block {block}"),
            Where::Row(row, path) if path.is_empty() => format!("row {row}"),
            Where::Row(row, path) => format!("row {row}, {}", path.join(" > ")),
            Where::Part(part) => part.to_string(),
        }
    }
}

/// None where the place says nothing, as for a file that is too long.
pub fn find(file: &Taken, refusal: &Refusal) -> Option<Where> {
    let place = refusal.place;
    let bytes = &file.bytes[..];
    match (file.kind, refusal.number) {
        (_, 1 | 11 | 12 | 14) => None,
        (_, DISAGREE) => Some(Where::Field(refusal.record, refusal.field)),
        (Kind::Aco, number) => aco(bytes, place, number),
        (Kind::Ase, number) => Some(ase(bytes, place, number)),
        (Kind::Acb, _) => acb(bytes, place),
        (Kind::Resource, _) => resource(bytes, place),
        (Kind::Descriptor, _) => Some(match rows::find(bytes, place) {
            Some((row, path)) => Where::Row(row, path),
            None => Where::Part("behind the root"),
        }),
    }
}

fn u16_at(bytes: &[u8], at: usize) -> Option<usize> {
    let field = bytes.get(at..)?.first_chunk()?;
    Some(u16::from_be_bytes(*field).into())
}

fn u32_at(bytes: &[u8], at: usize) -> Option<usize> {
    let field = bytes.get(at..)?.first_chunk()?;
    usize::try_from(u32::from_be_bytes(*field)).ok()
}

/// A list's version and count, and the bytes of a colour.
const LIST_HEAD: usize = 4;
const COLOUR: usize = 10;

fn aco(bytes: &[u8], place: usize, number: u32) -> Option<Where> {
    if place < LIST_HEAD {
        return Some(Where::Part("the head of list 1"));
    }
    let second = LIST_HEAD + COLOUR * u16_at(bytes, 2)?;
    if place < second {
        return Some(Where::Record((place - LIST_HEAD) / COLOUR, Some(1)));
    }
    let first = second + LIST_HEAD;
    if place < first {
        return Some(Where::Part("the head of list 2"));
    }
    if number == LEFT_OVER {
        return Some(Where::Part("behind list 2"));
    }
    let step = |at| Some(aco::step_at(bytes, at).ok()??.1);
    Some(Where::Record(passed(first, place, step), Some(2)))
}

/// The signature, version and count before the blocks.
const ASE_HEAD: usize = 12;

fn ase(bytes: &[u8], place: usize, number: u32) -> Where {
    if place < ASE_HEAD {
        return Where::Part("before the blocks");
    }
    let step = |at| Some(ase::block_at(bytes, at).ok()??.1);
    let block = passed(ASE_HEAD, place, step);
    let behind = number == LEFT_OVER || number == UNBALANCED;
    if behind && u32_at(bytes, ASE_HEAD - 4) == Some(block) {
        return Where::Part("behind the last block");
    }
    Where::Block(block)
}

/// How many steps from a place end at or before another.
fn passed(first: usize, place: usize, step: impl Fn(usize) -> Option<usize>) -> usize {
    let mut at = first;
    let mut passed = 0;
    while let Some(next) = step(at).filter(|next| at < *next && *next <= place) {
        at = next;
        passed += 1;
    }
    passed
}

/// The signature, version and identifier of a book.
const BOOK_HEAD: usize = 8;
/// Count, page size, page offset and space.
const BOOK_NUMBERS: usize = 8;
/// A record's code.
const CODE: usize = 6;

fn acb(bytes: &[u8], place: usize) -> Option<Where> {
    if place < BOOK_HEAD {
        return Some(Where::Part("before the title"));
    }
    let string = |at| Some(at + 4 + 2 * u32_at(bytes, at)?);
    let mut at = BOOK_HEAD;
    for part in ["the title", "the prefix", "the suffix", "the description"] {
        match string(at) {
            Some(next) if next <= place => at = next,
            _ => return Some(Where::Part(part)),
        }
    }
    let first = at + BOOK_NUMBERS;
    if place < first {
        return Some(Where::Part("before the records"));
    }
    let components = if u16_at(bytes, at + 6)? == 2 { 4 } else { 3 };
    let step = |at| Some(string(at)? + CODE + components);
    let record = passed(first, place, step);
    if Some(record) == u16_at(bytes, at) {
        return Some(Where::Part("behind the records"));
    }
    Some(Where::Record(record, None))
}

/// What a Photoshop document begins with.
pub const DOCUMENT: &[u8] = b"8BPS";

fn resource(bytes: &[u8], place: usize) -> Option<Where> {
    let first = if bytes.starts_with(DOCUMENT) {
        let section = raw::resource::section_of(bytes);
        if section.number != 0 || place < section.first {
            return Some(Where::Part("before the resource section"));
        }
        section.first
    } else {
        0
    };
    let even = |length: usize| length + length % 2;
    // Signature and ID, the name with its length, the data with its size.
    let step = |at: usize| {
        let data = at + 6 + even(1 + usize::from(*bytes.get(at + 6)?));
        Some(data + 4 + even(u32_at(bytes, data)?))
    };
    Some(Where::Block(passed(first, place, step)))
}
