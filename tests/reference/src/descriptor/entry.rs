//! An entry: the numbers that stand for the root or a member to be written.

use super::layout::{form, is_array_unit, is_unit, item, UNIT_DOUBLES, VERSION};

/// The numbers of an entry.
pub const ENTRY_LEN: usize = 16;

pub type Entry = [u32; ENTRY_LEN];

/// Where an entry has its numbers. Of a part the length or count comes first, and
/// then its place.
pub mod at {
    pub const KIND: usize = 0;
    pub const KEY: usize = 1;
    pub const CLASS_NAME: usize = 3;
    pub const CLASS_ID: usize = 5;
    pub const FIRST: usize = 7;
    pub const SECOND: usize = 9;
    pub const UNIT: usize = 11;
    pub const HIGH: usize = 12;
    pub const LOW: usize = 13;
    pub const MEMBERS: usize = 14;
    pub const OBJECTS: usize = 15;
}

/// A length or count, and the place of the bytes or units.
#[derive(Clone, Copy)]
pub struct Part {
    pub length: u32,
    pub place: u32,
}

/// What stands in a container.
#[derive(Clone, Copy, PartialEq, Eq)]
pub enum Members {
    /// Of an object.
    Pairs,
    /// Of a list.
    Items,
    /// Of a reference.
    References,
    /// Of an object array with so many objects.
    ArrayPairs { objects: u32 },
}

/// A container's members, and how many of them.
#[derive(Clone, Copy)]
pub struct Wanted {
    pub members: Members,
    pub count: u32,
}

/// Is told of an entry's fields in the file's order, and may refuse one.
pub trait Fields {
    /// Four bytes that any number may stand in.
    fn word(&mut self, word: u32) -> Result<(), u32>;
    fn id(&mut self, part: Part) -> Result<(), u32>;
    fn string(&mut self, part: Part) -> Result<(), u32>;
    fn bytes(&mut self, part: Part) -> Result<(), u32>;
    fn boolean(&mut self, value: u32) -> Result<(), u32>;
    fn large(&mut self, bits: u64) -> Result<(), u32>;
    fn double(&mut self, bits: u64) -> Result<(), u32>;
    /// A unit, and whether it is known where it stands.
    fn unit(&mut self, unit: u32, known: bool) -> Result<(), u32>;
    /// The count is held to that of the objects.
    fn doubles(&mut self, part: Part, objects: u32) -> Result<(), u32>;
    /// A kind that may not stand there.
    fn misplaced(&mut self) -> Result<(), u32>;
}

/// The fields of the root, whose kind is judged, the version being all there is
/// of it in the file.
pub fn root<F: Fields>(entry: &Entry, fields: &mut F) -> Result<Wanted, u32> {
    if entry[at::KIND] != item::OBJECT {
        fields.misplaced()?;
    }
    fields.word(VERSION)?;
    object(entry, fields)
}

/// The fields of a member of that sort; a container says what it wants.
pub fn member<F: Fields>(
    entry: &Entry,
    sort: Members,
    fields: &mut F,
) -> Result<Option<Wanted>, u32> {
    if matches!(sort, Members::Pairs | Members::ArrayPairs { .. }) {
        fields.id(part(entry, at::KEY))?;
    }
    fields.word(entry[at::KIND])?;
    match sort {
        Members::Pairs | Members::Items => item_fields(entry, fields),
        Members::References => reference_fields(entry, fields).map(|()| None),
        Members::ArrayPairs { objects } => array_fields(entry, objects, fields).map(|()| None),
    }
}

fn item_fields<F: Fields>(entry: &Entry, fields: &mut F) -> Result<Option<Wanted>, u32> {
    let first = part(entry, at::FIRST);
    match entry[at::KIND] {
        item::BOOL => fields.boolean(entry[at::LOW])?,
        item::LONG => fields.word(entry[at::LOW])?,
        item::LARGE => fields.large(bits(entry))?,
        item::DOUBLE => fields.double(bits(entry))?,
        item::UNIT_DOUBLE => {
            fields.unit(entry[at::UNIT], is_unit(entry[at::UNIT]))?;
            fields.double(bits(entry))?;
        }
        item::TYPE | item::GLOBAL_CLASS => class(entry, fields)?,
        item::ENUMERATED => enumerated(entry, fields)?,
        item::ALIAS | item::PATH | item::RAW => fields.bytes(first)?,
        item::TEXT => fields.string(first)?,
        item::LIST => return counted(entry, Members::Items, fields).map(Some),
        item::REFERENCE => return counted(entry, Members::References, fields).map(Some),
        item::OBJECT | item::GLOBAL_OBJECT => return object(entry, fields).map(Some),
        item::OBJECT_ARRAY => {
            let objects = entry[at::OBJECTS];
            fields.word(objects)?;
            class(entry, fields)?;
            return counted(entry, Members::ArrayPairs { objects }, fields).map(Some);
        }
        _ => fields.misplaced()?,
    }
    Ok(None)
}

fn reference_fields<F: Fields>(entry: &Entry, fields: &mut F) -> Result<(), u32> {
    match entry[at::KIND] {
        form::CLASS => class(entry, fields),
        form::ENUMERATED => {
            class(entry, fields)?;
            enumerated(entry, fields)
        }
        form::IDENTIFIER | form::INDEX | form::OFFSET => {
            class(entry, fields)?;
            fields.word(entry[at::LOW])
        }
        form::NAME => {
            class(entry, fields)?;
            fields.string(part(entry, at::FIRST))
        }
        form::PROPERTY => {
            class(entry, fields)?;
            fields.id(part(entry, at::FIRST))
        }
        _ => fields.misplaced(),
    }
}

fn array_fields<F: Fields>(entry: &Entry, objects: u32, fields: &mut F) -> Result<(), u32> {
    if entry[at::KIND] != UNIT_DOUBLES {
        return fields.misplaced();
    }
    let unit = entry[at::UNIT];
    fields.unit(unit, is_array_unit(unit))?;
    fields.doubles(part(entry, at::FIRST), objects)
}

fn object<F: Fields>(entry: &Entry, fields: &mut F) -> Result<Wanted, u32> {
    class(entry, fields)?;
    counted(entry, Members::Pairs, fields)
}

fn counted<F: Fields>(entry: &Entry, members: Members, fields: &mut F) -> Result<Wanted, u32> {
    let count = entry[at::MEMBERS];
    fields.word(count)?;
    Ok(Wanted { members, count })
}

fn class<F: Fields>(entry: &Entry, fields: &mut F) -> Result<(), u32> {
    fields.string(part(entry, at::CLASS_NAME))?;
    fields.id(part(entry, at::CLASS_ID))
}

fn enumerated<F: Fields>(entry: &Entry, fields: &mut F) -> Result<(), u32> {
    fields.id(part(entry, at::FIRST))?;
    fields.id(part(entry, at::SECOND))
}

#[inline(always)]
fn part(entry: &Entry, at: usize) -> Part {
    Part {
        length: entry[at],
        place: entry[at + 1],
    }
}

#[inline(always)]
fn bits(entry: &Entry) -> u64 {
    u64::from(entry[at::HIGH]) << 32 | u64::from(entry[at::LOW])
}
