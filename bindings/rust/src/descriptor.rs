//! Serialized descriptors.
//!
//! ```
//! use khuyurek::descriptor::{self, Value};
//!
//! # fn main() -> Result<(), khuyurek::Refusal> {
//! # let path = concat!(env!("CARGO_MANIFEST_DIR"), "/../../examples/files/swatch.desc");
//! let file = std::fs::read(path).expect("the file is there");
//! let rows = descriptor::read(&file)?;
//! for row in rows.iter() {
//!     println!("{:indent$}{} at {}", "", row.kind, row.first, indent = 2 * row.depth);
//! }
//! // A key of the root, by its length and its bytes, and its value replaced.
//! let found = rows.find(b"\0\0\0\x07enabled")?;
//! let row = found[0].expect("there is one");
//! assert_eq!(descriptor::typed_at(&file, row)?, Value::Bool(true));
//! let changed = rows.replace(row, Value::Bool(false))?;
//! assert_eq!(descriptor::typed_at(&changed, row)?, Value::Bool(false));
//! # Ok(())
//! # }
//! ```

use std::fmt::{self, Debug, Display, Formatter, Write};

use crate::raw::descriptor as raw;
use crate::text::{exact, held, length};
use crate::{Refusal, Units};

/// How many numbers an entry has.
pub const ENTRY: usize = 16;

/// Four characters: a row's kind or a unit. Shown without the spaces at its end.
#[derive(Clone, Copy, PartialEq, Eq, Hash)]
pub struct Tag(pub [u8; 4]);

/// The root, a pair, a list item or a reference item.
#[derive(Clone, Copy, Debug, PartialEq, Eq)]
pub struct Row {
    /// The item's type or the reference's form; `Objc` for the root, `UnFl` for
    /// the pair of an object array.
    pub kind: Tag,
    /// The number of the parent's row; 0 for the root too.
    pub parent: usize,
    /// The place of its first byte.
    pub first: usize,
    /// How many bytes it has, its children's too.
    pub length: usize,
    /// How deep it stands; the root has 0.
    pub depth: usize,
    /// The number of its next sibling; none where it is the last child, or the root.
    pub next: Option<usize>,
}

/// A row's value by its kind.
#[derive(Clone, Copy, Debug, PartialEq)]
pub enum Value {
    /// Of a `bool`.
    Bool(bool),
    /// Of a `long`.
    Long(i32),
    /// Of a `comp`.
    Comp(i64),
    /// Of a `doub`.
    Double(f64),
    /// Of a `UntF`: its unit and its number.
    UnitDouble(Tag, f64),
    /// A row of any other kind.
    Other,
}

/// The columns of an accepted file's rows, each with a number for every row.
#[derive(Clone, Debug)]
pub struct Columns {
    /// The place of the row's first byte.
    pub first: Vec<u32>,
    /// How many bytes the row has, its children's too.
    pub length: Vec<u32>,
    /// The next sibling's number; the number of rows for a last child and the root.
    pub next: Vec<u32>,
    /// How deep the row stands; the root has 0.
    pub depth: Vec<u32>,
    /// The kind's four characters as one number.
    pub kind: Vec<u32>,
}

/// The rows of an accepted file.
#[derive(Clone, Debug)]
pub struct Rows<'a> {
    file: &'a [u8],
    columns: Columns,
    parents: Vec<u32>,
}

/// A part of the text that entries come with.
#[derive(Clone, Copy, Debug, Default, PartialEq, Eq)]
pub struct Part {
    /// The length or count field, as it is to stand in the file.
    pub count: u32,
    /// The place of its first byte in the text.
    pub first: u32,
}

/// The root or a member of a descriptor to be built. What its kind does not use is
/// neither judged nor written: docs/INTERFACE.md says which kind uses what.
#[derive(Clone, Copy, Debug, PartialEq, Eq)]
pub struct Entry {
    /// The item's type or the reference's form; `Objc` for the root, `UnFl` for
    /// the pair of an object array.
    pub kind: Tag,
    /// The key's ID, where the member is a pair.
    pub key: Part,
    /// The class's Unicode string.
    pub class_name: Part,
    /// The class's ID.
    pub class: Part,
    /// The first part: a string, an ID, data or doubles.
    pub one: Part,
    /// The second part, an ID.
    pub other: Part,
    /// The unit.
    pub unit: Tag,
    /// A number by its bits, the low 32 of a `bool` or `long`.
    pub bits: u64,
    /// How many members follow.
    pub members: u32,
    /// How many objects an object array has.
    pub objects: u32,
}

/// A text that entries come with. Each call adds a part, and gives it for an entry; none
/// is added behind 4,294,967,295 bytes, where the calls panic.
#[derive(Clone, Debug, Default)]
pub struct Text {
    bytes: Vec<u8>,
}

/// Judges a file: the number of its rows.
pub fn judge(file: &[u8]) -> Result<usize, Refusal> {
    rows(raw::judge(file))
}

/// Reads a file.
pub fn read(file: &[u8]) -> Result<Rows<'_>, Refusal> {
    let run = vec![0; judge(file)?];
    let mut columns = Columns {
        first: run.clone(),
        length: run.clone(),
        next: run.clone(),
        depth: run.clone(),
        kind: run.clone(),
    };
    rows(raw::read(file, columns.lent()))?;
    let mut parents = run;
    let answer = raw::parents(&columns.depth, &mut parents);
    Refusal::unless(answer.number, 0)?;
    Ok(Rows {
        file,
        columns,
        parents,
    })
}

/// Where the value of every row begins. It ends where its row ends.
pub fn values(file: &[u8]) -> Result<Vec<u32>, Refusal> {
    let mut values = vec![0; judge(file)?];
    rows(raw::values(file, &mut values))?;
    Ok(values)
}

/// A row's value, the part of the file after its type or form. The whole file is
/// judged first.
pub fn value_at(file: &[u8], row: usize) -> Result<&[u8], Refusal> {
    let value = raw::value(file, row);
    Refusal::unless(value.number, value.place)?;
    Ok(&file[value.first..value.first + value.length])
}

/// A row's value by its kind. The whole file is judged first.
pub fn typed_at(file: &[u8], row: usize) -> Result<Value, Refusal> {
    let typed = raw::typed(file, row);
    Refusal::unless(typed.number, typed.place)?;
    let bits = typed.bits;
    Ok(match &typed.kind.to_be_bytes() {
        b"bool" => Value::Bool(bits != 0),
        b"long" => Value::Long(bits as u32 as i32),
        b"comp" => Value::Comp(bits as i64),
        b"doub" => Value::Double(f64::from_bits(bits)),
        b"UntF" => Value::UnitDouble(Tag(typed.unit.to_be_bytes()), f64::from_bits(bits)),
        _ => Value::Other,
    })
}

/// How many bytes a descriptor takes that is built from entries: the root, then its
/// members in file order. An entry belongs to the innermost container that still wants
/// members.
pub fn build_length(entries: &[Entry], text: &[u8]) -> Result<usize, Refusal> {
    length(raw::build_length(&laid_out(entries), text))
}

/// Builds a descriptor from entries.
pub fn build(entries: &[Entry], text: &[u8]) -> Result<Vec<u8>, Refusal> {
    let numbers = laid_out(entries);
    exact(raw::build_length(&numbers, text), |out| {
        raw::build(&numbers, text, out)
    })
}

/// The entries of a file, its own bytes being their text. Building from them gives the
/// file again, so that a descriptor can be read, changed and sent back:
///
/// ```
/// use khuyurek::descriptor;
///
/// # fn main() -> Result<(), khuyurek::Refusal> {
/// # let file = b"\0\0\0\x10\0\0\0\0\0\0\0\x01a\0\0\0\x01\0\0\0\x01along\0\0\0\x07";
/// let mut entries = descriptor::entries(file)?;
/// assert_eq!(descriptor::build(&entries, file)?, file);
/// for entry in &mut entries {
///     if entry.kind == descriptor::Tag(*b"long") {
///         entry.bits = 8;
///     }
/// }
/// let changed = descriptor::build(&entries, file)?;
/// assert_eq!(descriptor::typed_at(&changed, 1)?, descriptor::Value::Long(8));
/// # Ok(())
/// # }
/// ```
///
/// A new part is a part of a longer text: the file and behind it what a [`Text`] holds,
/// its places counted from the file's end.
pub fn entries(file: &[u8]) -> Result<Vec<Entry>, Refusal> {
    let mut numbers = vec![0; ENTRY * judge(file)?];
    rows(raw::entries(file, &mut numbers))?;
    let entry = |row: &[u32]| Entry::from_numbers(row.try_into().expect("16 numbers a row"));
    Ok(numbers.chunks_exact(ENTRY).map(entry).collect())
}

fn laid_out(entries: &[Entry]) -> Vec<u32> {
    entries.iter().flat_map(|entry| entry.numbers()).collect()
}

fn rows(answer: raw::Answer) -> Result<usize, Refusal> {
    Refusal::unless(answer.number, answer.place)?;
    Ok(answer.rows)
}

impl<'a> Rows<'a> {
    /// How many rows there are, never none.
    #[allow(clippy::len_without_is_empty)]
    pub fn len(&self) -> usize {
        self.parents.len()
    }

    /// The rows in file order.
    pub fn iter(&self) -> impl ExactSizeIterator<Item = Row> + '_ {
        (0..self.len()).map(|row| self.row(row))
    }

    /// A row by its number, from 0.
    pub fn get(&self, row: usize) -> Option<Row> {
        (row < self.len()).then(|| self.row(row))
    }

    fn row(&self, row: usize) -> Row {
        let next = self.columns.next[row] as usize;
        Row {
            kind: Tag(self.columns.kind[row].to_be_bytes()),
            parent: self.parents[row] as usize,
            first: self.columns.first[row] as usize,
            length: self.columns.length[row] as usize,
            depth: self.columns.depth[row] as usize,
            next: (next < self.len()).then_some(next),
        }
    }

    /// All bytes of a row, a part of the file.
    pub fn bytes(&self, row: &Row) -> Option<&'a [u8]> {
        self.file.get(row.first..)?.get(..row.length)
    }

    /// The columns.
    pub fn columns(&self) -> &Columns {
        &self.columns
    }

    /// Which row has each of some keys, IDs one after another, as a pair of the root:
    /// the first, if any. A key that is cut is refused, with its place in `keys`.
    pub fn find(&self, keys: &[u8]) -> Result<Vec<Option<usize>>, Refusal> {
        // A key takes five bytes at least.
        let mut answers = vec![0; keys.len() / 5];
        let found = raw::find(self.file, self.columns.read(), keys, &mut answers);
        Refusal::unless(found.number, found.place)?;
        answers.truncate(found.keys);
        let row = |row: u32| row as usize;
        Ok(answers
            .into_iter()
            .map(|answer| (row(answer) < self.len()).then_some(row(answer)))
            .collect())
    }

    /// The file with the value of a row replaced by one of the same kind.
    pub fn replace(&self, row: usize, value: Value) -> Result<Vec<u8>, Refusal> {
        let mut out = vec![0; self.file.len()];
        let written = raw::replace(self.file, self.columns.read(), row, given(value), &mut out);
        Refusal::unless(written.number, 0)?;
        Ok(out)
    }
}

fn given(value: Value) -> raw::Replacement {
    let of = |kind: &[u8; 4], unit: u32, bits: u64| raw::Replacement {
        kind: u32::from_be_bytes(*kind),
        unit,
        bits,
    };
    match value {
        Value::Bool(flag) => of(b"bool", 0, flag.into()),
        Value::Long(number) => of(b"long", 0, (number as u32).into()),
        Value::Comp(number) => of(b"comp", 0, number as u64),
        Value::Double(number) => of(b"doub", 0, number.to_bits()),
        Value::UnitDouble(unit, number) => {
            of(b"UntF", u32::from_be_bytes(unit.0), number.to_bits())
        }
        Value::Other => of(&[0; 4], 0, 0),
    }
}

impl Entry {
    /// An entry of a kind, and zeros.
    pub fn new(kind: &[u8; 4]) -> Entry {
        let mut numbers = [0; ENTRY];
        numbers[0] = u32::from_be_bytes(*kind);
        Entry::from_numbers(numbers)
    }

    /// The numbers, as [`raw::build`](fn@raw::build) takes them.
    pub fn numbers(&self) -> [u32; ENTRY] {
        let tag = |tag: Tag| u32::from_be_bytes(tag.0);
        [
            tag(self.kind),
            self.key.count,
            self.key.first,
            self.class_name.count,
            self.class_name.first,
            self.class.count,
            self.class.first,
            self.one.count,
            self.one.first,
            self.other.count,
            self.other.first,
            tag(self.unit),
            (self.bits >> 32) as u32,
            self.bits as u32,
            self.members,
            self.objects,
        ]
    }

    /// The entry of some numbers.
    pub fn from_numbers(numbers: [u32; ENTRY]) -> Entry {
        let tag = |i: usize| Tag(numbers[i].to_be_bytes());
        let part = |i: usize| Part {
            count: numbers[i],
            first: numbers[i + 1],
        };
        Entry {
            kind: tag(0),
            key: part(1),
            class_name: part(3),
            class: part(5),
            one: part(7),
            other: part(9),
            unit: tag(11),
            bits: u64::from(numbers[12]) << 32 | u64::from(numbers[13]),
            members: numbers[14],
            objects: numbers[15],
        }
    }
}

impl Text {
    /// A text without a part.
    pub fn new() -> Text {
        Text::default()
    }

    /// An ID of four characters, whose length field is 0.
    pub fn char_id(&mut self, id: &[u8; 4]) -> Part {
        self.add(0, id)
    }

    /// An ID by its bytes.
    ///
    /// # Panics
    ///
    /// Where there are none: a length field of 0 is that of four characters.
    pub fn string_id(&mut self, id: &[u8]) -> Part {
        assert!(!id.is_empty(), "an ID has a byte at least");
        self.add(id.len(), id)
    }

    /// A Unicode string; its closing zero is added.
    pub fn string(&mut self, string: &str) -> Part {
        let mut units = Units::encode(string);
        units.extend([0; 2]);
        self.add(units.len() / 2, &units)
    }

    /// Data.
    pub fn data(&mut self, bytes: &[u8]) -> Part {
        self.add(bytes.len(), bytes)
    }

    /// Doubles, one for each object of an array.
    pub fn doubles(&mut self, doubles: &[f64]) -> Part {
        let bytes: Vec<u8> = doubles.iter().flat_map(|d| d.to_be_bytes()).collect();
        self.add(doubles.len(), &bytes)
    }

    /// The bytes.
    pub fn bytes(&self) -> &[u8] {
        &self.bytes
    }

    // A count that 32 bits cannot hold is given as the largest: such a part is past
    // the limit anyhow, which is judged first.
    fn add(&mut self, count: usize, bytes: &[u8]) -> Part {
        let first = u32::try_from(self.bytes.len()).expect("a place has 32 bits");
        self.bytes.extend_from_slice(bytes);
        Part {
            count: held(count),
            first,
        }
    }
}

impl Columns {
    fn read(&self) -> raw::Table<'_> {
        raw::Table {
            first: &self.first,
            length: &self.length,
            next: &self.next,
            depth: &self.depth,
            kind: &self.kind,
        }
    }

    fn lent(&mut self) -> raw::Columns<'_> {
        raw::Columns {
            first: &mut self.first,
            length: &mut self.length,
            next: &mut self.next,
            depth: &mut self.depth,
            kind: &mut self.kind,
        }
    }
}

impl Display for Tag {
    fn fmt(&self, f: &mut Formatter<'_>) -> fmt::Result {
        let mut shown = self.0.trim_ascii_end().iter();
        shown.try_for_each(|&byte| f.write_char(byte.into()))
    }
}

impl Debug for Tag {
    fn fmt(&self, f: &mut Formatter<'_>) -> fmt::Result {
        write!(f, "`{}`", self.0.escape_ascii())
    }
}
