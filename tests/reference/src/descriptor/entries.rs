//! The entries of a file, its own bytes being the text.

use super::entry::{at, Entry, ENTRY_LEN};
use super::layout::{form, item, CHARACTERS, DOUBLE_LEN, UNIT_DOUBLES};
use super::reader::judge;
use super::rows::{Head, Rows};
use super::walk::walk;
use crate::cursor::Cursor;
use crate::name::bytes_of;
use crate::refusal::{number, Fault, Refusal};

/// A type or form; of the root the version stands in its place.
const KIND_LEN: usize = 4;

/// Judges the file, then fills in an entry for each row, and gives the number of
/// rows. What a kind does not use is 0. Nothing changes on a refusal, nor past the
/// entries.
pub fn entries(file: &[u8], entries: &mut [u32]) -> Result<usize, Refusal> {
    let count = judge(file)?;
    let (entries, _) = entries.as_chunks_mut::<ENTRY_LEN>();
    let entries = entries
        .get_mut(..count)
        .ok_or(Refusal::of_call(number::NO_ROOM))?;
    walk(
        file,
        &mut Fill {
            file,
            entries,
            next: 0,
        },
    )?;
    Ok(count)
}

struct Fill<'a> {
    file: &'a [u8],
    entries: &'a mut [Entry],
    next: u32,
}

impl Rows for Fill<'_> {
    /// All that an entry says stands in the row's head, which was judged.
    #[inline(always)]
    fn open(&mut self, head: Head) -> u32 {
        let row = self.next;
        self.next += 1;
        let entry = &mut self.entries[row as usize];
        *entry = [0; ENTRY_LEN];
        entry[at::KIND] = head.kind;
        let mut filling = Filling {
            cursor: Cursor::at(self.file, head.first),
            entry,
        };
        // The root, and what stands in a list or a reference, has no key before its
        // type or form, or the version.
        if head.value > head.first + KIND_LEN {
            judged(filling.id(at::KEY));
        }
        judged(filling.cursor.take_u32());
        judged(filling.value(head.kind));
        row
    }

    #[inline(always)]
    fn close(&mut self, _: u32, _: usize, _: usize) {}
}

fn judged<T>(field: Result<T, Fault>) -> T {
    field.unwrap_or_else(|_| panic!("a judged file has all fields"))
}

/// An entry that is being filled, and the file at its row.
struct Filling<'a> {
    cursor: Cursor<'a>,
    entry: &'a mut Entry,
}

impl Filling<'_> {
    #[inline(always)]
    fn value(&mut self, kind: u32) -> Result<(), Fault> {
        match kind {
            item::BOOL => {
                let [byte] = self.cursor.take()?;
                self.entry[at::LOW] = u32::from(byte);
                Ok(())
            }
            item::LONG => self.word(at::LOW),
            item::LARGE | item::DOUBLE => self.bits(),
            item::UNIT_DOUBLE => {
                self.word(at::UNIT)?;
                self.bits()
            }
            item::TYPE | item::GLOBAL_CLASS | form::CLASS => self.class(),
            item::ENUMERATED => self.enumerated(),
            item::ALIAS | item::PATH | item::RAW => self.part(at::FIRST, u64::from),
            item::TEXT => self.string(at::FIRST),
            item::LIST | item::REFERENCE => self.word(at::MEMBERS),
            item::OBJECT | item::GLOBAL_OBJECT => {
                self.class()?;
                self.word(at::MEMBERS)
            }
            item::OBJECT_ARRAY => {
                self.word(at::OBJECTS)?;
                self.class()?;
                self.word(at::MEMBERS)
            }
            UNIT_DOUBLES => {
                self.word(at::UNIT)?;
                self.part(at::FIRST, |count| DOUBLE_LEN as u64 * u64::from(count))
            }
            form::ENUMERATED => {
                self.class()?;
                self.enumerated()
            }
            form::NAME => {
                self.class()?;
                self.string(at::FIRST)
            }
            form::PROPERTY => {
                self.class()?;
                self.id(at::FIRST)
            }
            // The forms with a number.
            _ => {
                self.class()?;
                self.word(at::LOW)
            }
        }
    }

    #[inline(always)]
    fn word(&mut self, at: usize) -> Result<(), Fault> {
        self.entry[at] = self.cursor.take_u32()?;
        Ok(())
    }

    #[inline(always)]
    fn bits(&mut self) -> Result<(), Fault> {
        self.word(at::HIGH)?;
        self.word(at::LOW)
    }

    #[inline(always)]
    fn class(&mut self) -> Result<(), Fault> {
        self.string(at::CLASS_NAME)?;
        self.id(at::CLASS_ID)
    }

    #[inline(always)]
    fn enumerated(&mut self) -> Result<(), Fault> {
        self.id(at::FIRST)?;
        self.id(at::SECOND)
    }

    #[inline(always)]
    fn id(&mut self, at: usize) -> Result<(), Fault> {
        self.part(at, |length| match length {
            0 => u64::from(CHARACTERS),
            length => u64::from(length),
        })
    }

    #[inline(always)]
    fn string(&mut self, at: usize) -> Result<(), Fault> {
        self.part(at, bytes_of)
    }

    /// The length or count, and the place of the body, where none of no bytes
    /// would begin too.
    #[inline(always)]
    fn part(&mut self, at: usize, len: impl Fn(u32) -> u64) -> Result<(), Fault> {
        self.word(at)?;
        // A file's places fit 32 bits, since its length does.
        self.entry[at + 1] = self.cursor.place() as u32;
        self.cursor.take_run(len(self.entry[at])).map(|_| ())
    }
}
