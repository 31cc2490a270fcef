//! ACB colour books.
//!
//! ```
//! use khuyurek::{acb, Units};
//!
//! # fn main() -> Result<(), khuyurek::Refusal> {
//! # let path = concat!(env!("CARGO_MANIFEST_DIR"), "/../../examples/files/book.acb");
//! let file = std::fs::read(path).expect("the file is there");
//! let book = acb::read(&file)?;
//! for swatch in book.iter().filter(|swatch| !swatch.is_dummy()) {
//!     let name = book.full_name(&swatch);
//!     println!("{} {:?}", Units::new(&name), book.shown(&swatch).values());
//! }
//! // A colour by its name, through an index that may be kept.
//! let index = acb::index(&file)?;
//! let name: Vec<u16> = "Warm 2".encode_utf16().collect();
//! assert_eq!(acb::find(&file, &index, &name)?, 1);
//! assert_eq!(acb::find(&file, &index, &name[1..]).unwrap_err().number, 12);
//! # Ok(())
//! # }
//! ```

use crate::raw::acb as raw;
use crate::text::{exact, length, Text};
use crate::{Ink, Refusal, Space, Units};

/// How many numbers a record has in a table.
pub const WIDTH: usize = 13;

/// What stands before the records, and the closing tag.
#[derive(Clone, Copy, Debug, PartialEq, Eq)]
pub struct Header<'a> {
    /// The book's identifier.
    pub identifier: u16,
    /// How many records a page has.
    pub page_size: u16,
    /// Which record of a page is its sample.
    pub page_offset: u16,
    /// The space of all records: RGB, CMYK or Lab.
    pub space: Space,
    /// The closing tag.
    pub tag: Option<Tag>,
    /// The title. Here and below the whole string; [`shown_text`] gives the part
    /// to show.
    pub title: Units<'a>,
    /// What stands before each name.
    pub prefix: Units<'a>,
    /// What stands after each name.
    pub suffix: Units<'a>,
    /// The description.
    pub description: Units<'a>,
}

/// The closing tag of a book.
#[derive(Clone, Copy, Debug, PartialEq, Eq, Hash)]
pub enum Tag {
    /// `spflspot`.
    Spot,
    /// `spflproc`.
    Process,
}

/// A record: a dummy where its name is empty.
#[derive(Clone, Copy, Debug, PartialEq, Eq)]
pub struct Swatch<'a> {
    /// The name, without prefix and suffix.
    pub name: Units<'a>,
    /// The code bytes.
    pub code: [u8; 6],
    /// The components as stored; the fourth is 0 save in CMYK.
    pub components: [u8; 4],
    /// The ink that the book's closing tag states.
    pub ink: Ink,
}

/// What the components of a record show.
#[derive(Clone, Copy, Debug, PartialEq, Eq)]
pub struct Shown {
    count: usize,
    values: [i32; 4],
}

/// The records of an accepted book, in a table of the exact length.
#[derive(Clone, Debug)]
pub struct Book<'a> {
    file: &'a [u8],
    lies: raw::Header,
    header: Header<'a>,
    /// The shown texts of prefix and suffix, looked for once.
    around: [Units<'a>; 2],
    table: Vec<u32>,
}

/// Judges a file: the number of its records, and its header.
pub fn judge(file: &[u8]) -> Result<(usize, Header<'_>), Refusal> {
    accepted(file, raw::judge(file))
}

/// Reads a file.
pub fn read(file: &[u8]) -> Result<Book<'_>, Refusal> {
    let (count, _) = judge(file)?;
    let mut table = vec![0; WIDTH * count];
    let answer = raw::read(file, &mut table);
    let (_, header) = accepted(file, answer)?;
    Ok(Book {
        file,
        lies: answer.header,
        header,
        around: [header.prefix, header.suffix].map(shown_text),
        table,
    })
}

/// A record by its number, from 0. The whole file is judged first.
pub fn record_at(file: &[u8], index: usize) -> Result<Swatch<'_>, Refusal> {
    let r = raw::record(file, index);
    Refusal::unless(r.number, r.place)?;
    Ok(Swatch {
        name: Units::lying(file, r.name, r.units),
        code: r.code,
        components: r.components,
        ink: Ink::known(r.ink),
    })
}

/// What the components of a record show. The whole file is judged first; of a
/// book that was read, [`Book::shown`] gives the same.
pub fn shown_at(file: &[u8], index: usize) -> Result<Shown, Refusal> {
    let shown = raw::shown(file, index);
    Refusal::unless(shown.number, shown.place)?;
    Ok(Shown {
        count: shown.count as usize,
        values: shown.values,
    })
}

/// The length in bytes of a record's full name. The whole file is judged first.
pub fn full_length(file: &[u8], index: usize) -> Result<usize, Refusal> {
    full(raw::full_length(file, index))
}

/// A record's full name, as the bytes of its units: the prefix's text, the name
/// and the suffix's text. The whole file is judged first.
pub fn full_name(file: &[u8], index: usize) -> Result<Vec<u8>, Refusal> {
    let mut out = vec![0; full_length(file, index)?];
    full(raw::full_name(file, index, &mut out))?;
    Ok(out)
}

/// The number of the record that a page shows: 12 where there is no such page,
/// or where it holds dummies alone. The whole file is judged first; of a book
/// that was read, [`Book::sample`] gives the same.
pub fn page_at(file: &[u8], page: usize) -> Result<usize, Refusal> {
    let page = raw::page(file, page);
    Refusal::unless(page.number, page.place)?;
    Ok(page.record)
}

/// The index of a book by the names of its records: the numbers of those that
/// are no dummies, unit by unit as numbers, a shorter name before a longer one
/// that begins with it, and equal names by number.
pub fn index(file: &[u8]) -> Result<Vec<u32>, Refusal> {
    let (count, _) = judge(file)?;
    let mut index = vec![0; count];
    let built = raw::index(file, &mut index);
    Refusal::unless(built.number, built.place)?;
    index.truncate(built.shown);
    Ok(index)
}

/// The lowest record of a name, without prefix and suffix, that is no dummy: 12
/// where none has it. The whole file is judged first, and the index compared
/// with it: 5 unless it begins with the file's.
pub fn find(file: &[u8], index: &[u32], name: &[u16]) -> Result<usize, Refusal> {
    let found = raw::find(file, index, name);
    Refusal::unless(found.number, found.place)?;
    Ok(found.record)
}

/// The part of a header's string that is shown: what stands after the first `=`
/// where it begins with `$$$/` and holds one, else all of it.
pub fn shown_text(string: Units<'_>) -> Units<'_> {
    let bytes = string.bytes();
    Units::new(&bytes[raw::shown_start(bytes)..])
}

fn accepted(file: &[u8], answer: raw::Answer) -> Result<(usize, Header<'_>), Refusal> {
    Refusal::unless(answer.number, answer.place)?;
    let header = answer.header;
    let string = |text: raw::Text| Units::lying(file, text.place, text.units);
    let header = Header {
        identifier: header.identifier,
        page_size: header.page_size,
        page_offset: header.page_offset,
        space: Space::known(header.space),
        tag: match header.tag {
            0 => None,
            1 => Some(Tag::Spot),
            2 => Some(Tag::Process),
            _ => unreachable!("an accepted book has a known tag or none"),
        },
        title: string(header.title),
        prefix: string(header.prefix),
        suffix: string(header.suffix),
        description: string(header.description),
    };
    Ok((answer.count, header))
}

fn full(full: raw::Full) -> Result<usize, Refusal> {
    Refusal::unless(full.number, full.place)?;
    Ok(full.length)
}

impl Shown {
    /// What is shown, a number for each component: percents in CMYK, the
    /// lightness in percent and signed a and b in Lab, the bytes in RGB.
    pub fn values(&self) -> &[i32] {
        &self.values[..self.count]
    }
}

impl<'a> Swatch<'a> {
    /// Whether it only fills a place on its page.
    pub fn is_dummy(&self) -> bool {
        self.name.is_empty()
    }
}

impl<'a> Book<'a> {
    /// How many records there are, dummies too.
    pub fn len(&self) -> usize {
        self.table.len() / WIDTH
    }

    /// Whether there is no record.
    pub fn is_empty(&self) -> bool {
        self.table.is_empty()
    }

    /// The header.
    pub fn header(&self) -> &Header<'a> {
        &self.header
    }

    /// How many pages there are.
    pub fn pages(&self) -> usize {
        self.len().div_ceil(self.header.page_size.into())
    }

    /// The records in file order.
    pub fn iter(&self) -> impl ExactSizeIterator<Item = Swatch<'a>> + '_ {
        let rows = self.table.chunks_exact(WIDTH);
        rows.map(|row| self.swatch(row))
    }

    /// A record by its number, from 0.
    pub fn get(&self, index: usize) -> Option<Swatch<'a>> {
        let row = self.table.chunks_exact(WIDTH).nth(index)?;
        Some(self.swatch(row))
    }

    /// What the components of a record show, without judging the file again.
    pub fn shown(&self, swatch: &Swatch<'_>) -> Shown {
        let space = self.header.space;
        let count = space.count();
        let mut values = [0; 4];
        for (i, value) in values.iter_mut().enumerate().take(count) {
            *value = raw::shown_component(space.number(), i, swatch.components[i]);
        }
        Shown { count, values }
    }

    /// A record's full name, as [`full_name`] gives it, without judging the file
    /// again.
    pub fn full_name(&self, swatch: &Swatch<'_>) -> Vec<u8> {
        let [prefix, suffix] = self.around;
        [prefix, swatch.name, suffix]
            .map(|part| part.bytes())
            .concat()
    }

    /// The number of the record that a page shows, without judging the file
    /// again: none where there is no such page, or where it holds dummies alone.
    pub fn sample(&self, page: usize) -> Option<usize> {
        let (size, offset) = (self.header.page_size, self.header.page_offset);
        let page = raw::page_in(&self.table, self.len(), size, offset, page);
        (page.number == 0).then_some(page.record)
    }

    /// The samples of all pages, in their order.
    pub fn samples(&self) -> impl ExactSizeIterator<Item = Option<usize>> + '_ {
        (0..self.pages()).map(|page| self.sample(page))
    }

    /// The table, as [`raw::write`](fn@raw::write) takes it with the file.
    pub fn numbers(&self) -> &[u32] {
        &self.table
    }

    /// The file written back: the same bytes.
    pub fn write(&self) -> Result<Vec<u8>, Refusal> {
        write_numbers(self.lies, &self.table, self.file)
    }

    fn swatch(&self, row: &[u32]) -> Swatch<'a> {
        Swatch {
            name: Units::lying(self.file, row[0] as usize, row[1]),
            code: [2, 3, 4, 5, 6, 7].map(|i| row[i] as u8),
            components: [8, 9, 10, 11].map(|i| row[i] as u8),
            ink: Ink::known(row[12]),
        }
    }
}

/// How many bytes writing takes.
pub fn write_length(header: &Header<'_>, swatches: &[Swatch<'_>]) -> Result<usize, Refusal> {
    let (header, numbers, text) = laid_out(header, swatches);
    length(raw::length(header, &numbers, &text))
}

/// Writes a file.
pub fn write(header: &Header<'_>, swatches: &[Swatch<'_>]) -> Result<Vec<u8>, Refusal> {
    let (header, numbers, text) = laid_out(header, swatches);
    write_numbers(header, &numbers, &text)
}

fn laid_out(header: &Header<'_>, swatches: &[Swatch<'_>]) -> (raw::Header, Vec<u32>, Vec<u8>) {
    let mut numbers = Vec::with_capacity(WIDTH * swatches.len());
    let mut text = Text::default();
    let mut string = |units: Units<'_>| {
        let [place, units] = text.add(units);
        raw::Text {
            place: place as usize,
            units,
        }
    };
    let header = raw::Header {
        identifier: header.identifier,
        page_size: header.page_size,
        page_offset: header.page_offset,
        space: header.space.number(),
        tag: match header.tag {
            None => 0,
            Some(Tag::Spot) => 1,
            Some(Tag::Process) => 2,
        },
        title: string(header.title),
        prefix: string(header.prefix),
        suffix: string(header.suffix),
        description: string(header.description),
    };
    for swatch in swatches {
        numbers.extend(text.add(swatch.name));
        numbers.extend(swatch.code.map(u32::from));
        numbers.extend(swatch.components.map(u32::from));
        numbers.push(swatch.ink.number());
    }
    (header, numbers, text.0)
}

fn write_numbers(header: raw::Header, numbers: &[u32], text: &[u8]) -> Result<Vec<u8>, Refusal> {
    exact(raw::length(header, numbers, text), |out| {
        raw::write(header, numbers, text, out)
    })
}
