//! Listings for people.

use crate::colours::{colour, ink, space, swatch};
use crate::held::Held;
use crate::text::{many, quoted, quoted_bytes};
use crate::values::{member, Member, Value};
use khuyurek::descriptor::{self, Rows};
use khuyurek::{acb, ase, resource, Units};
use std::io::{self, Write};

/// A line for each record, below a heading.
pub fn write(bytes: &[u8], held: &Held<'_>, out: &mut dyn Write) -> io::Result<()> {
    match held {
        Held::Aco(palette) => palette
            .iter()
            .enumerate()
            .try_for_each(|(index, colour)| writeln!(out, "{index} {}", swatch(&colour))),
        Held::Ase(palette) => blocks(palette, out),
        Held::Acb(book) => records(book, out),
        Held::Descriptor(rows) => members(bytes, rows, out),
        Held::Resource(section, first) => resources(section, *first, out),
    }
}

/// Blocks by their numbers; what stands in a group is indented, and its end shows by
/// that.
fn blocks(palette: &ase::Palette<'_>, out: &mut dyn Write) -> io::Result<()> {
    let mut indent = 0;
    for (index, block) in palette.iter().enumerate() {
        match block {
            ase::Block::Start(name) => {
                writeln!(out, "{index} {:indent$}group {}", "", quoted(name))?;
                indent += 2;
            }
            ase::Block::Stop => indent -= 2,
            ase::Block::Colour(found) => {
                let (words, ink) = (colour(&found), ink(found.ink));
                writeln!(out, "{index} {:indent$}{words} {ink}", "")?;
            }
        }
    }
    Ok(())
}

fn records(book: &acb::Book<'_>, out: &mut dyn Write) -> io::Result<()> {
    let header = book.header();
    let tag = match header.tag {
        None => "not stated",
        Some(acb::Tag::Spot) => "spot",
        Some(acb::Tag::Process) => "process",
    };
    let (identifier, size) = (header.identifier, header.page_size);
    let pages = many(book.pages(), "page");
    writeln!(out, "identifier {identifier}, ink {tag}, {pages} of {size}")?;
    let texts = [
        ("title", header.title),
        ("prefix", header.prefix),
        ("suffix", header.suffix),
        ("description", header.description),
    ];
    for (what, text) in texts {
        writeln!(out, "{what} {}", quoted(acb::shown_text(text)))?;
    }
    let size = usize::from(size);
    for (index, record) in book.iter().enumerate() {
        if index % size == 0 {
            let page = index / size;
            match book.sample(page) {
                Some(sample) => writeln!(out, "page {page}, shown by {sample}")?,
                None => writeln!(out, "page {page}, of dummies alone")?,
            }
        }
        let code = quoted_bytes(&record.code);
        if record.is_dummy() {
            writeln!(out, "{index} dummy code {code}")?;
        } else {
            writeln!(out, "{index} {} code {code}", record_words(book, &record))?;
        }
    }
    Ok(())
}

/// A record of a book: its full name, the space, and the components as they are shown.
pub fn record_words(book: &acb::Book<'_>, record: &acb::Swatch<'_>) -> String {
    let name = book.full_name(record);
    let values = book.shown(record);
    let values: Vec<String> = values.values().iter().map(i32::to_string).collect();
    let space = space(book.header().space);
    format!("{} {space} {}", quoted(Units::new(&name)), values.join(" "))
}

/// Rows by their numbers, indented by their depths.
fn members(file: &[u8], rows: &Rows<'_>, out: &mut dyn Write) -> io::Result<()> {
    let values = descriptor::values(file).expect("the values of an accepted file are placed");
    for ((index, row), value) in rows.iter().enumerate().zip(values) {
        let indent = 2 * row.depth;
        write!(out, "{index} {:indent$}", "")?;
        let Member { key, value } = member(file, &row, value as usize);
        if let Some(key) = key {
            write!(out, "{}: ", key.trim_ascii_end().escape_ascii())?;
        }
        write!(out, "{}", row.kind)?;
        match value {
            Value::Bool(flag) => write!(out, " {flag}")?,
            Value::Whole(number) => write!(out, " {number}")?,
            Value::Double(number) => write!(out, " {number:?}")?,
            Value::Measure(unit, number) => write!(out, " {number:?} {unit}")?,
            Value::Text(text) => write!(out, " {}", quoted(text))?,
            Value::Enumerated(of, value) => {
                let [of, value] = [of, value].map(|id| id.trim_ascii_end().escape_ascii());
                write!(out, " {of} {value}")?;
            }
            Value::Class(class) => {
                write!(out, " {}", class.trim_ascii_end().escape_ascii())?;
            }
            Value::Data(length) => write!(out, " {}", many(length, "byte"))?,
            Value::Other => {}
        }
        writeln!(out)?;
    }
    Ok(())
}

fn resources(section: &resource::Section<'_>, first: usize, out: &mut dyn Write) -> io::Result<()> {
    let rows = section.numbers().chunks_exact(resource::WIDTH);
    for ((index, block), row) in section.iter().enumerate().zip(rows) {
        let (name, length) = (quoted_bytes(block.name), many(block.data.len(), "byte"));
        let place = first + row[3] as usize;
        writeln!(out, "{index} {} {name} {length} at {place}", block.id)?;
    }
    Ok(())
}
