//! Listings as JSON: the pairs of a file's object. docs/COMMAND.md has the fields.

use crate::colours::{colour_pairs, ink, name_pairs, space, swatch_pairs};
use crate::held::Held;
use crate::json::Object;
use crate::refusals::hex;
use crate::text::characters;
use crate::values::{member, Member, Value};
use khuyurek::descriptor::{self, Rows};
use khuyurek::{acb, aco, ase, resource, Units};
use std::io;

pub fn write(bytes: &[u8], held: &Held<'_>, object: &mut Object<'_>) -> io::Result<()> {
    match held {
        Held::Aco(palette) => swatches(palette, object),
        Held::Ase(palette) => blocks(palette, object),
        Held::Acb(book) => records(book, object),
        Held::Descriptor(rows) => members(bytes, rows, object),
        Held::Resource(section, first) => resources(section, *first, object),
    }
}

fn swatches(palette: &aco::Palette<'_>, object: &mut Object<'_>) -> io::Result<()> {
    let mut array = object.array("colours")?;
    for swatch in palette.iter() {
        let mut object = array.object()?;
        swatch_pairs(&swatch, &mut object)?;
        object.text("ink", ink(swatch.ink))?;
        object.end()?;
    }
    array.end()
}

fn blocks(palette: &ase::Palette<'_>, object: &mut Object<'_>) -> io::Result<()> {
    let mut array = object.array("blocks")?;
    let mut depth = 0;
    for block in palette.iter() {
        let mut object = array.object()?;
        match block {
            ase::Block::Start(name) => {
                object.text("type", "group")?;
                object.plain("depth", depth)?;
                name_pairs("name", name, &mut object)?;
                depth += 1;
            }
            ase::Block::Stop => {
                depth -= 1;
                object.text("type", "end")?;
                object.plain("depth", depth)?;
            }
            ase::Block::Colour(colour) => {
                object.text("type", "colour")?;
                object.plain("depth", depth)?;
                colour_pairs(&colour, &mut object)?;
            }
        }
        object.end()?;
    }
    array.end()
}

fn records(book: &acb::Book<'_>, object: &mut Object<'_>) -> io::Result<()> {
    let header = book.header();
    object.plain("identifier", header.identifier)?;
    object.plain("page_size", header.page_size)?;
    object.plain("page_offset", header.page_offset)?;
    object.text("space", space(header.space))?;
    match header.tag {
        None => object.plain("tag", "null")?,
        Some(acb::Tag::Spot) => object.text("tag", "spot")?,
        Some(acb::Tag::Process) => object.text("tag", "process")?,
    }
    let texts = [
        ("title", header.title),
        ("prefix", header.prefix),
        ("suffix", header.suffix),
        ("description", header.description),
    ];
    for (key, text) in texts {
        name_pairs(key, acb::shown_text(text), object)?;
    }
    let mut array = object.array("records")?;
    for record in book.iter() {
        let mut object = array.object()?;
        record_pairs(book, &record, &mut object)?;
        object.text("code", &hex(&record.code, ""))?;
        let stored = &record.components[..header.space.count()];
        object.numbers("components", stored.iter())?;
        object.text("ink", ink(record.ink))?;
        object.plain("dummy", record.is_dummy())?;
        object.end()?;
    }
    array.end()?;
    let pages = book.samples().map(|sample| match sample {
        Some(sample) => sample.to_string(),
        None => "null".to_string(),
    });
    object.numbers("pages", pages)
}

/// The names of a book's record, and its components as they are shown.
pub fn record_pairs(
    book: &acb::Book<'_>,
    record: &acb::Swatch<'_>,
    object: &mut Object<'_>,
) -> io::Result<()> {
    name_pairs("name", record.name, object)?;
    name_pairs("full_name", Units::new(&book.full_name(record)), object)?;
    object.numbers("shown", book.shown(record).values().iter())
}

fn members(file: &[u8], rows: &Rows<'_>, object: &mut Object<'_>) -> io::Result<()> {
    let values = descriptor::values(file).expect("the values of an accepted file are placed");
    let mut array = object.array("rows")?;
    for (row, value) in rows.iter().zip(values) {
        let mut object = array.object()?;
        object.text("kind", &characters(&row.kind.0))?;
        object.plain("parent", row.parent)?;
        object.plain("first", row.first)?;
        object.plain("length", row.length)?;
        object.plain("depth", row.depth)?;
        let Member { key, value } = member(file, &row, value as usize);
        if let Some(key) = key {
            object.text("key", &characters(key))?;
        }
        match value {
            Value::Bool(flag) => object.plain("value", flag)?,
            Value::Whole(number) => object.plain("value", number)?,
            Value::Double(number) => object.plain("value", format!("{number:?}"))?,
            Value::Measure(unit, number) => {
                object.plain("value", format!("{number:?}"))?;
                object.text("unit", &characters(&unit.0))?;
            }
            Value::Text(text) => name_pairs("value", text, &mut object)?,
            Value::Enumerated(of, value) => {
                object.text("value", &characters(value))?;
                object.text("type", &characters(of))?;
            }
            Value::Class(class) => object.text("class", &characters(class))?,
            Value::Data(_) | Value::Other => {}
        }
        object.end()?;
    }
    array.end()
}

fn resources(
    section: &resource::Section<'_>,
    first: usize,
    object: &mut Object<'_>,
) -> io::Result<()> {
    let rows = section.numbers().chunks_exact(resource::WIDTH);
    let mut array = object.array("blocks")?;
    for (block, row) in section.iter().zip(rows) {
        let mut object = array.object()?;
        object.plain("id", block.id)?;
        object.text("name", &characters(block.name))?;
        object.plain("place", first + row[3] as usize)?;
        object.plain("length", row[4])?;
        object.end()?;
    }
    array.end()
}
