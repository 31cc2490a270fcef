//! Listings in the listing programs' own bytes; docs/LISTINGS.md has their forms. What
//! is longer than those programs take is listed in the same form.

use crate::colours::{ink, model};
use crate::held::Held;
use crate::refusals::hex;
use crate::text::unit_digits;
use khuyurek::{acb, aco, ase, descriptor, resource, Refusal, Units};
use std::io::{self, Write};

pub fn write(held: &Held<'_>, out: &mut dyn Write) -> io::Result<()> {
    match held {
        Held::Aco(palette) => swatches(palette, out),
        Held::Ase(palette) => blocks(palette, out),
        Held::Acb(book) => records(book, out),
        Held::Descriptor(rows) => members(rows, out),
        Held::Resource(section, first) => resources(section, *first, out),
    }?;
    writeln!(out, "end")
}

pub fn refused(refusal: &Refusal, out: &mut dyn Write) -> io::Result<()> {
    writeln!(out, "refused {} at {}", refusal.number, refusal.place)
}

fn or_dash(digits: String) -> String {
    if digits.is_empty() {
        "-".to_string()
    } else {
        digits
    }
}

fn name(units: Units<'_>) -> String {
    or_dash(unit_digits(units))
}

fn swatches(palette: &aco::Palette<'_>, out: &mut dyn Write) -> io::Result<()> {
    let names = if palette.lists() == 2 {
        "names"
    } else {
        "plain"
    };
    writeln!(out, "ACO {} {names}", palette.len())?;
    for (index, swatch) in palette.iter().enumerate() {
        let (space, [a, b, c, d]) = (swatch.space.number(), swatch.samples);
        writeln!(out, "{index} {space} {a} {b} {c} {d} {}", name(swatch.name))?;
    }
    Ok(())
}

fn blocks(palette: &ase::Palette<'_>, out: &mut dyn Write) -> io::Result<()> {
    writeln!(out, "ASE {}", palette.len())?;
    for (index, block) in palette.iter().enumerate() {
        match block {
            ase::Block::Start(group) => writeln!(out, "{index} group {}", name(group))?,
            ase::Block::Stop => writeln!(out, "{index} close")?,
            ase::Block::Colour(colour) => {
                let channels = colour.channels;
                write!(out, "{index} colour {}", model(channels.model()))?;
                for value in channels.values() {
                    write!(out, " {:08X}", value.to_bits())?;
                }
                writeln!(out, " {} {}", ink(colour.ink), name(colour.name))?;
            }
        }
    }
    Ok(())
}

fn records(book: &acb::Book<'_>, out: &mut dyn Write) -> io::Result<()> {
    let header = book.header();
    let space = header.space;
    let tag = match header.tag {
        None => "none",
        Some(acb::Tag::Spot) => "spot",
        Some(acb::Tag::Process) => "process",
    };
    write!(out, "ACB {} {} ", book.len(), space.number())?;
    let (size, offset) = (header.page_size, header.page_offset);
    writeln!(out, "{size} {offset} {} {tag}", header.identifier)?;
    let texts = [
        ("title", header.title),
        ("prefix", header.prefix),
        ("suffix", header.suffix),
        ("description", header.description),
    ];
    for (what, text) in texts {
        writeln!(out, "{what} {}", name(acb::shown_text(text)))?;
    }
    for (index, record) in book.iter().enumerate() {
        write!(out, "{index} {}", hex(&record.code, ""))?;
        for component in &record.components[..space.count()] {
            write!(out, " {component}")?;
        }
        writeln!(out, " {}", name(record.name))?;
    }
    for (page, sample) in book.samples().enumerate() {
        let sample = or_dash(sample.map(|sample| sample.to_string()).unwrap_or_default());
        writeln!(out, "page {page} {sample}")?;
    }
    Ok(())
}

fn members(rows: &descriptor::Rows<'_>, out: &mut dyn Write) -> io::Result<()> {
    writeln!(out, "DESC {}", rows.len())?;
    for (index, row) in rows.iter().enumerate() {
        let (kind, parent, depth) = (row.kind, row.parent, row.depth);
        let (first, length) = (row.first, row.length);
        writeln!(out, "{index} {kind} {parent} {first} {length} {depth}")?;
    }
    Ok(())
}

fn resources(section: &resource::Section<'_>, first: usize, out: &mut dyn Write) -> io::Result<()> {
    writeln!(out, "8BIM {}", section.len())?;
    let rows = section.numbers().chunks_exact(resource::WIDTH);
    for ((index, block), row) in section.iter().enumerate().zip(rows) {
        let name = or_dash(hex(block.name, ""));
        let (place, length) = (first + row[3] as usize, row[4]);
        writeln!(out, "{index} {} {name} {place} {length}", block.id)?;
    }
    Ok(())
}
