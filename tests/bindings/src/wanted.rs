//! What the reference says.

use crate::made::Asked;
use crate::said::{Said, NONE};
use reference::descriptor::{Columns, Table, Typed};
use reference::{acb, ase, descriptor, resource, season, Refusal, ROW_LEN};

pub fn wanted(asked: &Asked) -> Said {
    match asked {
        Asked::Aco(file) => or_refused(aco(file)),
        Asked::Ase(file) => or_refused(ase(file)),
        Asked::Acb(file) => or_refused(acb(file)),
        Asked::Descriptor(file) => or_refused(descriptor(file)),
        Asked::Section(file) => or_refused(section(file)),
        Asked::Document(file) => or_refused(document(file)),
        Asked::Compared([first, second]) => compared(first, second),
        Asked::AcoLot(lot) => written(reference::length(&lot.records, &lot.text), |out| {
            reference::write(&lot.records, &lot.text, out)
        }),
        Asked::AseLot(lot) => written(ase::length(&lot.records, &lot.text), |out| {
            ase::write(&lot.records, &lot.text, out)
        }),
        Asked::AcbLot(lot) => {
            let header = header_of(&lot.header);
            written(acb::length(&header, &lot.records, &lot.text), |out| {
                acb::write(&header, &lot.records, &lot.text, out)
            })
        }
        Asked::SectionLot(lot) => written(resource::length(&lot.records, &lot.text), |out| {
            resource::write(&lot.records, &lot.text, out)
        }),
    }
}

fn or_refused(answer: Result<Said, Refusal>) -> Said {
    answer.unwrap_or_else(|r| Said::refused(r.number, 0, r.place, r.record, r.field))
}

fn name(file: &[u8], place: usize, units: u32) -> &[u8] {
    &file[place..place + 2 * units as usize]
}

fn written(
    length: Result<usize, Refusal>,
    write: impl FnOnce(&mut [u8]) -> Result<usize, Refusal>,
) -> Said {
    Said::written(length.map_err(|refusal| refusal.number).map(|length| {
        let mut out = vec![0; length];
        write(&mut out).expect("there is room");
        out
    }))
}

fn aco(file: &[u8]) -> Result<Said, Refusal> {
    let accepted = reference::judge(file)?;
    let mut table = vec![0; ROW_LEN * accepted.colours];
    reference::read(file, &mut table)?;
    let mut said = Said::accepted();
    said.byte(accepted.lists as u32).count(accepted.colours);
    for row in table.chunks_exact(ROW_LEN) {
        for number in &row[..5] {
            said.half(*number as u16);
        }
        said.name(name(file, row[5] as usize, row[6])).byte(row[7]);
    }
    let mut out = vec![0; reference::length(&table, file)?];
    reference::write(&table, file, &mut out)?;
    said.bytes(&out);
    Ok(said)
}

fn ase(file: &[u8]) -> Result<Said, Refusal> {
    let accepted = ase::judge(file)?;
    let mut said = Said::accepted();
    said.count(accepted.blocks).count(accepted.colours);
    for index in 0..accepted.blocks {
        let record = ase::record(file, index)?;
        said.half(record.block);
        said.name(name(file, record.name, record.units));
        said.word(record.model);
        for bits in record.channels {
            said.word(bits);
        }
        said.byte(record.ink);
    }
    Ok(said)
}

fn acb(file: &[u8]) -> Result<Said, Refusal> {
    let accepted = acb::judge(file)?;
    let (count, header) = (accepted.count, accepted.header);
    let mut said = Said::accepted();
    said.half(header.identifier).half(header.page_size);
    said.half(header.page_offset).half(header.space);
    let tag = acb::Tag::ALL.iter().position(|tag| *tag == header.tag);
    said.byte(tag.expect("a known tag") as u32);
    for text in header.strings() {
        said.name(name(file, text.place, text.units));
    }
    let mut index = vec![0; count];
    let shown = acb::index(file, &mut index)?;
    index.truncate(shown);
    said.count(count);
    for i in 0..count {
        let record = acb::record(file, i)?;
        let units = name(file, record.name.place, record.name.units);
        said.name(units)
            .plain(&record.code)
            .plain(&record.components);
        said.byte(record.ink);
        let values = acb::shown(file, i)?;
        said.byte(values.count as u32);
        for value in &values.values[..values.count] {
            said.word(*value as u32);
        }
        let mut full = vec![0; acb::full_length(file, i)?];
        acb::full_name(file, i, &mut full)?;
        said.name(&full);
        let units: Vec<u16> = units
            .chunks_exact(2)
            .map(|unit| u16::from_be_bytes([unit[0], unit[1]]))
            .collect();
        said.count(acb::find(file, &index, &units).unwrap_or(NONE));
    }
    let pages = count.div_ceil(header.page_size.into());
    said.count(pages);
    for page in 0..pages {
        said.count(acb::page(file, page).unwrap_or(NONE));
    }
    said.count(index.len());
    for record in index {
        said.word(record);
    }
    Ok(said)
}

/// How many rows have their typed value asked for, which judges the whole file.
pub const TYPED: usize = 4;

fn descriptor(file: &[u8]) -> Result<Said, Refusal> {
    let rows = descriptor::judge(file)?;
    let run = vec![0; rows];
    let (mut first, mut length, mut next) = (run.clone(), run.clone(), run.clone());
    let (mut depth, mut kind) = (run.clone(), run.clone());
    let columns = Columns {
        first: &mut first,
        length: &mut length,
        next: &mut next,
        depth: &mut depth,
        kind: &mut kind,
    };
    descriptor::read(file, columns)?;
    let (mut parents, mut values) = (run.clone(), run);
    descriptor::parents(&depth, &mut parents)?;
    descriptor::values(file, &mut values)?;
    let mut said = Said::accepted();
    said.count(rows);
    let mut keys = Vec::new();
    for row in 0..rows {
        for column in [&first, &length, &next, &depth, &kind, &parents, &values] {
            said.word(column[row]);
        }
        if depth[row] == 1 {
            // What stands between a row's first byte and its type.
            keys.extend(&file[first[row] as usize..values[row] as usize - 4]);
        }
        if row < TYPED {
            typed(&mut said, descriptor::typed(file, row)?);
        }
    }
    let table = Table {
        first: &first,
        length: &length,
        next: &next,
        depth: &depth,
        kind: &kind,
    };
    let mut answers = vec![0; rows];
    let found = descriptor::find(file, table, &keys, &mut answers)
        .unwrap_or_else(|_| panic!("the file's own keys"));
    said.count(found);
    for answer in &answers[..found] {
        said.word(*answer);
    }
    Ok(said)
}

fn typed(said: &mut Said, typed: Typed) {
    let tag = |characters: &[u8; 4]| u32::from_be_bytes(*characters);
    match typed {
        Typed::Bool(flag) => said.word(tag(b"bool")).word(0).wide(flag.into()),
        Typed::Long(long) => said.word(tag(b"long")).word(0).wide((long as u32).into()),
        Typed::Large(large) => said.word(tag(b"comp")).word(0).wide(large as u64),
        Typed::Double(double) => said.word(tag(b"doub")).word(0).wide(double.to_bits()),
        Typed::Unit(unit, double) => said.word(tag(b"UntF")).word(unit).wide(double.to_bits()),
        Typed::Other => said.word(0).word(0).wide(0),
    };
}

fn section(section: &[u8]) -> Result<Said, Refusal> {
    let blocks = resource::judge(section)?;
    let mut said = Said::accepted();
    said.count(blocks);
    for index in 0..blocks {
        let record = resource::record(section, index)?;
        said.half(record.id);
        said.bytes(resource::name(section, index)?);
        said.bytes(resource::data(section, index)?);
        said.count(resource::find(section, record.id)?);
    }
    Ok(said)
}

fn document(document: &[u8]) -> Result<Said, Refusal> {
    let section = resource::section_of(document)?;
    let mut said = Said::accepted();
    said.bytes(&document[section.first..section.first + section.length]);
    Ok(said)
}

fn compared(first: &(u32, Vec<u8>), second: &(u32, Vec<u8>)) -> Said {
    fn palette((kind, file): &(u32, Vec<u8>)) -> season::Palette<'_> {
        season::Palette { kind: *kind, file }
    }
    let mut table = vec![0; 2 * (first.1.len() + second.1.len())];
    match season::compare(palette(first), palette(second), &mut table) {
        Err(refused) => {
            let r = refused.refusal;
            Said::refused(r.number, refused.file, r.place, r.record, r.field)
        }
        Ok(compared) => {
            let mut said = Said::accepted();
            said.count(compared.positions).count(compared.differences);
            for row in table.chunks_exact(2).take(compared.positions) {
                said.byte(row[1]);
            }
            said
        }
    }
}

fn header_of(header: &generate::acb::Header) -> acb::Header {
    let [title, prefix, suffix, description] = header
        .strings
        .map(|(place, units)| acb::Text { place, units });
    acb::Header {
        identifier: header.identifier,
        page_size: header.page_size,
        page_offset: header.page_offset,
        space: header.space,
        tag: match header.tag {
            0 => acb::Tag::None,
            1 => acb::Tag::Spot,
            2 => acb::Tag::Process,
            _ => acb::Tag::Other,
        },
        title,
        prefix,
        suffix,
        description,
    }
}
