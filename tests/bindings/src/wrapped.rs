//! What the wrapper for Rust says, over its types.

use crate::made::{part, string, units, Asked};
use crate::said::{Said, NONE};
use crate::wanted::TYPED;
use khuyurek::compare::{compare, Palette};
use khuyurek::descriptor::Value;
use khuyurek::{acb, aco, ase, descriptor, resource, stream, Ink, Model, Refusal, Space, Units};

/// None where the wrapper's types cannot say what is asked.
pub fn wrapped(asked: &Asked) -> Option<Said> {
    Some(match asked {
        Asked::Aco(file) => or_refused(aco(file)),
        Asked::Ase(file) => or_refused(ase(file)),
        Asked::Acb(file) => or_refused(acb(file)),
        Asked::Descriptor(file) => or_refused(descriptor(file)),
        Asked::Section(file) => or_refused(section(file)),
        Asked::Document(file) => or_refused(document(file)),
        Asked::Compared([first, second]) => compared(first, second),
        Asked::AcoLot(lot) => {
            let swatches: Option<Vec<_>> = lot
                .records
                .chunks_exact(8)
                .map(|row| {
                    Some(aco::Swatch {
                        space: Space::from_number(row[0].try_into().ok()?)?,
                        samples: [half(row[1])?, half(row[2])?, half(row[3])?, half(row[4])?],
                        name: Units::new(units(&lot.text, row[5], row[6])?),
                        ink: Ink::from_number(row[7])?,
                    })
                })
                .collect();
            let swatches = swatches?;
            written(aco::write_length(&swatches), aco::write(&swatches))
        }
        Asked::AseLot(lot) => {
            let blocks: Option<Vec<_>> = lot
                .records
                .chunks_exact(9)
                .map(|row| {
                    let name = || Some(Units::new(units(&lot.text, row[1], row[2])?));
                    Some(match row[0] {
                        0xC001 => ase::Block::Start(name()?),
                        0xC002 => ase::Block::Stop,
                        _ => ase::Block::Colour(ase::Colour {
                            name: name()?,
                            channels: channels(Model::from_tag(row[3])?, &row[4..8]),
                            ink: Ink::from_number(row[8])?,
                        }),
                    })
                })
                .collect();
            let blocks = blocks?;
            written(ase::write_length(&blocks), ase::write(&blocks))
        }
        Asked::AcbLot(lot) => {
            let header = lot.header;
            let text = |(place, count)| Some(Units::new(string(&lot.text, place, count)?));
            let [title, prefix, suffix, description] = header.strings.map(text);
            let header = acb::Header {
                identifier: header.identifier,
                page_size: header.page_size,
                page_offset: header.page_offset,
                space: Space::from_number(header.space)?,
                tag: match header.tag {
                    0 => None,
                    1 => Some(acb::Tag::Spot),
                    2 => Some(acb::Tag::Process),
                    _ => return None,
                },
                title: title?,
                prefix: prefix?,
                suffix: suffix?,
                description: description?,
            };
            let swatches: Option<Vec<_>> = lot
                .records
                .chunks_exact(13)
                .map(|row| {
                    let mut bytes = [0; 10];
                    for (byte, number) in bytes.iter_mut().zip(&row[2..12]) {
                        *byte = u8::try_from(*number).ok()?;
                    }
                    let (code, components) = bytes.split_at(6);
                    Some(acb::Swatch {
                        name: Units::new(units(&lot.text, row[0], row[1])?),
                        code: code.try_into().expect("six"),
                        components: components.try_into().expect("four"),
                        ink: Ink::from_number(row[12])?,
                    })
                })
                .collect();
            let swatches = swatches?;
            written(
                acb::write_length(&header, &swatches),
                acb::write(&header, &swatches),
            )
        }
        Asked::SectionLot(lot) => {
            let blocks: Option<Vec<_>> = lot
                .records
                .chunks_exact(5)
                .map(|row| {
                    Some(resource::Block {
                        id: half(row[0])?,
                        name: part(&lot.text, row[1], row[2])?,
                        data: part(&lot.text, row[3], row[4])?,
                    })
                })
                .collect();
            let blocks = blocks?;
            written(resource::write_length(&blocks), resource::write(&blocks))
        }
    })
}

fn half(number: u32) -> Option<u16> {
    number.try_into().ok()
}

fn channels(model: Model, bits: &[u32]) -> ase::Channels {
    let at = |i: usize| f32::from_bits(bits[i]);
    match model {
        Model::Rgb => ase::Channels::Rgb([at(0), at(1), at(2)]),
        Model::Cmyk => ase::Channels::Cmyk([at(0), at(1), at(2), at(3)]),
        Model::Lab => ase::Channels::Lab([at(0), at(1), at(2)]),
        Model::Gray => ase::Channels::Gray(at(0)),
    }
}

fn refused(file: u32, r: Refusal) -> Said {
    assert!(!r.sentence().is_empty());
    Said::refused(r.number, file, r.place, r.record, r.field)
}

fn or_refused(answer: Result<Said, Refusal>) -> Said {
    answer.unwrap_or_else(|refusal| refused(0, refusal))
}

fn written(length: Result<usize, Refusal>, bytes: Result<Vec<u8>, Refusal>) -> Said {
    assert_eq!(
        length,
        bytes.as_ref().map(Vec::len).map_err(|refusal| *refusal)
    );
    Said::written(bytes.map_err(|refusal| refusal.number))
}

fn aco(file: &[u8]) -> Result<Said, Refusal> {
    // A palette in two chunks, cut somewhere, gets the same answer.
    let mut store = vec![0; stream::STORE];
    let mut arriving = stream::start(&store)?;
    let (head, tail) = file.split_at(file.len() * 2 / 3);
    arriving.feed(&mut store, head)?;
    arriving.feed(&mut store, tail)?;
    assert_eq!(arriving.finish(&store), aco::judge(file));
    let palette = aco::read(file)?;
    let mut said = Said::accepted();
    said.byte(palette.lists() as u32).count(palette.len());
    for (i, swatch) in palette.iter().enumerate() {
        said.half(swatch.space.number());
        for sample in swatch.samples {
            said.half(sample);
        }
        said.name(swatch.name.bytes()).byte(swatch.ink.number());
        assert_eq!(aco::record_at(file, i), Ok(swatch));
    }
    assert!(aco::walk(file)?.eq(palette.iter()));
    let swatches: Vec<_> = palette.iter().collect();
    assert_eq!(aco::write(&swatches), palette.write());
    said.bytes(&palette.write()?);
    Ok(said)
}

fn ase(file: &[u8]) -> Result<Said, Refusal> {
    let counts = ase::judge(file)?;
    let palette = ase::read(file)?;
    let mut said = Said::accepted();
    said.count(counts.blocks).count(counts.colours);
    for block in palette.iter() {
        match block {
            ase::Block::Start(name) => {
                said.half(0xC001).name(name.bytes()).plain(&[0; 21]);
            }
            ase::Block::Stop => {
                said.half(0xC002).name(&[]).plain(&[0; 21]);
            }
            ase::Block::Colour(colour) => {
                said.half(1).name(colour.name.bytes());
                said.word(colour.channels.model().tag());
                let mut bits = [0; 4];
                for (bits, value) in bits.iter_mut().zip(colour.channels.values()) {
                    *bits = value.to_bits();
                }
                for bits in bits {
                    said.word(bits);
                }
                said.byte(colour.ink.number());
            }
        }
    }
    let blocks: Vec<_> = palette.iter().collect();
    assert!(ase::walk_blocks(file)?.eq(palette.iter()));
    assert_eq!(ase::walk(file)?.count(), counts.colours);
    assert_eq!(ase::write(&blocks).as_deref(), Ok(file));
    assert_eq!(palette.write().as_deref(), Ok(file));
    Ok(said)
}

fn acb(file: &[u8]) -> Result<Said, Refusal> {
    let book = acb::read(file)?;
    let header = book.header();
    let mut said = Said::accepted();
    said.half(header.identifier).half(header.page_size);
    said.half(header.page_offset).half(header.space.number());
    said.byte(match header.tag {
        None => 0,
        Some(acb::Tag::Spot) => 1,
        Some(acb::Tag::Process) => 2,
    });
    for text in [
        header.title,
        header.prefix,
        header.suffix,
        header.description,
    ] {
        said.name(text.bytes());
    }
    let index = acb::index(file)?;
    said.count(book.len());
    for (i, swatch) in book.iter().enumerate() {
        said.name(swatch.name.bytes());
        said.plain(&swatch.code).plain(&swatch.components);
        said.byte(swatch.ink.number());
        let shown = book.shown(&swatch);
        said.byte(shown.values().len() as u32);
        for value in shown.values() {
            said.word(*value as u32);
        }
        said.name(&book.full_name(&swatch));
        let units: Vec<u16> = swatch.name.iter().collect();
        said.count(acb::find(file, &index, &units).unwrap_or(NONE));
        assert_eq!(acb::record_at(file, i), Ok(swatch));
        assert_eq!(acb::shown_at(file, i), Ok(shown));
        assert_eq!(acb::full_name(file, i), Ok(book.full_name(&swatch)));
    }
    said.count(book.pages());
    for (page, sample) in book.samples().enumerate() {
        said.count(sample.unwrap_or(NONE));
        assert_eq!(acb::page_at(file, page).ok(), sample);
    }
    said.count(index.len());
    for record in index {
        said.word(record);
    }
    let swatches: Vec<_> = book.iter().collect();
    assert_eq!(acb::write(header, &swatches).as_deref(), Ok(file));
    assert_eq!(book.write().as_deref(), Ok(file));
    Ok(said)
}

fn descriptor(file: &[u8]) -> Result<Said, Refusal> {
    let rows = descriptor::read(file)?;
    let values = descriptor::values(file)?;
    let mut said = Said::accepted();
    said.count(rows.len());
    let mut keys = Vec::new();
    for (i, row) in rows.iter().enumerate() {
        said.count(row.first).count(row.length);
        said.count(row.next.unwrap_or(rows.len()));
        said.count(row.depth).word(u32::from_be_bytes(row.kind.0));
        said.count(row.parent).word(values[i]);
        if row.depth == 1 {
            keys.extend(&file[row.first..values[i] as usize - 4]);
        }
        if i < TYPED {
            typed(&mut said, descriptor::typed_at(file, i)?);
        }
        let end = row.first + row.length;
        assert_eq!(rows.bytes(&row), Some(&file[row.first..end]));
        if i < TYPED {
            assert_eq!(
                descriptor::value_at(file, i)?,
                &file[values[i] as usize..end]
            );
        }
    }
    let found = rows.find(&keys)?;
    said.count(found.len());
    for row in found {
        said.count(row.unwrap_or(rows.len()));
    }
    // Its entries are the reference's, and are built into it.
    let mut numbers = vec![0; reference::descriptor::ENTRY_LEN * rows.len()];
    reference::descriptor::entries(file, &mut numbers).expect("it is accepted");
    let entries = descriptor::entries(file)?;
    assert!(entries.iter().flat_map(|entry| entry.numbers()).eq(numbers));
    assert_eq!(descriptor::build(&entries, file).as_deref(), Ok(file));
    Ok(said)
}

fn typed(said: &mut Said, value: Value) {
    let tag = |characters: &[u8; 4]| u32::from_be_bytes(*characters);
    match value {
        Value::Bool(flag) => said.word(tag(b"bool")).word(0).wide(flag.into()),
        Value::Long(long) => said.word(tag(b"long")).word(0).wide((long as u32).into()),
        Value::Comp(comp) => said.word(tag(b"comp")).word(0).wide(comp as u64),
        Value::Double(double) => said.word(tag(b"doub")).word(0).wide(double.to_bits()),
        Value::UnitDouble(unit, double) => {
            let unit = u32::from_be_bytes(unit.0);
            said.word(tag(b"UntF")).word(unit).wide(double.to_bits())
        }
        Value::Other => said.word(0).word(0).wide(0),
    };
}

fn section(bytes: &[u8]) -> Result<Said, Refusal> {
    let section = resource::read(bytes)?;
    let mut said = Said::accepted();
    said.count(section.len());
    for (i, block) in section.iter().enumerate() {
        said.half(block.id).bytes(block.name).bytes(block.data);
        said.count(resource::find(bytes, block.id)?);
        assert_eq!(resource::record_at(bytes, i), Ok(block));
    }
    let blocks: Vec<_> = section.iter().collect();
    assert_eq!(resource::write(&blocks).as_deref(), Ok(bytes));
    assert_eq!(section.write().as_deref(), Ok(bytes));
    Ok(said)
}

fn document(document: &[u8]) -> Result<Said, Refusal> {
    let section = resource::section_of(document)?;
    let mut said = Said::accepted();
    said.bytes(section);
    Ok(said)
}

fn compared(first: &(u32, Vec<u8>), second: &(u32, Vec<u8>)) -> Said {
    fn palette((kind, file): &(u32, Vec<u8>)) -> Palette<'_> {
        match kind {
            0 => Palette::Aco(file),
            _ => Palette::Ase(file),
        }
    }
    match compare(palette(first), palette(second)) {
        Err(r) => refused(r.file, r.refusal),
        Ok(positions) => {
            let kinds: Vec<u32> = positions.iter().map(|found| *found as u32).collect();
            let mut said = Said::accepted();
            said.count(kinds.len());
            said.count(kinds.iter().filter(|kind| **kind != 0).count());
            for kind in kinds {
                said.byte(kind);
            }
            said
        }
    }
}
