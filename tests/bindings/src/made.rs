//! What is asked: made-up files, two palettes at a time, and records to be written.

use crate::said::Said;
use generate::{acb, ase, descriptor, resource, Random, Season};
use generate::{Change, Damage, Lot, LotDamage, Palette};

/// A question, with the number that a corpus has for it.
pub enum Asked {
    Aco(Vec<u8>),
    Ase(Vec<u8>),
    Acb(Vec<u8>),
    Descriptor(Vec<u8>),
    Section(Vec<u8>),
    Document(Vec<u8>),
    Compared([(u32, Vec<u8>); 2]),
    AcoLot(Lot),
    AseLot(ase::Lot),
    AcbLot(acb::Lot),
    SectionLot(resource::Lot),
}

/// How many kinds of questions there are.
pub const KINDS: u64 = 11;

/// One file in so many is not a small one.
const SMALL: usize = 16;
/// A lot of more records, or a longer text, is left to the comparisons of `compare`.
const MOST_RECORDS: usize = 400;
const MOST_TEXT: usize = 1 << 16;

impl Asked {
    pub fn number(&self) -> u32 {
        match self {
            Asked::Aco(_) => 0,
            Asked::Ase(_) => 1,
            Asked::Acb(_) => 2,
            Asked::Descriptor(_) => 3,
            Asked::Section(_) => 4,
            Asked::Document(_) => 5,
            Asked::Compared(_) => 6,
            Asked::AcoLot(_) => 7,
            Asked::AseLot(_) => 8,
            Asked::AcbLot(_) => 9,
            Asked::SectionLot(_) => 10,
        }
    }

    /// The question of a number, kinds by turns; none where a lot is no list of
    /// records with their names.
    pub fn made(seed: u64, item: u64) -> Option<Asked> {
        let random = &mut Random::for_part(seed, item);
        Some(match item % KINDS {
            0 => Asked::Aco(aco(random)),
            1 => Asked::Ase(ase(random)),
            2 => Asked::Acb(acb(random)),
            3 => Asked::Descriptor(descriptor(random)),
            4 => Asked::Section(section(random)),
            5 => Asked::Document(document(random)),
            6 => Asked::Compared(compared(random)),
            7 => {
                let mut lot = Lot::any(random);
                for _ in 0..damages(random) {
                    lot.damage(LotDamage::any(random), random);
                }
                Asked::AcoLot(lot).listed()?
            }
            8 => {
                let mut lot = ase::Lot::any(random);
                for _ in 0..damages(random) {
                    lot.damage(ase::LotDamage::any(random), random);
                }
                Asked::AseLot(lot).listed()?
            }
            9 => {
                let mut lot = acb::Lot::any(random);
                for _ in 0..damages(random) {
                    lot.damage(acb::LotDamage::any(random), random);
                }
                Asked::AcbLot(lot).listed()?
            }
            _ => {
                let mut lot = resource::Lot::any(random);
                for _ in 0..damages(random) {
                    lot.damage(resource::LotDamage::any(random), random);
                }
                Asked::SectionLot(lot).listed()?
            }
        })
    }

    /// What is asked, as a corpus has it.
    pub fn question(&self) -> Said {
        let mut said = Said::default();
        match self {
            Asked::Aco(file)
            | Asked::Ase(file)
            | Asked::Acb(file)
            | Asked::Descriptor(file)
            | Asked::Section(file)
            | Asked::Document(file) => {
                said.plain(file);
            }
            Asked::Compared(palettes) => {
                for (kind, file) in palettes {
                    said.byte(*kind).bytes(file);
                }
            }
            Asked::AcoLot(lot) => {
                for row in lot.records.chunks_exact(8) {
                    words(&mut said, &row[..5]);
                    said.name(units(&lot.text, row[5], row[6]).unwrap_or_default());
                    said.word(row[7]);
                }
            }
            Asked::AseLot(lot) => {
                for row in lot.records.chunks_exact(9) {
                    said.word(row[0]);
                    // A group end has no name.
                    let named = row[0] != u32::from(reference::ase::GROUP_END);
                    let name = named.then(|| units(&lot.text, row[1], row[2]));
                    said.name(name.flatten().unwrap_or_default());
                    words(&mut said, &row[3..]);
                }
            }
            Asked::AcbLot(lot) => {
                let header = lot.header;
                said.half(header.identifier).half(header.page_size);
                said.half(header.page_offset).half(header.space);
                said.word(header.tag);
                for (place, count) in header.strings {
                    said.name(string(&lot.text, place, count).unwrap_or_default());
                }
                for row in lot.records.chunks_exact(13) {
                    said.name(units(&lot.text, row[0], row[1]).unwrap_or_default());
                    words(&mut said, &row[2..]);
                }
            }
            Asked::SectionLot(lot) => {
                for row in lot.records.chunks_exact(5) {
                    said.word(row[0]);
                    said.bytes(part(&lot.text, row[1], row[2]).unwrap_or_default());
                    said.bytes(part(&lot.text, row[3], row[4]).unwrap_or_default());
                }
            }
        }
        said
    }

    /// The lot, where all its names lie in its text: a wrapper is handed names.
    fn listed(self) -> Option<Asked> {
        let small = |records: &[u32], width: usize, text: &[u8]| {
            records.len() / width <= MOST_RECORDS && text.len() <= MOST_TEXT
        };
        let is_so = match &self {
            Asked::AcoLot(lot) => {
                small(&lot.records, 8, &lot.text)
                    && lot
                        .records
                        .chunks_exact(8)
                        .all(|row| units(&lot.text, row[5], row[6]).is_some())
            }
            Asked::AseLot(lot) => {
                small(&lot.records, 9, &lot.text)
                    && lot.records.chunks_exact(9).all(|row| {
                        let stop = row[0] == u32::from(reference::ase::GROUP_END);
                        known_block(row[0]) && (stop || units(&lot.text, row[1], row[2]).is_some())
                    })
            }
            Asked::AcbLot(lot) => {
                small(&lot.records, 13, &lot.text)
                    && lot
                        .header
                        .strings
                        .iter()
                        .all(|&(place, count)| string(&lot.text, place, count).is_some())
                    && lot
                        .records
                        .chunks_exact(13)
                        .all(|row| units(&lot.text, row[0], row[1]).is_some())
            }
            Asked::SectionLot(lot) => {
                small(&lot.records, 5, &lot.text)
                    && lot.records.chunks_exact(5).all(|row| {
                        part(&lot.text, row[1], row[2]).is_some()
                            && part(&lot.text, row[3], row[4]).is_some()
                    })
            }
            _ => true,
        };
        is_so.then_some(self)
    }
}

fn words(said: &mut Said, words: &[u32]) {
    for word in words {
        said.word(*word);
    }
}

fn known_block(block: u32) -> bool {
    [
        reference::ase::GROUP_START,
        reference::ase::GROUP_END,
        reference::ase::COLOUR,
    ]
    .map(u32::from)
    .contains(&block)
}

/// The units of a name that lies in the text; one of no units lies anywhere.
pub fn units(text: &[u8], place: u32, count: u32) -> Option<&[u8]> {
    string(text, place as usize, count)
}

pub fn string(text: &[u8], place: usize, count: u32) -> Option<&[u8]> {
    bytes_at(text, place, 2 * count as usize)
}

pub fn part(text: &[u8], place: u32, length: u32) -> Option<&[u8]> {
    bytes_at(text, place as usize, length as usize)
}

fn bytes_at(text: &[u8], place: usize, length: usize) -> Option<&[u8]> {
    if length == 0 {
        return Some(&[]);
    }
    text.get(place..)?.get(..length)
}

fn damages(random: &mut Random) -> usize {
    random.pick(&[0, 0, 1, 1, 1, 2])
}

fn aco(random: &mut Random) -> Vec<u8> {
    let palette = if random.one_in(SMALL) {
        Palette::any(random)
    } else {
        Palette::small(random)
    };
    let mut file = palette.file();
    for _ in 0..damages(random) {
        generate::damage(&mut file, &palette, Damage::any(random), random);
    }
    file
}

fn ase(random: &mut Random) -> Vec<u8> {
    let palette = if random.one_in(SMALL) {
        ase::Palette::any(random)
    } else {
        ase::Palette::small(random)
    };
    let mut file = palette.file();
    for _ in 0..damages(random) {
        ase::damage(&mut file, ase::Damage::any(random), random);
    }
    file
}

fn acb(random: &mut Random) -> Vec<u8> {
    let book = match random.below(SMALL) {
        0 => acb::Book::any(random),
        1..=3 => acb::Book::of_pickers(random),
        _ => acb::Book::small(random),
    };
    let mut file = book.file();
    for _ in 0..damages(random) {
        acb::damage(&mut file, &book, acb::Damage::any(random), random);
    }
    file
}

fn descriptor(random: &mut Random) -> Vec<u8> {
    let object = if random.one_in(SMALL) {
        descriptor::Object::any(random)
    } else {
        descriptor::Object::small(random)
    };
    let laid = descriptor::Laid::of(&object);
    let mut file = laid.file.clone();
    for _ in 0..damages(random) {
        descriptor::damage(&mut file, &laid, descriptor::Damage::any(random), random);
    }
    file
}

fn section(random: &mut Random) -> Vec<u8> {
    let mut file = if random.one_in(SMALL) {
        resource::Section::any(random).bytes()
    } else {
        resource::Section::small(random).bytes()
    };
    for _ in 0..damages(random) {
        resource::damage(&mut file, resource::Damage::any(random), random);
    }
    file
}

fn document(random: &mut Random) -> Vec<u8> {
    let document = resource::Document::small(random);
    if random.one_in(2) {
        return document.file();
    }
    document.damaged(resource::DocumentDamage::any(random), random)
}

fn compared(random: &mut Random) -> [(u32, Vec<u8>); 2] {
    let first = Season::small(random);
    let mut second = match random.below(8) {
        0 => Season::small(random),
        1..=3 => first.clone(),
        _ => first.converted(random),
    };
    if random.one_in(2) {
        let change = random.pick(&Change::ALL);
        second.change(change, random);
    }
    let mut palettes = [&first, &second].map(|season| (season.kind(), season.file()));
    if random.one_in(8) {
        let damaged = random.below(2);
        let file = &mut palettes[damaged].1;
        let kept = random.below(file.len() + 1);
        file.truncate(kept);
    }
    if random.one_in(32) {
        // Said to be what it is not.
        let odd = random.below(2);
        palettes[odd].0 = 1 - palettes[odd].0;
    }
    palettes
}
