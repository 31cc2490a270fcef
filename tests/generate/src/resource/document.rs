//! Whole Photoshop documents, as far as their resource section and a little
//! behind it.

use super::damage::{damage, Damage};
use super::section::Section;
use crate::bytes::{self, one_off};
use crate::random::Random;

const SIGNATURE: &[u8; 4] = b"8BPS";
const VERSION_PLACE: usize = 4;
const RESERVED_PLACE: usize = 6;
const RESERVED_LEN: usize = 6;
/// The length of the colour mode data, which follows it.
const COLOUR_LENGTH_PLACE: usize = 26;

const WRONG_SIGNATURES: [[u8; 4]; 6] = [*b"8BPT", *b"8bps", *b"SPB8", *b"8BIM", *b"8BCB", [0; 4]];
/// Large documents have version 2.
const WRONG_VERSIONS: [u16; 5] = [0, 2, 3, 0x0100, 0xFFFF];
/// Lengths that wrap, or nearly, where a place is added to them in 32 bits.
const HUGE_LENGTHS: [u32; 6] = [
    0x7FFF_FFFF,
    0x8000_0000,
    0xFFFF_FFE2,
    0xFFFF_FFF0,
    0xFFFF_FFFE,
    u32::MAX,
];
/// Lengths of a section about the limit, that of the longest one among them.
const LENGTHS_ABOUT_THE_LIMIT: [u32; 4] = [0x00FF_FFFF, 0x0100_0000, 0x0100_0001, 0x0100_0002];

#[derive(Clone, Debug, PartialEq, Eq)]
pub struct Document {
    pub channels: u16,
    pub height: u32,
    pub width: u32,
    pub depth: u16,
    pub mode: u16,
    pub colour_data: Vec<u8>,
    /// The section's bytes, sound or not.
    pub section: Vec<u8>,
    pub behind: Vec<u8>,
}

/// One way to damage a document.
#[derive(Clone, Copy, Debug, PartialEq, Eq)]
pub enum DocumentDamage {
    Cut,
    /// Before the section ends.
    CutEarly,
    FlipBit,
    SetByte,
    DropByte,
    AddByte,
    Noise,
    SignatureWrong,
    VersionWrong,
    ReservedSet,
    /// Not a fault: the picture's own numbers are not judged.
    PictureAny,
    ColourLengthOneOff,
    ColourLengthHuge,
    SectionLengthOneOff,
    SectionLengthAny,
    SectionLengthHuge,
    SectionAboutTheLimit,
    /// A damage to the section, whose length goes with it.
    SectionDamaged,
}

impl DocumentDamage {
    pub const ALL: [DocumentDamage; 18] = [
        DocumentDamage::Cut,
        DocumentDamage::CutEarly,
        DocumentDamage::FlipBit,
        DocumentDamage::SetByte,
        DocumentDamage::DropByte,
        DocumentDamage::AddByte,
        DocumentDamage::Noise,
        DocumentDamage::SignatureWrong,
        DocumentDamage::VersionWrong,
        DocumentDamage::ReservedSet,
        DocumentDamage::PictureAny,
        DocumentDamage::ColourLengthOneOff,
        DocumentDamage::ColourLengthHuge,
        DocumentDamage::SectionLengthOneOff,
        DocumentDamage::SectionLengthAny,
        DocumentDamage::SectionLengthHuge,
        DocumentDamage::SectionAboutTheLimit,
        DocumentDamage::SectionDamaged,
    ];

    pub fn any(random: &mut Random) -> Self {
        random.pick(&DocumentDamage::ALL)
    }
}

impl Document {
    pub fn any(random: &mut Random) -> Self {
        let section = Section::any(random).bytes();
        let colours = match random.below(8) {
            0 => 768,
            1 | 2 => random.below(40),
            _ => 0,
        };
        let behind = random.below(20);
        Document {
            colour_data: random.bytes(colours),
            behind: random.bytes(behind),
            ..Document::picture(random, section)
        }
    }

    /// A small document, for going through all of its lengths or bytes.
    pub fn small(random: &mut Random) -> Self {
        let section = Section::small(random).bytes();
        let (colours, behind) = (random.below(4), random.below(4));
        Document {
            colour_data: random.bytes(colours),
            behind: random.bytes(behind),
            ..Document::picture(random, section)
        }
    }

    /// A document of these resources, without colour mode data and with nothing
    /// behind them.
    pub fn holding(section: Vec<u8>) -> Self {
        Document {
            channels: 3,
            height: 1,
            width: 1,
            depth: 8,
            mode: 3,
            colour_data: Vec::new(),
            section,
            behind: Vec::new(),
        }
    }

    fn picture(random: &mut Random, section: Vec<u8>) -> Self {
        Document {
            channels: random.u16(),
            height: random.u32(),
            width: random.u32(),
            depth: random.u16(),
            mode: random.u16(),
            ..Document::holding(section)
        }
    }

    /// Where the section's first byte stands in the file.
    pub fn section_place(&self) -> usize {
        self.section_length_place() + 4
    }

    fn section_length_place(&self) -> usize {
        COLOUR_LENGTH_PLACE + 4 + self.colour_data.len()
    }

    pub fn file(&self) -> Vec<u8> {
        let number = |len: usize| (len as u32).to_be_bytes();
        [
            &SIGNATURE[..],
            &1_u16.to_be_bytes(),
            &[0; RESERVED_LEN],
            &self.channels.to_be_bytes(),
            &self.height.to_be_bytes(),
            &self.width.to_be_bytes(),
            &self.depth.to_be_bytes(),
            &self.mode.to_be_bytes(),
            &number(self.colour_data.len()),
            &self.colour_data,
            &number(self.section.len()),
            &self.section,
            &self.behind,
        ]
        .concat()
    }

    /// The document's file with one damage. Damage that it gives no hold for
    /// changes nothing.
    pub fn damaged(&self, kind: DocumentDamage, random: &mut Random) -> Vec<u8> {
        let mut file = self.file();
        self.damage(&mut file, kind, random);
        file
    }

    /// Does one damage to the document's file, which may be damaged already: the
    /// fields are looked for where they stood.
    pub fn damage(&self, file: &mut Vec<u8>, kind: DocumentDamage, random: &mut Random) {
        let section_end = self.section_place() + self.section.len();
        let (colours, resources) = (self.colour_data.len() as u32, self.section.len() as u32);
        let mut set_length = |place: usize, length: u32| {
            bytes::put(file, place, &length.to_be_bytes());
        };
        let (colours_place, resources_place) = (COLOUR_LENGTH_PLACE, self.section_length_place());
        match kind {
            DocumentDamage::Cut => bytes::cut_after(file, 0, random),
            DocumentDamage::CutEarly => file.truncate(random.below(section_end)),
            DocumentDamage::FlipBit => bytes::flip_bit(file, random),
            DocumentDamage::SetByte => bytes::set_byte(file, random),
            DocumentDamage::DropByte => bytes::drop_byte(file, random),
            DocumentDamage::AddByte => bytes::add_byte(file, random),
            DocumentDamage::Noise => *file = bytes::noise(random),
            DocumentDamage::SignatureWrong => {
                bytes::put(file, 0, &random.pick(&WRONG_SIGNATURES));
            }
            DocumentDamage::VersionWrong => {
                let version = random.pick(&WRONG_VERSIONS);
                bytes::put(file, VERSION_PLACE, &version.to_be_bytes());
            }
            DocumentDamage::ReservedSet => {
                let place = RESERVED_PLACE + random.below(RESERVED_LEN);
                bytes::put(file, place, &[random.byte()]);
            }
            DocumentDamage::PictureAny => {
                let place = RESERVED_PLACE + RESERVED_LEN;
                bytes::put(file, place, &random.bytes(COLOUR_LENGTH_PLACE - place));
            }
            DocumentDamage::ColourLengthOneOff => {
                set_length(colours_place, one_off(colours, random))
            }
            DocumentDamage::ColourLengthHuge => {
                set_length(colours_place, random.pick(&HUGE_LENGTHS))
            }
            DocumentDamage::SectionLengthOneOff => {
                set_length(resources_place, one_off(resources, random))
            }
            DocumentDamage::SectionLengthAny => {
                let length = random.below(resources as usize + 30);
                set_length(resources_place, length as u32)
            }
            DocumentDamage::SectionLengthHuge => {
                set_length(resources_place, random.pick(&HUGE_LENGTHS))
            }
            DocumentDamage::SectionAboutTheLimit => {
                set_length(resources_place, random.pick(&LENGTHS_ABOUT_THE_LIMIT))
            }
            DocumentDamage::SectionDamaged => {
                let mut document = self.clone();
                damage(&mut document.section, Damage::any(random), random);
                *file = document.file();
            }
        }
    }
}
