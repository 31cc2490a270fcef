//! Records for a writer, with the text in which strings and names lie.

use super::book::{components, Colour};
use super::{LAB, SPACES, TAGS};
use crate::names::{any_name, any_text, empty_anywhere, far_past, just_past};
use crate::random::Random;
use std::ops::RangeInclusive;

const ROW_LEN: usize = 13;
const NAME: RangeInclusive<usize> = 0..=1;
const UNITS: usize = 1;
const CODE: usize = 2;
const COMPONENTS: usize = 8;
const INK: usize = 12;

/// The ink that each tag states, and that of no tag: spot, process, not stated.
const INKS: [u32; 3] = [4, 1, 3];
/// All inks, and numbers that are none; some of them are once cut to 16 bits.
const ANY_INKS: [u32; 9] = [0, 1, 2, 3, 4, 5, 0x1_0001, 0x1_0004, u32::MAX];

/// Units that make the output too long, or would if no sum of lengths wrapped.
const MANY_UNITS: [u32; 5] = [8_388_608, 0x7FFF_FFF3, 0x7FFF_FFFF, 0x8000_0000, u32::MAX];
/// Units near to what the limit has room for, with nothing else that is long.
const UNITS_ABOUT_THE_LIMIT: [u32; 4] = [8_388_500, 8_388_560, 8_388_580, 8_388_592];
/// Numbers that are no bytes; some of them are once cut to eight bits.
const WRONG_BYTES: [u32; 5] = [256, 257, 0xFFFF, 0x1_0000, u32::MAX];
const WRONG_SPACES: [u16; 6] = [1, 3, 8, 10, 0x0200, 0xFFFF];
const WRONG_TAGS: [u32; 4] = [3, 4, 0x100, u32::MAX];

/// The header of a book to be written. A string is its place in the text and
/// its units; a tag is 0 for none, 1 for spot, 2 for process, and another above.
#[derive(Clone, Copy, Debug, PartialEq, Eq)]
pub struct Header {
    pub identifier: u16,
    pub page_size: u16,
    pub page_offset: u16,
    pub space: u16,
    pub tag: u32,
    pub strings: [(usize, u32); 4],
}

/// What a writer is handed.
#[derive(Clone, Debug, PartialEq, Eq)]
pub struct Lot {
    pub header: Header,
    pub records: Vec<u32>,
    pub text: Vec<u8>,
}

/// One way to damage a lot.
#[derive(Clone, Copy, Debug, PartialEq, Eq)]
pub enum LotDamage {
    TagWrong,
    /// A fault save where there is no record.
    TagOther,
    /// A fault save where it is the ink that the tag states.
    InkAny,
    StringPastText,
    StringFarPastText,
    StringLong,
    /// Not a fault: a string of no units may give any place.
    EmptyStringAnywhere,
    PageSizeZero,
    SpaceWrong,
    SpaceOther,
    TextShort,
    NamePastText,
    NameFarPastText,
    NameLong,
    NameAboutTheLimit,
    /// Not a fault: a name of no units may give any place.
    EmptyNameAnywhere,
    CodeWrong,
    /// A fault save where it is the fourth and to spare.
    ComponentWrong,
    RecordDropped,
    RecordTwice,
    /// Not a fault: numbers that make no whole record are left alone.
    Remainder,
    Noise,
}

impl LotDamage {
    pub const ALL: [LotDamage; 22] = [
        LotDamage::TagWrong,
        LotDamage::TagOther,
        LotDamage::InkAny,
        LotDamage::StringPastText,
        LotDamage::StringFarPastText,
        LotDamage::StringLong,
        LotDamage::EmptyStringAnywhere,
        LotDamage::PageSizeZero,
        LotDamage::SpaceWrong,
        LotDamage::SpaceOther,
        LotDamage::TextShort,
        LotDamage::NamePastText,
        LotDamage::NameFarPastText,
        LotDamage::NameLong,
        LotDamage::NameAboutTheLimit,
        LotDamage::EmptyNameAnywhere,
        LotDamage::CodeWrong,
        LotDamage::ComponentWrong,
        LotDamage::RecordDropped,
        LotDamage::RecordTwice,
        LotDamage::Remainder,
        LotDamage::Noise,
    ];

    pub fn any(random: &mut Random) -> Self {
        random.pick(&LotDamage::ALL)
    }
}

impl Header {
    /// A header without strings, for pages of 6 colours.
    pub fn bare(space: u16) -> Self {
        Header {
            identifier: 0,
            page_size: 6,
            page_offset: 0,
            space,
            tag: 0,
            strings: [(0, 0); 4],
        }
    }

    fn any(text: &[u8], random: &mut Random) -> Self {
        let any_string = |random: &mut Random| {
            let (place, units) = any_name(text, random);
            (place, units as u32)
        };
        Header {
            identifier: random.u16(),
            page_size: random.u16().max(1),
            page_offset: random.u16(),
            space: random.pick(&SPACES),
            tag: random.below(TAGS.len()) as u32,
            strings: std::array::from_fn(|_| any_string(random)),
        }
    }
}

impl Lot {
    /// A sound lot. Names lie anywhere in the text, dummies are among them, and
    /// a component to spare is 0 or, as often, anything.
    pub fn any(random: &mut Random) -> Self {
        let len = random.below(60);
        let text = any_text(random, len);
        let count = if random.one_in(50) {
            random.below(200)
        } else {
            random.below(7)
        };
        let mut lot = Lot {
            header: Header::any(&text, random),
            records: Vec::new(),
            text,
        };
        for _ in 0..count {
            let (place, units) = any_name(&lot.text, random);
            lot.push_any(place, units, random);
        }
        if random.one_in(2) {
            lot.fill_spare(random);
        }
        lot
    }

    /// A lot to be timed: Lab colours, and names of the same length that lie one
    /// after the other.
    pub fn uniform(random: &mut Random, colours: usize, units: usize) -> Self {
        let mut lot = Lot {
            header: Header::bare(LAB),
            records: Vec::new(),
            text: any_text(random, 2 * units * colours),
        };
        for index in 0..colours {
            lot.push_any(2 * units * index, units, random);
        }
        lot
    }

    /// A lot whose names are all the first units of one text, so that the output
    /// is longer than what is handed over.
    pub fn sharing_text(random: &mut Random, space: u16, units: &[usize]) -> Self {
        let longest = units.iter().copied().max().unwrap_or(0);
        let mut lot = Lot {
            header: Header::bare(space),
            records: Vec::new(),
            text: any_text(random, 2 * longest),
        };
        for &units in units {
            lot.push_any(0, units, random);
        }
        lot
    }

    /// The header with another tag, and the records with the ink that it states.
    pub fn tagged(mut self, tag: u32) -> Self {
        self.header.tag = tag;
        let ink = INKS.get(tag as usize).copied().unwrap_or(INKS[0]);
        for row in self.records.chunks_exact_mut(ROW_LEN) {
            row[INK] = ink;
        }
        self
    }

    pub fn count(&self) -> usize {
        self.records.len() / ROW_LEN
    }

    fn push_any(&mut self, place: usize, units: usize, random: &mut Random) {
        let colour = Colour::any(random, self.header.space, 0);
        self.records.extend([place as u32, units as u32]);
        self.records.extend(colour.code.map(u32::from));
        self.records.extend(colour.components.map(u32::from));
        self.records.push(INKS[self.header.tag as usize]);
    }

    fn fill_spare(&mut self, random: &mut Random) {
        let used = COMPONENTS + components(self.header.space);
        for row in self.records.chunks_exact_mut(ROW_LEN) {
            row[used..INK].fill_with(|| random.u32());
        }
    }

    /// Does one damage to the lot; damage that it gives no hold for changes nothing.
    pub fn damage(&mut self, kind: LotDamage, random: &mut Random) {
        let header = &mut self.header;
        let (place, units) = &mut header.strings[random.below(4)];
        match kind {
            LotDamage::TagWrong => header.tag = random.pick(&WRONG_TAGS),
            LotDamage::TagOther => header.tag = random.below(TAGS.len()) as u32,
            LotDamage::StringPastText => {
                // A unit at least, and the last byte or unit past the text.
                *units = (*units).clamp(1, 100);
                let past = self.text.len() + 1 + random.below(2);
                *place = past.saturating_sub(2 * *units as usize);
            }
            LotDamage::StringFarPastText => {
                *units = (*units).clamp(1, 100);
                let far = [usize::MAX, u32::MAX as usize, u32::MAX as usize + 1];
                *place = random.pick(&far) - random.below(2 * *units as usize + 2);
            }
            LotDamage::StringLong => *units = random.pick(&MANY_UNITS),
            LotDamage::EmptyStringAnywhere => (*place, *units) = (random.u64() as usize, 0),
            LotDamage::PageSizeZero => header.page_size = 0,
            LotDamage::SpaceWrong => header.space = random.pick(&WRONG_SPACES),
            LotDamage::SpaceOther => header.space = random.pick(&SPACES),
            LotDamage::Remainder => self.add_remainder(random),
            LotDamage::TextShort => self.shorten_text(random),
            _ if self.count() > 0 => self.damage_record(kind, random),
            _ => {}
        }
    }

    fn damage_record(&mut self, kind: LotDamage, random: &mut Random) {
        let start = ROW_LEN * random.below(self.count());
        let end = start + ROW_LEN;
        let text = &self.text;
        let row = &mut self.records[start..end];
        match kind {
            LotDamage::NamePastText => just_past(&mut row[NAME], text.len(), random),
            LotDamage::NameFarPastText => far_past(&mut row[NAME], random),
            LotDamage::NameLong => row[UNITS] = random.pick(&MANY_UNITS),
            LotDamage::NameAboutTheLimit => row[UNITS] = random.pick(&UNITS_ABOUT_THE_LIMIT),
            LotDamage::EmptyNameAnywhere => empty_anywhere(&mut row[NAME], random),
            LotDamage::InkAny => row[INK] = random.pick(&ANY_INKS),
            LotDamage::CodeWrong => row[CODE + random.below(6)] = random.pick(&WRONG_BYTES),
            LotDamage::ComponentWrong => {
                row[COMPONENTS + random.below(4)] = random.pick(&WRONG_BYTES)
            }
            LotDamage::Noise => row[random.below(ROW_LEN)] = random.u32(),
            LotDamage::RecordDropped => drop(self.records.drain(start..end)),
            LotDamage::RecordTwice => self.records.extend_from_within(start..end),
            _ => {}
        }
    }

    fn add_remainder(&mut self, random: &mut Random) {
        for _ in 0..1 + random.below(ROW_LEN - 1) {
            self.records.push(random.u32());
        }
    }

    fn shorten_text(&mut self, random: &mut Random) {
        let len = random.below(self.text.len() + 1);
        self.text.truncate(len);
    }
}
