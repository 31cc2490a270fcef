//! Records for a writer, with the text in which their names and data lie.

use super::section::{any_name_len, IDS};
use crate::random::Random;
use std::ops::Range;

const ROW_LEN: usize = 5;
const ID: usize = 0;
const NAME: Range<usize> = 1..3;
const NAME_LENGTH: usize = 2;
const DATA: Range<usize> = 3..5;
const DATA_LENGTH: usize = 4;

/// IDs too large; some of them are not once cut to 16 bits.
const WRONG_IDS: [u32; 5] = [0x1_0000, 0x1_0001, 0x1_03E8, 0x8000_0000, u32::MAX];
/// Names about the longest, and some whose length is a short one's once cut to
/// 8 bits.
const NAMES_ABOUT_THE_LONGEST: [u32; 7] = [254, 255, 256, 257, 512, 0x1_0001, 0x100_0100];
/// Lengths that make the output too long, or would if no sum of lengths wrapped.
const HUGE_LENGTHS: [u32; 6] = [
    0x0100_0000,
    0x7FFF_FFFF,
    0x8000_0000,
    0xFFFF_FFF4,
    0xFFFF_FFFE,
    u32::MAX,
];
/// More bytes than a part made here has, damage aside.
const LONG_PART: u32 = 1 << 20;

/// What a writer is handed.
#[derive(Clone, Debug, PartialEq, Eq)]
pub struct Lot {
    pub records: Vec<u32>,
    pub text: Vec<u8>,
}

/// One way to damage a lot.
#[derive(Clone, Copy, Debug, PartialEq, Eq)]
pub enum LotDamage {
    IdWrong,
    NameAboutTheLongest,
    NameHuge,
    NamePastText,
    NameFarPastText,
    DataHuge,
    DataPastText,
    DataFarPastText,
    TextShort,
    /// Not a fault: a name of no bytes may give any place.
    EmptyNameAnywhere,
    /// Not a fault: so may data.
    EmptyDataAnywhere,
    RecordDropped,
    /// Not a fault: IDs may repeat.
    RecordTwice,
    RecordsSwapped,
    /// Not a fault: numbers that make no whole record are left alone.
    Remainder,
    Noise,
}

impl LotDamage {
    pub const ALL: [LotDamage; 16] = [
        LotDamage::IdWrong,
        LotDamage::NameAboutTheLongest,
        LotDamage::NameHuge,
        LotDamage::NamePastText,
        LotDamage::NameFarPastText,
        LotDamage::DataHuge,
        LotDamage::DataPastText,
        LotDamage::DataFarPastText,
        LotDamage::TextShort,
        LotDamage::EmptyNameAnywhere,
        LotDamage::EmptyDataAnywhere,
        LotDamage::RecordDropped,
        LotDamage::RecordTwice,
        LotDamage::RecordsSwapped,
        LotDamage::Remainder,
        LotDamage::Noise,
    ];

    pub fn any(random: &mut Random) -> Self {
        random.pick(&LotDamage::ALL)
    }
}

impl Lot {
    /// A sound lot. Names and data lie anywhere in the text, and may share bytes.
    pub fn any(random: &mut Random) -> Self {
        let len = if random.one_in(8) {
            random.below(600)
        } else {
            random.below(60)
        };
        let count = if random.one_in(50) {
            random.below(200)
        } else {
            random.below(7)
        };
        let mut lot = Lot {
            records: Vec::new(),
            text: random.bytes(len),
        };
        for _ in 0..count {
            let name_len = any_name_len(random);
            let data_len = random.below(20);
            let id = random.pick(&IDS);
            let name = lot.any_part(random, name_len);
            let data = lot.any_part(random, data_len);
            lot.push(id, name, data);
        }
        lot
    }

    /// A lot to be timed: names, and data, of the same length that lie one after
    /// the other.
    pub fn uniform(random: &mut Random, blocks: usize, name: usize, data: usize) -> Self {
        let mut lot = Lot {
            records: Vec::new(),
            text: random.bytes(blocks * (name + data)),
        };
        for index in 0..blocks {
            let place = index * (name + data);
            lot.push(random.u16(), (place, name), (place + name, data));
        }
        lot
    }

    /// A lot whose data are all the first bytes of one text, so that the output
    /// is longer than what is handed over. The names are empty.
    pub fn sharing_text(random: &mut Random, lengths: &[usize]) -> Self {
        let longest = lengths.iter().copied().max().unwrap_or(0);
        let mut lot = Lot {
            records: Vec::new(),
            text: random.bytes(longest),
        };
        for &length in lengths {
            lot.push(random.u16(), (0, 0), (0, length));
        }
        lot
    }

    pub fn count(&self) -> usize {
        self.records.len() / ROW_LEN
    }

    fn push(&mut self, id: u16, name: (usize, usize), data: (usize, usize)) {
        let parts = [name.0, name.1, data.0, data.1].map(|number| number as u32);
        self.records.push(u32::from(id));
        self.records.extend(parts);
    }

    /// A part of the text of at most so many bytes.
    fn any_part(&self, random: &mut Random, length: usize) -> (usize, usize) {
        let length = length.min(self.text.len());
        (random.below(self.text.len() - length + 1), length)
    }

    /// Does one damage to the lot; damage that it gives no hold for changes nothing.
    pub fn damage(&mut self, kind: LotDamage, random: &mut Random) {
        match kind {
            LotDamage::Remainder => self.add_remainder(random),
            LotDamage::TextShort => self.shorten_text(random),
            LotDamage::RecordsSwapped => self.swap_records(random),
            _ if self.count() > 0 => self.damage_record(kind, random),
            _ => {}
        }
    }

    fn damage_record(&mut self, kind: LotDamage, random: &mut Random) {
        let start = ROW_LEN * random.below(self.count());
        let end = start + ROW_LEN;
        let text_len = self.text.len();
        let row = &mut self.records[start..end];
        match kind {
            LotDamage::IdWrong => row[ID] = random.pick(&WRONG_IDS),
            LotDamage::NameAboutTheLongest => {
                row[NAME_LENGTH] = random.pick(&NAMES_ABOUT_THE_LONGEST)
            }
            LotDamage::NameHuge => row[NAME_LENGTH] = random.pick(&HUGE_LENGTHS),
            LotDamage::NamePastText => just_past(&mut row[NAME], text_len, random),
            LotDamage::NameFarPastText => far_past(&mut row[NAME], random),
            LotDamage::DataHuge => row[DATA_LENGTH] = random.pick(&HUGE_LENGTHS),
            LotDamage::DataPastText => just_past(&mut row[DATA], text_len, random),
            LotDamage::DataFarPastText => far_past(&mut row[DATA], random),
            LotDamage::EmptyNameAnywhere => empty_anywhere(&mut row[NAME], random),
            LotDamage::EmptyDataAnywhere => empty_anywhere(&mut row[DATA], random),
            LotDamage::Noise => row[random.below(ROW_LEN)] = random.u32(),
            LotDamage::RecordDropped => drop(self.records.drain(start..end)),
            LotDamage::RecordTwice => self.records.extend_from_within(start..end),
            _ => {}
        }
    }

    /// A record put before the one that it followed.
    fn swap_records(&mut self, random: &mut Random) {
        if self.count() > 1 {
            let start = ROW_LEN * random.below(self.count() - 1);
            self.records[start..start + 2 * ROW_LEN].rotate_left(ROW_LEN);
        }
    }

    fn add_remainder(&mut self, random: &mut Random) {
        for _ in 0..1 + random.below(ROW_LEN - 1) {
            self.records.push(random.u32());
        }
    }

    fn shorten_text(&mut self, random: &mut Random) {
        let len = random.below(self.text.len() + 1);
        self.text.truncate(len);
    }
}

/// A part whose last byte is the first past the text, or the next.
fn just_past(part: &mut [u32], text_len: usize, random: &mut Random) {
    let [place, length] = place_and_length(part);
    let past = text_len as u32 + 1 + random.below(2) as u32;
    // Another damage may have made the part far longer than any text here.
    *length = (*length).clamp(1, LONG_PART);
    *place = past.saturating_sub(*length);
}

/// A place so far on that adding the part's length to it passes 32 bits.
fn far_past(part: &mut [u32], random: &mut Random) {
    let [place, length] = place_and_length(part);
    *length = (*length).max(1);
    *place = u32::MAX - random.below(*length as usize + 2).min(u32::MAX as usize) as u32;
}

fn empty_anywhere(part: &mut [u32], random: &mut Random) {
    let [place, length] = place_and_length(part);
    *place = random.u32();
    *length = 0;
}

fn place_and_length(part: &mut [u32]) -> &mut [u32; 2] {
    part.try_into().expect("a part is two numbers")
}
