//! Records for a writer, with the text in which their names lie.

use super::kinds::{balanced, Kind};
use super::palette::{Colour, MODELS};
use super::{COLOUR, GROUP_END, GROUP_START, MAX_OPEN};
use crate::channels::EACH_CLASS;
use crate::names::{any_name, any_text, empty_anywhere, far_past, just_past, zero_unit};
use crate::random::Random;
use std::ops::RangeInclusive;

const ROW_LEN: usize = 9;
const NAME: RangeInclusive<usize> = 1..=2;
const UNITS: usize = 2;
const MODEL: usize = 3;
const CHANNELS: usize = 4;
const INK: usize = 8;

type Row = [u32; ROW_LEN];

/// Types that are not known; some of them are once cut to 16 bits.
const WRONG_TYPES: [u32; 8] = [
    0,
    2,
    0xC000,
    0xC003,
    0x1_0001,
    0x1_C001,
    0xFFFF_C002,
    u32::MAX,
];
/// Units whose count does not fit 16 bits, and those for which it just does.
const UNITS_ABOUT_A_COUNT: [u32; 6] = [65_534, 65_535, 65_536, 65_537, 0x1_FFFF, 0x2_0000];
/// Units that make the output too long, or would if no sum of lengths wrapped.
const MANY_UNITS: [u32; 5] = [8_388_608, 0x7FFF_FFF3, 0x7FFF_FFFF, 0x8000_0000, u32::MAX];
const WRONG_MODELS: [u32; 6] = [
    0,
    u32::from_be_bytes(*b"rgb "),
    u32::from_be_bytes(*b"RGB\0"),
    u32::from_be_bytes(*b"GRAY"),
    u32::from_be_bytes(*b"KYMC"),
    u32::MAX,
];
/// Inks that no file states, and numbers that are none; some of them are stated once
/// cut to 16 bits.
const WRONG_INKS: [u32; 8] = [3, 4, 5, 0xFFFF, 0x1_0000, 0x1_0002, 0x1_0004, u32::MAX];

/// What a writer is handed.
#[derive(Clone, Debug, PartialEq, Eq)]
pub struct Lot {
    pub records: Vec<u32>,
    pub text: Vec<u8>,
}

/// One way to damage a lot.
#[derive(Clone, Copy, Debug, PartialEq, Eq)]
pub enum LotDamage {
    TypeWrong,
    TypeOther,
    NamePastText,
    NameFarPastText,
    TextShort,
    ZeroUnit,
    UnitsAboutACount,
    ManyUnits,
    ModelWrong,
    ModelOther,
    ChannelAny,
    InkWrong,
    StartAdded,
    EndAdded,
    RecordDropped,
    RecordTwice,
    RecordsSwapped,
    Deepened,
    /// Not a fault: a name of no units may give any place.
    EmptyNameAnywhere,
    /// Not a fault: numbers that make no whole record are left alone.
    Remainder,
    Noise,
}

impl LotDamage {
    pub const ALL: [LotDamage; 21] = [
        LotDamage::TypeWrong,
        LotDamage::TypeOther,
        LotDamage::NamePastText,
        LotDamage::NameFarPastText,
        LotDamage::TextShort,
        LotDamage::ZeroUnit,
        LotDamage::UnitsAboutACount,
        LotDamage::ManyUnits,
        LotDamage::ModelWrong,
        LotDamage::ModelOther,
        LotDamage::ChannelAny,
        LotDamage::InkWrong,
        LotDamage::StartAdded,
        LotDamage::EndAdded,
        LotDamage::RecordDropped,
        LotDamage::RecordTwice,
        LotDamage::RecordsSwapped,
        LotDamage::Deepened,
        LotDamage::EmptyNameAnywhere,
        LotDamage::Remainder,
        LotDamage::Noise,
    ];

    pub fn any(random: &mut Random) -> Self {
        random.pick(&LotDamage::ALL)
    }
}

impl Lot {
    /// A sound lot. Names lie anywhere in the text, and what a record does not
    /// use is 0 or, as often, anything.
    pub fn any(random: &mut Random) -> Self {
        let len = random.below(60);
        let text = any_text(random, len);
        let count = if random.one_in(50) {
            random.below(200)
        } else {
            random.below(7)
        };
        let unused = random.one_in(2);
        let mut lot = Lot {
            records: Vec::new(),
            text,
        };
        for kind in balanced(random, count) {
            let mut row = unused_row(random, unused);
            fill(&mut row, kind, any_name(&lot.text, random), random);
            lot.records.extend(row);
        }
        lot
    }

    /// A lot to be timed: RGB colours, and names of the same length that lie
    /// one after the other.
    pub fn uniform(random: &mut Random, colours: usize, units: usize) -> Self {
        let mut lot = Lot {
            records: Vec::new(),
            text: any_text(random, 2 * units * colours),
        };
        for index in 0..colours {
            let colour = Colour::rgb(random);
            lot.push_colour(&colour, 2 * units * index, units);
        }
        lot
    }

    /// A lot of RGB colours whose names are all the first units of one text, so
    /// that the output is longer than what is handed over.
    pub fn sharing_text(random: &mut Random, units: &[usize]) -> Self {
        let longest = units.iter().copied().max().unwrap_or(0);
        let mut lot = Lot {
            records: Vec::new(),
            text: any_text(random, 2 * longest),
        };
        for &units in units {
            let colour = Colour::rgb(random);
            lot.push_colour(&colour, 0, units);
        }
        lot
    }

    /// Groups inside each other, with no names; from 17 on not sound.
    pub fn nested(depth: usize) -> Self {
        let starts = bare_row(GROUP_START).repeat(depth);
        let ends = bare_row(GROUP_END).repeat(depth);
        Lot {
            records: [starts, ends].concat(),
            text: Vec::new(),
        }
    }

    pub fn count(&self) -> usize {
        self.records.len() / ROW_LEN
    }

    fn push_colour(&mut self, colour: &Colour, place: usize, units: usize) {
        let mut row = [0; ROW_LEN];
        row[0] = u32::from(COLOUR);
        put_name(&mut row, (place, units));
        put_colour(&mut row, colour);
        self.records.extend(row);
    }

    /// Does one damage to the lot; damage that it gives no hold for changes nothing.
    pub fn damage(&mut self, kind: LotDamage, random: &mut Random) {
        match kind {
            LotDamage::Remainder => self.add_remainder(random),
            LotDamage::TextShort => self.shorten_text(random),
            LotDamage::StartAdded => self.add_record(GROUP_START, random),
            LotDamage::EndAdded => self.add_record(GROUP_END, random),
            LotDamage::Deepened => self.deepen(random),
            LotDamage::RecordsSwapped => self.swap_records(random),
            _ if self.count() > 0 => self.damage_record(kind, random),
            _ => {}
        }
    }

    fn damage_record(&mut self, kind: LotDamage, random: &mut Random) {
        let start = ROW_LEN * random.below(self.count());
        let end = start + ROW_LEN;
        let text = &mut self.text;
        let row = &mut self.records[start..end];
        match kind {
            LotDamage::TypeWrong => row[0] = random.pick(&WRONG_TYPES),
            LotDamage::TypeOther => row[0] = random.pick(&[GROUP_START, GROUP_END, COLOUR]).into(),
            LotDamage::NamePastText => just_past(&mut row[NAME], text.len(), random),
            LotDamage::NameFarPastText => far_past(&mut row[NAME], random),
            LotDamage::ZeroUnit => zero_unit(&mut row[NAME], text, random),
            LotDamage::EmptyNameAnywhere => empty_anywhere(&mut row[NAME], random),
            LotDamage::UnitsAboutACount => row[UNITS] = random.pick(&UNITS_ABOUT_A_COUNT),
            LotDamage::ManyUnits => row[UNITS] = random.pick(&MANY_UNITS),
            LotDamage::ModelWrong => row[MODEL] = random.pick(&WRONG_MODELS),
            LotDamage::ModelOther => (row[MODEL], _) = random.pick(&MODELS),
            LotDamage::ChannelAny => row[CHANNELS + random.below(4)] = random.pick(&EACH_CLASS),
            LotDamage::InkWrong => row[INK] = random.pick(&WRONG_INKS),
            LotDamage::Noise => row[random.below(ROW_LEN)] = random.u32(),
            LotDamage::RecordDropped => drop(self.records.drain(start..end)),
            LotDamage::RecordTwice => self.records.extend_from_within(start..end),
            _ => {}
        }
    }

    fn add_record(&mut self, kind: u16, random: &mut Random) {
        let seam = ROW_LEN * random.below(self.count() + 1);
        self.records.splice(seam..seam, bare_row(kind));
    }

    /// A record put before the one that it followed.
    fn swap_records(&mut self, random: &mut Random) {
        if self.count() > 1 {
            let start = ROW_LEN * random.below(self.count() - 1);
            self.records[start..start + 2 * ROW_LEN].rotate_left(ROW_LEN);
        }
    }

    /// All records put inside of so many groups that 16 are open, or just more
    /// or fewer, where these begin.
    fn deepen(&mut self, random: &mut Random) {
        let depth = MAX_OPEN - 2 + random.below(4);
        let closed = depth - usize::from(random.one_in(8));
        let end = ROW_LEN * self.count();
        self.records
            .splice(end..end, bare_row(GROUP_END).repeat(closed));
        self.records
            .splice(..0, bare_row(GROUP_START).repeat(depth));
    }

    fn add_remainder(&mut self, random: &mut Random) {
        for _ in 0..1 + random.below(ROW_LEN - 1) {
            self.records.push(random.u32());
        }
    }

    fn shorten_text(&mut self, random: &mut Random) {
        let len = random.below(self.text.len() + 1);
        self.text.truncate(len);
    }
}

fn unused_row(random: &mut Random, full: bool) -> Row {
    let mut row = [0; ROW_LEN];
    if full {
        row.fill_with(|| random.u32());
    }
    row
}

/// Fills in what a record of that kind uses, and no more.
fn fill(row: &mut Row, kind: Kind, name: (usize, usize), random: &mut Random) {
    match kind {
        Kind::Start => {
            row[0] = u32::from(GROUP_START);
            put_name(row, name);
        }
        Kind::End => row[0] = u32::from(GROUP_END),
        Kind::Colour => {
            row[0] = u32::from(COLOUR);
            put_name(row, name);
            put_colour(row, &Colour::any(random));
        }
    }
}

fn put_name(row: &mut Row, (place, units): (usize, usize)) {
    row[NAME].copy_from_slice(&[place as u32, units as u32]);
}

fn put_colour(row: &mut Row, colour: &Colour) {
    row[MODEL] = colour.model;
    let used = colour.used();
    row[CHANNELS..][..used.len()].copy_from_slice(used);
    row[INK] = u32::from(colour.colour_type);
}

fn bare_row(kind: u16) -> Row {
    let mut row = [0; ROW_LEN];
    row[0] = u32::from(kind);
    row
}
