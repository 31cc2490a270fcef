//! Records for a writer, with the text in which their names lie.

use crate::names::{any_name, any_text, empty_anywhere, far_past, just_past, zero_unit};
use crate::palette::{Colour, OUTSIDE, SPACES};
use crate::random::Random;
use std::ops::RangeInclusive;

const ROW_LEN: usize = 8;
const NAME: RangeInclusive<usize> = 5..=6;
const UNITS: usize = 6;
const INK: usize = 7;
const MAX_RECORDS: usize = 4096;

/// Spaces that are not known; some of them are once cut to 16 bits.
const WRONG_SPACES: [u32; 8] = [3, 6, 9, 0xFFFF, 0x1_0000, 0x1_0002, 0x8_0008, u32::MAX];
/// Samples too large; some of them are zero once cut to 16 bits.
const LARGE_SAMPLES: [u32; 4] = [0x1_0000, 0x1_0001, 0x8000_0000, u32::MAX];
/// Units that make the output too long, or would if no sum of lengths wrapped.
const MANY_UNITS: [u32; 5] = [8_388_608, 0x7FFF_FFF3, 0x7FFF_FFFF, 0x8000_0000, u32::MAX];

/// The one ink that a record may say: not stated.
const NOT_STATED: u32 = 4;
/// Inks that are stated, and numbers that are none; some are 4 once cut to 16 bits.
const WRONG_INKS: [u32; 8] = [0, 1, 2, 3, 5, 0x0104, 0x1_0004, u32::MAX];

/// What a writer is handed.
#[derive(Clone, Debug, PartialEq, Eq)]
pub struct Lot {
    pub records: Vec<u32>,
    pub text: Vec<u8>,
}

/// One way to damage a lot.
#[derive(Clone, Copy, Debug, PartialEq, Eq)]
pub enum LotDamage {
    SpaceWrong,
    SampleLarge,
    UnusedSampleSet,
    SampleOutside,
    InkStated,
    NamePastText,
    NameFarPastText,
    TextShort,
    ZeroUnit,
    ManyUnits,
    ManyRecords,
    /// Not a fault: a name of no units may give any place.
    EmptyNameAnywhere,
    /// Not a fault: numbers that make no whole record are left alone.
    Remainder,
    Noise,
}

impl LotDamage {
    pub const ALL: [LotDamage; 14] = [
        LotDamage::SpaceWrong,
        LotDamage::SampleLarge,
        LotDamage::UnusedSampleSet,
        LotDamage::SampleOutside,
        LotDamage::InkStated,
        LotDamage::NamePastText,
        LotDamage::NameFarPastText,
        LotDamage::TextShort,
        LotDamage::ZeroUnit,
        LotDamage::ManyUnits,
        LotDamage::ManyRecords,
        LotDamage::EmptyNameAnywhere,
        LotDamage::Remainder,
        LotDamage::Noise,
    ];

    pub fn any(random: &mut Random) -> Self {
        random.pick(&LotDamage::ALL)
    }
}

impl Lot {
    /// A sound lot. Names lie anywhere in the text.
    pub fn any(random: &mut Random) -> Self {
        let len = random.below(60);
        let text = any_text(random, len);
        let count = if random.one_in(50) {
            random.below(200)
        } else {
            random.below(6)
        };
        let mut lot = Lot {
            records: Vec::new(),
            text,
        };
        for _ in 0..count {
            let (name, units) = any_name(&lot.text, random);
            lot.push(Colour::any(random), name, units);
        }
        lot
    }

    /// A lot to be timed: the spaces by turns, and names of the same length that
    /// lie one after the other.
    pub fn uniform(random: &mut Random, colours: usize, units: usize) -> Self {
        let text = any_text(random, 2 * units * colours);
        let mut lot = Lot {
            records: Vec::new(),
            text,
        };
        for index in 0..colours {
            lot.push(Colour::in_turn(random, index), 2 * units * index, units);
        }
        lot
    }

    /// A sound lot whose names are all the first units of one text, so that
    /// the output is longer than what is handed over.
    pub fn sharing_text(random: &mut Random, units: &[usize]) -> Self {
        let longest = units.iter().copied().max().unwrap_or(0);
        let mut lot = Lot {
            records: Vec::new(),
            text: any_text(random, 2 * longest),
        };
        for &units in units {
            lot.push(Colour::any(random), 0, units);
        }
        lot
    }

    pub fn count(&self) -> usize {
        self.records.len() / ROW_LEN
    }

    fn push(&mut self, colour: Colour, name: usize, units: usize) {
        self.records.push(u32::from(colour.space));
        self.records.extend(colour.samples.map(u32::from));
        self.records.extend([name as u32, units as u32, NOT_STATED]);
    }

    /// Does one damage to the lot; damage that it gives no hold for changes nothing.
    pub fn damage(&mut self, kind: LotDamage, random: &mut Random) {
        match kind {
            LotDamage::ManyRecords => self.add_records(random),
            LotDamage::Remainder => self.add_remainder(random),
            LotDamage::TextShort => self.shorten_text(random),
            _ if self.count() > 0 => self.damage_record(kind, random),
            _ => {}
        }
    }

    fn damage_record(&mut self, kind: LotDamage, random: &mut Random) {
        let index = random.below(self.count());
        let row = &mut self.records[ROW_LEN * index..][..ROW_LEN];
        match kind {
            LotDamage::SpaceWrong => row[0] = random.pick(&WRONG_SPACES),
            LotDamage::SampleLarge => row[1 + random.below(4)] = random.pick(&LARGE_SAMPLES),
            LotDamage::UnusedSampleSet => set_unused(row, random),
            LotDamage::SampleOutside => {
                row[1 + random.below(3)] = u32::from(random.pick(&OUTSIDE));
            }
            LotDamage::InkStated => row[INK] = random.pick(&WRONG_INKS),
            LotDamage::NamePastText => just_past(&mut row[NAME], self.text.len(), random),
            LotDamage::NameFarPastText => far_past(&mut row[NAME], random),
            LotDamage::ZeroUnit => zero_unit(&mut row[NAME], &mut self.text, random),
            LotDamage::ManyUnits => row[UNITS] = random.pick(&MANY_UNITS),
            LotDamage::EmptyNameAnywhere => empty_anywhere(&mut row[NAME], random),
            LotDamage::Noise => row[random.below(ROW_LEN)] = random.u32(),
            LotDamage::ManyRecords | LotDamage::Remainder | LotDamage::TextShort => {}
        }
    }

    /// Repeats the records, or one plain record, to the most a list holds or
    /// just more. Seldom: such a lot takes long to go through.
    fn add_records(&mut self, random: &mut Random) {
        if !random.one_in(20) {
            return;
        }
        if self.count() == 0 {
            self.push(
                Colour {
                    space: 0,
                    samples: [0; 4],
                },
                0,
                0,
            );
        }
        let count = MAX_RECORDS + random.below(3);
        let whole = ROW_LEN * self.count();
        self.records = self.records[..whole]
            .iter()
            .copied()
            .cycle()
            .take(ROW_LEN * count)
            .collect();
    }

    fn add_remainder(&mut self, random: &mut Random) {
        for _ in 0..1 + random.below(ROW_LEN - 1) {
            self.records.push(random.u32());
        }
    }

    fn shorten_text(&mut self, random: &mut Random) {
        let len = random.below(self.text.len() + 1);
        self.text.truncate(len);
    }
}

fn set_unused(row: &mut [u32], random: &mut Random) {
    let used = SPACES
        .iter()
        .find(|known| u32::from(known.0) == row[0])
        .map_or(4, |known| known.1);
    if used < 4 {
        row[1 + used + random.below(4 - used)] = random.pick(&[1, 0x0100, 0xFFFF, 0x1_0000]);
    }
}
