//! Damage done to sound files.

use crate::bytes::{self, one_off};
use crate::palette::{
    Colour, Layout, Palette, COLOUR_LEN, HEAD_LEN, NAME_COUNT_LEN, OUTSIDE, SPACES,
};
use crate::random::Random;

/// Spaces that are not known, near to and far from those that are.
const WRONG_SPACES: [u16; 10] = [3, 4, 5, 6, 9, 10, 0x0100, 0x0200, 0x0800, 0xFFFF];
const WRONG_VERSIONS: [u16; 6] = [0, 1, 2, 3, 0x0100, 0x0200];
const WRONG_COUNTS: [u16; 4] = [4096, 4097, 0x8000, 0xFFFF];
/// Counts whose double does not fit, or fits only just, 32 bits.
const HUGE_NAME_COUNTS: [u32; 6] = [
    0xFFFF_FFFF,
    0x8000_0000,
    0x8000_0001,
    0x7FFF_FFFF,
    0x0001_0000,
    0x00FF_FFFF,
];

/// One way to damage a file.
#[derive(Clone, Copy, Debug, PartialEq, Eq)]
pub enum Damage {
    Cut,
    CutInListTwo,
    FlipBit,
    SetByte,
    DropByte,
    AddByte,
    CountOneOff,
    CountWrong,
    ListTwoCountOneOff,
    ListTwoCountWrong,
    VersionsSwapped,
    VersionWrong,
    ListTwoVersionWrong,
    SpaceWrong,
    SpaceWrongInBoth,
    SpaceOther,
    UnusedSampleSet,
    UnusedSampleSetInBoth,
    SampleOutside,
    SampleOutsideInBoth,
    ListsDiffer,
    LastRecordDiffers,
    NameCountZero,
    NameCountOneOff,
    NameCountHuge,
    NameLastUnitSet,
    NameEarlierZero,
    LeftOver,
    ListTwoTwice,
    ListOneTwice,
    ListTwoAlone,
    NamesLast,
    FewBytesAfterListOne,
    Noise,
}

impl Damage {
    pub const ALL: [Damage; 34] = [
        Damage::Cut,
        Damage::CutInListTwo,
        Damage::FlipBit,
        Damage::SetByte,
        Damage::DropByte,
        Damage::AddByte,
        Damage::CountOneOff,
        Damage::CountWrong,
        Damage::ListTwoCountOneOff,
        Damage::ListTwoCountWrong,
        Damage::VersionsSwapped,
        Damage::VersionWrong,
        Damage::ListTwoVersionWrong,
        Damage::SpaceWrong,
        Damage::SpaceWrongInBoth,
        Damage::SpaceOther,
        Damage::UnusedSampleSet,
        Damage::UnusedSampleSetInBoth,
        Damage::SampleOutside,
        Damage::SampleOutsideInBoth,
        Damage::ListsDiffer,
        Damage::LastRecordDiffers,
        Damage::NameCountZero,
        Damage::NameCountOneOff,
        Damage::NameCountHuge,
        Damage::NameLastUnitSet,
        Damage::NameEarlierZero,
        Damage::LeftOver,
        Damage::ListTwoTwice,
        Damage::ListOneTwice,
        Damage::ListTwoAlone,
        Damage::NamesLast,
        Damage::FewBytesAfterListOne,
        Damage::Noise,
    ];

    pub fn any(random: &mut Random) -> Self {
        random.pick(&Damage::ALL)
    }
}

/// Does one damage to the file of a palette. The file may be damaged already,
/// and then stand elsewhere than the palette says: what falls outside it is
/// passed over. Damage that the palette gives no hold for changes nothing.
pub fn damage(file: &mut Vec<u8>, palette: &Palette, kind: Damage, random: &mut Random) {
    let layout = palette.layout();
    let mut damaging = Damaging {
        file,
        palette,
        layout,
        random,
    };
    damaging.apply(kind);
}

struct Damaging<'a> {
    file: &'a mut Vec<u8>,
    palette: &'a Palette,
    layout: Layout,
    random: &'a mut Random,
}

impl Damaging<'_> {
    fn apply(&mut self, kind: Damage) {
        match kind {
            Damage::Cut => bytes::cut_after(self.file, 0, self.random),
            Damage::CutInListTwo => self.cut_in_list_two(),
            Damage::FlipBit => bytes::flip_bit(self.file, self.random),
            Damage::SetByte => bytes::set_byte(self.file, self.random),
            Damage::DropByte => bytes::drop_byte(self.file, self.random),
            Damage::AddByte => bytes::add_byte(self.file, self.random),
            Damage::CountOneOff => self.one_off(Some(2)),
            Damage::CountWrong => self.wrong_count(Some(2)),
            Damage::ListTwoCountOneOff => self.one_off(self.list_two_count()),
            Damage::ListTwoCountWrong => self.wrong_count(self.list_two_count()),
            Damage::VersionsSwapped => self.swap_versions(),
            Damage::VersionWrong => self.wrong_version(Some(0)),
            Damage::ListTwoVersionWrong => self.wrong_version(self.layout.list_two),
            Damage::SpaceWrong => self.wrong_space(false),
            Damage::SpaceWrongInBoth => self.wrong_space(true),
            Damage::SpaceOther => self.other_space(),
            Damage::UnusedSampleSet => self.set_unused(false),
            Damage::UnusedSampleSetInBoth => self.set_unused(true),
            Damage::SampleOutside => self.set_outside(false),
            Damage::SampleOutsideInBoth => self.set_outside(true),
            Damage::ListsDiffer => self.differ_in_any(),
            Damage::LastRecordDiffers => self.differ_in_last(),
            Damage::NameCountZero => self.set_name_count(|_, _| 0),
            Damage::NameCountOneOff => self.set_name_count(one_off),
            Damage::NameCountHuge => self.set_name_count(|_, r| r.pick(&HUGE_NAME_COUNTS)),
            Damage::NameLastUnitSet => self.set_last_unit(),
            Damage::NameEarlierZero => self.set_earlier_zero(),
            Damage::LeftOver => bytes::leave_over(self.file, self.random),
            Damage::ListTwoTwice => self.repeat_list_two(),
            Damage::ListOneTwice => self.repeat_list_one(),
            Damage::ListTwoAlone => self.keep_list_two(),
            Damage::NamesLast => *self.file = self.palette.file_with_names_last(),
            Damage::FewBytesAfterListOne => self.few_bytes_after_list_one(),
            Damage::Noise => *self.file = bytes::noise(self.random),
        }
    }

    fn put_u16(&mut self, place: usize, value: u16) {
        bytes::put(self.file, place, &value.to_be_bytes());
    }

    fn list_one_end(&self) -> usize {
        HEAD_LEN + self.layout.colours * COLOUR_LEN
    }

    fn list_two_count(&self) -> Option<usize> {
        self.layout.list_two.map(|place| place + 2)
    }

    fn any_colour(&mut self) -> Option<usize> {
        (self.layout.colours > 0).then(|| self.random.below(self.layout.colours))
    }

    /// The place of a record of list 2 and its number.
    fn any_named(&mut self) -> Option<(usize, usize)> {
        let index = self.any_colour()?;
        Some((*self.layout.named.get(index)?, index))
    }

    fn cut_in_list_two(&mut self) {
        if let Some(start) = self.layout.list_two {
            bytes::cut_after(self.file, start, self.random);
        }
    }

    fn one_off(&mut self, count: Option<usize>) {
        let value = one_off(self.layout.colours as u32, self.random);
        if let Some(place) = count {
            self.put_u16(place, value as u16);
        }
    }

    fn wrong_count(&mut self, count: Option<usize>) {
        let value = self.random.pick(&WRONG_COUNTS);
        if let Some(place) = count {
            self.put_u16(place, value);
        }
    }

    fn swap_versions(&mut self) {
        self.put_u16(0, 2);
        if let Some(place) = self.layout.list_two {
            self.put_u16(place, 1);
        }
    }

    fn wrong_version(&mut self, version: Option<usize>) {
        let value = self.random.pick(&WRONG_VERSIONS);
        if let Some(place) = version {
            self.put_u16(place, value);
        }
    }

    /// Puts a field of a colour of list 1, and of its twin where asked.
    fn put_field(&mut self, index: usize, field: usize, value: u16, in_both: bool) {
        self.put_u16(HEAD_LEN + index * COLOUR_LEN + 2 * field, value);
        if let (true, Some(&record)) = (in_both, self.layout.named.get(index)) {
            self.put_u16(record + 2 * field, value);
        }
    }

    fn wrong_space(&mut self, in_both: bool) {
        if let Some(index) = self.any_colour() {
            let space = self.random.pick(&WRONG_SPACES);
            self.put_field(index, 0, space, in_both);
        }
    }

    /// A known space, under which samples in use may be unused ones.
    fn other_space(&mut self) {
        if let Some(index) = self.any_colour() {
            let (space, _) = self.random.pick(&SPACES);
            self.put_field(index, 0, space, true);
        }
    }

    fn set_unused(&mut self, in_both: bool) {
        let Some(index) = self.any_colour() else {
            return;
        };
        let space = self.palette.colours[index].space;
        let used = SPACES
            .iter()
            .find(|known| known.0 == space)
            .map_or(4, |known| known.1);
        if used < 4 {
            let field = 1 + used + self.random.below(4 - used);
            let value = self.random.pick(&[1, 0x0100, 0x8000, 0xFFFF]);
            self.put_field(index, field, value, in_both);
        }
    }

    /// A sample of any colour, at a position in use or not: in gray and Lab,
    /// and where it is not used, it is out of range.
    fn set_outside(&mut self, in_both: bool) {
        if let Some(index) = self.any_colour() {
            let field = 1 + self.random.below(3);
            let value = self.random.pick(&OUTSIDE);
            self.put_field(index, field, value, in_both);
        }
    }

    fn differ_in_any(&mut self) {
        if let Some((place, index)) = self.any_named() {
            self.differ(place, index);
        }
    }

    fn differ_in_last(&mut self) {
        if let Some(&place) = self.layout.named.last() {
            self.differ(place, self.layout.colours - 1);
        }
    }

    /// Makes a field of a list 2 colour differ in a single bit, so that a
    /// comparison of half a field is found out.
    fn differ(&mut self, place: usize, index: usize) {
        let field = self.random.below(5);
        let Colour { space, samples } = self.palette.colours[index];
        let value = if field == 0 {
            space
        } else {
            samples[field - 1]
        };
        let bit = 1 << self.random.below(16);
        self.put_u16(place + 2 * field, value ^ bit);
    }

    fn name_count(&mut self) -> Option<(usize, u32)> {
        let (place, index) = self.any_named()?;
        let names = self.palette.names.as_ref()?;
        Some((place + COLOUR_LEN, names[index].len() as u32 + 1))
    }

    fn set_name_count(&mut self, wrong: impl Fn(u32, &mut Random) -> u32) {
        if let Some((place, count)) = self.name_count() {
            let count = wrong(count, self.random);
            bytes::put(self.file, place, &count.to_be_bytes());
        }
    }

    fn set_last_unit(&mut self) {
        if let Some((place, count)) = self.name_count() {
            let unit = self.random.pick(&[1, 0x0100, 0x0041, 0xFFFF]);
            self.put_u16(place + NAME_COUNT_LEN + 2 * (count as usize - 1), unit);
        }
    }

    fn set_earlier_zero(&mut self) {
        if let Some((place, count @ 2..)) = self.name_count() {
            let unit = self.random.below(count as usize - 1);
            self.put_u16(place + NAME_COUNT_LEN + 2 * unit, 0);
        }
    }

    fn repeat_list_two(&mut self) {
        let list_two = self
            .layout
            .list_two
            .and_then(|place| self.file.get(place..));
        if let Some(list_two) = list_two.map(<[u8]>::to_vec) {
            self.file.extend(list_two);
        }
    }

    fn repeat_list_one(&mut self) {
        if let Some(list_one) = self.file.get(..self.list_one_end()).map(<[u8]>::to_vec) {
            self.file.splice(0..0, list_one);
        }
    }

    fn keep_list_two(&mut self) {
        if let Some(place) = self.layout.list_two {
            self.file.drain(..place.min(self.file.len()));
        }
    }

    fn few_bytes_after_list_one(&mut self) {
        self.file.truncate(self.list_one_end());
        let after = [
            0,
            self.random.pick(&[1, 2, 3]),
            self.random.byte(),
            self.random.byte(),
        ];
        let len = 1 + self.random.below(after.len());
        self.file.extend(&after[..len]);
    }
}
