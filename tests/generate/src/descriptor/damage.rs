//! Damage done to sound files.

use super::laid::{Field, Laid};
use super::tags::{FORMS, TYPES};
use crate::bytes::{self, one_off};
use crate::random::Random;

const WRONG_VERSIONS: [u32; 5] = [0, 15, 17, 0x1000_0000, u32::MAX];
/// Counts and lengths that wrap, or nearly, where they are doubled, multiplied
/// by eight or added to a place in 32 bits.
const HUGE: [u32; 9] = [
    0x0100_0000,
    0x1FFF_FFFF,
    0x2000_0000,
    0x7FFF_FFFF,
    0x8000_0000,
    0x8000_0001,
    0xFFFF_FFF0,
    0xFFFF_FFFC,
    u32::MAX,
];
/// Tags of other fields, or nearly one of the field's own.
const WRONG_TAGS: [[u8; 4]; 14] = [
    *b"Bool", *b"boo\0", *b"Pth\0", *b"obj\0", *b"Obj ", *b"UnFl", *b"UntD", *b"clss", *b"Name",
    *b"#mlm", *b"#Pts", *b"#ang", *b"8BIM", [0; 4],
];
const WRONG_ARRAY_UNITS: [[u8; 4]; 5] = [*b"#Ang", *b"#Rsl", *b"#Nne", *b"#Mlm", *b"#Pnt"];
/// Infinities and what is no number.
const NOT_FINITE: [u64; 6] = [
    0x7FF0_0000_0000_0000,
    0xFFF0_0000_0000_0000,
    0x7FF0_0000_0000_0001,
    0x7FF8_0000_0000_0000,
    0x7FFF_FFFF_FFFF_FFFF,
    u64::MAX,
];
/// A list of one item, up to that item.
const LIST_OF_ONE: &[u8] = b"VlLs\0\0\0\x01";

/// One way to damage a file.
#[derive(Clone, Copy, Debug, PartialEq, Eq)]
pub enum Damage {
    Cut,
    FlipBit,
    SetByte,
    DropByte,
    AddByte,
    LeftOver,
    Noise,
    VersionWrong,
    IdLengthZero,
    IdLengthOneOff,
    StringOneOff,
    StringNotClosed,
    CountOneOff,
    CountHuge,
    TypeWrong,
    TypeOther,
    ArrayPairTypeWrong,
    FormWrong,
    FormOther,
    UnitWrong,
    ArrayUnitWrong,
    BoolWrong,
    DoubleNotFinite,
    DoublesOneOff,
    Gap,
    /// A fault only where some member comes to stand too deep.
    Deepened,
}

impl Damage {
    pub const ALL: [Damage; 26] = [
        Damage::Cut,
        Damage::FlipBit,
        Damage::SetByte,
        Damage::DropByte,
        Damage::AddByte,
        Damage::LeftOver,
        Damage::Noise,
        Damage::VersionWrong,
        Damage::IdLengthZero,
        Damage::IdLengthOneOff,
        Damage::StringOneOff,
        Damage::StringNotClosed,
        Damage::CountOneOff,
        Damage::CountHuge,
        Damage::TypeWrong,
        Damage::TypeOther,
        Damage::ArrayPairTypeWrong,
        Damage::FormWrong,
        Damage::FormOther,
        Damage::UnitWrong,
        Damage::ArrayUnitWrong,
        Damage::BoolWrong,
        Damage::DoubleNotFinite,
        Damage::DoublesOneOff,
        Damage::Gap,
        Damage::Deepened,
    ];

    pub fn any(random: &mut Random) -> Self {
        random.pick(&Damage::ALL)
    }
}

/// Does one damage to a descriptor's file, which may be damaged already: then
/// its fields may stand elsewhere, and other bytes are hit. Damage that the file
/// gives no hold for changes nothing.
pub fn damage(file: &mut Vec<u8>, laid: &Laid, kind: Damage, random: &mut Random) {
    let mut damaging = Damaging { file, laid, random };
    damaging.apply(kind);
}

struct Damaging<'a> {
    file: &'a mut Vec<u8>,
    laid: &'a Laid,
    random: &'a mut Random,
}

/// The counts and lengths of all sorts.
fn is_count(field: Field) -> bool {
    matches!(
        field,
        Field::IdLength
            | Field::StringCount
            | Field::PairCount
            | Field::ItemCount
            | Field::ObjectCount
            | Field::DoubleCount
            | Field::ByteCount
    )
}

fn is_container(kind: u32) -> bool {
    let tag = kind.to_be_bytes();
    [*b"VlLs", *b"Objc", *b"GlbO", *b"obj ", *b"ObAr"].contains(&tag)
}

impl Damaging<'_> {
    fn apply(&mut self, kind: Damage) {
        match kind {
            Damage::Cut => bytes::cut_after(self.file, 0, self.random),
            Damage::FlipBit => bytes::flip_bit(self.file, self.random),
            Damage::SetByte => bytes::set_byte(self.file, self.random),
            Damage::DropByte => bytes::drop_byte(self.file, self.random),
            Damage::AddByte => bytes::add_byte(self.file, self.random),
            Damage::LeftOver => bytes::leave_over(self.file, self.random),
            Damage::Noise => *self.file = bytes::noise(self.random),
            Damage::VersionWrong => self.put_any_u32(Field::Version, &WRONG_VERSIONS),
            Damage::IdLengthZero => self.put_any_u32(Field::IdLength, &[0, 1, 4]),
            Damage::IdLengthOneOff => self.set_count(|field| field == Field::IdLength, one_off),
            Damage::StringOneOff => self.set_count(|field| field == Field::StringCount, one_off),
            Damage::StringNotClosed => self.put_any(Field::LastUnit, &[[0, 1], [1, 0], *b"\0A"]),
            Damage::CountOneOff => self.set_count(is_count, one_off),
            Damage::CountHuge => self.set_count(is_count, |_, random| random.pick(&HUGE)),
            Damage::TypeWrong => self.put_any(Field::Type, &WRONG_TAGS),
            Damage::TypeOther => self.put_any(Field::Type, &TYPES),
            Damage::ArrayPairTypeWrong => self.put_any(
                Field::ArrayPairType,
                &[*b"UntF", *b"doub", *b"unfl", *b"bool"],
            ),
            Damage::FormWrong => self.put_any(Field::Form, &WRONG_TAGS),
            Damage::FormOther => self.put_any(Field::Form, &FORMS),
            Damage::UnitWrong => self.put_any(Field::Unit, &WRONG_TAGS),
            Damage::ArrayUnitWrong => self.put_any(Field::ArrayUnit, &WRONG_ARRAY_UNITS),
            Damage::BoolWrong => self.put_any(Field::Bool, &[[2], [0x80], [0xFF]]),
            Damage::DoubleNotFinite => {
                self.put_any(Field::Double, &NOT_FINITE.map(u64::to_be_bytes))
            }
            Damage::DoublesOneOff => self.set_count(|field| field == Field::DoubleCount, one_off),
            Damage::Gap => self.leave_gap(),
            Damage::Deepened => self.deepen(),
        }
    }

    fn any_place(&mut self, is_so: impl Fn(Field) -> bool) -> Option<usize> {
        let fields = self.laid.fields.iter().filter(|(field, _)| is_so(*field));
        let places: Vec<usize> = fields.map(|(_, place)| *place).collect();
        (!places.is_empty()).then(|| self.random.pick(&places))
    }

    fn put_any<const LEN: usize>(&mut self, field: Field, from: &[[u8; LEN]]) {
        if let Some(place) = self.any_place(|other| other == field) {
            let bytes = self.random.pick(from);
            bytes::put(self.file, place, &bytes);
        }
    }

    fn put_any_u32(&mut self, field: Field, from: &[u32]) {
        let value = self.random.pick(from);
        self.put_any(field, &[value.to_be_bytes()]);
    }

    fn set_count(
        &mut self,
        is_so: impl Fn(Field) -> bool,
        wrong: impl Fn(u32, &mut Random) -> u32,
    ) {
        if let Some(place) = self.any_place(is_so) {
            if let Some(bytes) = self.file.get(place..place + 4) {
                let count = u32::from_be_bytes(bytes.try_into().expect("four bytes"));
                let count = wrong(count, self.random);
                bytes::put(self.file, place, &count.to_be_bytes());
            }
        }
    }

    /// Bytes between the last child of a row and what follows.
    fn leave_gap(&mut self) {
        let rows = self.laid.rows.iter().filter(|row| is_container(row[0]));
        let ends: Vec<usize> = rows.map(|row| (row[2] + row[3]) as usize).collect();
        let place = self.random.pick(&ends).min(self.file.len());
        let len = self.random.pick(&[1, 1, 2, 4]);
        self.file.splice(place..place, vec![0; len]);
    }

    /// An item put into so many lists that it, or what is in it, stands at the
    /// greatest depth, or just above or below.
    fn deepen(&mut self) {
        if let Some(place) = self.any_place(|field| field == Field::Type) {
            let lists = self.random.pick(&[1, 2, 28, 29, 30, 31, 32]);
            let place = place.min(self.file.len());
            self.file.splice(place..place, LIST_OF_ONE.repeat(lists));
        }
    }
}
