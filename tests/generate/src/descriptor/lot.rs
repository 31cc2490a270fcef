//! Entries for a writer, with the text in which their parts lie.

use super::tags::{Tag, ARRAY_PAIR, FORMS, TYPES, UNITS};
use super::tree::{Array, Class, Form, Id, Object, Rest, Value};
use crate::bytes::one_off;
use crate::random::Random;

const ENTRY_LEN: usize = 16;
const KIND: usize = 0;
const KEY: usize = 1;
const CLASS_NAME: usize = 3;
const CLASS_ID: usize = 5;
const FIRST: usize = 7;
const SECOND: usize = 9;
const UNIT: usize = 11;
const HIGH: usize = 12;
const LOW: usize = 13;
const MEMBERS: usize = 14;
const OBJECTS: usize = 15;

/// Where the lengths and counts of parts stand; their places follow them.
const PARTS: [usize; 5] = [KEY, CLASS_NAME, CLASS_ID, FIRST, SECOND];

/// Lengths and counts that make the output too long, or would if none wrapped
/// where it is doubled, multiplied by eight or added to others.
const HUGE: [u32; 9] = [
    0x0100_0000,
    0x1FFF_FFFF,
    0x2000_0000,
    0x7FFF_FFFF,
    0x8000_0000,
    0x8000_0001,
    0xFFFF_FFF0,
    0xFFFF_FFFC,
    u32::MAX,
];
/// Tags of no kind, or nearly one.
const WRONG_TAGS: [Tag; 8] = [
    *b"Bool", *b"boo\0", *b"Pth\0", *b"UntD", *b"clss", *b"#mlm", *b"8BIM", [0; 4],
];
/// The upper half of a double that is not finite.
const NOT_FINITE: [u32; 5] = [0x7FF0_0000, 0xFFF0_0000, 0x7FF8_0000, 0x7FFF_FFFF, u32::MAX];
/// Parts that were put into the text lately are looked for in so many bytes.
const LOOKED_THROUGH: usize = 256;

/// What a writer is handed.
#[derive(Clone, Debug, PartialEq, Eq)]
pub struct Lot {
    pub entries: Vec<u32>,
    pub text: Vec<u8>,
    /// Of each entry a bit for each number that its kind uses.
    used: Vec<u16>,
}

/// One way to damage a lot.
#[derive(Clone, Copy, Debug, PartialEq, Eq)]
pub enum LotDamage {
    KindWrong,
    /// A kind of another place, or the same.
    KindOther,
    /// Not a fault where the number is spare.
    Noise,
    LengthOneOff,
    LengthHuge,
    LengthZero,
    PlaceJustPast,
    PlaceFarPast,
    TextShort,
    /// Not a fault in most parts.
    TextOther,
    StringNotClosed,
    UnitWrong,
    NumberOther,
    NotFinite,
    MembersOneOff,
    MembersHuge,
    ObjectsOneOff,
    EntryDropped,
    EntryTwice,
    EntriesSwapped,
    LeftOver,
    TooFew,
    /// A fault only where some member comes to stand too deep.
    Deepened,
    /// Not a fault: numbers that make no whole entry are left alone.
    Remainder,
}

impl LotDamage {
    pub const ALL: [LotDamage; 24] = [
        LotDamage::KindWrong,
        LotDamage::KindOther,
        LotDamage::Noise,
        LotDamage::LengthOneOff,
        LotDamage::LengthHuge,
        LotDamage::LengthZero,
        LotDamage::PlaceJustPast,
        LotDamage::PlaceFarPast,
        LotDamage::TextShort,
        LotDamage::TextOther,
        LotDamage::StringNotClosed,
        LotDamage::UnitWrong,
        LotDamage::NumberOther,
        LotDamage::NotFinite,
        LotDamage::MembersOneOff,
        LotDamage::MembersHuge,
        LotDamage::ObjectsOneOff,
        LotDamage::EntryDropped,
        LotDamage::EntryTwice,
        LotDamage::EntriesSwapped,
        LotDamage::LeftOver,
        LotDamage::TooFew,
        LotDamage::Deepened,
        LotDamage::Remainder,
    ];

    pub fn any(random: &mut Random) -> Self {
        random.pick(&LotDamage::ALL)
    }
}

impl Lot {
    /// A sound lot for this descriptor. Parts lie anywhere in the text and may
    /// share bytes; now and then there is noise in the spare numbers.
    pub fn of(random: &mut Random, root: &Object) -> Self {
        let noisy = random.one_in(2);
        let mut laying = Laying {
            lot: Lot {
                entries: Vec::new(),
                text: random.bytes(8),
                used: Vec::new(),
            },
            random,
            noisy,
        };
        laying.open(*b"Objc", None);
        laying.object(root);
        laying.lot
    }

    /// A lot that was made elsewhere; no number counts as spare.
    pub fn from_parts(entries: Vec<u32>, text: Vec<u8>) -> Self {
        let used = vec![u16::MAX; entries.len() / ENTRY_LEN];
        Lot {
            entries,
            text,
            used,
        }
    }

    pub fn count(&self) -> usize {
        self.entries.len() / ENTRY_LEN
    }

    /// Does one damage to the lot; damage that it gives no hold for changes nothing.
    pub fn damage(&mut self, kind: LotDamage, random: &mut Random) {
        match kind {
            LotDamage::Remainder => {
                let len = 1 + random.below(ENTRY_LEN - 1);
                self.entries.extend((0..len).map(|_| random.u32()));
                // Two remainders may be an entry.
                self.used.resize(self.count(), u16::MAX);
            }
            LotDamage::TextShort => {
                let len = random.below(self.text.len() + 1);
                self.text.truncate(len);
            }
            LotDamage::TextOther if !self.text.is_empty() => {
                let at = random.below(self.text.len());
                self.text[at] = random.byte();
            }
            LotDamage::TooFew => {
                let len = random.below(self.entries.len() + 1);
                self.entries.truncate(len);
                self.used.truncate(len / ENTRY_LEN);
            }
            _ if self.count() > 0 => self.damage_entry(kind, random),
            _ => {}
        }
    }

    fn damage_entry(&mut self, kind: LotDamage, random: &mut Random) {
        let index = random.below(self.count());
        let start = index * ENTRY_LEN;
        let range = start..start + ENTRY_LEN;
        let part = self.any_used(index, &PARTS, random);
        let text_len = self.text.len() as u32;
        let is_used = |at: usize| self.used[index] >> at & 1 == 1;
        let entry = &mut self.entries[range.clone()];
        match kind {
            LotDamage::KindWrong => entry[KIND] = number(random.pick(&WRONG_TAGS)),
            LotDamage::KindOther => entry[KIND] = number(any_tag(random)),
            LotDamage::Noise => {
                let at = random.below(ENTRY_LEN);
                entry[at] = any_number(entry[at], random);
            }
            LotDamage::LengthOneOff => entry[part] = one_off(entry[part], random),
            LotDamage::LengthHuge => entry[part] = random.pick(&HUGE),
            LotDamage::LengthZero => entry[part] = random.pick(&[0, 0, 1, 4]),
            LotDamage::PlaceJustPast => {
                let back = random.below(12) as u32;
                entry[part + 1] = (text_len + 1).saturating_sub(back);
            }
            LotDamage::PlaceFarPast => entry[part + 1] = random.pick(&HUGE),
            LotDamage::UnitWrong if is_used(UNIT) => {
                entry[UNIT] = number(random.pick(&[*b"#Ang", *b"#mlm", *b"#Pxl", [0; 4]]))
            }
            LotDamage::NumberOther => entry[LOW] = random.pick(&[0, 1, 2, 256, 1 << 31]),
            LotDamage::NotFinite => entry[HIGH] = random.pick(&NOT_FINITE),
            LotDamage::MembersOneOff => entry[MEMBERS] = one_off(entry[MEMBERS], random),
            LotDamage::MembersHuge => entry[MEMBERS] = random.pick(&HUGE),
            LotDamage::ObjectsOneOff => entry[OBJECTS] = one_off(entry[OBJECTS], random),
            LotDamage::StringNotClosed => self.open_string(start, random),
            LotDamage::EntryDropped => {
                self.entries.drain(range);
                self.used.remove(index);
            }
            LotDamage::EntryTwice => self.insert(index, self.entries[range].to_vec(), 1),
            LotDamage::LeftOver => {
                let entry = self.entries[range].to_vec();
                self.insert(self.count(), entry, 1);
            }
            LotDamage::EntriesSwapped if index > 0 => {
                self.entries[start - ENTRY_LEN..start + ENTRY_LEN].rotate_left(ENTRY_LEN);
                self.used.swap(index - 1, index);
            }
            LotDamage::Deepened if index > 0 => self.deepen(index, random),
            _ => {}
        }
    }

    /// One of the numbers that the entry uses, or any.
    fn any_used(&self, index: usize, from: &[usize], random: &mut Random) -> usize {
        let used = from.iter().copied();
        let used: Vec<usize> = used.filter(|at| self.used[index] >> at & 1 == 1).collect();
        if used.is_empty() {
            random.pick(from)
        } else {
            random.pick(&used)
        }
    }

    /// The last unit of the class's name or the first part, where it has one.
    fn open_string(&mut self, start: usize, random: &mut Random) {
        let at = start + random.pick(&[CLASS_NAME, FIRST]);
        let (count, place) = (self.entries[at] as usize, self.entries[at + 1] as usize);
        let last = place.saturating_add(count.saturating_mul(2));
        if count > 0 && last <= self.text.len() && last >= 2 {
            self.text[last - 1 - random.below(2)] = 1 + random.byte() / 2;
        }
    }

    /// An entry put into so many lists that it, or what is in it, stands at the
    /// greatest depth, or just above or below.
    fn deepen(&mut self, index: usize, random: &mut Random) {
        let lists = random.pick(&[1, 2, 28, 29, 30, 31, 32]);
        let start = index * ENTRY_LEN;
        let mut list = self.entries[start..start + ENTRY_LEN].to_vec();
        list[KIND] = number(*b"VlLs");
        list[MEMBERS] = 1;
        self.insert(index, list, lists);
    }

    fn insert(&mut self, index: usize, entry: Vec<u32>, times: usize) {
        let start = index * ENTRY_LEN;
        self.entries.splice(start..start, entry.repeat(times));
        let used = vec![u16::MAX; times];
        self.used.splice(index..index, used);
    }
}

fn number(tag: Tag) -> u32 {
    u32::from_be_bytes(tag)
}

fn any_tag(random: &mut Random) -> Tag {
    match random.below(8) {
        0 => ARRAY_PAIR,
        1 => random.pick(&UNITS),
        2..=4 => random.pick(&FORMS),
        _ => random.pick(&TYPES),
    }
}

/// Another number that may be one off, of one bit more or less, or any.
pub fn any_number(number: u32, random: &mut Random) -> u32 {
    match random.below(5) {
        0 => number.wrapping_add(1),
        1 => number.wrapping_sub(1),
        2 => number ^ 1 << random.below(32),
        3 => random.pick(&HUGE),
        _ => random.u32(),
    }
}

/// A lot that is being laid out.
struct Laying<'a> {
    lot: Lot,
    random: &'a mut Random,
    noisy: bool,
}

impl Laying<'_> {
    /// Begins an entry.
    fn open(&mut self, tag: Tag, key: Option<&Id>) {
        for _ in 0..ENTRY_LEN {
            let spare = if self.noisy && self.random.one_in(2) {
                self.random.u32()
            } else {
                0
            };
            self.lot.entries.push(spare);
        }
        self.lot.used.push(0);
        self.set(KIND, number(tag));
        if let Some(key) = key {
            self.id(KEY, key);
        }
    }

    /// A number of the last entry.
    fn set(&mut self, at: usize, number: u32) {
        let start = self.lot.entries.len() - ENTRY_LEN;
        self.lot.entries[start + at] = number;
        *self.lot.used.last_mut().expect("an entry was begun") |= 1 << at;
    }

    fn object(&mut self, object: &Object) {
        self.class(&object.class);
        self.set(MEMBERS, object.pairs.len() as u32);
        for (key, value) in &object.pairs {
            self.item(value, Some(key));
        }
    }

    fn item(&mut self, value: &Value, key: Option<&Id>) {
        self.open(value.tag(), key);
        match value {
            Value::Bool(value) => self.set(LOW, u32::from(*value)),
            Value::Long(value) => self.set(LOW, *value),
            Value::Large(bits) | Value::Double(bits) => self.bits(*bits),
            Value::Unit(unit, bits) => {
                self.set(UNIT, number(*unit));
                self.bits(*bits);
            }
            Value::Class(_, class) => self.class(class),
            Value::Enumerated(kind, value) => {
                self.id(FIRST, kind);
                self.id(SECOND, value);
            }
            Value::Bytes(_, bytes) => self.part(FIRST, bytes.len() as u32, bytes),
            Value::Text(text) => self.string(FIRST, text),
            Value::Object(_, object) => self.object(object),
            Value::List(items) => {
                self.set(MEMBERS, items.len() as u32);
                items.iter().for_each(|item| self.item(item, None));
            }
            Value::Reference(forms) => {
                self.set(MEMBERS, forms.len() as u32);
                forms.iter().for_each(|form| self.form(form));
            }
            Value::Array(array) => self.array(array),
        }
    }

    fn form(&mut self, form: &Form) {
        self.open(form.tag, None);
        self.class(&form.class);
        match &form.rest {
            Rest::Nothing => {}
            Rest::Enumerated(kind, value) => {
                self.id(FIRST, kind);
                self.id(SECOND, value);
            }
            Rest::Number(value) => self.set(LOW, *value),
            Rest::Name(name) => self.string(FIRST, name),
            Rest::Property(id) => self.id(FIRST, id),
        }
    }

    fn array(&mut self, array: &Array) {
        self.set(OBJECTS, array.objects);
        self.class(&array.class);
        self.set(MEMBERS, array.pairs.len() as u32);
        for (key, unit, doubles) in &array.pairs {
            self.open(ARRAY_PAIR, Some(key));
            self.set(UNIT, number(*unit));
            let bytes: Vec<u8> = doubles.iter().flat_map(|bits| bits.to_be_bytes()).collect();
            self.part(FIRST, doubles.len() as u32, &bytes);
        }
    }

    fn bits(&mut self, bits: u64) {
        self.set(HIGH, (bits >> 32) as u32);
        self.set(LOW, bits as u32);
    }

    fn class(&mut self, class: &Class) {
        self.string(CLASS_NAME, &class.name);
        self.id(CLASS_ID, &class.id);
    }

    fn id(&mut self, at: usize, id: &Id) {
        match id {
            Id::Characters(characters) => self.part(at, 0, characters),
            Id::Name(name) => self.part(at, name.len() as u32, name),
        }
    }

    fn string(&mut self, at: usize, text: &[u16]) {
        let bytes: Vec<u8> = text.iter().flat_map(|unit| unit.to_be_bytes()).collect();
        self.part(at, text.len() as u32, &bytes);
    }

    fn part(&mut self, at: usize, length: u32, bytes: &[u8]) {
        let place = self.place(bytes);
        self.set(at, length);
        self.set(at + 1, place);
    }

    /// Where the bytes lie in the text: somewhere already, or at its end. None at
    /// all may lie anywhere.
    fn place(&mut self, bytes: &[u8]) -> u32 {
        let text = &mut self.lot.text;
        if bytes.is_empty() {
            return self.random.pick(&[0, text.len() as u32, u32::MAX, 1 << 31]);
        }
        if self.random.one_in(2) {
            let start = text.len().saturating_sub(LOOKED_THROUGH);
            let mut windows = text[start..].windows(bytes.len());
            if let Some(place) = windows.position(|window| window == bytes) {
                return (start + place) as u32;
            }
        }
        let gap = self.random.below(3);
        text.extend(self.random.bytes(gap));
        let place = text.len() as u32;
        text.extend(bytes);
        place
    }
}
