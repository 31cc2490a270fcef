//! Damage done to sound files.

use super::book::{components, Book, Layout};
use super::{SPACES, TAGS};
use crate::bytes::{self, one_off};
use crate::random::Random;

const WRONG_SIGNATURES: [[u8; 4]; 5] = [*b"8BCC", *b"8bcb", *b"BCB8", *b"ASEF", [0; 4]];
const WRONG_VERSIONS: [u16; 4] = [0, 2, 0x0100, 0xFFFF];
const WRONG_COUNTS: [u16; 5] = [0, 0x00FF, 0x7FFF, 0x8000, 0xFFFF];
/// Spaces that are known to other formats, or read backwards.
const WRONG_SPACES: [u16; 9] = [1, 3, 6, 8, 10, 0x0200, 0x0700, 0x8002, 0xFFFF];
/// Counts of units whose bytes wrap, or nearly, in 32 bits.
const HUGE_UNITS: [u32; 6] = [
    0x0080_0000,
    0x7FFF_FFFF,
    0x8000_0000,
    0x8000_0001,
    0xFFFF_FFFE,
    u32::MAX,
];
const WRONG_TAGS: [[u8; 8]; 6] = [
    *b"spflSpot",
    *b"spflprob",
    *b"spotspfl",
    *b"xpflspot",
    *b"spfl\0\0\0\0",
    [0; 8],
];

/// One way to damage a file.
#[derive(Clone, Copy, Debug, PartialEq, Eq)]
pub enum Damage {
    Cut,
    CutBehindColours,
    FlipBit,
    SetByte,
    DropByte,
    AddByte,
    LeftOver,
    Noise,
    SignatureWrong,
    VersionWrong,
    StringOneOff,
    StringHuge,
    CountOneOff,
    CountWrong,
    PageSizeZero,
    SpaceWrong,
    SpaceOther,
    NameOneOff,
    NameHuge,
    NameClosed,
    DummyBare,
    ColourDropped,
    ColourTwice,
    TagWrong,
    TagOther,
    TagCut,
    TagLonger,
}

impl Damage {
    pub const ALL: [Damage; 27] = [
        Damage::Cut,
        Damage::CutBehindColours,
        Damage::FlipBit,
        Damage::SetByte,
        Damage::DropByte,
        Damage::AddByte,
        Damage::LeftOver,
        Damage::Noise,
        Damage::SignatureWrong,
        Damage::VersionWrong,
        Damage::StringOneOff,
        Damage::StringHuge,
        Damage::CountOneOff,
        Damage::CountWrong,
        Damage::PageSizeZero,
        Damage::SpaceWrong,
        Damage::SpaceOther,
        Damage::NameOneOff,
        Damage::NameHuge,
        Damage::NameClosed,
        Damage::DummyBare,
        Damage::ColourDropped,
        Damage::ColourTwice,
        Damage::TagWrong,
        Damage::TagOther,
        Damage::TagCut,
        Damage::TagLonger,
    ];

    pub fn any(random: &mut Random) -> Self {
        random.pick(&Damage::ALL)
    }
}

/// Does one damage to a book's file, which may be damaged already: then its
/// fields may stand elsewhere, and other bytes are hit. Damage that the file
/// gives no hold for changes nothing.
pub fn damage(file: &mut Vec<u8>, book: &Book, kind: Damage, random: &mut Random) {
    let layout = book.layout();
    let mut damaging = Damaging {
        file,
        book,
        layout,
        random,
    };
    damaging.apply(kind);
}

struct Damaging<'a> {
    file: &'a mut Vec<u8>,
    book: &'a Book,
    layout: Layout,
    random: &'a mut Random,
}

impl Damaging<'_> {
    fn apply(&mut self, kind: Damage) {
        match kind {
            Damage::Cut => bytes::cut_after(self.file, 0, self.random),
            Damage::CutBehindColours => bytes::cut_after(self.file, self.layout.end, self.random),
            Damage::FlipBit => bytes::flip_bit(self.file, self.random),
            Damage::SetByte => bytes::set_byte(self.file, self.random),
            Damage::DropByte => bytes::drop_byte(self.file, self.random),
            Damage::AddByte => bytes::add_byte(self.file, self.random),
            Damage::LeftOver => bytes::leave_over(self.file, self.random),
            Damage::Noise => *self.file = bytes::noise(self.random),
            Damage::SignatureWrong => self.put_any(0, &WRONG_SIGNATURES),
            Damage::VersionWrong => self.put_any_u16(4, &WRONG_VERSIONS),
            Damage::StringOneOff => self.set_string(one_off),
            Damage::StringHuge => self.set_string(|_, random| random.pick(&HUGE_UNITS)),
            Damage::CountOneOff => self.count_one_off(),
            Damage::CountWrong => self.put_any_u16(self.layout.count, &WRONG_COUNTS),
            Damage::PageSizeZero => self.put_any_u16(self.layout.page_size(), &[0]),
            Damage::SpaceWrong => self.put_any_u16(self.layout.space(), &WRONG_SPACES),
            Damage::SpaceOther => self.put_any_u16(self.layout.space(), &SPACES),
            Damage::NameOneOff => self.set_name(one_off),
            Damage::NameHuge => self.set_name(|_, random| random.pick(&HUGE_UNITS)),
            Damage::NameClosed => self.close_name(),
            Damage::DummyBare => self.bare_dummy(),
            Damage::ColourDropped => self.drop_colour(),
            Damage::ColourTwice => self.repeat_colour(),
            Damage::TagWrong => self.wrong_tag(),
            Damage::TagOther => self.set_tail(|random| random.pick(&TAGS).to_vec()),
            Damage::TagCut => self.set_tail(cut_tag),
            Damage::TagLonger => self.set_tail(longer_tag),
        }
    }

    fn put_any<const LEN: usize>(&mut self, place: usize, from: &[[u8; LEN]]) {
        let bytes = self.random.pick(from);
        bytes::put(self.file, place, &bytes);
    }

    fn put_any_u16(&mut self, place: usize, from: &[u16]) {
        let value = self.random.pick(from);
        bytes::put(self.file, place, &value.to_be_bytes());
    }

    fn set_string(&mut self, wrong: impl Fn(u32, &mut Random) -> u32) {
        let index = self.random.below(4);
        let units = self.book.strings[index].len() as u32;
        let units = wrong(units, self.random);
        bytes::put(self.file, self.layout.strings[index], &units.to_be_bytes());
    }

    fn count_one_off(&mut self) {
        let count = one_off(self.book.colours.len() as u32, self.random) as u16;
        bytes::put(self.file, self.layout.count, &count.to_be_bytes());
    }

    fn any_colour(&mut self) -> Option<usize> {
        let colours = self.book.colours.len();
        (colours > 0).then(|| self.random.below(colours))
    }

    fn set_name(&mut self, wrong: impl Fn(u32, &mut Random) -> u32) {
        if let Some(index) = self.any_colour() {
            let units = self.book.colours[index].name.len() as u32;
            let units = wrong(units, self.random);
            bytes::put(self.file, self.layout.colours[index], &units.to_be_bytes());
        }
    }

    /// A zero unit behind a name, as other formats have it, not counted.
    fn close_name(&mut self) {
        if let Some(index) = self.any_colour() {
            let units = self.book.colours[index].name.len();
            let place = self.layout.colours[index] + 4 + 2 * units;
            let place = place.min(self.file.len());
            self.file.splice(place..place, [0, 0]);
        }
    }

    /// A dummy without its code and components.
    fn bare_dummy(&mut self) {
        if let Some(index) = self.any_colour() {
            if self.book.colours[index].name.is_empty() {
                let start = self.layout.colours[index] + 4;
                let end = start + 6 + components(self.book.space);
                self.remove(start, end);
            }
        }
    }

    fn remove(&mut self, start: usize, end: usize) {
        if end <= self.file.len() {
            self.file.drain(start..end);
        }
    }

    /// Where a colour begins and where the next one does.
    fn any_span(&mut self) -> Option<(usize, usize)> {
        let index = self.any_colour()?;
        let next = self.layout.colours.get(index + 1).copied();
        let span = (self.layout.colours[index], next.unwrap_or(self.layout.end));
        (span.1 <= self.file.len()).then_some(span)
    }

    fn drop_colour(&mut self) {
        if let Some((start, end)) = self.any_span() {
            self.remove(start, end);
            self.recount(-1);
        }
    }

    fn repeat_colour(&mut self) {
        if let Some((start, end)) = self.any_span() {
            let colour = self.file[start..end].to_vec();
            self.file.splice(end..end, colour);
            self.recount(1);
        }
    }

    /// So that a damage to the colours is found out by itself, or not at all,
    /// the count mostly goes with it.
    fn recount(&mut self, added: i16) {
        if !self.random.one_in(4) {
            let count = (self.book.colours.len() as u16).wrapping_add_signed(added);
            bytes::put(self.file, self.layout.count, &count.to_be_bytes());
        }
    }

    fn wrong_tag(&mut self) {
        let tag = self.random.pick(&WRONG_TAGS);
        self.set_tail(|_| tag.to_vec());
    }

    fn set_tail(&mut self, tail: impl FnOnce(&mut Random) -> Vec<u8>) {
        self.file.truncate(self.layout.end);
        self.file.extend(tail(self.random));
    }
}

/// Of a right tag or of any bytes, one to seven.
fn cut_tag(random: &mut Random) -> Vec<u8> {
    let len = 1 + random.below(7);
    if random.one_in(2) {
        return random.bytes(len);
    }
    TAGS[1 + random.below(2)][..len].to_vec()
}

fn longer_tag(random: &mut Random) -> Vec<u8> {
    let mut tail = TAGS[1 + random.below(2)].to_vec();
    let second = random.below(3);
    tail.extend(TAGS[second]);
    let len = random.below(3);
    tail.extend(random.bytes(len));
    tail
}
