//! Damage done to sound files.

use super::palette::MODELS;
use super::{COLOUR, ENVELOPE_LEN, GROUP_END, GROUP_START, HEAD_LEN, MAX_OPEN};
use crate::bytes::{self, one_off};
use crate::channels::EACH_CLASS;
use crate::random::Random;

const COUNT_PLACE: usize = 8;

const WRONG_SIGNATURES: [[u8; 4]; 5] = [*b"ASEG", *b"asef", *b"FESA", *b"8BCB", [0; 4]];
const WRONG_VERSIONS: [u16; 5] = [0, 1, 2, 0x0100, 0xFFFF];
const WRONG_COUNTS: [u32; 6] = [
    0,
    0x00FF_FFFF,
    0x0100_0000,
    0x0001_0000,
    0x8000_0000,
    u32::MAX,
];
/// Types that are not known, near to those that are or read backwards.
const WRONG_TYPES: [u16; 10] = [
    0x0000, 0x0002, 0x0003, 0x0100, 0x01C0, 0x02C0, 0xC000, 0xC003, 0x8001, 0xFFFF,
];
const TYPES: [u16; 3] = [GROUP_START, GROUP_END, COLOUR];
/// Lengths that wrap, or nearly, where a place is added to them in 32 bits.
const HUGE_LENGTHS: [u32; 6] = [
    0x7FFF_FFFF,
    0x8000_0000,
    0xFFFF_FFF0,
    0xFFFF_FFFA,
    0xFFFF_FFFE,
    u32::MAX,
];
const HUGE_NAME_COUNTS: [u16; 5] = [0x0100, 0x7FFF, 0x8000, 0x8001, 0xFFFF];
const WRONG_MODELS: [[u8; 4]; 12] = [
    *b"rgb ", *b"RGB\0", *b" RGB", *b"BGR ", *b"RGBA", *b"cmyk", *b"KYMC", *b"Lab ", *b"LAB\0",
    *b"GRAY", *b"gray", [0; 4],
];
const WRONG_COLOUR_TYPES: [u16; 6] = [3, 4, 0x0100, 0x0200, 0x8000, 0xFFFF];

/// One way to damage a file.
#[derive(Clone, Copy, Debug, PartialEq, Eq)]
pub enum Damage {
    Cut,
    FlipBit,
    SetByte,
    DropByte,
    AddByte,
    LeftOver,
    Noise,
    SignatureWrong,
    VersionWrong,
    CountOneOff,
    CountWrong,
    TypeWrong,
    TypeOther,
    LengthOneOff,
    LengthWithEnvelope,
    LengthAny,
    LengthHuge,
    PayloadCut,
    PayloadLonger,
    EndFilled,
    NameCountZero,
    NameCountOneOff,
    NameCountHuge,
    NameLastUnitSet,
    NameEarlierZero,
    ModelWrong,
    ModelOther,
    ChannelAny,
    ColourTypeWrong,
    StartAdded,
    EndAdded,
    BlockDropped,
    BlockTwice,
    BlocksSwapped,
    Deepened,
}

impl Damage {
    pub const ALL: [Damage; 35] = [
        Damage::Cut,
        Damage::FlipBit,
        Damage::SetByte,
        Damage::DropByte,
        Damage::AddByte,
        Damage::LeftOver,
        Damage::Noise,
        Damage::SignatureWrong,
        Damage::VersionWrong,
        Damage::CountOneOff,
        Damage::CountWrong,
        Damage::TypeWrong,
        Damage::TypeOther,
        Damage::LengthOneOff,
        Damage::LengthWithEnvelope,
        Damage::LengthAny,
        Damage::LengthHuge,
        Damage::PayloadCut,
        Damage::PayloadLonger,
        Damage::EndFilled,
        Damage::NameCountZero,
        Damage::NameCountOneOff,
        Damage::NameCountHuge,
        Damage::NameLastUnitSet,
        Damage::NameEarlierZero,
        Damage::ModelWrong,
        Damage::ModelOther,
        Damage::ChannelAny,
        Damage::ColourTypeWrong,
        Damage::StartAdded,
        Damage::EndAdded,
        Damage::BlockDropped,
        Damage::BlockTwice,
        Damage::BlocksSwapped,
        Damage::Deepened,
    ];

    pub fn any(random: &mut Random) -> Self {
        random.pick(&Damage::ALL)
    }
}

/// Does one damage to a file, which may be damaged already: its blocks are
/// looked for as far as their lengths lead. Damage that the file gives no hold
/// for changes nothing.
pub fn damage(file: &mut Vec<u8>, kind: Damage, random: &mut Random) {
    let spans = spans(file);
    let mut damaging = Damaging {
        file,
        spans,
        random,
    };
    damaging.apply(kind);
}

/// Where a block lies, and its type.
#[derive(Clone, Copy)]
struct Span {
    kind: u16,
    start: usize,
    end: usize,
}

impl Span {
    fn payload(&self) -> usize {
        self.start + ENVELOPE_LEN
    }

    fn len(&self) -> u32 {
        (self.end - self.payload()) as u32
    }

    fn is_named(&self) -> bool {
        self.kind != GROUP_END
    }
}

/// A name by the place of its count and by its count.
struct Name {
    place: usize,
    count: usize,
}

impl Name {
    fn unit(&self, index: usize) -> usize {
        self.place + 2 + 2 * index
    }
}

fn spans(file: &[u8]) -> Vec<Span> {
    let mut spans = Vec::new();
    let mut start = HEAD_LEN;
    while let (Some(kind), Some(len)) = (u16_at(file, start), u32_at(file, start + 2)) {
        let end = start as u64 + ENVELOPE_LEN as u64 + u64::from(len);
        if end > file.len() as u64 {
            break;
        }
        let end = end as usize;
        spans.push(Span { kind, start, end });
        start = end;
    }
    spans
}

fn u16_at(file: &[u8], place: usize) -> Option<u16> {
    Some(u16::from_be_bytes(*file.get(place..)?.first_chunk()?))
}

fn u32_at(file: &[u8], place: usize) -> Option<u32> {
    Some(u32::from_be_bytes(*file.get(place..)?.first_chunk()?))
}

struct Damaging<'a> {
    file: &'a mut Vec<u8>,
    spans: Vec<Span>,
    random: &'a mut Random,
}

impl Damaging<'_> {
    fn apply(&mut self, kind: Damage) {
        match kind {
            Damage::Cut => bytes::cut_after(self.file, 0, self.random),
            Damage::FlipBit => bytes::flip_bit(self.file, self.random),
            Damage::SetByte => bytes::set_byte(self.file, self.random),
            Damage::DropByte => bytes::drop_byte(self.file, self.random),
            Damage::AddByte => bytes::add_byte(self.file, self.random),
            Damage::LeftOver => bytes::leave_over(self.file, self.random),
            Damage::Noise => *self.file = bytes::noise(self.random),
            Damage::SignatureWrong => self.wrong_signature(),
            Damage::VersionWrong => self.wrong_version(),
            Damage::CountOneOff => self.set_count(one_off),
            Damage::CountWrong => self.set_count(|_, random| random.pick(&WRONG_COUNTS)),
            Damage::TypeWrong => self.set_type(&WRONG_TYPES),
            Damage::TypeOther => self.set_type(&TYPES),
            Damage::LengthOneOff => self.set_length(one_off),
            Damage::LengthWithEnvelope => self.set_length(|len, _| len + ENVELOPE_LEN as u32),
            Damage::LengthAny => {
                self.set_length(|len, random| random.below(len as usize + 40) as u32)
            }
            Damage::LengthHuge => self.set_length(|_, random| random.pick(&HUGE_LENGTHS)),
            Damage::PayloadCut => self.cut_payload(),
            Damage::PayloadLonger => self.lengthen_payload(|span| span.is_named()),
            Damage::EndFilled => self.lengthen_payload(|span| span.kind == GROUP_END),
            Damage::NameCountZero => self.set_name_count(|_, _| 0),
            Damage::NameCountOneOff => {
                self.set_name_count(|count, r| one_off(count.into(), r) as u16)
            }
            Damage::NameCountHuge => self.set_name_count(|_, r| r.pick(&HUGE_NAME_COUNTS)),
            Damage::NameLastUnitSet => self.set_last_unit(),
            Damage::NameEarlierZero => self.set_earlier_zero(),
            Damage::ModelWrong => self.wrong_model(),
            Damage::ModelOther => self.other_model(),
            Damage::ChannelAny => self.any_channel(),
            Damage::ColourTypeWrong => self.wrong_colour_type(),
            Damage::StartAdded => self.add_block(GROUP_START),
            Damage::EndAdded => self.add_block(GROUP_END),
            Damage::BlockDropped => self.drop_block(),
            Damage::BlockTwice => self.repeat_block(),
            Damage::BlocksSwapped => self.swap_blocks(),
            Damage::Deepened => self.deepen(),
        }
    }

    fn put_u16(&mut self, place: usize, value: u16) {
        bytes::put(self.file, place, &value.to_be_bytes());
    }

    fn put_u32(&mut self, place: usize, value: u32) {
        bytes::put(self.file, place, &value.to_be_bytes());
    }

    /// Any of the blocks that are so.
    fn any_span(&mut self, is_so: impl Fn(&Span) -> bool) -> Option<Span> {
        let found: Vec<Span> = self.spans.iter().copied().filter(is_so).collect();
        (!found.is_empty()).then(|| self.random.pick(&found))
    }

    fn any_name(&mut self) -> Option<Name> {
        let place = self.any_span(Span::is_named)?.payload();
        let count = usize::from(u16_at(self.file, place)?);
        Some(Name { place, count })
    }

    /// The place of a colour's model, as its name's count says it.
    fn any_model(&mut self) -> Option<usize> {
        let place = self.any_span(|span| span.kind == COLOUR)?.payload();
        let count = u16_at(self.file, place)?;
        Some(place + 2 + 2 * usize::from(count))
    }

    fn wrong_signature(&mut self) {
        let signature = self.random.pick(&WRONG_SIGNATURES);
        bytes::put(self.file, 0, &signature);
    }

    fn wrong_version(&mut self) {
        let place = self.random.pick(&[4, 6]);
        let version = self.random.pick(&WRONG_VERSIONS);
        self.put_u16(place, version);
    }

    fn set_count(&mut self, wrong: impl Fn(u32, &mut Random) -> u32) {
        if let Some(count) = u32_at(self.file, COUNT_PLACE) {
            let count = wrong(count, self.random);
            self.put_u32(COUNT_PLACE, count);
        }
    }

    /// So that a damage to the blocks is found out by itself, the count mostly
    /// goes with it.
    fn recount(&mut self, added: i32) {
        if !self.random.one_in(4) {
            self.set_count(|count, _| count.wrapping_add_signed(added));
        }
    }

    fn set_type(&mut self, from: &[u16]) {
        if let Some(span) = self.any_span(|_| true) {
            let kind = self.random.pick(from);
            self.put_u16(span.start, kind);
        }
    }

    /// Another length than the payload has.
    fn set_length(&mut self, wrong: impl Fn(u32, &mut Random) -> u32) {
        if let Some(span) = self.any_span(|_| true) {
            let len = wrong(span.len(), self.random);
            self.put_u32(span.start + 2, len);
        }
    }

    /// Bytes taken from the end of a payload, and from its length.
    fn cut_payload(&mut self) {
        if let Some(span) = self.any_span(|span| span.len() > 0) {
            let cut = 1 + self.random.below(span.len() as usize);
            self.file.drain(span.end - cut..span.end);
            self.put_u32(span.start + 2, span.len() - cut as u32);
        }
    }

    /// Bytes added to the end of a payload, and to its length.
    fn lengthen_payload(&mut self, is_so: impl Fn(&Span) -> bool) {
        if let Some(span) = self.any_span(is_so) {
            let added = self.random.pick(&[1, 2, 2, 4, 6, 9]);
            let added = if self.random.one_in(2) {
                vec![0; added]
            } else {
                self.random.bytes(added)
            };
            self.put_u32(span.start + 2, span.len() + added.len() as u32);
            self.file.splice(span.end..span.end, added);
        }
    }

    fn set_name_count(&mut self, wrong: impl Fn(u16, &mut Random) -> u16) {
        if let Some(name) = self.any_name() {
            let count = wrong(name.count as u16, self.random);
            self.put_u16(name.place, count);
        }
    }

    fn set_last_unit(&mut self) {
        if let Some(name @ Name { count: 1.., .. }) = self.any_name() {
            let unit = self.random.pick(&[1, 0x0100, 0x0041, 0xFFFF]);
            self.put_u16(name.unit(name.count - 1), unit);
        }
    }

    fn set_earlier_zero(&mut self) {
        if let Some(name @ Name { count: 2.., .. }) = self.any_name() {
            let unit = self.random.below(name.count - 1);
            self.put_u16(name.unit(unit), 0);
        }
    }

    fn wrong_model(&mut self) {
        if let Some(place) = self.any_model() {
            let model = self.random.pick(&WRONG_MODELS);
            bytes::put(self.file, place, &model);
        }
    }

    /// A known model, under which the payload is too long or too short.
    fn other_model(&mut self) {
        if let Some(place) = self.any_model() {
            let (model, _) = self.random.pick(&MODELS);
            self.put_u32(place, model);
        }
    }

    /// A channel of any class, in its range or not.
    fn any_channel(&mut self) {
        if let Some(place) = self.any_model() {
            let model = u32_at(self.file, place);
            let known = MODELS.iter().find(|known| Some(known.0) == model);
            let channel = self.random.below(known.map_or(4, |known| known.1));
            let bits = self.random.pick(&EACH_CLASS);
            self.put_u32(place + 4 + 4 * channel, bits);
        }
    }

    fn wrong_colour_type(&mut self) {
        if let Some(span) = self.any_span(|span| span.kind == COLOUR && span.len() > 1) {
            let colour_type = self.random.pick(&WRONG_COLOUR_TYPES);
            self.put_u16(span.end - 2, colour_type);
        }
    }

    /// Where a block begins, or where the last one ends.
    fn any_seam(&mut self) -> usize {
        let index = self.random.below(self.spans.len() + 1);
        let last = self.spans.last().map(|span| span.end);
        let seam = self.spans.get(index).map(|span| span.start).or(last);
        seam.unwrap_or(HEAD_LEN).min(self.file.len())
    }

    fn add_block(&mut self, kind: u16) {
        let seam = self.any_seam();
        self.file.splice(seam..seam, bare_block(kind));
        self.recount(1);
    }

    fn drop_block(&mut self) {
        if let Some(span) = self.any_span(|_| true) {
            self.file.drain(span.start..span.end);
            self.recount(-1);
        }
    }

    fn repeat_block(&mut self) {
        if let Some(span) = self.any_span(|_| true) {
            let block = self.file[span.start..span.end].to_vec();
            self.file.splice(span.end..span.end, block);
            self.recount(1);
        }
    }

    /// A block put before the one that it followed.
    fn swap_blocks(&mut self) {
        if self.spans.len() > 1 {
            let second = 1 + self.random.below(self.spans.len() - 1);
            let (first, second) = (self.spans[second - 1], self.spans[second]);
            self.file[first.start..second.end].rotate_left(first.end - first.start);
        }
    }

    /// All blocks put inside of so many groups that 16 are open, or just more
    /// or fewer, where these begin.
    fn deepen(&mut self) {
        let depth = MAX_OPEN - 2 + self.random.below(4);
        let last = self.spans.last().map_or(HEAD_LEN, |span| span.end);
        let last = last.min(self.file.len());
        let closed = depth - usize::from(self.random.one_in(8));
        self.file
            .splice(last..last, bare_block(GROUP_END).repeat(closed));
        let first = HEAD_LEN.min(self.file.len());
        self.file
            .splice(first..first, bare_block(GROUP_START).repeat(depth));
        self.recount((depth + closed) as i32);
    }
}

/// A group's start without a name, or its end.
fn bare_block(kind: u16) -> Vec<u8> {
    let payload: &[u8] = if kind == GROUP_START {
        &[0, 1, 0, 0]
    } else {
        &[]
    };
    let len = payload.len() as u32;
    [&kind.to_be_bytes(), &len.to_be_bytes()[..], payload].concat()
}
