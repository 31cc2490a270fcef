//! Damage done to sound sections.

use super::section::IDS;
use super::SIGNATURE;
use crate::bytes::{self, one_off};
use crate::random::Random;

/// Signatures of other files, and nearly the right one.
const WRONG_SIGNATURES: [[u8; 4]; 8] = [
    *b"8BIN", *b"8bim", *b"MIB8", *b"8BPS", *b"8B64", *b"8BCB", *b"ASEF", [0; 4],
];
/// Sizes that wrap, or nearly, where a place or a pad is added to them in 32 bits.
const HUGE_SIZES: [u32; 7] = [
    0x0100_0000,
    0x7FFF_FFFF,
    0x8000_0000,
    0xFFFF_FFF0,
    0xFFFF_FFF4,
    0xFFFF_FFFE,
    u32::MAX,
];
const NAME_LENGTHS: [u8; 7] = [0, 1, 2, 127, 128, 254, 255];
/// What is no pad.
const WRONG_PADS: [u8; 5] = [1, 0x20, 0x38, 0x80, 0xFF];

/// One way to damage a section.
#[derive(Clone, Copy, Debug, PartialEq, Eq)]
pub enum Damage {
    Cut,
    CutInLastBlock,
    FlipBit,
    SetByte,
    DropByte,
    AddByte,
    LeftOver,
    /// One to three bytes more, the first of a signature.
    SignatureBegun,
    Noise,
    SignatureWrong,
    /// Not a fault: an ID may be any, and another's.
    IdAny,
    NameLengthOneOff,
    NameLengthAny,
    NamePadSet,
    NamePadDropped,
    /// A pad where the name needs none, or one more.
    NamePadAdded,
    SizeOneOff,
    /// The size counts its pad as well, or the fields before the data.
    SizeWithMore,
    SizeAny,
    SizeHuge,
    DataPadSet,
    DataPadDropped,
    DataPadAdded,
    /// Not a fault.
    BlockDropped,
    /// Not a fault.
    BlockTwice,
    /// Not a fault.
    BlocksSwapped,
}

impl Damage {
    pub const ALL: [Damage; 26] = [
        Damage::Cut,
        Damage::CutInLastBlock,
        Damage::FlipBit,
        Damage::SetByte,
        Damage::DropByte,
        Damage::AddByte,
        Damage::LeftOver,
        Damage::SignatureBegun,
        Damage::Noise,
        Damage::SignatureWrong,
        Damage::IdAny,
        Damage::NameLengthOneOff,
        Damage::NameLengthAny,
        Damage::NamePadSet,
        Damage::NamePadDropped,
        Damage::NamePadAdded,
        Damage::SizeOneOff,
        Damage::SizeWithMore,
        Damage::SizeAny,
        Damage::SizeHuge,
        Damage::DataPadSet,
        Damage::DataPadDropped,
        Damage::DataPadAdded,
        Damage::BlockDropped,
        Damage::BlockTwice,
        Damage::BlocksSwapped,
    ];

    pub fn any(random: &mut Random) -> Self {
        random.pick(&Damage::ALL)
    }
}

/// Does one damage to a section, which may be damaged already: its blocks are
/// looked for as far as their lengths lead. Damage that the section gives no
/// hold for changes nothing.
pub fn damage(section: &mut Vec<u8>, kind: Damage, random: &mut Random) {
    let spans = spans(section);
    let mut damaging = Damaging {
        section,
        spans,
        random,
    };
    damaging.apply(kind);
}

/// Where a block's fields lie. A field that has a pad is followed by it.
#[derive(Clone, Copy)]
struct Span {
    start: usize,
    /// The name's length byte.
    name: usize,
    name_end: usize,
    size: usize,
    data: usize,
    data_end: usize,
    end: usize,
}

impl Span {
    fn name_pad(&self) -> Option<usize> {
        (self.name_end < self.size).then_some(self.name_end)
    }

    fn data_pad(&self) -> Option<usize> {
        (self.data_end < self.end).then_some(self.data_end)
    }
}

fn spans(section: &[u8]) -> Vec<Span> {
    let mut spans = Vec::new();
    let mut start = 0;
    while let Some(span) = span_at(section, start) {
        spans.push(span);
        start = span.end;
    }
    spans
}

fn span_at(section: &[u8], start: usize) -> Option<Span> {
    let name = start + 6;
    let name_len = 1 + usize::from(*section.get(name)?);
    let name_end = name + name_len;
    let size = name_end + name_len % 2;
    let data = size + 4;
    let data_len = u32::from_be_bytes(*section.get(size..)?.first_chunk()?) as usize;
    let data_end = data + data_len;
    let end = data_end + data_len % 2;
    (end <= section.len()).then_some(Span {
        start,
        name,
        name_end,
        size,
        data,
        data_end,
        end,
    })
}

struct Damaging<'a> {
    section: &'a mut Vec<u8>,
    spans: Vec<Span>,
    random: &'a mut Random,
}

impl Damaging<'_> {
    fn apply(&mut self, kind: Damage) {
        match kind {
            Damage::Cut => bytes::cut_after(self.section, 0, self.random),
            Damage::CutInLastBlock => self.cut_last_block(),
            Damage::FlipBit => bytes::flip_bit(self.section, self.random),
            Damage::SetByte => bytes::set_byte(self.section, self.random),
            Damage::DropByte => bytes::drop_byte(self.section, self.random),
            Damage::AddByte => bytes::add_byte(self.section, self.random),
            Damage::LeftOver => bytes::leave_over(self.section, self.random),
            Damage::SignatureBegun => self.begin_signature(),
            Damage::Noise => *self.section = bytes::noise(self.random),
            Damage::SignatureWrong => self.wrong_signature(),
            Damage::IdAny => self.any_id(),
            Damage::NameLengthOneOff => {
                self.set_name_length(|length, r| one_off(length.into(), r) as u8)
            }
            Damage::NameLengthAny => self.set_name_length(|_, r| r.pick(&NAME_LENGTHS)),
            Damage::NamePadSet => self.set_pad(Span::name_pad),
            Damage::NamePadDropped => self.drop_pad(Span::name_pad),
            Damage::NamePadAdded => self.add_pad(|span| span.size),
            Damage::SizeOneOff => self.set_size(|_, size, r| one_off(size, r)),
            Damage::SizeWithMore => self.set_size(|span, size, r| {
                size.wrapping_add(
                    r.pick(&[span.end - span.data_end, 4, span.data - span.start]) as u32,
                )
            }),
            Damage::SizeAny => self.set_size(|_, size, r| r.below(size as usize + 40) as u32),
            Damage::SizeHuge => self.set_size(|_, _, r| r.pick(&HUGE_SIZES)),
            Damage::DataPadSet => self.set_pad(Span::data_pad),
            Damage::DataPadDropped => self.drop_pad(Span::data_pad),
            Damage::DataPadAdded => self.add_pad(|span| span.end),
            Damage::BlockDropped => self.drop_block(),
            Damage::BlockTwice => self.repeat_block(),
            Damage::BlocksSwapped => self.swap_blocks(),
        }
    }

    fn any_span(&mut self) -> Option<Span> {
        (!self.spans.is_empty()).then(|| self.random.pick(&self.spans))
    }

    /// A pad of any of the blocks that have one.
    fn any_pad(&mut self, pad: impl Fn(&Span) -> Option<usize>) -> Option<usize> {
        let pads: Vec<usize> = self.spans.iter().filter_map(pad).collect();
        (!pads.is_empty()).then(|| self.random.pick(&pads))
    }

    fn cut_last_block(&mut self) {
        if let Some(span) = self.spans.last() {
            bytes::cut_after(self.section, span.start, self.random);
        }
    }

    fn begin_signature(&mut self) {
        let len = 1 + self.random.below(3);
        self.section.extend(&SIGNATURE[..len]);
    }

    fn wrong_signature(&mut self) {
        if let Some(span) = self.any_span() {
            let signature = self.random.pick(&WRONG_SIGNATURES);
            bytes::put(self.section, span.start, &signature);
        }
    }

    fn any_id(&mut self) {
        if let Some(span) = self.any_span() {
            let id = self.random.pick(&IDS);
            bytes::put(self.section, span.start + 4, &id.to_be_bytes());
        }
    }

    fn set_name_length(&mut self, wrong: impl Fn(u8, &mut Random) -> u8) {
        if let Some(span) = self.any_span() {
            let length = &mut self.section[span.name];
            *length = wrong(*length, self.random);
        }
    }

    fn set_size(&mut self, wrong: impl Fn(&Span, u32, &mut Random) -> u32) {
        if let Some(span) = self.any_span() {
            let size = wrong(&span, (span.data_end - span.data) as u32, self.random);
            bytes::put(self.section, span.size, &size.to_be_bytes());
        }
    }

    fn set_pad(&mut self, pad: impl Fn(&Span) -> Option<usize>) {
        if let Some(place) = self.any_pad(pad) {
            self.section[place] = self.random.pick(&WRONG_PADS);
        }
    }

    fn drop_pad(&mut self, pad: impl Fn(&Span) -> Option<usize>) {
        if let Some(place) = self.any_pad(pad) {
            self.section.remove(place);
        }
    }

    fn add_pad(&mut self, place: impl Fn(&Span) -> usize) {
        if let Some(span) = self.any_span() {
            self.section.insert(place(&span), 0);
        }
    }

    fn drop_block(&mut self) {
        if let Some(span) = self.any_span() {
            self.section.drain(span.start..span.end);
        }
    }

    fn repeat_block(&mut self) {
        if let Some(span) = self.any_span() {
            let block = self.section[span.start..span.end].to_vec();
            self.section.splice(span.end..span.end, block);
        }
    }

    /// A block put before the one that it followed.
    fn swap_blocks(&mut self) {
        if self.spans.len() > 1 {
            let second = 1 + self.random.below(self.spans.len() - 1);
            let (first, second) = (self.spans[second - 1], self.spans[second]);
            self.section[first.start..second.end].rotate_left(first.end - first.start);
        }
    }
}
