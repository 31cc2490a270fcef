//! Fixed files, each with its answer written down as the rules give it.

use super::{COLOUR, GROUP_END, GROUP_START};

/// What judging a fixed file says.
#[derive(Clone, Copy, Debug, PartialEq, Eq)]
pub enum Answer {
    Accepted { blocks: usize, colours: usize },
    Refused { number: u32, place: usize },
}

#[derive(Clone, Debug)]
pub struct Fixed {
    pub title: &'static str,
    pub file: Vec<u8>,
    pub answer: Answer,
}

pub const P5: &[u8] = &[
    0x41, 0x53, 0x45, 0x46, 0x00, 0x01, 0x00, 0x00, 0x00, 0x00, 0x00, 0x00,
];

pub const P6: &[u8] = &[
    0x41, 0x53, 0x45, 0x46, 0x00, 0x01, 0x00, 0x00, 0x00, 0x00, 0x00, 0x01, //
    0x00, 0x01, 0x00, 0x00, 0x00, 0x0E, // a colour
    0x00, 0x01, 0x00, 0x00, // without a name
    0x47, 0x72, 0x61, 0x79, 0x3F, 0x80, 0x00, 0x00, 0x00, 0x02,
];

pub const P6_LISTING: &str = "ASE 1\n0 colour Gray 3F800000 normal -\nend\n";

pub const P7: &[u8] = &[
    0x41, 0x53, 0x45, 0x46, 0x00, 0x01, 0x00, 0x00, 0x00, 0x00, 0x00, 0x01, //
    0x00, 0x01, 0x00, 0x00, 0x00, 0x0F, //
    0x00, 0x01, 0x00, 0x00, //
    0x47, 0x72, 0x61, 0x79, 0x3F, 0x80, 0x00, 0x00, 0x00, 0x02, 0x00,
];

/// A group of a colour of each model but gray, which stands after it.
pub const EVERY_MODEL: &[u8] = &[
    0x41, 0x53, 0x45, 0x46, 0x00, 0x01, 0x00, 0x00, 0x00, 0x00, 0x00, 0x06, //
    0xC0, 0x01, 0x00, 0x00, 0x00, 0x08, 0x00, 0x03, 0x00, 0x41, 0x00, 0x42, 0x00, 0x00, //
    0x00, 0x01, 0x00, 0x00, 0x00, 0x18, 0x00, 0x02, 0x00, 0x72, 0x00, 0x00, //
    0x52, 0x47, 0x42, 0x20, 0x3F, 0x80, 0x00, 0x00, 0x00, 0x00, 0x00, 0x00, //
    0x80, 0x00, 0x00, 0x00, 0x00, 0x00, //
    0x00, 0x01, 0x00, 0x00, 0x00, 0x1A, 0x00, 0x01, 0x00, 0x00, //
    0x43, 0x4D, 0x59, 0x4B, 0x00, 0x00, 0x00, 0x01, 0x3F, 0x00, 0x00, 0x00, //
    0x3F, 0x7F, 0xFF, 0xFF, 0x00, 0x00, 0x00, 0x00, 0x00, 0x01, //
    0x00, 0x01, 0x00, 0x00, 0x00, 0x1A, 0x00, 0x03, 0xD8, 0x0A, 0xFF, 0xFF, 0x00, 0x00, //
    0x4C, 0x41, 0x42, 0x20, 0x42, 0xC8, 0x00, 0x00, 0xC3, 0x00, 0x00, 0x00, //
    0x7F, 0x7F, 0xFF, 0xFF, 0x00, 0x02, //
    0xC0, 0x02, 0x00, 0x00, 0x00, 0x00, //
    0x00, 0x01, 0x00, 0x00, 0x00, 0x0E, 0x00, 0x01, 0x00, 0x00, //
    0x47, 0x72, 0x61, 0x79, 0x3F, 0x80, 0x00, 0x00, 0x00, 0x02,
];

pub const EVERY_MODEL_LISTING: &str = "ASE 6
0 group 00410042
1 colour RGB 3F800000 00000000 80000000 global 0072
2 colour CMYK 00000001 3F000000 3F7FFFFF 00000000 spot -
3 colour LAB 42C80000 C3000000 7F7FFFFF normal D80AFFFF
4 close
5 colour Gray 3F800000 normal -
end
";

/// Where the payload of P6 begins, and of every file of a single block.
const PAYLOAD: usize = 18;
/// A group of no name, 10 bytes, and what closes it, 6 bytes.
const START: &[u8] = &[0xC0, 0x01, 0x00, 0x00, 0x00, 0x04, 0x00, 0x01, 0x00, 0x00];
const END: &[u8] = &[0xC0, 0x02, 0x00, 0x00, 0x00, 0x00];

/// A name of no units, and the tags after it.
const GRAY: &[u8] = b"\0\x01\0\0Gray";
const RGB: &[u8] = b"\0\x01\0\0RGB ";
const CMYK: &[u8] = b"\0\x01\0\0CMYK";
const LAB: &[u8] = b"\0\x01\0\0LAB ";

const ZERO: [u8; 4] = [0; 4];
const ONE: [u8; 4] = [0x3F, 0x80, 0x00, 0x00];
const ABOVE_ONE: [u8; 4] = [0x3F, 0x80, 0x00, 0x01];
const MINUS_ZERO: [u8; 4] = [0x80, 0x00, 0x00, 0x00];
const NEGATIVE_SUBNORMAL: [u8; 4] = [0x80, 0x00, 0x00, 0x01];
const LOWEST: [u8; 4] = [0xFF, 0x7F, 0xFF, 0xFF];
const HIGHEST: [u8; 4] = [0x7F, 0x7F, 0xFF, 0xFF];
const MINUS_INFINITY: [u8; 4] = [0xFF, 0x80, 0x00, 0x00];
const NAN: [u8; 4] = [0x7F, 0xC0, 0x00, 0x00];

const fn accepted(blocks: usize, colours: usize) -> Answer {
    Answer::Accepted { blocks, colours }
}

const fn refused(number: u32, place: usize) -> Answer {
    Answer::Refused { number, place }
}

/// A file of so many blocks, by its count; what follows may be anything.
fn counting(blocks: u32, parts: &[&[u8]]) -> Vec<u8> {
    [&P5[..8], &blocks.to_be_bytes(), &parts.concat()].concat()
}

/// A block whose length is what its payload has.
fn block(kind: u16, payload: &[&[u8]]) -> Vec<u8> {
    let payload = payload.concat();
    let len = payload.len() as u32;
    [&kind.to_be_bytes(), &len.to_be_bytes()[..], &payload].concat()
}

/// A file of a single block.
fn alone(kind: u16, payload: &[&[u8]]) -> Vec<u8> {
    counting(1, &[&block(kind, payload)])
}

fn colour(payload: &[&[u8]]) -> Vec<u8> {
    alone(COLOUR, payload)
}

/// So many groups opened, then what is given, then so many closed.
fn groups(opened: usize, inside: &[u8], closed: usize, blocks: u32) -> Vec<u8> {
    counting(
        blocks,
        &[&START.repeat(opened), inside, &END.repeat(closed)],
    )
}

pub fn fixed_files() -> Vec<Fixed> {
    let parts = [
        heads(),
        envelopes(),
        group_ends(),
        depths(),
        names(),
        colours(),
        orders(),
    ];
    let fixed = |(title, file, answer)| Fixed {
        title,
        file,
        answer,
    };
    parts.into_iter().flatten().map(fixed).collect()
}

type Written = (&'static str, Vec<u8>, Answer);

fn heads() -> Vec<Written> {
    let head = |bytes: &[u8]| bytes.to_vec();
    vec![
        ("P1", head(b""), refused(2, 0)),
        ("half of no signature", head(b"XXX"), refused(2, 0)),
        (
            "another signature",
            head(b"ASEG\0\x01\0\0\0\0\0\0"),
            refused(3, 0),
        ),
        ("small letters", head(b"asef"), refused(3, 0)),
        ("signature alone", head(b"ASEF"), refused(2, 4)),
        ("half a version", head(b"ASEF\x02"), refused(2, 4)),
        ("version 2", head(b"ASEF\0\x02"), refused(3, 4)),
        (
            "version read backwards",
            head(b"ASEF\x01\0\0\0"),
            refused(3, 4),
        ),
        ("no second version", head(b"ASEF\0\x01"), refused(2, 6)),
        (
            "half a second version",
            head(b"ASEF\0\x01\x01"),
            refused(2, 6),
        ),
        ("second version 1", head(b"ASEF\0\x01\0\x01"), refused(3, 6)),
        ("no count", head(b"ASEF\0\x01\0\0"), refused(2, 8)),
        ("a cut count", head(b"ASEF\0\x01\0\0\0\0\0"), refused(2, 8)),
        ("P5", head(P5), accepted(0, 0)),
        ("one byte left over", [P5, &[0]].concat(), refused(6, 12)),
        ("P6", head(P6), accepted(1, 1)),
        ("P7", head(P7), refused(13, 14)),
        ("every model", head(EVERY_MODEL), accepted(6, 4)),
        ("P6 not counted", counting(0, &[&P6[12..]]), refused(6, 12)),
        (
            "many blocks, none there",
            counting(u32::MAX, &[]),
            refused(2, 12),
        ),
        (
            "many blocks, one there",
            counting(u32::MAX, &[&P6[12..]]),
            refused(2, 32),
        ),
    ]
}

fn envelopes() -> Vec<Written> {
    let single = |bytes: &[u8]| counting(1, &[bytes]);
    let with_envelope = [0x00, 0x01, 0x00, 0x00, 0x00, 0x14];
    let once = [&with_envelope, &P6[PAYLOAD..]].concat();
    let twice = counting(2, &[&once, &P6[12..]]);
    vec![
        ("half a type", single(&[0xFF]), refused(2, 12)),
        ("a type alone", single(&[0x00, 0x01]), refused(2, 14)),
        (
            "unknown type, cut length",
            single(&[0x00, 0x02, 0x00, 0x00, 0x00]),
            refused(2, 14),
        ),
        (
            "unknown type, cut payload",
            single(&[0x00, 0x02, 0xFF, 0xFF, 0xFF, 0xFF]),
            refused(4, 12),
        ),
        ("unknown type", alone(0x0000, &[]), refused(4, 12)),
        (
            "type read backwards",
            alone(0x0100, &[GRAY, &ONE, &[0, 2]]),
            refused(4, 12),
        ),
        ("payload one byte short", P6[..31].to_vec(), refused(2, 18)),
        (
            "payload too long for any file",
            single(&[0x00, 0x01, 0xFF, 0xFF, 0xFF, 0xFF, 0x00, 0x01]),
            refused(2, 18),
        ),
        ("length with the envelope", single(&once), refused(2, 18)),
        ("length with the envelope, twice", twice, refused(13, 14)),
    ]
}

fn group_ends() -> Vec<Written> {
    let cut_end = [0xC0, 0x02, 0x00, 0x00, 0x00, 0x01];
    vec![
        ("end of no group", alone(GROUP_END, &[]), refused(9, 12)),
        (
            "end with a payload, of no group",
            alone(GROUP_END, &[&[0]]),
            refused(13, 14),
        ),
        (
            "end with a cut payload",
            counting(1, &[&cut_end]),
            refused(2, 18),
        ),
        (
            "end with a payload",
            counting(2, &[START, &block(GROUP_END, &[&[0, 0]])]),
            refused(13, 24),
        ),
        ("an empty group", groups(1, &[], 1, 2), accepted(2, 0)),
        (
            "a group and a colour in a group",
            groups(1, &[&P6[12..], START, &P6[12..], END].concat(), 1, 6),
            accepted(6, 2),
        ),
        (
            "two groups side by side",
            groups(1, &[&P6[12..], END, START, &P6[12..]].concat(), 1, 6),
            accepted(6, 2),
        ),
        ("two ends for a group", groups(1, &[], 2, 3), refused(9, 28)),
        ("a group not closed", groups(1, &[], 0, 1), refused(9, 22)),
        (
            "not closed, then bytes",
            groups(1, &[0], 0, 1),
            refused(9, 22),
        ),
        (
            "closed past the count",
            groups(1, &[], 1, 1),
            refused(9, 22),
        ),
        (
            "not closed, then cut",
            groups(1, &[0xC0], 0, 2),
            refused(2, 22),
        ),
    ]
}

fn depths() -> Vec<Written> {
    let bad_name = block(GROUP_START, &[&[0, 0]]);
    let no_name = block(GROUP_START, &[]);
    let long_name = block(GROUP_START, &[&[0, 1, 0, 0, 0]]);
    let cut = &bad_name[..7];
    let again = [END, START].concat();
    vec![
        ("16 groups", groups(16, &[], 16, 32), accepted(32, 0)),
        (
            "16 groups, not closed",
            groups(16, &[], 0, 16),
            refused(9, 172),
        ),
        ("17 groups", groups(17, &[], 17, 34), refused(10, 172)),
        (
            "17th, badly closed",
            groups(16, &bad_name, 17, 34),
            refused(10, 172),
        ),
        (
            "17th, without a name",
            groups(16, &no_name, 17, 34),
            refused(10, 172),
        ),
        (
            "17th, too long",
            groups(16, &long_name, 17, 34),
            refused(10, 172),
        ),
        ("17th, cut", groups(16, cut, 0, 34), refused(2, 178)),
        ("16th again", groups(16, &again, 16, 34), accepted(34, 0)),
    ]
}

fn names() -> Vec<Written> {
    let rest: &[u8] = &P6[22..];
    vec![
        ("no name", colour(&[]), refused(13, 14)),
        ("half a name count", colour(&[&[0]]), refused(13, 14)),
        ("name count 0", colour(&[&[0, 0]]), refused(8, 18)),
        ("cut name", colour(&[&[0, 2, 0, 0x41, 0]]), refused(13, 14)),
        (
            "longest name, cut",
            colour(&[&[0xFF, 0xFF, 0, 0]]),
            refused(13, 14),
        ),
        (
            "name not closed",
            colour(&[&[0, 1, 0, 0x41]]),
            refused(8, 18),
        ),
        (
            "zero at the start",
            colour(&[&[0, 2, 0, 0, 0, 0]]),
            refused(8, 18),
        ),
        (
            "zero in the middle",
            colour(&[&[0, 4, 0, 1, 0, 0, 0, 1, 0, 0], rest]),
            refused(8, 18),
        ),
        (
            "zeros across two units",
            colour(&[&[0, 3, 1, 0, 0, 1, 0, 0], rest]),
            accepted(1, 1),
        ),
        ("group of no name", alone(GROUP_START, &[]), refused(13, 14)),
        (
            "group's name count 0",
            alone(GROUP_START, &[&[0, 0]]),
            refused(8, 18),
        ),
        (
            "group's cut name",
            alone(GROUP_START, &[&[0, 2, 0, 0]]),
            refused(13, 14),
        ),
        (
            "group's name not closed",
            alone(GROUP_START, &[&[0, 1, 0, 1]]),
            refused(8, 18),
        ),
        (
            "group's payload too long",
            alone(GROUP_START, &[&[0, 1, 0, 0, 0]]),
            refused(13, 14),
        ),
    ]
}

fn colours() -> Vec<Written> {
    vec![
        ("cut model", colour(&[&GRAY[..7]]), refused(13, 14)),
        (
            "unknown model",
            colour(&[b"\0\x01\0\0gray"]),
            refused(4, 22),
        ),
        (
            "model without its space",
            colour(&[b"\0\x01\0\0RGB\0"]),
            refused(4, 22),
        ),
        ("no channel", colour(&[GRAY]), refused(13, 14)),
        ("cut channel", colour(&[GRAY, &NAN[..3]]), refused(13, 14)),
        (
            "channel above 1",
            colour(&[RGB, &ABOVE_ONE]),
            refused(5, 26),
        ),
        ("one channel of RGB", colour(&[RGB, &ONE]), refused(13, 14)),
        (
            "third channel not a number",
            colour(&[RGB, &ZERO, &ONE, &NAN]),
            refused(5, 34),
        ),
        (
            "minus zero",
            colour(&[GRAY, &MINUS_ZERO, &[0, 0]]),
            accepted(1, 1),
        ),
        (
            "negative subnormal",
            colour(&[GRAY, &NEGATIVE_SUBNORMAL, &[0, 0]]),
            refused(5, 26),
        ),
        (
            "LAB from end to end",
            colour(&[LAB, &LOWEST, &HIGHEST, &NEGATIVE_SUBNORMAL, &[0, 1]]),
            accepted(1, 1),
        ),
        (
            "LAB infinite",
            colour(&[LAB, &ZERO, &MINUS_INFINITY]),
            refused(5, 30),
        ),
        ("LAB not a number", colour(&[LAB, &NAN]), refused(5, 26)),
        (
            "CMYK of three channels",
            colour(&[CMYK, &ONE, &ONE, &ONE, &[0, 0]]),
            refused(13, 14),
        ),
        (
            "RGB of four channels",
            colour(&[RGB, &ONE, &ONE, &ONE, &ONE, &[0, 0]]),
            refused(5, 38),
        ),
        (
            "RGB of four channels, the fourth 0",
            colour(&[RGB, &ONE, &ONE, &ONE, &ZERO, &[0, 0]]),
            refused(13, 14),
        ),
        ("no colour type", colour(&[GRAY, &ONE]), refused(13, 14)),
        (
            "half a colour type",
            colour(&[GRAY, &ONE, &[0xFF]]),
            refused(13, 14),
        ),
        (
            "colour type 3",
            colour(&[GRAY, &ONE, &[0, 3]]),
            refused(5, 30),
        ),
        (
            "colour type read backwards",
            colour(&[GRAY, &ONE, &[1, 0]]),
            refused(5, 30),
        ),
        (
            "colour type 3, then bytes",
            colour(&[GRAY, &ONE, &[0, 3, 0]]),
            refused(5, 30),
        ),
    ]
}

/// Faults of several kinds: the first one in file order counts.
fn orders() -> Vec<Written> {
    let unknown = block(0x0002, &[]);
    let bad_name = block(COLOUR, &[&[0, 0]]);
    let too_long = block(COLOUR, &[&P6[PAYLOAD..], &[0]]);
    vec![
        (
            "bad name, then unknown type",
            counting(2, &[&bad_name, &unknown]),
            refused(8, 18),
        ),
        (
            "unknown type, then bad name",
            counting(2, &[&unknown, &bad_name]),
            refused(4, 12),
        ),
        (
            "too long, then left over",
            counting(1, &[&too_long, &unknown]),
            refused(13, 14),
        ),
        (
            "a sound block, then a bad name",
            counting(2, &[&P6[12..], &bad_name]),
            refused(8, 38),
        ),
    ]
}
