//! Fixed files and strings, each with its answer written down as the rules give
//! it.

use super::{CMYK, LAB, RGB};

/// What judging a fixed file says.
#[derive(Clone, Copy, Debug, PartialEq, Eq)]
pub enum Answer {
    Accepted { count: usize },
    Refused { number: u32, place: usize },
}

#[derive(Clone, Debug)]
pub struct Fixed {
    pub title: String,
    pub file: Vec<u8>,
    pub answer: Answer,
}

/// A string's bytes, and where its shown text begins.
#[derive(Clone, Debug)]
pub struct FixedString {
    pub string: Vec<u8>,
    pub start: usize,
}

/// The beginning of "ANPA Color.acb" as the description of the format shows it,
/// up to where its picture is torn: two colours and most of a third.
pub const ANPA_TORN: &[u8] = &[
    0x38, 0x42, 0x43, 0x42, 0x00, 0x01, 0x0B, 0xB8, 0x00, 0x00, 0x00, 0x23, 0x00, 0x24, 0x00, 0x24,
    0x00, 0x24, 0x00, 0x2F, 0x00, 0x63, 0x00, 0x6F, 0x00, 0x6C, 0x00, 0x6F, 0x00, 0x72, 0x00, 0x62,
    0x00, 0x6F, 0x00, 0x6F, 0x00, 0x6B, 0x00, 0x2F, 0x00, 0x41, 0x00, 0x4E, 0x00, 0x50, 0x00, 0x41,
    0x00, 0x2F, 0x00, 0x74, 0x00, 0x69, 0x00, 0x74, 0x00, 0x6C, 0x00, 0x65, 0x00, 0x3D, 0x00, 0x41,
    0x00, 0x4E, 0x00, 0x50, 0x00, 0x41, 0x00, 0x20, 0x00, 0x43, 0x00, 0x6F, 0x00, 0x6C, 0x00, 0x6F,
    0x00, 0x72, 0x00, 0x00, 0x00, 0x1F, 0x00, 0x24, 0x00, 0x24, 0x00, 0x24, 0x00, 0x2F, 0x00, 0x63,
    0x00, 0x6F, 0x00, 0x6C, 0x00, 0x6F, 0x00, 0x72, 0x00, 0x62, 0x00, 0x6F, 0x00, 0x6F, 0x00, 0x6B,
    0x00, 0x2F, 0x00, 0x41, 0x00, 0x4E, 0x00, 0x50, 0x00, 0x41, 0x00, 0x2F, 0x00, 0x70, 0x00, 0x72,
    0x00, 0x65, 0x00, 0x66, 0x00, 0x69, 0x00, 0x78, 0x00, 0x3D, 0x00, 0x41, 0x00, 0x4E, 0x00, 0x50,
    0x00, 0x41, 0x00, 0x20, 0x00, 0x00, 0x00, 0x21, 0x00, 0x24, 0x00, 0x24, 0x00, 0x24, 0x00, 0x2F,
    0x00, 0x63, 0x00, 0x6F, 0x00, 0x6C, 0x00, 0x6F, 0x00, 0x72, 0x00, 0x62, 0x00, 0x6F, 0x00, 0x6F,
    0x00, 0x6B, 0x00, 0x2F, 0x00, 0x41, 0x00, 0x4E, 0x00, 0x50, 0x00, 0x41, 0x00, 0x2F, 0x00, 0x70,
    0x00, 0x6F, 0x00, 0x73, 0x00, 0x74, 0x00, 0x66, 0x00, 0x69, 0x00, 0x78, 0x00, 0x3D, 0x00, 0x20,
    0x00, 0x41, 0x00, 0x64, 0x00, 0x50, 0x00, 0x72, 0x00, 0x6F, 0x00, 0x00, 0x00, 0x1F, 0x00, 0x24,
    0x00, 0x24, 0x00, 0x24, 0x00, 0x2F, 0x00, 0x63, 0x00, 0x6F, 0x00, 0x6C, 0x00, 0x6F, 0x00, 0x72,
    0x00, 0x62, 0x00, 0x6F, 0x00, 0x6F, 0x00, 0x6B, 0x00, 0x2F, 0x00, 0x41, 0x00, 0x4E, 0x00, 0x50,
    0x00, 0x41, 0x00, 0x2F, 0x00, 0x64, 0x00, 0x65, 0x00, 0x73, 0x00, 0x63, 0x00, 0x72, 0x00, 0x69,
    0x00, 0x70, 0x00, 0x74, 0x00, 0x69, 0x00, 0x6F, 0x00, 0x6E, 0x00, 0x3D, 0x01, 0x2C, 0x00, 0x06,
    0x00, 0x05, 0x00, 0x07, 0x00, 0x00, 0x00, 0x04, 0x00, 0x37, 0x00, 0x31, 0x00, 0x2D, 0x00, 0x31,
    0x20, 0x37, 0x31, 0x2D, 0x31, 0x44, 0xF8, 0x7B, 0x7B, 0x00, 0x00, 0x00, 0x04, 0x00, 0x37, 0x00,
    0x31, 0x00, 0x2D, 0x00, 0x32, 0x20, 0x37, 0x31, 0x2D, 0x32, 0x44, 0xF1, 0x78, 0x78, 0x00, 0x00,
    0x00, 0x04, 0x00, 0x37, 0x00, 0x31, 0x00, 0x2D, 0x00, 0x34, 0x20, 0x37, 0x31, 0x2D, 0x34, 0x44,
    0xE3, 0x72,
];

/// Where its colour count stands, and where its third colour begins.
const ANPA_COUNT: usize = 0x11C;
const ANPA_THIRD: usize = 0x14E;

/// The picture's first two colours as a book of their own.
pub const ANPA: [u8; ANPA_THIRD] = {
    let mut book = [0; ANPA_THIRD];
    let mut place = 0;
    while place < ANPA_THIRD {
        book[place] = ANPA_TORN[place];
        place += 1;
    }
    book[ANPA_COUNT] = 0;
    book[ANPA_COUNT + 1] = 2;
    book
};

pub const ANPA_LISTING: &str = "ACB 2 7 6 5 3000 none
title 0041004E0050004100200043006F006C006F0072
prefix 0041004E005000410020
suffix 00200041006400500072006F
description -
0 2037312D3144 248 123 123 00370031002D0031
1 2037312D3244 241 120 120 00370031002D0032
page 0 1
end
";

/// The full name of its first colour, ANPA 71-1 AdPro.
pub const ANPA_FULL_NAME: &[u8] = b"\0A\0N\0P\0A\0 \x007\x001\0-\x001\0 \0A\0d\0P\0r\0o";

/// A Lab colour in a book of its own, and what it shows.
pub const P8: &[u8] = b"8BCB\0\x01\0\0\0\0\0\0\0\0\0\0\0\0\0\0\0\0\0\0\
    \0\x01\0\x01\0\0\0\x07\0\0\0\0      \xF8\x7B\x7B";
pub const P8_SHOWN: [i32; 4] = [97, -5, -5, 0];

/// The bytes 0, 128, 255 and 1 in CMYK.
pub const P9: &[u8] = b"8BCB\0\x01\0\0\0\0\0\0\0\0\0\0\0\0\0\0\0\0\0\0\
    \0\x01\0\x01\0\0\0\x02\0\0\0\0      \x00\x80\xFF\x01";
pub const P9_SHOWN: [i32; 4] = [100, 50, 0, 100];

/// Seven colours, pages of three, offset 2 and no dummies. The colours are RGB,
/// with names of a unit.
pub const P10: &[u8] = b"8BCB\0\x01\0\0\0\0\0\0\0\0\0\0\0\0\0\0\0\0\0\0\
    \0\x07\0\x03\0\x02\0\0\
    \0\0\0\x01\0acode  \0\0\0\
    \0\0\0\x01\0bcode  \0\0\0\
    \0\0\0\x01\0ccode  \0\0\0\
    \0\0\0\x01\0dcode  \0\0\0\
    \0\0\0\x01\0ecode  \0\0\0\
    \0\0\0\x01\0fcode  \0\0\0\
    \0\0\0\x01\0gcode  \0\0\0";
/// Its pages with their samples; the fourth is not there.
pub const P10_PAGES: [Option<usize>; 4] = [Some(2), Some(5), Some(6), None];

/// The book that docs/LISTINGS.md lists.
const TWO_AND_DUMMY: &[u8] = b"8BCB\0\x01\x0B\xB8\0\0\0\x01\0T\0\0\0\0\0\0\0\0\0\0\0\0\
    \0\x03\0\x02\0\0\0\0\
    \0\0\0\x01\0A     1\xFF\0\0\
    \0\0\0\0\0\0\0\0\0\0\0\0\0\
    \0\0\0\x01\0B     2\0\0\xFF\
    spflspot";

/// Where the colours begin in a file without strings, and the field before.
const COLOURS: usize = 32;
const SPACE: usize = 30;

const SPOT: &[u8] = b"spflspot";
const PROCESS: &[u8] = b"spflproc";
const CODE: &[u8] = b"code  ";
/// The count of an empty name.
const DUMMY: &[u8] = &[0; 4];

const fn accepted(count: usize) -> Answer {
    Answer::Accepted { count }
}

const fn refused(number: u32, place: usize) -> Answer {
    Answer::Refused { number, place }
}

/// A file without strings, for pages of 6; what follows may be anything.
fn book(count: u16, space: u16, parts: &[&[u8]]) -> Vec<u8> {
    let numbers = [count, 6, 0, space].map(u16::to_be_bytes).concat();
    [&P8[..24], &numbers, &parts.concat()].concat()
}

fn one(space: u16, parts: &[&[u8]]) -> Vec<u8> {
    book(1, space, parts)
}

pub fn fixed_files() -> Vec<Fixed> {
    let parts = [
        heads(),
        strings(),
        numbers(),
        colours(),
        tags(),
        books(),
        texts(),
        pages(),
    ];
    let fixed = |(title, file, answer): Written| Fixed {
        title: title.to_string(),
        file,
        answer,
    };
    let fixed = parts.into_iter().flatten().map(fixed);
    fixed.chain(tails()).collect()
}

type Written = (&'static str, Vec<u8>, Answer);

fn heads() -> Vec<Written> {
    let head = |bytes: &[u8]| bytes.to_vec();
    vec![
        ("P1", head(b""), refused(2, 0)),
        ("half of no signature", head(b"XXX"), refused(2, 0)),
        ("another signature", head(b"8BCC\0\x01"), refused(3, 0)),
        ("small letters", head(b"8bcb"), refused(3, 0)),
        ("signature alone", head(b"8BCB"), refused(2, 4)),
        ("half a version", head(b"8BCB\x02"), refused(2, 4)),
        ("version 2", head(b"8BCB\0\x02"), refused(3, 4)),
        ("version 0", head(b"8BCB\0\0"), refused(3, 4)),
        ("version read backwards", head(b"8BCB\x01\0"), refused(3, 4)),
        ("no identifier", head(b"8BCB\0\x01"), refused(2, 6)),
        ("half an identifier", head(b"8BCB\0\x01\xFF"), refused(2, 6)),
    ]
}

fn strings() -> Vec<Written> {
    let after = |bytes: &[u8]| [b"8BCB\0\x01\x0B\xB8", bytes].concat();
    let empty = |strings: usize, bytes: &[u8]| after(&[&vec![0; 4 * strings], bytes].concat());
    // A unit, and a zero behind it that is not counted.
    let closed = [&[0, 0, 0, 1, 0, 0x41, 0, 0][..], &[0; 12], &P8[24..]].concat();
    vec![
        ("no title", after(&[]), refused(2, 8)),
        ("half a title's count", after(&[0, 0, 0]), refused(2, 8)),
        (
            "a title's body cut",
            after(&[0, 0, 0, 1, 0]),
            refused(2, 12),
        ),
        ("no title's body", after(&[0, 0, 0, 1]), refused(2, 12)),
        ("a title of any length", after(&[0xFF; 24]), refused(2, 12)),
        (
            "a title whose bytes wrap to none",
            after(&[&[0x80, 0, 0, 0][..], &P8[12..]].concat()),
            refused(2, 12),
        ),
        (
            "a title whose bytes wrap to two",
            after(&[&[0x80, 0, 0, 1, 0, 0x41][..], &P8[12..]].concat()),
            refused(2, 12),
        ),
        ("no prefix", empty(1, &[]), refused(2, 12)),
        ("no suffix", empty(2, &[]), refused(2, 16)),
        ("no description", empty(3, &[]), refused(2, 20)),
        (
            "a suffix cut",
            empty(2, &[0, 0, 0, 2, 0, 1, 0]),
            refused(2, 20),
        ),
        (
            "a description cut",
            empty(3, &[0, 0, 0, 1, 0]),
            refused(2, 24),
        ),
        // The zero is half of the prefix's count, and so on: no colours are
        // counted, and the space meant is the first of a wrong tag.
        (
            "a title with a closing zero",
            after(&closed),
            refused(3, 34),
        ),
        (
            "zeros in every string",
            after(
                &[
                    &b"\0\0\0\x01\0\0\0\0\0\x02\0\0\0\0\0\0\0\x03\0A\0\0\0B\0\0\0\x01\0\0"[..],
                    &P8[24..],
                ]
                .concat(),
            ),
            accepted(1),
        ),
    ]
}

fn numbers() -> Vec<Written> {
    let head = |bytes: &[u8]| [&P8[..24], bytes].concat();
    vec![
        ("no colour count", head(&[]), refused(2, 24)),
        ("half a colour count", head(&[1]), refused(2, 24)),
        ("no page size", head(&[0, 0]), refused(2, 26)),
        ("half a page size", head(&[0, 0, 0]), refused(2, 26)),
        ("page size 0", head(&[0, 0, 0, 0]), refused(5, 26)),
        (
            "page size 0, unknown space",
            head(&[0, 0, 0, 0, 0, 0, 0, 1]),
            refused(5, 26),
        ),
        ("no page offset", head(&[0, 0, 1, 0]), refused(2, 28)),
        ("no space", head(&[0, 0, 1, 0, 9, 9]), refused(2, 30)),
        ("half a space", head(&[0, 0, 1, 0, 9, 9, 9]), refused(2, 30)),
        ("no colours, RGB", book(0, RGB, &[]), accepted(0)),
        ("no colours, CMYK", book(0, CMYK, &[]), accepted(0)),
        ("no colours, Lab", book(0, LAB, &[]), accepted(0)),
        ("HSB", book(0, 1, &[]), refused(4, SPACE)),
        ("gray", book(0, 8, &[]), refused(4, SPACE)),
        (
            "CMYK read backwards",
            book(0, 0x0200, &[]),
            refused(4, SPACE),
        ),
        ("unknown space, cut", book(9, 3, &[]), refused(4, SPACE)),
        (
            "the largest page size and offset",
            head(&[0, 0, 0xFF, 0xFF, 0xFF, 0xFF, 0, 0]),
            accepted(0),
        ),
    ]
}

fn colours() -> Vec<Written> {
    let name = &[0, 0, 0, 1, 0, 0x41];
    let bare = [DUMMY, CODE, &[1, 2, 3]].concat();
    vec![
        (
            "a colour counted, none there",
            one(RGB, &[]),
            refused(2, COLOURS),
        ),
        (
            "all colours counted, none there",
            book(0xFFFF, LAB, &[]),
            refused(2, COLOURS),
        ),
        ("half a name's count", one(RGB, &[&[0, 0]]), refused(2, 32)),
        ("no name's body", one(RGB, &[&name[..4]]), refused(2, 36)),
        ("half a unit", one(RGB, &[&name[..5]]), refused(2, 36)),
        (
            "a name whose bytes wrap to none",
            one(RGB, &[&[0x80, 0, 0, 0], CODE, &[1, 2, 3]]),
            refused(2, 36),
        ),
        ("no code", one(RGB, &[name]), refused(2, 38)),
        (
            "a code of five",
            one(RGB, &[name, b"12345"]),
            refused(2, 38),
        ),
        ("no component", one(RGB, &[name, CODE]), refused(2, 44)),
        (
            "one component",
            one(LAB, &[name, CODE, &[1]]),
            refused(2, 45),
        ),
        (
            "two components",
            one(LAB, &[name, CODE, &[1, 2]]),
            refused(2, 46),
        ),
        (
            "three components",
            one(LAB, &[name, CODE, &[1, 2, 3]]),
            accepted(1),
        ),
        (
            "three components of CMYK",
            one(CMYK, &[name, CODE, &[1, 2, 3]]),
            refused(2, 47),
        ),
        (
            "four components of CMYK",
            one(CMYK, &[name, CODE, &[1, 2, 3, 4]]),
            accepted(1),
        ),
        (
            "four components of RGB",
            one(RGB, &[name, CODE, &[1, 2, 3, 4]]),
            refused(2, 47),
        ),
        ("a dummy", one(RGB, &[&bare]), accepted(1)),
        ("a dummy without a code", one(RGB, &[DUMMY]), refused(2, 36)),
        (
            "a dummy without components",
            one(RGB, &[DUMMY, CODE]),
            refused(2, 42),
        ),
        (
            "a dummy passed over as a name alone",
            book(2, RGB, &[DUMMY, &bare]),
            // The second colour's name would have these bytes for its count.
            refused(2, 49),
        ),
        (
            "dummies alone",
            book(3, RGB, &[&bare, &bare, &bare]),
            accepted(3),
        ),
        (
            "a name of a zero unit",
            one(RGB, &[&[0, 0, 0, 1, 0, 0], CODE, &[1, 2, 3]]),
            accepted(1),
        ),
        (
            "a name like a key",
            one(RGB, &[b"\0\0\0\x06\0$\0$\0$\0/\0=\0a", CODE, &[1, 2, 3]]),
            accepted(1),
        ),
        (
            "a colour fewer than counted",
            book(2, RGB, &[&bare]),
            refused(2, 45),
        ),
        (
            "a colour more than counted",
            one(RGB, &[&bare, &bare]),
            refused(3, 45),
        ),
    ]
}

/// Tails of every length: right bytes, right bytes again, and zeros.
fn tails() -> Vec<Fixed> {
    let spot = [SPOT, SPOT].concat();
    let process = [PROCESS, SPOT].concat();
    let mut tails = Vec::new();
    for len in 0..=16 {
        let right = match len {
            0 | 8 => accepted(0),
            1..=7 => refused(2, COLOURS),
            _ => refused(6, COLOURS + 8),
        };
        let wrong = match len {
            0 => accepted(0),
            1..=7 => refused(2, COLOURS),
            _ => refused(3, COLOURS),
        };
        let tail = |of, space, tail: &[u8], answer| Fixed {
            title: format!("a tail of {of}, {len} bytes"),
            file: book(0, space, &[&tail[..len]]),
            answer,
        };
        tails.push(tail("spot", RGB, &spot, right));
        tails.push(tail("process", CMYK, &process, right));
        tails.push(tail("zeros", LAB, &[0; 16], wrong));
    }
    tails
}

fn tags() -> Vec<Written> {
    vec![
        (
            "a capital tag",
            book(0, RGB, &[b"spflSpot"]),
            refused(3, COLOURS),
        ),
        (
            "a tag's last byte",
            book(0, RGB, &[b"spflspou"]),
            refused(3, COLOURS),
        ),
        (
            "a tag's first byte",
            book(0, RGB, &[b"tpflproc"]),
            refused(3, COLOURS),
        ),
        (
            "a tag one byte on",
            book(0, RGB, &[b"\0spflspot"]),
            refused(3, COLOURS),
        ),
    ]
}

fn books() -> Vec<Written> {
    let counted = |count: u8| {
        let mut file = ANPA_TORN.to_vec();
        file[ANPA_COUNT + 1] = count;
        file[ANPA_COUNT] = 0;
        file
    };
    let tagged = [&ANPA[..], SPOT].concat();
    vec![
        ("ANPA", ANPA.to_vec(), accepted(2)),
        ("ANPA as it is torn", ANPA_TORN.to_vec(), refused(2, 0x162)),
        ("ANPA of three colours", counted(3), refused(2, 0x162)),
        // What is left of the third colour is no tag.
        (
            "ANPA of two of three colours",
            counted(2),
            refused(3, 0x14E),
        ),
        (
            "ANPA of one of three colours",
            counted(1),
            refused(3, 0x139),
        ),
        ("ANPA with a tag", tagged, accepted(2)),
        (
            "two colours and a dummy, spot",
            TWO_AND_DUMMY.to_vec(),
            accepted(3),
        ),
        ("P8", P8.to_vec(), accepted(1)),
        ("P9", P9.to_vec(), accepted(1)),
        ("P10", P10.to_vec(), accepted(7)),
    ]
}

fn units(text: &str) -> Vec<u8> {
    text.encode_utf16().flat_map(u16::to_be_bytes).collect()
}

/// Header strings with keys, nearly so, and without.
fn texts() -> Vec<Written> {
    let counted = |text: &str| {
        let bytes = units(text);
        [&(bytes.len() as u32 / 2).to_be_bytes()[..], &bytes].concat()
    };
    let texts = |strings: [&str; 4]| {
        let strings = strings.map(counted).concat();
        [b"8BCB\0\x01\x0B\xB8", &strings[..], &P8[24..]].concat()
    };
    let same = |text| texts([text; 4]);
    vec![
        (
            "strings without a key",
            texts(["Title", "Pre ", " Suf", "Words"]),
            accepted(1),
        ),
        (
            "strings with a key",
            texts(["$$$/a=Title", "$$$/b=Pre ", "$$$/c= Suf", "$$$/d=Words"]),
            accepted(1),
        ),
        ("a key without an equals sign", same("$$$/a"), accepted(1)),
        ("a key and no text", same("$$$/a="), accepted(1)),
        (
            "a key, several equals signs",
            same("$$$/a=b=c"),
            accepted(1),
        ),
        ("a key in a text", same("$$$/a=$$$/b=c"), accepted(1)),
        ("a key of no letters", same("$$$/=b"), accepted(1)),
        ("an equals sign without a key", same("a=b"), accepted(1)),
        (
            "three dollars and an equals sign",
            same("$$$=a"),
            accepted(1),
        ),
        ("a key after a space", same(" $$$/a=b"), accepted(1)),
    ]
}

/// Pages of two and more, with dummies on them.
fn pages() -> Vec<Written> {
    let colour = [&[0, 0, 0, 1, 0, 0x41], CODE, &[1, 2, 3]].concat();
    let bare = [DUMMY, CODE, &[0, 0, 0]].concat();
    // `x` stands for a colour, `-` for a dummy.
    let paged = |size: u16, offset: u16, colours: &str| {
        let numbers = [colours.len() as u16, size, offset, RGB].map(u16::to_be_bytes);
        let records = colours.bytes().map(|sort| match sort {
            b'-' => &bare,
            _ => &colour,
        });
        let records: Vec<u8> = records.flatten().copied().collect();
        [&P8[..24], &numbers.concat(), &records].concat()
    };
    vec![
        ("pages of one", paged(1, 0, "xxx"), accepted(3)),
        ("pages of two, one left", paged(2, 1, "xxxxx"), accepted(5)),
        (
            "a page larger than the book",
            paged(9, 1, "xxx"),
            accepted(3),
        ),
        (
            "an offset past the page",
            paged(3, 7, "xxxxxx"),
            accepted(6),
        ),
        ("dummies passed over", paged(4, 1, "-x-x--xx"), accepted(8)),
        (
            "too few on a page for the offset",
            paged(3, 2, "x--xxx"),
            accepted(6),
        ),
        (
            "a page of dummies between two",
            paged(2, 0, "xx--xx"),
            accepted(6),
        ),
    ]
}

pub fn fixed_strings() -> Vec<FixedString> {
    let texts = [
        ("", 0),
        ("=", 0),
        ("a=b", 0),
        ("$$$", 0),
        ("$$$=a", 0),
        ("$$$/", 0),
        ("$$$/a", 0),
        ("$$$/=", 10),
        ("$$$/==", 10),
        ("$$$/a=", 12),
        ("$$$/a=b", 12),
        ("$$$/a=b=c", 12),
        ("$$$/a=$$$/b=c", 12),
        ("$$/a=b", 0),
        ("$$$$/a=b", 0),
        (" $$$/a=b", 0),
        ("=$$$/a", 0),
    ];
    let bytes: [(&[u8], usize); 9] = [
        (b"\0", 0),
        (b"$$$/a=b", 0),
        (b"\0$\0$\0$\0", 0),
        // A last byte that is no unit, and one that would be the second of `=`.
        (b"\0$\0$\0$\0/\0", 0),
        (b"\0$\0$\0$\0/\0=\0", 10),
        (b"\0$\0$\0$\0/a\0=", 0),
        // The bytes of `=` on two units, and in the other order.
        (b"\0$\0$\0$\0/a\0=a", 0),
        (b"\0$\0$\0$\0/=\0\0=", 12),
        (b"$\0$\0$\0/\0\0=", 0),
    ];
    let of_text = |(text, start): (&str, usize)| FixedString {
        string: units(text),
        start,
    };
    let of_bytes = |(bytes, start): (&[u8], usize)| FixedString {
        string: bytes.to_vec(),
        start,
    };
    let texts = texts.into_iter().map(of_text);
    texts.chain(bytes.into_iter().map(of_bytes)).collect()
}
