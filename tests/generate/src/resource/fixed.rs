//! Fixed sections and documents, each with its answer written down as the rules
//! give it.

use super::MAX_NAME;

/// What judging a fixed section, or a document up to its section's end, says.
#[derive(Clone, Copy, Debug, PartialEq, Eq)]
pub enum Answer {
    /// A section of so many blocks.
    Blocks(usize),
    /// Where a document's section lies.
    Section {
        first: usize,
        length: usize,
    },
    Refused {
        number: u32,
        place: usize,
    },
}

#[derive(Clone, Debug)]
pub struct Fixed {
    pub title: &'static str,
    pub file: Vec<u8>,
    pub answer: Answer,
}

/// A resolution of two bytes, without a name.
pub const ONE_BLOCK: &[u8] = &[
    0x38, 0x42, 0x49, 0x4D, 0x03, 0xED, 0x00, 0x00, 0x00, 0x00, 0x00, 0x02, 0x00, 0x48,
];

pub const ONE_BLOCK_LISTING: &str = "8BIM 1\n0 1005 - 12 2\nend\n";

/// Names and data with a pad and without one; an ID that stands there twice.
pub const EVERY_PAD: &[u8] = &[
    0x38, 0x42, 0x49, 0x4D, 0x03, 0xED, 0x00, 0x00, 0x00, 0x00, 0x00, 0x02, 0x00, 0x48, //
    0x38, 0x42, 0x49, 0x4D, 0x07, 0xD0, 0x01, 0x41, 0x00, 0x00, 0x00, 0x01, 0xFF, 0x00, //
    0x38, 0x42, 0x49, 0x4D, 0x0B, 0xB7, 0x02, 0x41, 0x42, 0x00, 0x00, 0x00, 0x00, 0x00, //
    0x38, 0x42, 0x49, 0x4D, 0x07, 0xD0, 0x03, 0x00, 0xFF, 0x7A, 0x00, 0x00, 0x00, 0x03, //
    0x38, 0x42, 0x49, 0x00,
];

pub const EVERY_PAD_ROWS: [[u32; 5]; 4] = [
    [1005, 7, 0, 12, 2],
    [2000, 21, 1, 26, 1],
    [2999, 35, 2, 42, 0],
    [2000, 49, 3, 56, 3],
];

pub const EVERY_PAD_LISTING: &str = "8BIM 4
0 1005 - 12 2
1 2000 41 26 1
2 2999 4142 42 0
3 2000 00FF7A 56 3
end
";

/// The least document that has resources: one block.
pub const DOCUMENT: &[u8] = &[
    0x38, 0x42, 0x50, 0x53, 0x00, 0x01, 0x00, 0x00, 0x00, 0x00, 0x00,
    0x00, // signature, version
    0x00, 0x03, 0x00, 0x00, 0x00, 0x01, 0x00, 0x00, 0x00, 0x01, 0x00, 0x08, 0x00, 0x03, //
    0x00, 0x00, 0x00, 0x00, // no colour mode data
    0x00, 0x00, 0x00, 0x0E, // 14 bytes of resources
    0x38, 0x42, 0x49, 0x4D, 0x03, 0xED, 0x00, 0x00, 0x00, 0x00, 0x00, 0x02, 0x00, 0x48,
];

pub const DOCUMENT_LISTING: &str = "8BIM 1\n0 1005 - 46 2\nend\n";

/// What stands before the name, and a name of no bytes with its pad.
const BEGUN: &[u8] = b"8BIM\x03\xED";
const NO_NAME: &[u8] = &[0, 0];

/// What stands before the colour mode data.
const HEAD: &[u8] = DOCUMENT.split_at(26).0;
const NO_COLOURS: &[u8] = &[0; 4];

const fn refused(number: u32, place: usize) -> Answer {
    Answer::Refused { number, place }
}

const fn section(first: usize, length: usize) -> Answer {
    Answer::Section { first, length }
}

type Written = (&'static str, Vec<u8>, Answer);

pub fn fixed_sections() -> Vec<Fixed> {
    fixed([signatures(), names(), sizes(), several()])
}

pub fn fixed_documents() -> Vec<Fixed> {
    fixed([heads(), colours(), resources()])
}

fn fixed(parts: impl IntoIterator<Item = Vec<Written>>) -> Vec<Fixed> {
    let fixed = |(title, file, answer)| Fixed {
        title,
        file,
        answer,
    };
    parts.into_iter().flatten().map(fixed).collect()
}

/// A block from its name's bytes, length byte and pad with them, its size and
/// its data's, which need not fit each other.
fn block(name: &[u8], size: u32, data: &[u8]) -> Vec<u8> {
    [BEGUN, name, &size.to_be_bytes(), data].concat()
}

/// A block without data, from its name's bytes.
fn named(name: &[u8]) -> Vec<u8> {
    block(name, 0, &[])
}

/// A name's length byte, then so many bytes of text, then a pad or what is there
/// in its place.
fn long_name(length: usize, text: usize, pad: &[u8]) -> Vec<u8> {
    [&[length as u8], &vec![0x6E; text][..], pad].concat()
}

fn signatures() -> Vec<Written> {
    let written = |bytes: &[u8]| bytes.to_vec();
    vec![
        ("no blocks", written(b""), Answer::Blocks(0)),
        ("one block", written(ONE_BLOCK), Answer::Blocks(1)),
        ("every pad", written(EVERY_PAD), Answer::Blocks(4)),
        ("a bare block", named(NO_NAME), Answer::Blocks(1)),
        ("a byte of a signature", written(b"8"), refused(2, 0)),
        (
            "three bytes of no signature",
            written(b"XXX"),
            refused(2, 0),
        ),
        (
            "another signature",
            written(b"8BIN\x03\xED\0\0\0\0\0\0"),
            refused(3, 0),
        ),
        ("small letters", written(b"8bim"), refused(3, 0)),
        ("signature read backwards", written(b"MIB8"), refused(3, 0)),
        (
            "another signature and a cut ID",
            written(b"8BIN\x03"),
            refused(3, 0),
        ),
        ("signature alone", written(b"8BIM"), refused(2, 4)),
        ("half an ID", written(b"8BIM\x03"), refused(2, 4)),
        ("an ID alone", written(BEGUN), refused(2, 6)),
    ]
}

fn names() -> Vec<Written> {
    let cut = |name: &[u8]| [BEGUN, name].concat();
    let longest = MAX_NAME;
    vec![
        ("no pad of an empty name", cut(&[0]), refused(2, 7)),
        ("pad of an empty name set", named(&[0, 1]), refused(5, 7)),
        ("pad set and no size", cut(&[0, 0xFF]), refused(5, 7)),
        ("an empty name and no size", cut(NO_NAME), refused(2, 8)),
        ("a name of one byte", named(b"\x01A"), Answer::Blocks(1)),
        (
            "a name of one byte that is not there",
            cut(&[1]),
            refused(2, 7),
        ),
        ("a name of two bytes", named(b"\x02AB\0"), Answer::Blocks(1)),
        ("a name of two bytes cut", cut(b"\x02A"), refused(2, 7)),
        (
            "a name of two bytes without its pad",
            cut(b"\x02AB"),
            refused(2, 9),
        ),
        (
            "a name of two bytes and its pad set",
            named(b"\x02AB "),
            refused(5, 9),
        ),
        // The pad that is one too many is the size's first byte.
        (
            "a name of one byte with a pad",
            block(b"\x01A\0", 2, &[0, 0x48]),
            refused(2, 12),
        ),
        // The size's first byte stands where the pad should.
        (
            "a name of two bytes with no pad",
            block(b"\x02AB", 2, &[0, 0x48]),
            refused(2, 14),
        ),
        ("zeros in a name", named(&[3, 0, 0, 0]), Answer::Blocks(1)),
        (
            "a name of 254 bytes",
            named(&long_name(longest - 1, longest - 1, &[0])),
            Answer::Blocks(1),
        ),
        (
            "a name of 254 bytes and its pad set",
            named(&long_name(longest - 1, longest - 1, &[1])),
            refused(5, 261),
        ),
        (
            "a name of 254 bytes without its pad",
            cut(&long_name(longest - 1, longest - 1, &[])),
            refused(2, 261),
        ),
        (
            "a name of 255 bytes",
            named(&long_name(longest, longest, &[])),
            Answer::Blocks(1),
        ),
        (
            "a name of 255 bytes cut",
            cut(&long_name(longest, longest - 1, &[])),
            refused(2, 7),
        ),
        (
            "a name of 255 bytes and no size",
            cut(&long_name(longest, longest, &[])),
            refused(2, 262),
        ),
    ]
}

fn sizes() -> Vec<Written> {
    let sized = |size, data: &[u8]| block(NO_NAME, size, data);
    vec![
        ("a cut size", sized(0, &[])[..11].to_vec(), refused(2, 8)),
        (
            "no data where there should be",
            sized(2, &[]),
            refused(2, 12),
        ),
        ("data one byte short", sized(3, &[1, 2]), refused(2, 12)),
        ("odd data", sized(1, &[7, 0]), Answer::Blocks(1)),
        ("odd data without its pad", sized(1, &[7]), refused(2, 13)),
        (
            "odd data and its pad set",
            sized(1, &[7, 0x80]),
            refused(5, 13),
        ),
        (
            "a pad counted in the size",
            sized(2, &[7, 0]),
            Answer::Blocks(1),
        ),
        ("even data with a pad", sized(2, &[1, 2, 0]), refused(2, 14)),
        (
            "even data with two pads",
            sized(2, &[1, 2, 0, 0]),
            refused(2, 14),
        ),
        (
            "even data padded to four",
            sized(2, &[1, 2, 0, 0, 0, 0]),
            refused(3, 14),
        ),
        ("both pads set", block(&[0, 1], 1, &[7, 1]), refused(5, 7)),
        (
            "a size that counts the fields before the data",
            sized(14, &[0, 0x48]),
            refused(2, 12),
        ),
        (
            "a size past any section",
            sized(u32::MAX, &[0, 0x48]),
            refused(2, 12),
        ),
        (
            "a size that wraps to the start",
            sized(0xFFFF_FFF4, &[0, 0x48]),
            refused(2, 12),
        ),
        (
            "a size read backwards",
            sized(0x0200_0000, &[0, 0x48]),
            refused(2, 12),
        ),
    ]
}

fn several() -> Vec<Written> {
    let with = |bytes: &[u8]| [ONE_BLOCK, bytes].concat();
    let with_id = |id: u16| [b"8BIM", &id.to_be_bytes()[..], &ONE_BLOCK[6..]].concat();
    let odd = &block(NO_NAME, 1, &[7])[..];
    vec![
        ("an ID twice", with(ONE_BLOCK), Answer::Blocks(2)),
        (
            "the least and the largest ID",
            [with_id(0), with_id(0xFFFF)].concat(),
            Answer::Blocks(2),
        ),
        (
            "a block for data",
            block(NO_NAME, 14, ONE_BLOCK),
            Answer::Blocks(1),
        ),
        ("a byte behind a block", with(&[0]), refused(2, 14)),
        (
            "a signature begun behind a block",
            with(b"8BI"),
            refused(2, 14),
        ),
        ("no signature behind a block", with(&[0; 4]), refused(3, 14)),
        (
            "a second block with another signature",
            with(b"8BPS\x03\xED\0\0\0\0\0\0"),
            refused(3, 14),
        ),
        ("a second block cut", with(&ONE_BLOCK[..7]), refused(2, 21)),
        (
            "a block in the place of a pad",
            [odd, ONE_BLOCK].concat(),
            refused(5, 13),
        ),
        (
            "a block a byte too late",
            [odd, &[0, 0][..], ONE_BLOCK].concat(),
            refused(3, 14),
        ),
    ]
}

/// The document with bytes put over others.
fn document_with(place: usize, bytes: &[u8]) -> Vec<u8> {
    let mut file = DOCUMENT.to_vec();
    file[place..place + bytes.len()].copy_from_slice(bytes);
    file
}

fn heads() -> Vec<Written> {
    let cut = |len: usize| DOCUMENT[..len].to_vec();
    let five_reserved = document_with(6, &[1])[..11].to_vec();
    vec![
        ("no document", cut(0), refused(2, 0)),
        ("half a signature", cut(3), refused(2, 0)),
        ("another signature", document_with(3, b"T"), refused(3, 0)),
        ("small letters", document_with(0, b"8bps"), refused(3, 0)),
        ("a section alone", ONE_BLOCK.to_vec(), refused(3, 0)),
        ("signature alone", cut(4), refused(2, 4)),
        ("half a version", cut(5), refused(2, 4)),
        ("version 0", document_with(4, &[0, 0]), refused(3, 4)),
        ("a large document", document_with(4, &[0, 2]), refused(3, 4)),
        (
            "version read backwards",
            document_with(4, &[1, 0]),
            refused(3, 4),
        ),
        ("no reserved bytes", cut(6), refused(2, 6)),
        ("five reserved bytes", cut(11), refused(2, 6)),
        (
            "five reserved bytes and one set",
            five_reserved,
            refused(2, 6),
        ),
        (
            "first reserved byte set",
            document_with(6, &[1]),
            refused(5, 6),
        ),
        (
            "last reserved byte set",
            document_with(11, &[0x80]),
            refused(5, 6),
        ),
        ("no channels", cut(12), refused(2, 12)),
        ("half of the channels", cut(13), refused(2, 12)),
        ("no height", cut(14), refused(2, 14)),
        ("a cut height", cut(17), refused(2, 14)),
        ("no width", cut(18), refused(2, 18)),
        ("a cut width", cut(21), refused(2, 18)),
        ("no depth", cut(22), refused(2, 22)),
        ("half a depth", cut(23), refused(2, 22)),
        ("no mode", cut(24), refused(2, 24)),
        ("half a mode", cut(25), refused(2, 24)),
        (
            "any picture",
            document_with(12, &[0xFF; 14]),
            section(34, 14),
        ),
    ]
}

fn colours() -> Vec<Written> {
    let with = |bytes: &[u8]| [HEAD, bytes].concat();
    let colours = |len: u32, data: &[u8]| with(&[&len.to_be_bytes(), data].concat());
    let indexed = [&vec![0x55; 768][..], &DOCUMENT[30..]].concat();
    vec![
        ("no colour mode length", with(&[]), refused(2, 26)),
        ("a cut colour mode length", with(&[0; 3]), refused(2, 26)),
        (
            "colour mode data not there",
            colours(1, &[]),
            refused(2, 30),
        ),
        (
            "colour mode data cut",
            colours(4, &[1, 2, 3]),
            refused(2, 30),
        ),
        (
            "colour mode data past any document",
            colours(u32::MAX, &DOCUMENT[30..]),
            refused(2, 30),
        ),
        (
            "colour mode data that wraps",
            colours(0xFFFF_FFE2, &DOCUMENT[30..]),
            refused(2, 30),
        ),
        ("indexed colours", colours(768, &indexed), section(802, 14)),
        (
            "colour mode data of an odd length",
            colours(1, &[&[9], &DOCUMENT[30..]].concat()),
            section(35, 14),
        ),
        (
            "nothing behind colour mode data",
            colours(3, &[1, 2, 3]),
            refused(2, 33),
        ),
    ]
}

fn resources() -> Vec<Written> {
    let with = |bytes: &[u8]| [HEAD, NO_COLOURS, bytes].concat();
    let resources = |len: u32, bytes: &[u8]| with(&[&len.to_be_bytes(), bytes].concat());
    vec![
        ("no section length", with(&[]), refused(2, 30)),
        ("a cut section length", with(&[0; 3]), refused(2, 30)),
        ("an empty section", resources(0, &[]), section(34, 0)),
        (
            "one block in a document",
            DOCUMENT.to_vec(),
            section(34, 14),
        ),
        (
            "every pad in a document",
            resources(60, EVERY_PAD),
            section(34, 60),
        ),
        (
            "a section one byte short",
            resources(14, &ONE_BLOCK[..13]),
            refused(2, 34),
        ),
        ("a section not there", resources(1, &[]), refused(2, 34)),
        (
            "a section of the limit not there",
            resources(0x0100_0000, ONE_BLOCK),
            refused(2, 34),
        ),
        (
            "a section past the limit",
            resources(0x0100_0001, ONE_BLOCK),
            refused(1, 0),
        ),
        (
            "the longest section length",
            resources(u32::MAX, ONE_BLOCK),
            refused(1, 0),
        ),
        (
            "layers behind the section",
            [DOCUMENT, b"8BIM\0\0\0"].concat(),
            section(34, 14),
        ),
        (
            "more behind the section than is listed",
            [DOCUMENT, &vec![0x61; 65_536]].concat(),
            section(34, 14),
        ),
        // What follows is for whom reads the section itself.
        (
            "a section with a pad set",
            resources(12, &named(&[0, 1])),
            section(34, 12),
        ),
        (
            "a section with another signature",
            resources(4, b"8BPS"),
            section(34, 4),
        ),
        (
            "a section that ends inside a block",
            resources(13, ONE_BLOCK),
            section(34, 13),
        ),
    ]
}
