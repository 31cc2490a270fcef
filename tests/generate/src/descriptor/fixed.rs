//! Fixed files, each with its answer written down as the rules give it.

use super::MAX_DEPTH;

/// What judging a fixed file says.
#[derive(Clone, Copy, Debug, PartialEq, Eq)]
pub enum Answer {
    Accepted { rows: usize },
    Refused { number: u32, place: usize },
}

#[derive(Clone, Debug)]
pub struct Fixed {
    pub title: String,
    pub file: Vec<u8>,
    pub answer: Answer,
}

pub const P11: &[u8] = &[
    0x00, 0x00, 0x00, 0x10, 0x00, 0x00, 0x00, 0x00, 0x00, 0x00, 0x00, 0x01, 0x61, 0x00, 0x00, 0x00,
    0x00,
];

pub const P12: &[u8] = &[
    0x00, 0x00, 0x00, 0x10, 0x00, 0x00, 0x00, 0x00, 0x00, 0x00, 0x00, 0x01, 0x61, 0x00, 0x00, 0x00,
    0x01, // the root's pair count
    0x00, 0x00, 0x00, 0x01, 0x61, 0x56, 0x6C, 0x4C, 0x73, 0x00, 0x00, 0x00, 0x02, // a list
    0x62, 0x6F, 0x6F, 0x6C, 0x01, 0x62, 0x6F, 0x6F, 0x6C, 0x01,
];

/// Kind, parent, first byte, length and depth of the rows of P12.
pub const P12_ROWS: [[u32; 5]; 4] = [
    [0x4F62_6A63, 0, 0, 40, 0],
    [0x566C_4C73, 0, 17, 23, 1],
    [0x626F_6F6C, 1, 30, 5, 2],
    [0x626F_6F6C, 1, 35, 5, 2],
];

pub const P12_LISTING: &str = "DESC 4
0 Objc 0 0 40 0
1 VlLs 0 17 23 1
2 bool 1 30 5 2
3 bool 1 35 5 2
end
";

/// A pair of every type, and in the reference every form.
pub const EVERY_TYPE: &[u8] = b"\0\0\0\x10\
    \0\0\0\0\0\0\0\0null\0\0\0\x11\
    \0\0\0\x01abool\x01\
    \0\0\0\x01atype\0\0\0\0\0\0\0\x01a\
    \0\0\0\x01aGlbC\0\0\0\x02\0A\0\0\0\0\0\0Nm  \
    \0\0\0\x01adoub\x3F\xF8\0\0\0\0\0\0\
    \0\0\0\x01aenum\0\0\0\x01b\0\0\0\0Ordn\
    \0\0\0\x01aalis\0\0\0\x03\x01\x02\x03\
    \0\0\0\x01aPth \0\0\0\0\
    \0\0\0\x01along\xFF\xFF\xFF\xFE\
    \0\0\0\x01acomp\x80\0\0\0\0\0\0\x01\
    \0\0\0\x01aVlLs\0\0\0\x02bool\0long\0\0\0\x07\
    \0\0\0\x01aObjc\0\0\0\0\0\0\0\x01a\0\0\0\x01\0\0\0\x01abool\0\
    \0\0\0\x01aGlbO\0\0\0\0\0\0\0\x01a\0\0\0\0\
    \0\0\0\x01atdta\0\0\0\x01\xFF\
    \0\0\0\x01aobj \0\0\0\x07\
    Clss\0\0\0\0\0\0\0\x01a\
    Enmr\0\0\0\0\0\0\0\x01a\0\0\0\x01b\0\0\0\x01c\
    Idnt\0\0\0\0\0\0\0\x01a\0\0\0\x09\
    indx\0\0\0\0\0\0\0\x01a\0\0\0\x09\
    name\0\0\0\0\0\0\0\x01a\0\0\0\x01\0\0\
    rele\0\0\0\0\0\0\0\x01a\xFF\xFF\xFF\xFF\
    prop\0\0\0\0\0\0\0\x01a\0\0\0\x01b\
    \0\0\0\x01aTEXT\0\0\0\x02\0A\0\0\
    \0\0\0\x01aUntF#Prc\x40\x59\0\0\0\0\0\0\
    \0\0\0\x01aObAr\0\0\0\x02\0\0\0\0\0\0\0\x01a\0\0\0\x01\
    \0\0\0\x01aUnFl#Pxl\0\0\0\x02\0\0\0\0\0\0\0\0\x80\0\0\0\0\0\0\0";

pub const EVERY_TYPE_LISTING: &str = "DESC 29
0 Objc 0 0 499 0
1 bool 0 20 10 1
2 type 0 30 18 1
3 GlbC 0 48 25 1
4 doub 0 73 17 1
5 enum 0 90 22 1
6 alis 0 112 16 1
7 Pth 0 128 13 1
8 long 0 141 13 1
9 comp 0 154 17 1
10 VlLs 0 171 26 1
11 bool 10 184 5 2
12 long 10 189 8 2
13 Objc 0 197 32 1
14 bool 13 219 10 2
15 GlbO 0 229 22 1
16 tdta 0 251 14 1
17 obj 0 265 137 1
18 Clss 17 278 13 2
19 Enmr 17 291 23 2
20 Idnt 17 314 17 2
21 indx 17 331 17 2
22 name 17 348 19 2
23 rele 17 367 17 2
24 prop 17 384 18 2
25 TEXT 0 402 17 1
26 UntF 0 419 21 1
27 ObAr 0 440 59 1
28 UnFl 27 466 33 2
end
";

/// Where the values of some of its rows begin, with their lengths: the root's
/// after the version, a pair's after its key and type, an item's after its type
/// or form.
pub const EVERY_TYPE_VALUES: [(usize, usize, usize); 9] = [
    (0, 4, 495),
    (1, 29, 1),
    (8, 150, 4),
    (11, 188, 1),
    (14, 228, 1),
    (17, 274, 128),
    (18, 282, 9),
    (26, 428, 12),
    (28, 475, 24),
];

/// Where the root's only pair has its key, its type and its value.
const KEY: usize = 17;
const TYPE: usize = 22;
const VALUE: usize = 26;

const CLASS: &[u8] = b"\0\0\0\0\0\0\0\x01a";
const ID: &[u8] = b"\0\0\0\x01b";
const NONE: &[u8] = &[0; 4];
const ONE: &[u8] = &[0, 0, 0, 1];
const ALL: &[u8] = &[0xFF; 4];
const LIST_OF_ONE: &[u8] = b"VlLs\0\0\0\x01";

const HALF: &[u8] = b"\x3F\xE0\0\0\0\0\0\0";
const MINUS_ZERO: &[u8] = b"\x80\0\0\0\0\0\0\0";
const SUBNORMAL: &[u8] = b"\x80\0\0\0\0\0\0\x01";
const HIGHEST: &[u8] = b"\x7F\xEF\xFF\xFF\xFF\xFF\xFF\xFF";
const INFINITY: &[u8] = b"\x7F\xF0\0\0\0\0\0\0";
const MINUS_INFINITY: &[u8] = b"\xFF\xF0\0\0\0\0\0\0";
const NAN: &[u8] = b"\x7F\xF0\0\0\0\0\0\x01";

const fn accepted(rows: usize) -> Answer {
    Answer::Accepted { rows }
}

const fn refused(number: u32, place: usize) -> Answer {
    Answer::Refused { number, place }
}

/// A version and what follows.
fn file(parts: &[&[u8]]) -> Vec<u8> {
    [&P11[..4], &parts.concat()].concat()
}

/// The root with a pair count of one, and what follows.
fn pair(parts: &[&[u8]]) -> Vec<u8> {
    [&P11[..13], ONE, &parts.concat()].concat()
}

/// The root with one pair, from whose type on this follows.
fn item(parts: &[&[u8]]) -> Vec<u8> {
    pair(&[&P12[KEY..TYPE], &parts.concat()])
}

pub fn fixed_files() -> Vec<Fixed> {
    let parts = [
        roots(),
        pairs(),
        leaves(),
        doubles(),
        strings(),
        lists(),
        references(),
        arrays(),
        depths(),
    ];
    let fixed = |(title, file, answer): Written| Fixed {
        title: title.to_string(),
        file,
        answer,
    };
    let fixed = parts.into_iter().flatten().map(fixed);
    fixed.chain(units()).chain(deep_containers()).collect()
}

type Written = (&'static str, Vec<u8>, Answer);

fn roots() -> Vec<Written> {
    let not_closed = file(&[ONE, b"\0A", ID, NONE]);
    let closed_early = file(&[&[0, 0, 0, 2], b"\0\0\0A", ID, NONE]);
    vec![
        ("P1", Vec::new(), refused(2, 0)),
        ("half a version", vec![0, 0, 0], refused(2, 0)),
        ("version 15", vec![0, 0, 0, 15], refused(3, 0)),
        ("version read backwards", vec![16, 0, 0, 0], refused(3, 0)),
        ("a version alone", file(&[]), refused(2, 4)),
        ("a class name's count cut", file(&[&[0; 3]]), refused(2, 4)),
        ("a class name cut", file(&[ONE, &[0]]), refused(2, 8)),
        ("a class name of all units", file(&[ALL]), refused(2, 8)),
        (
            "a class name whose bytes wrap to none",
            file(&[&[0x80, 0, 0, 0], ID, NONE]),
            refused(2, 8),
        ),
        ("a class name not closed", not_closed, refused(8, 4)),
        ("a class name closed early", closed_early, refused(8, 4)),
        (
            "a class name of a zero",
            file(&[ONE, b"\0\0", ID, NONE]),
            accepted(1),
        ),
        (
            "a class name of zeros",
            file(&[&[0, 0, 0, 2], b"\0\0\0\0", ID, NONE]),
            accepted(1),
        ),
        (
            "a class name, closed",
            file(&[&[0, 0, 0, 2], b"\0A\0\0", ID, NONE]),
            accepted(1),
        ),
        (
            "a class name not closed, and cut",
            file(&[ONE, b"\0A"]),
            refused(8, 4),
        ),
        ("no class ID", file(&[NONE]), refused(2, 8)),
        (
            "a class ID's length cut",
            file(&[NONE, &[0]]),
            refused(2, 8),
        ),
        ("a class ID of no bytes", file(&[NONE, ONE]), refused(2, 12)),
        (
            "a class ID of all bytes",
            file(&[NONE, ALL]),
            refused(2, 12),
        ),
        (
            "three characters",
            file(&[NONE, NONE, b"nul"]),
            refused(2, 12),
        ),
        (
            "four characters",
            file(&[NONE, NONE, b"null", NONE]),
            accepted(1),
        ),
        (
            "a name of four bytes",
            file(&[NONE, &[0, 0, 0, 4], b"null", NONE]),
            accepted(1),
        ),
        ("no pair count", file(&[CLASS]), refused(2, 13)),
        ("a pair count cut", file(&[CLASS, &[0; 3]]), refused(2, 13)),
        ("P11", P11.to_vec(), accepted(1)),
        ("a byte left over", [P11, &[0]].concat(), refused(6, 17)),
        ("P12", P12.to_vec(), accepted(4)),
        ("P12 twice", [P12, P12].concat(), refused(6, 40)),
        ("every type", EVERY_TYPE.to_vec(), accepted(29)),
    ]
}

fn pairs() -> Vec<Written> {
    let all_pairs = [&P11[..13], ALL].concat();
    let two = [&P11[..13], &[0, 0, 0, 2], &P12[KEY..]].concat();
    let gap = [&P11[..13], &[0, 0, 0, 2], &P12[KEY..], &[0], &P12[KEY..]].concat();
    vec![
        ("a pair counted, none there", pair(&[]), refused(2, KEY)),
        ("all pairs counted, none there", all_pairs, refused(2, KEY)),
        ("two pairs counted, one there", two, refused(2, 40)),
        // The gap and three bytes of the length make the length 0, so that the
        // key is of the last byte of it, `a`, and the first two of the type.
        ("a gap after a list", gap, refused(4, 48)),
        ("a key's length cut", pair(&[&[0]]), refused(2, KEY)),
        ("a key of no bytes", pair(&[ONE]), refused(2, 21)),
        ("characters cut", pair(&[NONE, b"abc"]), refused(2, 21)),
        ("no type", item(&[]), refused(2, TYPE)),
        ("half a type", item(&[b"bo"]), refused(2, TYPE)),
        (
            "a type cut short of known",
            item(&[b"Pth"]),
            refused(2, TYPE),
        ),
        ("an unknown type", item(&[b"boot"]), refused(4, TYPE)),
        ("a capital type", item(&[b"Bool\x01"]), refused(4, TYPE)),
        (
            "a type without its space",
            item(&[b"obj\0", NONE]),
            refused(4, TYPE),
        ),
        ("an array pair's type", item(&[b"UnFl"]), refused(4, TYPE)),
        (
            "a form for a type",
            item(&[b"Clss", CLASS]),
            refused(4, TYPE),
        ),
        (
            "a unit for a type",
            item(&[b"#Prc", HALF]),
            refused(4, TYPE),
        ),
    ]
}

fn leaves() -> Vec<Written> {
    vec![
        ("no boolean", item(&[b"bool"]), refused(2, VALUE)),
        ("false", item(&[b"bool\0"]), accepted(2)),
        ("true", item(&[b"bool\x01"]), accepted(2)),
        ("boolean 2", item(&[b"bool\x02"]), refused(5, VALUE)),
        ("boolean 255", item(&[b"bool\xFF"]), refused(5, VALUE)),
        (
            "a boolean, then a byte",
            item(&[b"bool\x01\0"]),
            refused(6, 27),
        ),
        ("a long cut", item(&[b"long\0\0\0"]), refused(2, VALUE)),
        ("a long", item(&[b"long", ALL]), accepted(2)),
        (
            "a large integer cut",
            item(&[b"comp", &[0; 7]]),
            refused(2, VALUE),
        ),
        ("a large integer", item(&[b"comp", &[0xFF; 8]]), accepted(2)),
        (
            "an enumerated of nothing",
            item(&[b"enum"]),
            refused(2, VALUE),
        ),
        (
            "an enumerated type cut",
            item(&[b"enum", ONE]),
            refused(2, 30),
        ),
        ("no enumerated value", item(&[b"enum", ID]), refused(2, 31)),
        (
            "an enumerated value cut",
            item(&[b"enum", ID, NONE, b"abc"]),
            refused(2, 35),
        ),
        ("an enumerated", item(&[b"enum", ID, ID]), accepted(2)),
        ("a class", item(&[b"type", CLASS]), accepted(2)),
        (
            "a class without an ID",
            item(&[b"type", NONE]),
            refused(2, 30),
        ),
        (
            "a class not closed",
            item(&[b"GlbC", ONE, b"\0A", ID]),
            refused(8, VALUE),
        ),
        (
            "an alias without a length",
            item(&[b"alis"]),
            refused(2, VALUE),
        ),
        ("an alias of nothing", item(&[b"alis", NONE]), accepted(2)),
        ("an alias cut", item(&[b"alis", ONE]), refused(2, 30)),
        (
            "a path of all bytes",
            item(&[b"Pth ", ALL, b"ab"]),
            refused(2, 30),
        ),
        ("a path", item(&[b"Pth ", ONE, b"a"]), accepted(2)),
        (
            "raw data cut",
            item(&[b"tdta", &[0, 0, 0, 2], b"a"]),
            refused(2, 30),
        ),
        (
            "raw data",
            item(&[b"tdta", &[0, 0, 0, 2], b"ab"]),
            accepted(2),
        ),
        (
            "raw data, then a byte",
            item(&[b"tdta", ONE, b"ab"]),
            refused(6, 31),
        ),
    ]
}

fn doubles() -> Vec<Written> {
    vec![
        (
            "a double cut",
            item(&[b"doub", &NAN[..7]]),
            refused(2, VALUE),
        ),
        ("a half", item(&[b"doub", HALF]), accepted(2)),
        ("minus zero", item(&[b"doub", MINUS_ZERO]), accepted(2)),
        ("a subnormal", item(&[b"doub", SUBNORMAL]), accepted(2)),
        ("the highest double", item(&[b"doub", HIGHEST]), accepted(2)),
        ("infinity", item(&[b"doub", INFINITY]), refused(5, VALUE)),
        (
            "minus infinity",
            item(&[b"doub", MINUS_INFINITY]),
            refused(5, VALUE),
        ),
        ("not a number", item(&[b"doub", NAN]), refused(5, VALUE)),
        ("no unit", item(&[b"UntF"]), refused(2, VALUE)),
        ("half a unit", item(&[b"UntF#P"]), refused(2, VALUE)),
        ("a unit alone", item(&[b"UntF#Pxl"]), refused(2, 30)),
        (
            "an unknown unit alone",
            item(&[b"UntF#Pxm"]),
            refused(4, VALUE),
        ),
        (
            "a unit double not a number",
            item(&[b"UntF#Pxl", NAN]),
            refused(5, 30),
        ),
    ]
}

/// Every unit in a unit double and in an array, and one that is none.
fn units() -> Vec<Fixed> {
    let known: [(&[u8; 4], bool, bool); 9] = [
        (b"#Ang", true, false),
        (b"#Rsl", true, false),
        (b"#Rlt", true, true),
        (b"#Nne", true, false),
        (b"#Prc", true, true),
        (b"#Pxl", true, true),
        (b"#Mlm", true, false),
        (b"#Pnt", true, false),
        (b"#pxl", false, false),
    ];
    let shown = |unit: &[u8; 4]| match unit {
        b"#pxl" => "small #pxl".to_string(),
        _ => unit.escape_ascii().to_string(),
    };
    let alone = known.iter().map(|&(unit, is_unit, _)| Fixed {
        title: format!("a unit double in {}", shown(unit)),
        file: item(&[b"UntF", unit, HALF]),
        answer: if is_unit {
            accepted(2)
        } else {
            refused(4, VALUE)
        },
    });
    let in_arrays = known.iter().map(|&(unit, _, is_unit)| Fixed {
        title: format!("an object array in {}", shown(unit)),
        file: array(ONE, &[ID, b"UnFl", unit, ONE, HALF]),
        answer: if is_unit { accepted(3) } else { refused(4, 52) },
    });
    alone.chain(in_arrays).collect()
}

fn strings() -> Vec<Written> {
    vec![
        ("no text", item(&[b"TEXT"]), refused(2, VALUE)),
        ("a text of no units", item(&[b"TEXT", NONE]), accepted(2)),
        (
            "a text of a zero",
            item(&[b"TEXT", ONE, b"\0\0"]),
            accepted(2),
        ),
        ("a text cut", item(&[b"TEXT", ONE, b"\0"]), refused(2, 30)),
        (
            "a text not closed",
            item(&[b"TEXT", ONE, b"\0A"]),
            refused(8, VALUE),
        ),
        (
            "a text half closed",
            item(&[b"TEXT", ONE, b"A\0"]),
            refused(8, VALUE),
        ),
        (
            "a text with a zero in it",
            item(&[b"TEXT", &[0, 0, 0, 3], b"\0\0\0A\0\0"]),
            accepted(2),
        ),
    ]
}

fn lists() -> Vec<Written> {
    vec![
        ("no list", item(&[b"VlLs"]), refused(2, VALUE)),
        ("an empty list", item(&[b"VlLs", NONE]), accepted(2)),
        (
            "a list of a missing item",
            item(&[LIST_OF_ONE]),
            refused(2, 30),
        ),
        ("a list of all items", item(&[b"VlLs", ALL]), refused(2, 30)),
        (
            "a list of a key",
            item(&[LIST_OF_ONE, ID, b"bool\x01"]),
            refused(4, 30),
        ),
        (
            "a list's second item",
            item(&[b"VlLs\0\0\0\x02bool\x01boot"]),
            refused(4, 35),
        ),
        (
            "a list in a list",
            item(&[LIST_OF_ONE, b"VlLs", NONE]),
            accepted(3),
        ),
        ("an object of no class", item(&[b"Objc"]), refused(2, VALUE)),
        (
            "an object of no pairs",
            item(&[b"Objc", CLASS, NONE]),
            accepted(2),
        ),
        (
            "an object of a missing pair",
            item(&[b"GlbO", CLASS, ONE]),
            refused(2, 39),
        ),
        (
            "an object of a pair",
            item(&[b"GlbO", CLASS, ONE, ID, b"bool\x01"]),
            accepted(3),
        ),
    ]
}

fn references() -> Vec<Written> {
    let one = |parts: &[&[u8]]| item(&[b"obj ", ONE, &parts.concat()]);
    vec![
        ("no reference", item(&[b"obj "]), refused(2, VALUE)),
        ("an empty reference", item(&[b"obj ", NONE]), accepted(2)),
        ("a reference to a missing item", one(&[]), refused(2, 30)),
        ("half a form", one(&[b"Cl"]), refused(2, 30)),
        ("an unknown form", one(&[b"clss", CLASS]), refused(4, 30)),
        ("a type for a form", one(&[b"bool\x01"]), refused(4, 30)),
        ("a form without a class", one(&[b"Clss"]), refused(2, 34)),
        (
            "a form with a class not closed",
            one(&[b"prop", ONE, b"\0A"]),
            refused(8, 34),
        ),
        (
            "a reference to a class",
            one(&[b"Clss", CLASS]),
            accepted(3),
        ),
        (
            "a reference to a class, then a number",
            one(&[b"Clss", CLASS, NONE]),
            refused(6, 43),
        ),
        (
            "a reference to an enumerated, cut",
            one(&[b"Enmr", CLASS, ID]),
            refused(2, 48),
        ),
        (
            "a reference to an enumerated",
            one(&[b"Enmr", CLASS, ID, ID]),
            accepted(3),
        ),
        (
            "a reference by identifier, cut",
            one(&[b"Idnt", CLASS, &[0; 3]]),
            refused(2, 43),
        ),
        (
            "a reference by identifier",
            one(&[b"Idnt", CLASS, ALL]),
            accepted(3),
        ),
        (
            "a reference by index",
            one(&[b"indx", CLASS, ALL]),
            accepted(3),
        ),
        (
            "a reference by offset",
            one(&[b"rele", CLASS, ALL]),
            accepted(3),
        ),
        (
            "a reference by name",
            one(&[b"name", CLASS, NONE]),
            accepted(3),
        ),
        (
            "a reference by name, not closed",
            one(&[b"name", CLASS, ONE, b"\0A"]),
            refused(8, 43),
        ),
        (
            "a reference to a property, cut",
            one(&[b"prop", CLASS, ONE]),
            refused(2, 47),
        ),
        (
            "a reference to a property",
            one(&[b"prop", CLASS, ID]),
            accepted(3),
        ),
    ]
}

/// An object array of so many objects with one pair, which begins at 43: its
/// type stands at 48, its unit at 52, its count at 56, its doubles from 60 on.
fn array(objects: &[u8], parts: &[&[u8]]) -> Vec<u8> {
    item(&[b"ObAr", objects, CLASS, ONE, &parts.concat()])
}

fn arrays() -> Vec<Written> {
    let two: &[u8] = &[0, 0, 0, 2];
    let bare = |objects: &[u8]| item(&[b"ObAr", objects, CLASS, NONE]);
    vec![
        ("no array", item(&[b"ObAr"]), refused(2, VALUE)),
        (
            "an array without a class",
            item(&[b"ObAr", ONE]),
            refused(2, 30),
        ),
        (
            "an array without a pair count",
            item(&[b"ObAr", ONE, CLASS]),
            refused(2, 39),
        ),
        (
            "an array of no objects and no pairs",
            bare(NONE),
            accepted(2),
        ),
        (
            "an array of all objects and no pairs",
            bare(ALL),
            accepted(2),
        ),
        (
            "an array of a missing pair",
            array(ONE, &[]),
            refused(2, 43),
        ),
        ("an array of a key alone", array(ONE, &[ID]), refused(2, 48)),
        (
            "an array of an item for a pair",
            array(ONE, &[ID, b"UntF#Pxl", HALF]),
            refused(4, 48),
        ),
        ("no array unit", array(ONE, &[ID, b"UnFl"]), refused(2, 52)),
        (
            "no count of doubles",
            array(ONE, &[ID, b"UnFl#Pxl"]),
            refused(2, 56),
        ),
        (
            "too few doubles",
            array(ONE, &[ID, b"UnFl#Pxl", NONE]),
            refused(5, 56),
        ),
        (
            "too many doubles",
            array(ONE, &[ID, b"UnFl#Pxl", two, HALF, HALF]),
            refused(5, 56),
        ),
        (
            "too many doubles, none there",
            array(ONE, &[ID, b"UnFl#Pxl", ALL]),
            refused(5, 56),
        ),
        (
            "all doubles, none there",
            array(ALL, &[ID, b"UnFl#Pxl", ALL]),
            refused(2, 60),
        ),
        (
            "an array of no doubles",
            array(NONE, &[ID, b"UnFl#Pxl", NONE]),
            accepted(3),
        ),
        (
            "a double missing",
            array(two, &[ID, b"UnFl#Pxl", two, HALF, &HALF[..7]]),
            refused(2, 68),
        ),
        (
            "a double not finite, then a cut",
            array(two, &[ID, b"UnFl#Pxl", two, INFINITY]),
            refused(5, 60),
        ),
        (
            "a double not finite",
            array(two, &[ID, b"UnFl#Pxl", two, HALF, NAN]),
            refused(5, 68),
        ),
        (
            "an array of two doubles",
            array(two, &[ID, b"UnFl#Pxl", two, HALF, MINUS_ZERO]),
            accepted(3),
        ),
    ]
}

/// So many lists in each other, the first of them the root's pair, and what is
/// in the last.
fn nested(lists: usize, parts: &[&[u8]]) -> Vec<u8> {
    item(&[&LIST_OF_ONE.repeat(lists), &parts.concat()])
}

/// Where the item in so many lists begins.
const fn behind(lists: usize) -> usize {
    TYPE + LIST_OF_ONE.len() * lists
}

fn depths() -> Vec<Written> {
    // The last list stands at this depth, what is in it one deeper.
    let most = MAX_DEPTH - 1;
    vec![
        ("depth 32", nested(most, &[b"bool\x01"]), accepted(33)),
        (
            "depth 33",
            nested(most + 1, &[b"bool\x01"]),
            refused(10, behind(32)),
        ),
        (
            "depth 34",
            nested(most + 2, &[b"bool\x01"]),
            refused(10, behind(32)),
        ),
        (
            "depth 33, none there",
            nested(most + 1, &[]),
            refused(10, behind(32)),
        ),
        (
            "depth 33, of no type",
            nested(most + 1, &[b"boot"]),
            refused(10, behind(32)),
        ),
        (
            "depth 32, none there",
            nested(most, &[]),
            refused(2, behind(31)),
        ),
        (
            "depth 32, of no type",
            nested(most, &[b"boot"]),
            refused(4, behind(31)),
        ),
        (
            "a count cut at depth 32",
            nested(most, &[b"VlLs\0\0\0"]),
            refused(2, behind(31) + 4),
        ),
    ]
}

/// Each sort of container at depth 32: empty, with a child, with one that is not
/// there, and cut in its head.
fn deep_containers() -> Vec<Fixed> {
    let sorts: [(&[&[u8]], &[u8]); 5] = [
        (&[b"VlLs"], b"bool\x01"),
        (&[b"Objc", CLASS], b"\0\0\0\x01bbool\x01"),
        (&[b"GlbO", CLASS], b"\0\0\0\x01bbool\x01"),
        (&[b"obj "], b"Clss\0\0\0\0\0\0\0\x01a"),
        (&[b"ObAr", NONE, CLASS], b"\0\0\0\x01bUnFl#Pxl\0\0\0\0"),
    ];
    let cases = |(head, child): (&[&[u8]], &[u8])| {
        let head = head.concat();
        let title = |what: &str| format!("{} at depth 32, {what}", head[..4].escape_ascii());
        let at = behind(31) + head.len();
        let fixed = |what: &str, parts: &[&[u8]], answer| Fixed {
            title: title(what),
            file: nested(31, &[&head, &parts.concat()]),
            answer,
        };
        [
            fixed("empty", &[NONE], accepted(33)),
            fixed("with a child", &[ONE, child], refused(10, at + 4)),
            fixed("with a missing child", &[ONE], refused(10, at + 4)),
            fixed("with all children", &[ALL], refused(10, at + 4)),
            fixed("without a count", &[], refused(2, at)),
        ]
    };
    let less_deep = |(head, child): (&[&[u8]], &[u8])| Fixed {
        title: format!("{} at depth 31", head[0].escape_ascii()),
        file: nested(30, &[&head.concat(), ONE, child]),
        answer: accepted(33),
    };
    let deep = sorts.into_iter().flat_map(cases);
    deep.chain(sorts.into_iter().map(less_deep)).collect()
}
