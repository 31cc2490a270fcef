//! Fixed files, each with its answer written down as the rules give it.

/// What judging a fixed file says.
#[derive(Clone, Copy, Debug, PartialEq, Eq)]
pub enum Answer {
    Accepted {
        colours: usize,
        lists: usize,
    },
    Refused {
        number: u32,
        place: usize,
        record: usize,
        field: usize,
    },
}

#[derive(Clone, Debug)]
pub struct Fixed {
    pub title: &'static str,
    pub file: Vec<u8>,
    pub answer: Answer,
}

pub const P2: &[u8] = &[0x00, 0x01, 0x00, 0x00];

pub const P3: &[u8] = &[
    0x00, 0x01, 0x00, 0x01, // list 1, one colour
    0x00, 0x00, 0xFF, 0xFF, 0x00, 0x00, 0x80, 0x80, 0x00, 0x00, //
    0x00, 0x02, 0x00, 0x01, // list 2, one colour
    0x00, 0x00, 0xFF, 0xFF, 0x00, 0x00, 0x80, 0x80, 0x00, 0x00, //
    0x00, 0x00, 0x00, 0x02, 0x00, 0x41, 0x00, 0x00,
];

pub const P3_LISTING: &str = "ACO 1 names\n0 0 65535 0 32896 0 0041\nend\n";

pub const P4: &[u8] = &[
    0x00, 0x01, 0x00, 0x01, //
    0x00, 0x00, 0xFF, 0xFF, 0x00, 0x00, 0x80, 0x80, 0x00, 0x00, //
    0x00, 0x02, 0x00, 0x01, //
    0x00, 0x00, 0xFF, 0xFF, 0x00, 0x00, 0x80, 0x81, 0x00, 0x00, //
    0x00, 0x00, 0x00, 0x02, 0x00, 0x41, 0x00, 0x00,
];

/// Two colours, each name directly after its colour.
const TWO_COLOURS: &[u8] = &[
    0x00, 0x01, 0x00, 0x02, //
    0x00, 0x00, 0xFF, 0xFF, 0x00, 0x00, 0x80, 0x80, 0x00, 0x00, //
    0x00, 0x02, 0x12, 0x34, 0x00, 0x00, 0xFF, 0xFF, 0x00, 0x01, //
    0x00, 0x02, 0x00, 0x02, //
    0x00, 0x00, 0xFF, 0xFF, 0x00, 0x00, 0x80, 0x80, 0x00, 0x00, //
    0x00, 0x00, 0x00, 0x02, 0x00, 0x41, 0x00, 0x00, //
    0x00, 0x02, 0x12, 0x34, 0x00, 0x00, 0xFF, 0xFF, 0x00, 0x01, //
    0x00, 0x00, 0x00, 0x03, 0x00, 0x42, 0x00, 0x63, 0x00, 0x00,
];

/// Its twin with both names after both colours. At 38, where the count of the
/// first name should stand, are the second colour's space and first sample:
/// 00021234 units, more than the file has left, so the body at 42 is cut.
const NAMES_LAST_CUT: &[u8] = &[
    0x00, 0x01, 0x00, 0x02, //
    0x00, 0x00, 0xFF, 0xFF, 0x00, 0x00, 0x80, 0x80, 0x00, 0x00, //
    0x00, 0x02, 0x12, 0x34, 0x00, 0x00, 0xFF, 0xFF, 0x00, 0x01, //
    0x00, 0x02, 0x00, 0x02, //
    0x00, 0x00, 0xFF, 0xFF, 0x00, 0x00, 0x80, 0x80, 0x00, 0x00, //
    0x00, 0x02, 0x12, 0x34, 0x00, 0x00, 0xFF, 0xFF, 0x00, 0x01, //
    0x00, 0x00, 0x00, 0x02, 0x00, 0x41, 0x00, 0x00, //
    0x00, 0x00, 0x00, 0x03, 0x00, 0x42, 0x00, 0x63, 0x00, 0x00,
];

/// Names last again; the second colour is black, so the count at 38 is 0.
const NAMES_LAST_NO_COUNT: &[u8] = &[
    0x00, 0x01, 0x00, 0x02, //
    0x00, 0x00, 0xFF, 0xFF, 0x00, 0x00, 0x80, 0x80, 0x00, 0x00, //
    0x00, 0x00, 0x00, 0x00, 0x00, 0x00, 0x00, 0x00, 0x00, 0x00, //
    0x00, 0x02, 0x00, 0x02, //
    0x00, 0x00, 0xFF, 0xFF, 0x00, 0x00, 0x80, 0x80, 0x00, 0x00, //
    0x00, 0x00, 0x00, 0x00, 0x00, 0x00, 0x00, 0x00, 0x00, 0x00, //
    0x00, 0x00, 0x00, 0x02, 0x00, 0x41, 0x00, 0x00, //
    0x00, 0x00, 0x00, 0x02, 0x00, 0x42, 0x00, 0x00,
];

/// Names last again; the second colour reads as a well closed name of two
/// units. Then its place at 48 holds the first name's count: the space agrees
/// and the first sample is 2 in place of 3.
const NAMES_LAST_DIFFERING: &[u8] = &[
    0x00, 0x01, 0x00, 0x02, //
    0x00, 0x00, 0xFF, 0xFF, 0x00, 0x00, 0x80, 0x80, 0x00, 0x00, //
    0x00, 0x00, 0x00, 0x03, 0x44, 0x44, 0x55, 0x55, 0x00, 0x00, //
    0x00, 0x02, 0x00, 0x02, //
    0x00, 0x00, 0xFF, 0xFF, 0x00, 0x00, 0x80, 0x80, 0x00, 0x00, //
    0x00, 0x00, 0x00, 0x03, 0x44, 0x44, 0x55, 0x55, 0x00, 0x00, //
    0x00, 0x00, 0x00, 0x02, 0x00, 0x41, 0x00, 0x00, //
    0x00, 0x00, 0x00, 0x02, 0x00, 0x42, 0x00, 0x00,
];

/// Record 0's name is badly closed and record 1 differs: file order decides.
const BAD_NAME_THEN_DIFFERENCE: &[u8] = &[
    0x00, 0x01, 0x00, 0x02, //
    0x00, 0x00, 0x00, 0x01, 0x00, 0x02, 0x00, 0x03, 0x00, 0x00, //
    0x00, 0x08, 0x00, 0x04, 0x00, 0x00, 0x00, 0x00, 0x00, 0x00, //
    0x00, 0x02, 0x00, 0x02, //
    0x00, 0x00, 0x00, 0x01, 0x00, 0x02, 0x00, 0x03, 0x00, 0x00, //
    0x00, 0x00, 0x00, 0x02, 0x00, 0x00, 0x00, 0x00, //
    0x00, 0x08, 0x00, 0x05, 0x00, 0x00, 0x00, 0x00, 0x00, 0x00, //
    0x00, 0x00, 0x00, 0x01, 0x00, 0x00,
];

/// A space that is not known; the colour is cut directly after it.
const UNKNOWN_SPACE_THEN_CUT: &[u8] = &[0x00, 0x01, 0x00, 0x01, 0x00, 0x03];

/// The one byte of a space that is there would be no known space's.
const CUT_SPACE: &[u8] = &[0x00, 0x01, 0x00, 0x01, 0xFF];

/// An unused sample of a colour that ends before the next one.
const UNUSED_THEN_CUT: &[u8] = &[
    0x00, 0x01, 0x00, 0x01, 0x00, 0x08, 0x12, 0x34, 0x00, 0x01, 0x00,
];

/// Too many colours, and none of them there.
const TOO_MANY: &[u8] = &[0x00, 0x01, 0x10, 0x01];

/// The most colours, and none of them there.
const MOST_BUT_CUT: &[u8] = &[0x00, 0x01, 0x10, 0x00];

/// List 2's count is compared, never judged by its range.
const COUNTS_DIFFER: &[u8] = &[0x00, 0x01, 0x00, 0x00, 0x00, 0x02, 0xFF, 0xFF];

/// A difference precedes a cut later in the record.
const DIFFERENCE_THEN_CUT: &[u8] = &[
    0x00, 0x01, 0x00, 0x01, //
    0x00, 0x08, 0x00, 0x01, 0x00, 0x00, 0x00, 0x00, 0x00, 0x00, //
    0x00, 0x02, 0x00, 0x01, //
    0x00, 0x08, 0x00, 0x02, 0x00,
];

/// A cut precedes a difference in the byte that is there.
const CUT_BEFORE_DIFFERENCE: &[u8] = &[
    0x00, 0x01, 0x00, 0x01, //
    0x00, 0x08, 0x00, 0x01, 0x00, 0x00, 0x00, 0x00, 0x00, 0x00, //
    0x00, 0x02, 0x00, 0x01, //
    0x00, 0x08, 0xFF,
];

/// A name of FFFFFFFF units.
const HUGE_NAME: &[u8] = &[
    0x00, 0x01, 0x00, 0x01, //
    0x00, 0x08, 0x00, 0x01, 0x00, 0x00, 0x00, 0x00, 0x00, 0x00, //
    0x00, 0x02, 0x00, 0x01, //
    0x00, 0x08, 0x00, 0x01, 0x00, 0x00, 0x00, 0x00, 0x00, 0x00, //
    0xFF, 0xFF, 0xFF, 0xFF, 0x00, 0x41, 0x00, 0x00,
];

/// A colour of each space. Their names: a letter, none, two letters, a surrogate
/// pair, and units that hold a zero byte or are the last there is.
const EVERY_SPACE: &[u8] = b"\0\x01\0\x05\
    \0\0\xFF\xFF\0\0\x80\x80\0\0\
    \0\x01\x55\x55\xFF\xFF\x80\0\0\0\
    \0\x02\0\0\x12\x34\xFF\xFE\xFF\xFF\
    \0\x07\x27\x10\xD8\xF0\x27\x10\0\0\
    \0\x08\x27\x10\0\0\0\0\0\0\
    \0\x02\0\x05\
    \0\0\xFF\xFF\0\0\x80\x80\0\0\0\0\0\x02\0A\0\0\
    \0\x01\x55\x55\xFF\xFF\x80\0\0\0\0\0\0\x01\0\0\
    \0\x02\0\0\x12\x34\xFF\xFE\xFF\xFF\0\0\0\x03\0B\0c\0\0\
    \0\x07\x27\x10\xD8\xF0\x27\x10\0\0\0\0\0\x03\xD8\x3D\xDE\0\0\0\
    \0\x08\x27\x10\0\0\0\0\0\0\0\0\0\x04\0\x01\x01\0\xFF\xFF\0\0";

/// Its list 1 alone.
const EVERY_SPACE_PLAIN: &[u8] = EVERY_SPACE.split_at(54).0;

/// Gray 10,000 and 0, and Lab at both ends of its three samples.
const ENDS_OF_SCALES: &[u8] = b"\0\x01\0\x04\
    \0\x08\x27\x10\0\0\0\0\0\0\
    \0\x08\0\0\0\0\0\0\0\0\
    \0\x07\x27\x10\x31\x9C\xCE\0\0\0\
    \0\x07\0\0\xCE\0\x31\x9C\0\0";

/// Gray is 10,000 in list 1 and 10,001 in list 2, which is compared alone.
const GRAY_ABOVE_IN_LIST_TWO: &[u8] = &[
    0x00, 0x01, 0x00, 0x01, //
    0x00, 0x08, 0x27, 0x10, 0x00, 0x00, 0x00, 0x00, 0x00, 0x00, //
    0x00, 0x02, 0x00, 0x01, //
    0x00, 0x08, 0x27, 0x11, 0x00, 0x00, 0x00, 0x00, 0x00, 0x00, //
    0x00, 0x00, 0x00, 0x01, 0x00, 0x00,
];

/// What P3 has before the count of its name, which begins at 28.
const UNNAMED: &[u8] = P3.split_at(28).0;

const fn accepted(colours: usize, lists: usize) -> Answer {
    Answer::Accepted { colours, lists }
}

const fn refused(number: u32, place: usize) -> Answer {
    Answer::Refused {
        number,
        place,
        record: 0,
        field: 0,
    }
}

const fn differing(place: usize, record: usize, field: usize) -> Answer {
    Answer::Refused {
        number: 7,
        place,
        record,
        field,
    }
}

pub fn fixed_files() -> Vec<Fixed> {
    let parts = [orders(), spaces(), names()];
    parts.into_iter().flatten().collect()
}

fn fixed(title: &'static str, file: &[u8], answer: Answer) -> Fixed {
    Fixed {
        title,
        file: file.to_vec(),
        answer,
    }
}

/// Heads, and faults of several kinds: the first one in file order counts.
fn orders() -> Vec<Fixed> {
    vec![
        fixed("P1", &[], refused(2, 0)),
        fixed("P2", P2, accepted(0, 1)),
        fixed("P3", P3, accepted(1, 2)),
        fixed("P4", P4, differing(24, 0, 3)),
        fixed("one byte", &[0x00], refused(2, 0)),
        fixed("version 1 alone", &[0x00, 0x01], refused(2, 2)),
        fixed(
            "version 1 read backwards",
            &[0x01, 0x00, 0x00, 0x00],
            refused(3, 0),
        ),
        fixed("version 2 first", &[0x00, 0x02, 0x00, 0x00], refused(3, 0)),
        fixed(
            "two lists, no colours",
            &[0, 1, 0, 0, 0, 2, 0, 0],
            accepted(0, 2),
        ),
        fixed("one byte after list 1", &[0, 1, 0, 0, 2], refused(2, 4)),
        fixed("list 1 twice", &[0, 1, 0, 0, 0, 1, 0, 0], refused(3, 4)),
        fixed(
            "one byte after list 2",
            &[0, 1, 0, 0, 0, 2, 0, 0, 0],
            refused(6, 8),
        ),
        fixed(
            "list 2 without its count",
            &[0, 1, 0, 0, 0, 2, 0],
            refused(2, 6),
        ),
        fixed("counts differ", COUNTS_DIFFER, differing(6, 0, 5)),
        fixed("too many colours", TOO_MANY, refused(5, 2)),
        fixed("the most colours, cut", MOST_BUT_CUT, refused(2, 4)),
        fixed(
            "unknown space, then cut",
            UNKNOWN_SPACE_THEN_CUT,
            refused(4, 4),
        ),
        fixed("cut space", CUT_SPACE, refused(2, 4)),
        fixed("unused sample, then cut", UNUSED_THEN_CUT, refused(5, 8)),
        fixed(
            "difference, then cut",
            DIFFERENCE_THEN_CUT,
            differing(20, 0, 1),
        ),
        fixed(
            "cut before difference",
            CUT_BEFORE_DIFFERENCE,
            refused(2, 20),
        ),
        fixed("huge name", HUGE_NAME, refused(2, 32)),
        fixed(
            "bad name, then difference",
            BAD_NAME_THEN_DIFFERENCE,
            refused(8, 38),
        ),
        fixed("two colours", TWO_COLOURS, accepted(2, 2)),
        fixed("names last, cut", NAMES_LAST_CUT, refused(2, 42)),
        fixed("names last, no count", NAMES_LAST_NO_COUNT, refused(8, 38)),
        fixed(
            "names last, differing",
            NAMES_LAST_DIFFERING,
            differing(50, 1, 1),
        ),
    ]
}

fn spaces() -> Vec<Fixed> {
    let one = |bytes: &[u8; 10]| [&[0, 1, 0, 1], &bytes[..]].concat();
    let wrong = |title, bytes, place| fixed(title, &one(bytes), refused(5, place));
    vec![
        fixed("every space", EVERY_SPACE, accepted(5, 2)),
        fixed("every space, one list", EVERY_SPACE_PLAIN, accepted(5, 1)),
        fixed(
            "unknown space",
            &one(b"\0\x09\0\0\0\0\0\0\0\0"),
            refused(4, 4),
        ),
        fixed(
            "CMYK read backwards",
            &one(b"\x02\0\0\0\0\0\0\0\0\0"),
            refused(4, 4),
        ),
        wrong("fourth sample of RGB", b"\0\0\0\0\0\0\0\0\0\x01", 12),
        wrong("fourth sample of HSB", b"\0\x01\0\0\0\0\0\0\x01\0", 12),
        wrong("fourth sample of Lab", b"\0\x07\0\0\0\0\0\0\xFF\xFF", 12),
        wrong("second sample of gray", b"\0\x08\0\0\0\x01\0\0\0\0", 8),
        wrong("third sample of gray", b"\0\x08\0\0\0\0\0\x01\0\0", 10),
        wrong("fourth sample of gray", b"\0\x08\0\0\0\0\0\0\0\x01", 12),
        fixed("ends of the short scales", ENDS_OF_SCALES, accepted(4, 1)),
        wrong("gray 10001", b"\0\x08\x27\x11\0\0\0\0\0\0", 6),
        wrong("lightness 10001", b"\0\x07\x27\x11\0\0\0\0\0\0", 6),
        wrong("a 12701", b"\0\x07\0\0\x31\x9D\0\0\0\0", 8),
        wrong("a 52735", b"\0\x07\0\0\xCD\xFF\0\0\0\0", 8),
        wrong("b 12701", b"\0\x07\0\0\0\0\x31\x9D\0\0", 10),
        wrong("b 52735", b"\0\x07\0\0\0\0\xCD\xFF\0\0", 10),
        fixed(
            "gray 10001 in list 2",
            GRAY_ABOVE_IN_LIST_TWO,
            differing(20, 0, 1),
        ),
    ]
}

fn names() -> Vec<Fixed> {
    let named = |bytes: &[u8]| [UNNAMED, bytes].concat();
    let other_space = [&P3[..18], &[0, 1], &P3[20..]].concat();
    let mut second_differs = TWO_COLOURS.to_vec();
    // The first sample of the second record, in list 2.
    second_differs[48] ^= 1;
    vec![
        fixed("an empty name", &named(&[0, 0, 0, 1, 0, 0]), accepted(1, 2)),
        fixed("name count 0", &named(&[0; 4]), refused(8, 28)),
        fixed("no name count", UNNAMED, refused(2, 28)),
        fixed("half a name count", &named(&[0, 0]), refused(2, 28)),
        fixed("no name", &named(&[0, 0, 0, 1]), refused(2, 32)),
        fixed(
            "name not closed",
            &named(&[0, 0, 0, 1, 0, 0x41]),
            refused(8, 28),
        ),
        fixed(
            "zero in a name",
            &named(&[0, 0, 0, 3, 0, 0x41, 0, 0, 0, 0]),
            refused(8, 28),
        ),
        fixed(
            "one byte after a name",
            &[P3, &[0]].concat(),
            refused(6, 36),
        ),
        fixed("another space in list 2", &other_space, differing(18, 0, 0)),
        fixed(
            "second record differs",
            &second_differs,
            differing(48, 1, 1),
        ),
    ]
}
