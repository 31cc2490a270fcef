//! Keys and replacements, each with its answer written out.

use generate::descriptor::{any_keys, root_keys, Laid, Object, EVERY_TYPE, P11, P12};
use generate::Random;
use reference::descriptor::{
    find, judge, read, replace, typed, Columns, NotFound, Replacement, Table, Typed,
};
use reference::{Refusal, LIMIT};

const CANARY: u32 = 0xC0FF_EE11;

/// The root with the pairs `a`, `abcd` as a name, `abcd` as four characters, a
/// list with a pair `a` in it, and a second `a`.
const KEYS: &[u8] = b"\0\0\0\x10\0\0\0\0\0\0\0\x01r\0\0\0\x05\
    \0\0\0\x01abool\x01\
    \0\0\0\x04abcdlong\0\0\0\x07\
    \0\0\0\0abcdlong\0\0\0\x08\
    \0\0\0\x01lVlLs\0\0\0\x01Objc\0\0\0\0\0\0\0\x01r\0\0\0\x01\0\0\0\x01xbool\0\
    \0\0\0\x01abool\0";

fn refused(number: u32, place: usize) -> Refusal {
    Refusal {
        number,
        place,
        record: 0,
        field: 0,
    }
}

fn by_call(number: u32, place: usize) -> NotFound {
    NotFound::Call(refused(number, place))
}

type Runs = [Vec<u32>; 5];

fn runs_of(file: &[u8]) -> Runs {
    let mut runs = [(); 5].map(|()| vec![0; judge(file).expect("a sound file")]);
    let [first, length, next, depth, kind] = &mut runs;
    let columns = Columns {
        first,
        length,
        next,
        depth,
        kind,
    };
    read(file, columns).expect("a sound file");
    runs
}

fn table(runs: &Runs) -> Table<'_> {
    let [first, length, next, depth, kind] = runs;
    Table {
        first,
        length,
        next,
        depth,
        kind,
    }
}

fn found(file: &[u8], keys: &[&[u8]]) -> Vec<u32> {
    let mut answers = vec![CANARY; keys.len()];
    let runs = runs_of(file);
    let count = find(file, table(&runs), &keys.concat(), &mut answers);
    assert_eq!(count, Ok(keys.len()));
    answers
}

#[test]
fn first_pair_of_the_root() {
    let keys: [&[u8]; 6] = [
        b"\0\0\0\x01a",
        b"\0\0\0\x04abcd",
        b"\0\0\0\0abcd",
        b"\0\0\0\x01l",
        b"\0\0\0\x01x",
        b"\0\0\0\x02ab",
    ];
    // The pair `x` stands deeper; `ab` begins another key.
    assert_eq!(found(KEYS, &keys), [1, 2, 3, 4, 8, 8]);
    assert_eq!(found(KEYS, &[keys[0], keys[0]]), [1, 1]);
    assert_eq!(found(KEYS, &[]), []);
    assert_eq!(found(P11, &keys[..1]), [1]);
}

#[test]
fn first_of_many_as_a_look_at_all_rows() {
    for item in 0..300 {
        let mut random = Random::for_part(7, item);
        let laid = Laid::of(&Object::any(&mut random));
        let known = root_keys(&laid);
        let keys = any_keys(&mut random, &known);
        let look = |key: &[u8]| known.iter().find(|(_, known)| *known == key);
        let wanted: Vec<u32> = keys
            .iter()
            .map(|key| look(key).map_or(laid.rows.len(), |(row, _)| *row) as u32)
            .collect();
        let keys: Vec<&[u8]> = keys.iter().map(Vec::as_slice).collect();
        assert_eq!(found(&laid.file, &keys), wanted);
    }
}

#[test]
fn order_of_refusals() {
    let runs = runs_of(KEYS);
    let none = [(); 5].map(|()| Vec::new());
    let mut answers = [CANARY; 2];
    let cut = b"\0\0\0\x01a\0\0\0\x02b";
    let long = vec![0; LIMIT + 1];
    let whole = &cut[..5];
    let mut tried = |file: &[u8], runs: &Runs, keys: &[u8], room: usize| {
        let found = find(file, table(runs), keys, &mut answers[..room]);
        if found.is_err() {
            assert_eq!(answers, [CANARY; 2]);
        }
        found
    };
    assert_eq!(tried(&long, &none, cut, 0), Err(by_call(1, 0)));
    assert_eq!(tried(&KEYS[..9], &none, cut, 0), Err(by_call(2, 8)));
    assert_eq!(tried(KEYS, &none, cut, 0), Err(by_call(5, 0)));
    assert_eq!(
        tried(KEYS, &runs, cut, 0),
        Err(NotFound::Keys(refused(2, 9)))
    );
    assert_eq!(
        tried(KEYS, &runs, &cut[..7], 0),
        Err(NotFound::Keys(refused(2, 5)))
    );
    assert_eq!(
        tried(KEYS, &runs, b"\0\0\0\0abc", 0),
        Err(NotFound::Keys(refused(2, 4)))
    );
    assert_eq!(tried(KEYS, &runs, whole, 0), Err(by_call(11, 0)));
    assert_eq!(tried(KEYS, &runs, whole, 2), Ok(1));
    assert_eq!(answers, [1, CANARY]);
}

#[test]
fn table_of_other_rows() {
    for file in [KEYS, P11, P12, EVERY_TYPE] {
        let right = runs_of(file);
        let rows = right[0].len();
        for run in 0..right.len() {
            for row in 0..rows {
                let mut runs = right.clone();
                runs[run][row] ^= 1;
                let found = find(file, table(&runs), &[], &mut []);
                assert_eq!(found, Err(by_call(5, 0)), "run {run}, row {row}");
            }
            let mut runs = right.clone();
            runs[run].pop();
            assert_eq!(find(file, table(&runs), &[], &mut []), Err(by_call(5, 0)));
            runs = right.clone();
            runs[run].push(CANARY);
            assert_eq!(find(file, table(&runs), &[], &mut []), Ok(0));
        }
    }
}

fn tag(tag: &[u8; 4]) -> u32 {
    u32::from_be_bytes(*tag)
}

fn replacement(kind: &[u8; 4], unit: &[u8; 4], bits: u64) -> Replacement {
    Replacement {
        kind: tag(kind),
        unit: tag(unit),
        bits,
    }
}

/// What replacing gives, and the number where it refuses.
fn replaced(row: usize, with: Replacement) -> Result<Vec<u8>, u32> {
    let mut out = vec![0xA5; EVERY_TYPE.len() + 1];
    let runs = runs_of(EVERY_TYPE);
    match replace(EVERY_TYPE, table(&runs), row, with, &mut out) {
        Ok(length) => {
            assert_eq!((length, out.pop()), (EVERY_TYPE.len(), Some(0xA5)));
            Ok(out)
        }
        Err(refusal) => {
            assert!(out.iter().all(|&byte| byte == 0xA5));
            assert_eq!(refusal, refused(refusal.number, 0));
            Err(refusal.number)
        }
    }
}

const ONE: u64 = 0x3FF0_0000_0000_0000;
const INFINITY: u64 = 0x7FF0_0000_0000_0000;

#[test]
fn only_the_value_differs() {
    let cases = [
        (
            1,
            replacement(b"bool", b"none", 0),
            29..30,
            Typed::Bool(false),
        ),
        (
            8,
            replacement(b"long", &[0; 4], 5),
            150..154,
            Typed::Long(5),
        ),
        (
            9,
            replacement(b"comp", &[0; 4], 6),
            163..171,
            Typed::Large(6),
        ),
        (
            4,
            replacement(b"doub", &[0; 4], ONE),
            82..90,
            Typed::Double(1.0),
        ),
        (
            12,
            replacement(b"long", &[0; 4], u64::from(u32::MAX)),
            193..197,
            Typed::Long(-1),
        ),
        (
            14,
            replacement(b"bool", &[0; 4], 1),
            228..229,
            Typed::Bool(true),
        ),
    ];
    for (row, with, value, wanted) in cases {
        let out = replaced(row, with).expect("a value of the row's kind");
        assert_eq!(out[..value.start], EVERY_TYPE[..value.start]);
        assert_eq!(out[value.end..], EVERY_TYPE[value.end..]);
        assert_eq!(typed(&out, row), Ok(wanted));
    }
    let unit = replaced(26, replacement(b"UntF", b"#Pnt", ONE)).expect("a unit double");
    assert_eq!(unit[..428], EVERY_TYPE[..428]);
    assert_eq!(unit[428..440], *b"#Pnt\x3F\xF0\0\0\0\0\0\0");
    assert_eq!(unit[440..], EVERY_TYPE[440..]);
}

#[test]
fn a_row_by_itself() {
    for row in 0..judge(EVERY_TYPE).expect("a sound file") {
        let (kind, unit, bits) = match typed(EVERY_TYPE, row).expect("a row") {
            Typed::Bool(value) => (b"bool", 0, u64::from(value)),
            Typed::Long(value) => (b"long", 0, u64::from(value as u32)),
            Typed::Large(value) => (b"comp", 0, value as u64),
            Typed::Double(value) => (b"doub", 0, value.to_bits()),
            Typed::Unit(unit, value) => (b"UntF", unit, value.to_bits()),
            Typed::Other => continue,
        };
        let with = replacement(kind, &unit.to_be_bytes(), bits);
        assert_eq!(replaced(row, with).as_deref(), Ok(EVERY_TYPE));
    }
}

#[test]
fn replacements_that_are_refused() {
    for (row, with, number) in [
        (29, replacement(b"bool", &[0; 4], 9), 12),
        (usize::MAX, replacement(b"bool", &[0; 4], 9), 12),
        (0, replacement(b"Objc", &[0; 4], 0), 14),
        (2, replacement(b"type", &[0; 4], 0), 14),
        (1, replacement(b"long", &[0; 4], 9), 14),
        (8, replacement(b"bool", &[0; 4], 9), 14),
        (4, replacement(b"comp", &[0; 4], 0), 14),
        (1, replacement(b"bool", &[0; 4], 2), 5),
        (1, replacement(b"bool", &[0; 4], 1 << 32), 5),
        (8, replacement(b"long", &[0; 4], 1 << 32), 5),
        (4, replacement(b"doub", &[0; 4], INFINITY), 5),
        (4, replacement(b"doub", &[0; 4], u64::MAX), 5),
        (26, replacement(b"UntF", b"#mlm", INFINITY), 4),
        (26, replacement(b"UntF", b"#Mlm", INFINITY), 5),
        (26, replacement(b"UntF", &[0; 4], ONE), 4),
    ] {
        assert_eq!(replaced(row, with), Err(number), "row {row}, {with:?}");
    }
    let runs = runs_of(EVERY_TYPE);
    let sound = replacement(b"bool", &[0; 4], 0);
    let mut out = vec![0; EVERY_TYPE.len()];
    let short = out.len() - 1;
    let mut tried = |file: &[u8], runs: &Runs, room: usize| {
        replace(file, table(runs), 1, sound, &mut out[..room])
    };
    // The file's own refusal, at place 0; then the table; then the room.
    assert_eq!(tried(&EVERY_TYPE[..20], &runs, 0), Err(refused(2, 0)));
    assert_eq!(tried(P12, &runs, 0), Err(refused(5, 0)));
    assert_eq!(tried(EVERY_TYPE, &runs, short), Err(refused(11, 0)));
}
