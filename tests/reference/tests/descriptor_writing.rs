//! Descriptors built from entries, each with its answer written out.

use generate::descriptor::{Laid, Lot, LotDamage, Object, EVERY_TYPE, MAX_DEPTH, P11, P12};
use generate::Random;
use reference::descriptor::{build, build_length, entries, judge, ENTRY_LEN};
use reference::{Refusal, LIMIT};

type Entry = [u32; ENTRY_LEN];

fn tag(tag: &[u8; 4]) -> u32 {
    u32::from_be_bytes(*tag)
}

/// An entry of that kind with these numbers set.
fn entry(kind: &[u8; 4], set: &[(usize, u32)]) -> Entry {
    let mut entry = [0; ENTRY_LEN];
    entry[0] = tag(kind);
    for &(at, number) in set {
        entry[at] = number;
    }
    entry
}

/// The text of the small cases: an `a`, a unit that is not zero and one that is,
/// and the doubles one, infinity and half of another.
const TEXT: &[u8] = b"a\0A\0\0\x3F\xF0\0\0\0\0\0\0\x7F\xF0\0\0\0\0\0\0\x3F\xF0\0\0";
const DOUBLES: u32 = 5;

/// A root with so many pairs, the class ID `a`.
fn root(pairs: u32) -> Entry {
    entry(b"Objc", &[(5, 1), (14, pairs)])
}

fn number(entries: &[Entry], text: &[u8]) -> Result<usize, u32> {
    let entries = entries.concat();
    let length = build_length(&entries, text);
    let room = length.unwrap_or(200);
    let mut out = vec![0xA5; room];
    let built = build(&entries, text, &mut out);
    assert_eq!(built, length);
    match length {
        Ok(length) => {
            assert!(judge(&out).is_ok());
            if length > 0 {
                let short = build(&entries, text, &mut out[..length - 1]);
                assert_eq!(short.map_err(|refusal| refusal.number), Err(11));
            }
            Ok(length)
        }
        Err(Refusal { number, place, .. }) => {
            assert_eq!(place, 0);
            assert!(out.iter().all(|&byte| byte == 0xA5));
            Err(number)
        }
    }
}

fn entries_of(file: &[u8]) -> Vec<u32> {
    let mut run = vec![1; judge(file).expect("a sound file") * ENTRY_LEN];
    assert_eq!(entries(file, &mut run), judge(file));
    run
}

#[test]
fn small_files() {
    let root = entry(b"Objc", &[(4, 8), (5, 1), (6, 12)]);
    assert_eq!(entries_of(P11), root);
    let entry = |kind, set: &[(usize, u32)]| entry(kind, set);
    let wanted = [
        entry(b"Objc", &[(4, 8), (5, 1), (6, 12), (14, 1)]),
        entry(b"VlLs", &[(1, 1), (2, 21), (14, 2)]),
        entry(b"bool", &[(13, 1)]),
        entry(b"bool", &[(13, 1)]),
    ];
    assert_eq!(entries_of(P12), wanted.concat());
}

#[test]
fn every_kind_has_its_numbers() {
    let run = entries_of(EVERY_TYPE);
    let (run, _) = run.as_chunks::<ENTRY_LEN>();
    let key = |first: u32| [(1, 1), (2, first + 4)];
    let pair = |kind, first, set: &[(usize, u32)]| entry(kind, &[&key(first), set].concat());
    assert_eq!(run[0], entry(b"Objc", &[(4, 8), (6, 12), (14, 17)]));
    assert_eq!(run[1], pair(b"bool", 20, &[(13, 1)]));
    assert_eq!(run[2], pair(b"type", 30, &[(4, 43), (5, 1), (6, 47)]));
    assert_eq!(run[3], pair(b"GlbC", 48, &[(3, 2), (4, 61), (6, 69)]));
    assert_eq!(run[4], pair(b"doub", 73, &[(12, 0x3FF8_0000)]));
    assert_eq!(run[5], pair(b"enum", 90, &[(7, 1), (8, 103), (10, 108)]));
    assert_eq!(run[6], pair(b"alis", 112, &[(7, 3), (8, 125)]));
    assert_eq!(run[7], pair(b"Pth ", 128, &[(8, 141)]));
    assert_eq!(run[8], pair(b"long", 141, &[(13, u32::MAX - 1)]));
    assert_eq!(run[9], pair(b"comp", 154, &[(12, 1 << 31), (13, 1)]));
    assert_eq!(run[10], pair(b"VlLs", 171, &[(14, 2)]));
    assert_eq!(run[12], entry(b"long", &[(13, 7)]));
    assert_eq!(run[15], pair(b"GlbO", 229, &[(4, 242), (5, 1), (6, 246)]));
    assert_eq!(run[17], pair(b"obj ", 265, &[(14, 7)]));
    assert_eq!(run[18], entry(b"Clss", &[(4, 286), (5, 1), (6, 290)]));
    let enumerated = [
        (4, 299),
        (5, 1),
        (6, 303),
        (7, 1),
        (8, 308),
        (9, 1),
        (10, 313),
    ];
    assert_eq!(run[19], entry(b"Enmr", &enumerated));
    assert_eq!(
        run[20],
        entry(b"Idnt", &[(4, 322), (5, 1), (6, 326), (13, 9)])
    );
    assert_eq!(
        run[22],
        entry(b"name", &[(4, 356), (5, 1), (6, 360), (7, 1), (8, 365)])
    );
    assert_eq!(run[25], pair(b"TEXT", 402, &[(7, 2), (8, 415)]));
    let unit = [(11, tag(b"#Prc")), (12, 0x4059_0000)];
    assert_eq!(run[26], pair(b"UntF", 419, &unit));
    let array = [(4, 457), (5, 1), (6, 461), (14, 1), (15, 2)];
    assert_eq!(run[27], pair(b"ObAr", 440, &array));
    let doubles = [(7, 2), (8, 483), (11, tag(b"#Pxl"))];
    assert_eq!(run[28], pair(b"UnFl", 466, &doubles));
}

#[test]
fn entries_of_a_file_give_the_file() {
    for item in 0..300 {
        let mut random = Random::for_part(13, item);
        let object = Object::any(&mut random);
        let file = Laid::of(&object).file;
        let lot = Lot::of(&mut random, &object);
        for (entries, text) in [(entries_of(&file), &file), (lot.entries, &lot.text)] {
            let mut out = vec![0; file.len()];
            assert_eq!(build(&entries, text, &mut out), Ok(file.len()));
            assert_eq!(out, file);
        }
    }
    let rows = judge(P12).expect("a sound file");
    let mut short = vec![7; rows * ENTRY_LEN - 1];
    let refused = entries(P12, &mut short).map_err(|refusal| refusal.number);
    assert_eq!(refused, Err(11));
    assert!(short.iter().all(|&number| number == 7));
}

#[test]
fn what_is_refused() {
    let item = |kind: &[u8; 4], set: &[(usize, u32)]| {
        let key = [(1, 1), (2, 0)];
        vec![root(1), entry(kind, &[&key, set].concat())]
    };
    let in_list = |kind: &[u8; 4]| {
        vec![
            root(1),
            entry(b"VlLs", &[(1, 1), (14, 1)]),
            entry(kind, &[]),
        ]
    };
    let array = |set: &[(usize, u32)]| {
        let head = entry(b"ObAr", &[(1, 1), (5, 1), (14, 1), (15, 2)]);
        let pair = [(1, 1), (7, 2), (8, DOUBLES), (11, tag(b"#Prc"))];
        vec![root(1), head, entry(b"UnFl", &[&pair, set].concat())]
    };
    let infinity = [(12, 0x7FF0_0000)];
    let cases: Vec<(Vec<Entry>, Result<usize, u32>)> = vec![
        (vec![], Err(2)),
        (vec![root(0)], Ok(17)),
        (vec![entry(b"GlbO", &[])], Err(4)),
        // The class's name: outside the text, then not closed; its ID.
        (vec![entry(b"Objc", &[(3, 20), (5, 99)])], Err(2)),
        (vec![entry(b"Objc", &[(3, 1), (4, 1), (5, 99)])], Err(8)),
        (vec![entry(b"Objc", &[(3, 1), (4, 3), (5, 99)])], Err(2)),
        // No units lie anywhere; an ID of length 0 has four bytes.
        (vec![entry(b"Objc", &[(4, u32::MAX), (6, 20)])], Ok(20)),
        (vec![entry(b"Objc", &[(4, u32::MAX), (6, 22)])], Err(2)),
        // No member, a member too many; a remainder is no entry.
        (vec![root(1)], Err(2)),
        (vec![root(0), root(0)], Err(6)),
        (vec![root(u32::MAX)], Err(2)),
        (item(b"bool", &[(13, 1)]), Ok(27)),
        (item(b"bool", &[(13, 2)]), Err(5)),
        (item(b"bool", &[(13, 256)]), Err(5)),
        (item(b"bool", &[(12, 9)]), Ok(27)),
        // The key comes before the kind.
        (item(b"Bool", &[(2, 999)]), Err(2)),
        (item(b"Bool", &[]), Err(4)),
        (item(b"doub", &infinity), Err(5)),
        (item(b"comp", &infinity), Ok(34)),
        (item(b"UntF", &infinity), Err(4)),
        (item(b"UntF", &[(11, tag(b"#Mlm"))]), Ok(38)),
        (item(b"tdta", &[(7, 999)]), Err(2)),
        (item(b"tdta", &[(8, 999)]), Ok(30)),
        // Kinds of another place.
        (item(b"UnFl", &[]), Err(4)),
        (item(b"Clss", &[]), Err(4)),
        (in_list(b"prop"), Err(4)),
        (in_list(b"UnFl"), Err(4)),
        (in_list(b"bool"), Ok(35)),
        // Doubles: the unit, the count, one that is not finite, one that is cut.
        (array(&[(11, tag(b"#Mlm")), (7, 3)]), Err(4)),
        (array(&[(7, 3)]), Err(5)),
        (array(&[(8, DOUBLES)]), Err(5)),
        (array(&[(8, DOUBLES + 8)]), Err(5)),
        (array(&[(8, DOUBLES + 16)]), Err(2)),
        (array(&[(8, DOUBLES - 5)]), Ok(76)),
    ];
    for (entries, wanted) in cases {
        assert_eq!(number(&entries, TEXT), wanted, "{entries:?}");
    }
    let remainder = [root(0).to_vec(), vec![1; ENTRY_LEN - 1]].concat();
    assert_eq!(build_length(&remainder, TEXT), Ok(17));
}

/// Lists in each other, so that the innermost stands at that depth, with the
/// count of items that it says.
fn nested(depth: usize, items: u32) -> Vec<Entry> {
    let mut entries = vec![root(1)];
    entries.extend(vec![entry(b"VlLs", &[(1, 1), (14, 1)]); depth - 1]);
    entries.push(entry(b"VlLs", &[(1, 1), (14, items)]));
    entries
}

#[test]
fn depths() {
    assert!(number(&nested(MAX_DEPTH, 0), TEXT).is_ok());
    // 10 also where no entry is left, and before what stands there.
    assert_eq!(number(&nested(MAX_DEPTH, 1), TEXT), Err(10));
    assert_eq!(number(&nested(MAX_DEPTH + 1, 0), TEXT), Err(10));
    assert_eq!(number(&nested(MAX_DEPTH - 1, 1), TEXT), Err(2));
    // What would stand too deep is not counted, nor what follows it.
    let huge = entry(b"tdta", &[(7, u32::MAX)]);
    let deep = [nested(MAX_DEPTH, 1), vec![huge]].concat();
    assert_eq!(number(&deep, TEXT), Err(10));
    let above = [nested(MAX_DEPTH - 1, 1), vec![huge]].concat();
    assert_eq!(number(&above, TEXT), Err(1));
}

#[test]
fn lengths_about_the_limit() {
    let raw = |len: usize| {
        let bare = 17 + 5 + 4 + 4;
        let raw = entry(b"tdta", &[(1, 1), (7, (len - bare) as u32)]);
        vec![root(1), raw]
    };
    let text = vec![0; LIMIT];
    assert_eq!(number(&raw(LIMIT), &text), Ok(LIMIT));
    assert_eq!(number(&raw(LIMIT + 1), &text), Err(1));
    // 1 comes before all else, parts outside the text counted; what is left over
    // is not counted, nor are the parts of a kind that may not stand there.
    assert_eq!(number(&raw(LIMIT), TEXT), Err(2));
    let late = [
        vec![entry(b"GlbO", &[(14, 1)])],
        raw(LIMIT + 9)[1..].to_vec(),
    ]
    .concat();
    assert_eq!(number(&late, TEXT), Err(1));
    let left_over = [vec![root(0)], raw(LIMIT + 1)].concat();
    assert_eq!(number(&left_over, TEXT), Err(6));
    let unknown = entry(b"Tdta", &[(1, 1), (7, u32::MAX), (14, 9)]);
    assert_eq!(number(&[root(1), unknown], TEXT), Err(4));
    let misplaced = entry(b"UnFl", &[(1, 1), (7, u32::MAX)]);
    assert_eq!(number(&[root(1), misplaced], TEXT), Err(4));
}

/// The bytes that a lot makes, up to where a part or an entry is not there, a
/// member would stand too deep, or a kind has no place; one more for what is left
/// over. What they hold is not judged.
fn bytes_made(entries: &[Entry], text: &[u8]) -> Vec<u8> {
    let mut made = Vec::new();
    let _ = make(entries, text, &mut made);
    made
}

/// The kinds with the letters of their fields: of the key `k`, the class's string
/// and ID `s` and `i`, the first part as a string `S`, an ID `I`, bytes `B` or
/// doubles `D`, the second `J`; the unit `u`, a byte, a word and two of the number
/// `b`, `w`, `l`; the objects `o` and the members `m`.
const SHAPES: [(&[u8; 4], char, &str); 25] = [
    (b"bool", 'i', "b"),
    (b"long", 'i', "w"),
    (b"comp", 'i', "l"),
    (b"doub", 'i', "l"),
    (b"UntF", 'i', "ul"),
    (b"type", 'i', "si"),
    (b"GlbC", 'i', "si"),
    (b"enum", 'i', "IJ"),
    (b"alis", 'i', "B"),
    (b"Pth ", 'i', "B"),
    (b"tdta", 'i', "B"),
    (b"TEXT", 'i', "S"),
    (b"VlLs", 'i', "m"),
    (b"obj ", 'i', "m"),
    (b"Objc", 'i', "sim"),
    (b"GlbO", 'i', "sim"),
    (b"ObAr", 'i', "osim"),
    (b"UnFl", 'a', "uD"),
    (b"Clss", 'r', "si"),
    (b"Enmr", 'r', "siIJ"),
    (b"Idnt", 'r', "siw"),
    (b"indx", 'r', "siw"),
    (b"rele", 'r', "siw"),
    (b"name", 'r', "siS"),
    (b"prop", 'r', "siI"),
];

fn make(entries: &[Entry], text: &[u8], made: &mut Vec<u8>) -> Option<()> {
    let (root, mut rest) = entries.split_first()?;
    made.extend([0, 0, 0, 16]);
    put_fields(root, "sim", text, made)?;
    // What stands in each open container, and how many are still to come.
    let mut open = vec![('p', root[14])];
    while let Some((sort, wanted)) = open.pop() {
        if wanted == 0 {
            continue;
        }
        if open.len() == MAX_DEPTH {
            return None;
        }
        open.push((sort, wanted - 1));
        let (entry, behind) = rest.split_first()?;
        rest = behind;
        if sort == 'p' || sort == 'a' {
            put_fields(entry, "k", text, made)?;
        }
        made.extend(entry[0].to_be_bytes());
        let place = if sort == 'p' { 'i' } else { sort };
        let mut shapes = SHAPES.iter();
        let (kind, _, fields) =
            shapes.find(|(kind, stands, _)| tag(kind) == entry[0] && *stands == place)?;
        put_fields(entry, fields, text, made)?;
        match *kind {
            b"VlLs" => open.push(('i', entry[14])),
            b"obj " => open.push(('r', entry[14])),
            b"Objc" | b"GlbO" => open.push(('p', entry[14])),
            b"ObAr" => open.push(('a', entry[14])),
            _ => {}
        }
    }
    made.extend(rest.first().map(|_| 0));
    Some(())
}

/// Nothing where a part is not there; of what is, all is put.
fn put_fields(entry: &Entry, fields: &str, text: &[u8], made: &mut Vec<u8>) -> Option<()> {
    for field in fields.chars() {
        let (at, scale) = match field {
            'k' => (1, 1),
            's' => (3, 2),
            'i' => (5, 1),
            'S' => (7, 2),
            'I' | 'B' => (7, 1),
            'D' => (7, 8),
            'J' => (9, 1),
            'b' => {
                made.push(entry[13].min(255) as u8);
                continue;
            }
            _ => {
                let numbers = match field {
                    'u' => &entry[11..12],
                    'w' => &entry[13..14],
                    'l' => &entry[12..14],
                    'o' => &entry[15..],
                    _ => &entry[14..15],
                };
                numbers
                    .iter()
                    .for_each(|number| made.extend(number.to_be_bytes()));
                continue;
            }
        };
        made.extend(entry[at].to_be_bytes());
        let is_id = "kiIJ".contains(field);
        let length = match entry[at] as usize {
            0 if is_id => 4,
            length => length * scale,
        };
        let start = (entry[at + 1] as usize).min(text.len());
        let there = &text[start..text.len().min(start + length)];
        if length > 0 {
            made.extend(there);
            (there.len() == length).then_some(())?;
        }
    }
    Some(())
}

#[test]
fn lots_are_judged_as_the_reader_judges_their_bytes() {
    let mut numbers = [0; 15];
    for item in 0..6_000 {
        let mut random = Random::for_part(14, item);
        let object = if item % 3 == 0 {
            Object::any(&mut random)
        } else {
            Object::small(&mut random)
        };
        let mut lot = Lot::of(&mut random, &object);
        for _ in 0..random.below(4) {
            lot.damage(LotDamage::any(&mut random), &mut random);
        }
        let (entries, _) = lot.entries.as_chunks::<ENTRY_LEN>();
        let found = number(entries, &lot.text);
        let is_root = entries.first().is_none_or(|root| root[0] == tag(b"Objc"));
        numbers[found.err().unwrap_or(0) as usize] += 1;
        // The length comes first, and the root's kind has no bytes.
        if found != Err(1) && is_root {
            let made = bytes_made(entries, &lot.text);
            let judged = judge(&made).map(|_| made.len());
            let judged = judged.map_err(|refusal| refusal.number);
            assert_eq!(found, judged, "{entries:?} {made:?}");
        }
    }
    for wanted in [0, 1, 2, 4, 5, 6, 8, 10] {
        assert!(numbers[wanted] > 0, "{wanted} is not reached: {numbers:?}");
    }
}
