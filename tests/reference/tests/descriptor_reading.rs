//! The rules of descriptors, each with its answer written out.

use generate::descriptor::{
    damage, deep, fixed_files, flat, wide, Answer, Damage, Laid, Object, Value as Member,
    ARRAY_UNITS, EVERY_TYPE, EVERY_TYPE_LISTING, EVERY_TYPE_VALUES, FORMS, MAX_DEPTH, P11, P12,
    P12_LISTING, P12_ROWS, TYPES, UNITS,
};
use generate::Random;
use reference::descriptor::{
    judge, list, parents, read, typed, value, values, Columns, Typed, Value, LISTING_LIMIT,
};
use reference::{Refusal, LIMIT};
use std::collections::BTreeSet;
use std::thread;

const CANARY: u32 = 0xC0FF_EE11;
/// What is not optimized uses more.
const SMALL_STACK: usize = if cfg!(debug_assertions) {
    2 << 20
} else {
    64 << 10
};

fn refused(number: u32, place: usize) -> Refusal {
    Refusal {
        number,
        place,
        record: 0,
        field: 0,
    }
}

fn answer(file: &[u8]) -> Answer {
    match judge(file) {
        Ok(rows) => Answer::Accepted { rows },
        Err(refusal) => {
            assert_eq!(refusal, refused(refusal.number, refusal.place));
            Answer::Refused {
                number: refusal.number,
                place: refusal.place,
            }
        }
    }
}

/// Runs to lend: first byte, length, next sibling, depth, kind.
struct Runs([Vec<u32>; 5]);

impl Runs {
    fn of(lens: [usize; 5]) -> Runs {
        Runs(lens.map(|len| vec![CANARY; len]))
    }

    fn lent(&mut self) -> Columns<'_> {
        let [first, length, next, depth, kind] = &mut self.0;
        Columns {
            first,
            length,
            next,
            depth,
            kind,
        }
    }
}

fn runs_of(file: &[u8]) -> Runs {
    let count = judge(file).unwrap();
    let mut runs = Runs::of([count; 5]);
    assert_eq!(read(file, runs.lent()), Ok(count));
    runs
}

/// Kind, parent, first byte, length and depth of each row.
fn rows_of(file: &[u8]) -> Vec<[u32; 5]> {
    let Runs([first, length, _, depth, kind]) = runs_of(file);
    let mut parent = vec![CANARY; depth.len()];
    assert_eq!(parents(&depth, &mut parent), Ok(depth.len()));
    (0..depth.len())
        .map(|i| [kind[i], parent[i], first[i], length[i], depth[i]])
        .collect()
}

#[test]
fn fixed_files_get_their_answers() {
    for fixed in fixed_files() {
        assert_eq!(answer(&fixed.file), fixed.answer, "{}", fixed.title);
    }
}

#[test]
fn rows_of_agreed_files() {
    assert_eq!(rows_of(P11), [[0x4F62_6A63, 0, 0, 17, 0]]);
    assert_eq!(rows_of(P12), P12_ROWS);
    assert_eq!(list(P11), "DESC 1\n0 Objc 0 0 17 0\nend\n");
    assert_eq!(list(P12), P12_LISTING);
    assert_eq!(list(EVERY_TYPE), EVERY_TYPE_LISTING);
}

#[test]
fn runs_have_room_or_not() {
    for run in 0..5 {
        for len in 0..=5 {
            let mut lens = [5; 5];
            lens[run] = len;
            let mut runs = Runs::of(lens);
            let outcome = read(P12, runs.lent());
            if len < 4 {
                assert_eq!(outcome, Err(refused(11, 0)));
                assert_eq!(runs.0, Runs::of(lens).0);
            } else {
                assert_eq!(outcome, Ok(4));
                assert!(runs
                    .0
                    .iter()
                    .all(|run| run[4..].iter().all(|&n| n == CANARY)));
            }
        }
    }
    let mut runs = Runs::of([40; 5]);
    assert_eq!(read(&P12[..39], runs.lent()), Err(refused(2, 39)));
    assert_eq!(runs.0, Runs::of([40; 5]).0);
}

#[test]
fn siblings_values_and_parents() {
    assert_eq!(runs_of(P12).0[2], [4, 4, 3, 4]);
    let mut run = [CANARY; 5];
    assert_eq!(values(P12, &mut run), Ok(4));
    assert_eq!(run, [4, 26, 34, 39, CANARY]);
    assert_eq!(values(P12, &mut run[..3]), Err(refused(11, 0)));
    // Depths of no file.
    let mut run = [CANARY; 8];
    assert_eq!(parents(&[3, 5, 4, 4, 9, 0, 2], &mut run), Ok(7));
    assert_eq!(run, [0, 0, 0, 0, 3, 0, 5, CANARY]);
    assert_eq!(parents(&[0, 1], &mut run[..1]), Err(refused(11, 0)));
    assert_eq!(parents(&[], &mut []), Ok(0));
}

#[test]
fn values_follow_types_and_forms() {
    for (row, first, length) in EVERY_TYPE_VALUES {
        let expected = Value { first, length };
        assert_eq!(value(EVERY_TYPE, row), Ok(expected), "row {row}");
    }
    for row in [29, 30, usize::MAX] {
        assert_eq!(value(EVERY_TYPE, row), Err(refused(12, 0)));
        assert_eq!(typed(EVERY_TYPE, row), Err(refused(12, 0)));
        assert_eq!(value(&EVERY_TYPE[..498], row), Err(refused(2, 491)));
        assert_eq!(typed(&EVERY_TYPE[..498], row), Err(refused(2, 491)));
    }
}

#[test]
fn values_are_typed() {
    let holds = |row, expected| assert_eq!(typed(EVERY_TYPE, row), Ok(expected), "row {row}");
    holds(0, Typed::Other);
    holds(1, Typed::Bool(true));
    holds(2, Typed::Other);
    holds(4, Typed::Double(1.5));
    holds(8, Typed::Long(-2));
    holds(9, Typed::Large(i64::MIN + 1));
    holds(11, Typed::Bool(false));
    holds(12, Typed::Long(7));
    holds(20, Typed::Other);
    holds(25, Typed::Other);
    holds(26, Typed::Unit(u32::from_be_bytes(*b"#Prc"), 100.0));
    holds(28, Typed::Other);
}

#[test]
fn made_up_descriptors_have_their_rows() {
    let mut deepest = 0;
    let mut kinds = BTreeSet::new();
    for seed in 0..3_000 {
        let laid = Laid::of(&Object::any(&mut Random::new(seed)));
        assert_eq!(rows_of(&laid.file), laid.rows, "seed {seed}");
        assert!(laid.rows.len() <= laid.file.len() / 5);
        for row in 0..laid.rows.len().min(20) {
            let [_, _, start, len, _] = laid.rows[row].map(|number| number as usize);
            let first = laid.values[row];
            let length = start + len - first;
            assert_eq!(value(&laid.file, row), Ok(Value { first, length }));
        }
        deepest = laid.rows.iter().map(|row| row[4]).fold(deepest, u32::max);
        kinds.extend(laid.rows.iter().map(|row| row[0].to_be_bytes()));
    }
    assert_eq!(deepest, 32);
    let known = TYPES.iter().chain(&FORMS).chain([b"UnFl"]);
    assert_eq!(kinds, known.copied().collect());
    assert!(ARRAY_UNITS.iter().all(|unit| UNITS.contains(unit)));
}

/// A row's children, by their parent and their depth: those of the root also
/// say parent 0.
fn children(rows: &[[u32; 5]], number: usize) -> Vec<[u32; 5]> {
    let is_child = |row: &&[u32; 5]| row[1] as usize == number && row[4] == rows[number][4] + 1;
    rows.iter().skip(1).filter(is_child).copied().collect()
}

/// Where a row's head ends: where its first child begins, or the row ends.
fn head_end(rows: &[[u32; 5]], number: usize) -> u32 {
    let [_, _, first, length, _] = rows[number];
    let children = children(rows, number);
    children.first().map_or(first + length, |child| child[2])
}

#[test]
fn heads_of_agreed_files() {
    let heads = |rows: &[[u32; 5]]| -> Vec<u32> {
        let numbers = 0..rows.len();
        numbers
            .map(|number| head_end(rows, number) - rows[number][2])
            .collect()
    };
    assert_eq!(heads(&rows_of(P11)), [17]);
    assert_eq!(heads(&rows_of(P12)), [17, 13, 5, 5]);
}

/// Children stand behind their parent's head, with no gap, up to its end; all
/// heads together are the file.
#[test]
fn rows_tile_the_file() {
    for seed in 0..500 {
        let laid = Laid::of(&Object::any(&mut Random::new(seed)));
        let rows = rows_of(&laid.file);
        let mut heads = 0;
        for (number, &[_, _, first, length, _]) in rows.iter().enumerate() {
            let head_end = head_end(&rows, number);
            assert!(head_end - first >= 5);
            heads += (head_end - first) as usize;
            let children = children(&rows, number);
            let last = children.iter().fold(head_end, |place, child| {
                assert_eq!(child[2], place);
                place + child[3]
            });
            assert_eq!(last, first + length);
        }
        assert_eq!(heads, laid.file.len());
    }
}

#[test]
fn depth_32_is_the_deepest() {
    for depth in 1..40 {
        for seed in 0..30 {
            let mut random = Random::new(seed);
            let laid = Laid::of(&Object::nested(&mut random, depth, Member::Bool(true)));
            let expected = if depth <= MAX_DEPTH {
                Ok(depth + 1)
            } else {
                Err(refused(10, laid.rows[33][2] as usize))
            };
            assert_eq!(judge(&laid.file), expected);
            let empty = Laid::of(&Object::nested(&mut random, depth, Member::List(vec![])));
            assert_eq!(judge(&empty.file).is_ok(), depth <= MAX_DEPTH);
        }
    }
}

#[test]
fn every_prefix_is_cut() {
    for seed in 0..300 {
        let laid = Laid::of(&Object::small(&mut Random::new(seed)));
        for len in 0..laid.file.len() {
            let refusal = judge(&laid.file[..len]).unwrap_err();
            assert_eq!(refusal.number, 2);
            assert!(refusal.place <= len);
        }
    }
}

#[test]
fn long_files_need_little_stack() {
    let files = [flat(LIMIT), wide(&mut Random::new(1), LIMIT), deep(LIMIT)];
    let reading = move || {
        for long in &files {
            assert_eq!(judge(&long.file), Ok(long.rows));
            let mut runs = Runs::of([long.rows; 5]);
            assert_eq!(read(&long.file, runs.lent()), Ok(long.rows));
            let last = value(&long.file, long.rows - 1).unwrap();
            assert_eq!(last.first + last.length, LIMIT);
            assert_eq!(value(&long.file, long.rows), Err(refused(12, 0)));
        }
    };
    let thread = thread::Builder::new().stack_size(SMALL_STACK);
    thread.spawn(reading).unwrap().join().unwrap();
}

#[test]
fn the_limit_is_the_longest_file() {
    let file = [flat(LIMIT).file, vec![0]].concat();
    assert_eq!(judge(&file), Err(refused(1, 0)));
    assert_eq!(read(&file, Runs::of([0; 5]).lent()), Err(refused(1, 0)));
    assert_eq!(value(&file, usize::MAX), Err(refused(1, 0)));
    let listed = flat(LISTING_LIMIT);
    let heading = format!("DESC {}\n", listed.rows);
    assert!(list(&listed.file).starts_with(&heading));
    assert_eq!(list(&[listed.file, vec![0]].concat()), "refused 1 at 0\n");
}

#[test]
fn damaged_files_never_panic() {
    let mut reached = BTreeSet::new();
    for seed in 0..20_000 {
        let mut random = Random::new(seed);
        let laid = Laid::of(&Object::any(&mut random));
        let mut file = laid.file.clone();
        for _ in 0..1 + random.below(3) {
            damage(&mut file, &laid, Damage::any(&mut random), &mut random);
        }
        reached.extend(judge(&file).err().map(|refusal| refusal.number));
    }
    assert_eq!(reached, BTreeSet::from([2, 3, 4, 5, 6, 8, 10]));
}
