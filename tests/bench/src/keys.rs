//! Times looking for keys in descriptors, and replacing a member.

use crate::descriptor::{lent_reference, SHAPES};
use crate::report::{Report, SIZES};
use crate::timing::{alternate, Times};
use generate::descriptor::{keyed, Long};
use reference::descriptor::{self, Replacement};
use std::hint::black_box;

/// How many keys are looked for in a call.
const COUNTS: [(&str, usize); 3] = [("find 1", 1), ("find 10", 10), ("find 1k", 1_000)];
const KIND: usize = 4;
const BOOL: u32 = u32::from_be_bytes(*b"bool");

type Runs = [Vec<u32>; 5];

pub fn compare(report: &mut Report, rounds: usize) {
    println!("\nkeys of descriptors, and members replaced");
    println!("keyed: pairs with keys of their own, each a list of 20 booleans, and keys evenly");
    println!("from all of them; the others as for descriptors");
    let mut table = report.table("keys", "rows");
    let files = SIZES.map(keyed);
    let rows = files.each_ref().map(|long| long.rows);
    for (call, count) in COUNTS {
        let times = files.each_ref().map(|long| time_find(long, count, rounds));
        table.add(call, "keyed", rows, times);
    }
    for (shape, make) in SHAPES {
        let files = SIZES.map(make);
        let rows = files.each_ref().map(|long| long.rows);
        let times = files.each_ref().map(|long| time_replace(long, rounds));
        table.add("replace", shape, rows, times);
    }
}

fn runs_of(long: &Long) -> Runs {
    let mut runs = [(); 5].map(|()| vec![0; long.rows]);
    let read = descriptor::read(&long.file, lent_reference(&mut runs));
    assert_eq!(read, Ok(long.rows));
    runs
}

fn library_table(runs: &Runs) -> proved::descriptor::Table<'_> {
    let [first, length, next, depth, kind] = runs;
    proved::descriptor::Table {
        first,
        length,
        next,
        depth,
        kind,
    }
}

fn reference_table(runs: &Runs) -> descriptor::Table<'_> {
    let [first, length, next, depth, kind] = runs;
    descriptor::Table {
        first,
        length,
        next,
        depth,
        kind,
    }
}

fn time_find(long: &Long, count: usize, rounds: usize) -> Times {
    let (file, runs) = (&long.file, runs_of(long));
    let children: Vec<usize> = (0..long.rows).filter(|&row| runs[3][row] == 1).collect();
    let key = |row: usize| &file[runs[0][row] as usize..][..KEY_LEN];
    let wanted: Vec<usize> = (0..count)
        .map(|index| children[(2 * index + 1) * (children.len() - 1) / (2 * count)])
        .collect();
    let keys: Vec<u8> = wanted.iter().flat_map(|&row| key(row)).copied().collect();
    let mut library_answers = vec![1; count];
    let mut reference_answers = library_answers.clone();
    let found = proved::descriptor::find(file, library_table(&runs), &keys, &mut library_answers);
    assert_eq!((found.number, found.keys), (0, count));
    let found = descriptor::find(file, reference_table(&runs), &keys, &mut reference_answers);
    assert_eq!(found, Ok(count));
    assert_eq!(library_answers, reference_answers);
    assert!(wanted
        .iter()
        .zip(&library_answers)
        .all(|(a, b)| *a == *b as usize));
    alternate(
        file.len(),
        rounds,
        || {
            let answers = black_box(&mut library_answers[..]);
            let table = library_table(black_box(&runs));
            black_box(proved::descriptor::find(
                black_box(file),
                table,
                &keys,
                answers,
            ));
        },
        || {
            let answers = black_box(&mut reference_answers[..]);
            let table = reference_table(black_box(&runs));
            let _ = black_box(descriptor::find(black_box(file), table, &keys, answers));
        },
    )
}

/// A length field and eight bytes.
const KEY_LEN: usize = 12;

fn time_replace(long: &Long, rounds: usize) -> Times {
    let (file, runs) = (&long.file, runs_of(long));
    let row = runs[KIND].iter().rposition(|&kind| kind == BOOL);
    let row = row.expect("every shape has a boolean");
    let with = Replacement {
        kind: BOOL,
        unit: 0,
        bits: 0,
    };
    let mut library_out = vec![1; file.len()];
    let mut reference_out = library_out.clone();
    let library = |out: &mut [u8]| {
        let table = library_table(black_box(&runs));
        let with = proved::descriptor::Replacement {
            kind: BOOL,
            unit: 0,
            bits: 0,
        };
        proved::descriptor::replace(black_box(file), table, row, with, out)
    };
    let reference = |out: &mut [u8]| {
        let table = reference_table(black_box(&runs));
        descriptor::replace(black_box(file), table, row, with, out)
    };
    assert_eq!(library(&mut library_out).length, file.len());
    assert_eq!(reference(&mut reference_out), Ok(file.len()));
    assert_eq!(library_out, reference_out);
    alternate(
        file.len(),
        rounds,
        || {
            black_box(library(black_box(&mut library_out)));
        },
        || {
            let _ = black_box(reference(black_box(&mut reference_out)));
        },
    )
}
