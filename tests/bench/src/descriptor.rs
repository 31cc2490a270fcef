//! Times reading descriptors at several sizes and of several shapes.

use crate::report::{Report, SIZES};
use crate::timing::{alternate, alternate_judges, Times};
use crate::SEED;
use generate::descriptor::{deep, flat, lists, wide, Long};
use generate::Random;
use reference::descriptor;
use std::hint::black_box;

pub type Shape = fn(usize) -> Long;

pub const SHAPES: [(&str, Shape); 4] = [
    ("flat", flat),
    ("wide", |len| wide(&mut Random::new(SEED), len)),
    ("lists", lists),
    ("deep", deep),
];

pub fn compare(report: &mut Report, rounds: usize) {
    println!("\ndescriptors");
    println!("flat: a list of booleans; wide: pairs of every type; lists: lists of four booleans;");
    println!("deep: lists 31 in each other");
    let mut table = report.table("descriptors", "rows");
    for (shape, make) in SHAPES {
        let files = SIZES.map(make);
        let rows = files.each_ref().map(|long| long.rows);
        let mut add = |call, time: fn(&Long, usize) -> Times| {
            table.add(
                call,
                shape,
                rows,
                files.each_ref().map(|long| time(long, rounds)),
            );
        };
        add("judge", time_judge);
        add("read", time_read);
        add("values", time_values);
    }
}

fn time_judge(long: &Long, rounds: usize) -> Times {
    let file = &long.file;
    assert_eq!(proved::descriptor::judge(file).rows, long.rows);
    assert_eq!(descriptor::judge(file), Ok(long.rows));
    alternate_judges(file, rounds, proved::descriptor::judge, descriptor::judge)
}

fn time_read(long: &Long, rounds: usize) -> Times {
    let file = &long.file;
    let mut library_runs = [(); 5].map(|()| vec![1; long.rows]);
    let mut reference_runs = library_runs.clone();
    let read = proved::descriptor::read(file, lent(&mut library_runs));
    assert_eq!((read.number, read.rows), (0, long.rows));
    assert!(descriptor::read(file, lent_reference(&mut reference_runs)).is_ok());
    assert_eq!(library_runs, reference_runs);
    alternate(
        file.len(),
        rounds,
        || {
            let runs = lent(black_box(&mut library_runs));
            black_box(proved::descriptor::read(black_box(file), runs));
        },
        || {
            let runs = lent_reference(black_box(&mut reference_runs));
            let _ = black_box(descriptor::read(black_box(file), runs));
        },
    )
}

pub fn lent(runs: &mut [Vec<u32>; 5]) -> proved::descriptor::Columns<'_> {
    let [first, length, next, depth, kind] = runs;
    proved::descriptor::Columns {
        first,
        length,
        next,
        depth,
        kind,
    }
}

pub fn lent_reference(runs: &mut [Vec<u32>; 5]) -> descriptor::Columns<'_> {
    let [first, length, next, depth, kind] = runs;
    descriptor::Columns {
        first,
        length,
        next,
        depth,
        kind,
    }
}

fn time_values(long: &Long, rounds: usize) -> Times {
    let file = &long.file;
    let mut library_run = vec![1; long.rows];
    let mut reference_run = library_run.clone();
    let read = proved::descriptor::values(file, &mut library_run);
    assert_eq!((read.number, read.rows), (0, long.rows));
    assert!(descriptor::values(file, &mut reference_run).is_ok());
    assert_eq!(library_run, reference_run);
    alternate(
        file.len(),
        rounds,
        || {
            let run = black_box(&mut library_run);
            black_box(proved::descriptor::values(black_box(file), run));
        },
        || {
            let run = black_box(&mut reference_run);
            let _ = black_box(descriptor::values(black_box(file), run));
        },
    )
}
