//! Times building descriptors from entries, and taking the entries of a file.

use crate::report::{Report, SIZES};
use crate::timing::{alternate, Times};
use crate::SEED;
use generate::descriptor::{deep, wide, Long};
use generate::Random;
use reference::descriptor::{self, ENTRY_LEN};
use std::hint::black_box;

type Shape = fn(usize) -> Long;

/// A list of booleans would have entries of many times its length.
const SHAPES: [(&str, Shape); 2] = [
    ("wide", |len| wide(&mut Random::new(SEED), len)),
    ("deep", deep),
];

pub fn compare(report: &mut Report, rounds: usize) {
    println!("\ndescriptors built from entries");
    println!("shapes as for descriptors; the text is the file itself");
    let mut table = report.table("entries", "rows");
    for (shape, make) in SHAPES {
        let files = SIZES.map(make);
        let rows = files.each_ref().map(|long| long.rows);
        let mut add = |call, time: fn(&Long, usize) -> Times| {
            let times = files.each_ref().map(|long| time(long, rounds));
            table.add(call, shape, rows, times);
        };
        add("build", time_build);
        add("entries", time_entries);
    }
}

fn time_build(long: &Long, rounds: usize) -> Times {
    let file = &long.file;
    let mut entries = vec![0; long.rows * ENTRY_LEN];
    assert_eq!(descriptor::entries(file, &mut entries), Ok(long.rows));
    let entries = &entries;
    let mut library_out = vec![1; file.len()];
    let mut reference_out = library_out.clone();
    let built = proved::descriptor::build(entries, file, &mut library_out);
    assert_eq!((built.number, built.length), (0, file.len()));
    let built = descriptor::build(entries, file, &mut reference_out);
    assert_eq!(built, Ok(file.len()));
    assert!(library_out == *file && reference_out == *file);
    alternate(
        file.len(),
        rounds,
        || {
            let out = black_box(&mut library_out[..]);
            black_box(proved::descriptor::build(black_box(entries), file, out));
        },
        || {
            let out = black_box(&mut reference_out[..]);
            let _ = black_box(descriptor::build(black_box(entries), file, out));
        },
    )
}

fn time_entries(long: &Long, rounds: usize) -> Times {
    let file = &long.file;
    let mut library_run = vec![1; long.rows * ENTRY_LEN];
    let mut reference_run = library_run.clone();
    let taken = proved::descriptor::entries(file, &mut library_run);
    assert_eq!((taken.number, taken.rows), (0, long.rows));
    assert_eq!(descriptor::entries(file, &mut reference_run), Ok(long.rows));
    assert_eq!(library_run, reference_run);
    alternate(
        file.len(),
        rounds,
        || {
            let run = black_box(&mut library_run[..]);
            black_box(proved::descriptor::entries(black_box(file), run));
        },
        || {
            let run = black_box(&mut reference_run[..]);
            let _ = black_box(descriptor::entries(black_box(file), run));
        },
    )
}
