//! Times judging, reading and writing ACO, by the number of colours and at
//! several sizes.

use crate::report::{Report, SIZES};
use crate::size::{Frame, Size};
use crate::timing::{alternate, alternate_judges, Times};
use crate::{LONG_NAME, SEED, SHORT_NAME};
use generate::{Lot, Palette, Random};
use reference::{HEAD_LEN, MAX_COLOURS, ROW_LEN};
use std::hint::black_box;

const COUNTS: [usize; 4] = [512, 1_024, 2_048, MAX_COLOURS];

/// A kind of palette, given by the units of its names; one list has none.
#[derive(Clone, Copy)]
struct Kind {
    title: &'static str,
    units: Option<usize>,
}

const KINDS: [Kind; 3] = [
    // Written, it has two lists all the same, with empty names.
    Kind {
        title: "plain",
        units: None,
    },
    Kind {
        title: "short names",
        units: Some(SHORT_NAME),
    },
    Kind {
        title: "long names",
        units: Some(LONG_NAME),
    },
];

const FRAME: Frame = Frame {
    head: 2 * HEAD_LEN,
    // A colour of both lists, and its name's count and closing zero.
    unnamed: 26,
    most_colours: MAX_COLOURS,
};

pub fn compare(report: &mut Report, rounds: usize) {
    println!("\nACO; the colours' spaces take turns; ratio: library to reference, in time\n");
    compare_kinds(rounds);
    compare_counts(rounds);
    compare_sizes(report, rounds);
}

fn compare_sizes(report: &mut Report, rounds: usize) {
    println!("\nACO by size, with names");
    println!("most colours: {MAX_COLOURS} in every file, with longer names in a longer one");
    let mut table = report.table("ACO", "colours");
    for (shape, units) in [("most colours", SHORT_NAME), ("long names", LONG_NAME)] {
        let sizes = SIZES.map(|len| FRAME.within(len, units));
        let colours = sizes.map(|size| size.colours);
        let mut add = |call, time: fn(Kind, usize, usize) -> Times| {
            let time = |Size { colours, units }| {
                let kind = Kind {
                    title: shape,
                    units: Some(units),
                };
                time(kind, colours, rounds)
            };
            table.add(call, shape, colours, sizes.map(time));
        };
        add("judge", time_judge);
        add("read", time_read);
        add("write", time_write);
    }
}

fn time_judge(kind: Kind, colours: usize, rounds: usize) -> Times {
    let file = Palette::uniform(&mut Random::new(SEED), colours, kind.units).file();
    assert_eq!(proved::judge(&file).number, 0);
    assert!(reference::judge(&file).is_ok());
    alternate_judges(&file, rounds, proved::judge, reference::judge)
}

fn compare_kinds(rounds: usize) {
    println!("{MAX_COLOURS} colours");
    println!(
        "{:6} {:16} {:>10} {:>13} {:>13} {:>10} {:>10} {:>7}",
        "call", "palette", "bytes", "library ns", "reference ns", "MB/s", "MB/s", "ratio"
    );
    for kind in KINDS {
        print_times("read", kind, &time_read(kind, MAX_COLOURS, rounds));
        print_times("write", kind, &time_write(kind, MAX_COLOURS, rounds));
    }
}

fn print_times(call: &str, kind: Kind, times: &Times) {
    println!(
        "{call:6} {:16} {:>10} {:>13.0} {:>13.0} {:>10.0} {:>10.0} {:>7.2}",
        kind.title,
        times.bytes,
        times.library,
        times.reference,
        times.megabytes_a_second(times.library),
        times.megabytes_a_second(times.reference),
        times.ratio()
    );
}

/// Time a byte at several counts: linear is where it stays about the same.
fn compare_counts(rounds: usize) {
    println!("\nnanoseconds a byte, library (reference), by the number of colours");
    let heads = COUNTS.map(|count| format!("{count:>17}"));
    println!("{:6} {:16} {}", "call", "palette", heads.join(" "));
    for kind in KINDS {
        let read = COUNTS.map(|count| time_read(kind, count, rounds));
        print_per_byte("read", kind, &read);
        let write = COUNTS.map(|count| time_write(kind, count, rounds));
        print_per_byte("write", kind, &write);
    }
}

fn print_per_byte(call: &str, kind: Kind, times: &[Times]) {
    let per_byte = |time: &Times| {
        let bytes = time.bytes as f64;
        format!(
            "{:>8.4} ({:.4})",
            time.library / bytes,
            time.reference / bytes
        )
    };
    let shown: Vec<String> = times.iter().map(per_byte).collect();
    println!("{call:6} {:16} {}", kind.title, shown.join(" "));
}

fn time_read(kind: Kind, colours: usize, rounds: usize) -> Times {
    let file = Palette::uniform(&mut Random::new(SEED), colours, kind.units).file();
    let mut library_table = vec![1; colours * ROW_LEN];
    let mut reference_table = library_table.clone();
    assert_eq!(proved::read(&file, &mut library_table).number, 0);
    assert!(reference::read(&file, &mut reference_table).is_ok());
    assert_eq!(library_table, reference_table);
    alternate(
        file.len(),
        rounds,
        || {
            black_box(proved::read(
                black_box(&file),
                black_box(&mut library_table),
            ));
        },
        || {
            let _ = black_box(reference::read(
                black_box(&file),
                black_box(&mut reference_table),
            ));
        },
    )
}

fn time_write(kind: Kind, colours: usize, rounds: usize) -> Times {
    let lot = Lot::uniform(&mut Random::new(SEED), colours, kind.units.unwrap_or(0));
    let need = reference::length(&lot.records, &lot.text).expect("a made-up lot is sound");
    let mut library_out = vec![1; need];
    let mut reference_out = library_out.clone();
    assert_eq!(
        proved::write(&lot.records, &lot.text, &mut library_out).number,
        0
    );
    assert!(reference::write(&lot.records, &lot.text, &mut reference_out).is_ok());
    assert_eq!(library_out, reference_out);
    alternate(
        need,
        rounds,
        || {
            let out = black_box(&mut library_out);
            black_box(proved::write(
                black_box(&lot.records),
                black_box(&lot.text),
                out,
            ));
        },
        || {
            let out = black_box(&mut reference_out);
            let _ = black_box(reference::write(
                black_box(&lot.records),
                black_box(&lot.text),
                out,
            ));
        },
    )
}
