//! Times a file added to a report, of each kind and at several sizes.

use crate::report::{Report, SIZES};
use crate::timing::{alternate, Times};
use crate::{SEED, SHORT_NAME};
use generate::{acb, ase, descriptor, Palette, Random};
use proved::report;
use reference::report::TOTALS;
use reference::{kind, MAX_COLOURS};
use std::hint::black_box;

/// A file of about that length, with short names where it may have colours enough.
type Made = fn(usize) -> Vec<u8>;

const KINDS: [(&str, u32, Made); 4] = [
    ("ACO", kind::ACO, |len| {
        Palette::of_length(&mut Random::new(SEED), MAX_COLOURS, len).file()
    }),
    ("ASE", kind::ASE, |len| {
        let colours = len / (28 + 2 * SHORT_NAME) - 1;
        ase::Palette::uniform(&mut Random::new(SEED), colours, SHORT_NAME).file()
    }),
    ("ACB", kind::ACB, |len| {
        let colours = (len / (14 + 2 * SHORT_NAME)).min(reference::acb::MAX_COLOURS);
        acb::Book::of_length(&mut Random::new(SEED), colours - 1, len).file()
    }),
    ("descriptor", kind::DESCRIPTOR, |len| {
        descriptor::flat(len).file
    }),
];

pub fn compare(report: &mut Report, rounds: usize) {
    println!("\na file added to a report");
    let mut table = report.table("report", "-");
    for (shape, kind, made) in KINDS {
        let times = SIZES.map(|len| time(kind, &made(len), rounds));
        table.add("add", shape, [0; SIZES.len()], times);
    }
}

fn time(kind: u32, file: &[u8], rounds: usize) -> Times {
    let begun = [1; TOTALS];
    let library = report::add(report::Report { totals: begun }, kind, file);
    let reference = reference::report::add(&begun, kind, file);
    assert_eq!((library.number, library.file_number), (0, 0));
    assert_eq!(library.report.totals, reference.totals);
    alternate(
        file.len(),
        rounds,
        || {
            let (totals, file) = black_box((begun, file));
            black_box(report::add(report::Report { totals }, kind, file));
        },
        || {
            let (totals, file) = black_box((begun, file));
            black_box(reference::report::add(&totals, kind, file));
        },
    )
}
