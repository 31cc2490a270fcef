//! Times judging, reading and writing ASE at several sizes.

use crate::report::{Report, SIZES};
use crate::size::{Frame, Size};
use crate::timing::{alternate, alternate_judges, Times};
use crate::{NAMES, SEED};
use generate::ase::{Lot, Palette};
use generate::Random;
use reference::ase::{self, HEAD_LEN, ROW_LEN};
use std::hint::black_box;

const FRAME: Frame = Frame {
    head: HEAD_LEN,
    // An RGB colour's block.
    unnamed: 28,
    most_colours: usize::MAX,
};

pub fn compare(report: &mut Report, rounds: usize) {
    println!("\nASE, RGB colours");
    let mut table = report.table("ASE", "colours");
    for (shape, units) in NAMES {
        let sizes = SIZES.map(|len| FRAME.within(len, units));
        let colours = sizes.map(|size| size.colours);
        let mut add = |call, time: fn(Size, usize) -> Times| {
            table.add(call, shape, colours, sizes.map(|size| time(size, rounds)));
        };
        add("judge", time_judge);
        add("read", time_read);
        add("write", time_write);
    }
}

fn file(size: Size) -> Vec<u8> {
    Palette::uniform(&mut Random::new(SEED), size.colours, size.units).file()
}

fn time_judge(size: Size, rounds: usize) -> Times {
    let file = file(size);
    assert_eq!(proved::ase::judge(&file).number, 0);
    assert!(ase::judge(&file).is_ok());
    alternate_judges(&file, rounds, proved::ase::judge, ase::judge)
}

fn time_read(size: Size, rounds: usize) -> Times {
    let file = file(size);
    let mut library_table = vec![1; size.colours * ROW_LEN];
    let mut reference_table = library_table.clone();
    assert_eq!(proved::ase::read(&file, &mut library_table).number, 0);
    assert!(ase::read(&file, &mut reference_table).is_ok());
    assert_eq!(library_table, reference_table);
    alternate(
        file.len(),
        rounds,
        || {
            let table = black_box(&mut library_table);
            black_box(proved::ase::read(black_box(&file), table));
        },
        || {
            let table = black_box(&mut reference_table);
            let _ = black_box(ase::read(black_box(&file), table));
        },
    )
}

fn time_write(size: Size, rounds: usize) -> Times {
    let lot = Lot::uniform(&mut Random::new(SEED), size.colours, size.units);
    let Lot { records, text } = lot;
    let need = ase::length(&records, &text).expect("a made-up lot is sound");
    let mut library_out = vec![1; need];
    let mut reference_out = library_out.clone();
    let written = proved::ase::write(&records, &text, &mut library_out);
    assert_eq!(written.number, 0);
    assert!(ase::write(&records, &text, &mut reference_out).is_ok());
    assert_eq!(library_out, reference_out);
    alternate(
        need,
        rounds,
        || {
            let (records, text) = black_box((&records, &text));
            let out = black_box(&mut library_out);
            black_box(proved::ase::write(records, text, out));
        },
        || {
            let (records, text) = black_box((&records, &text));
            let out = black_box(&mut reference_out);
            let _ = black_box(ase::write(records, text, out));
        },
    )
}
