//! Times judging, reading and writing ACB at several sizes.

use crate::report::{Report, SIZES};
use crate::size::{Frame, Size};
use crate::timing::{alternate, alternate_judges, Times};
use crate::{NAMES, SEED};
use generate::acb::{Book, Lot};
use generate::Random;
use proved::acb::Header;
use reference::acb::{self, BARE_HEAD_LEN, MAX_COLOURS, ROW_LEN};
use std::hint::black_box;

const FRAME: Frame = Frame {
    head: BARE_HEAD_LEN,
    // A Lab colour.
    unnamed: 13,
    most_colours: MAX_COLOURS,
};

pub fn compare(report: &mut Report, rounds: usize) {
    println!("\nACB, Lab colours");
    println!("a book has {MAX_COLOURS} colours at most: short names are longer where it is full");
    let mut table = report.table("ACB", "colours");
    for (shape, units) in NAMES {
        let sizes = SIZES.map(|len| FRAME.within(len, units));
        let colours = sizes.map(|size| size.colours);
        let mut add = |call, time: fn(Size, usize) -> Times| {
            table.add(call, shape, colours, sizes.map(|size| time(size, rounds)));
        };
        add("judge", time_judge);
        add("read", time_read);
        add("write", time_write);
    }
}

fn file(size: Size) -> Vec<u8> {
    Book::uniform(&mut Random::new(SEED), size.colours, size.units).file()
}

fn time_judge(size: Size, rounds: usize) -> Times {
    let file = file(size);
    assert_eq!(proved::acb::judge(&file).number, 0);
    assert!(acb::judge(&file).is_ok());
    alternate_judges(&file, rounds, proved::acb::judge, acb::judge)
}

fn time_read(size: Size, rounds: usize) -> Times {
    let file = file(size);
    let mut library_table = vec![1; size.colours * ROW_LEN];
    let mut reference_table = library_table.clone();
    assert_eq!(proved::acb::read(&file, &mut library_table).number, 0);
    assert!(acb::read(&file, &mut reference_table).is_ok());
    assert_eq!(library_table, reference_table);
    alternate(
        file.len(),
        rounds,
        || {
            let table = black_box(&mut library_table);
            black_box(proved::acb::read(black_box(&file), table));
        },
        || {
            let table = black_box(&mut reference_table);
            let _ = black_box(acb::read(black_box(&file), table));
        },
    )
}

fn time_write(size: Size, rounds: usize) -> Times {
    let lot = Lot::uniform(&mut Random::new(SEED), size.colours, size.units);
    let Lot { records, text, .. } = &lot;
    // Without strings and tag the two have these numbers alone.
    let header = acb::Header {
        page_size: lot.header.page_size,
        space: lot.header.space,
        ..acb::Header::default()
    };
    let library_header = Header {
        page_size: lot.header.page_size,
        space: lot.header.space,
        ..Header::default()
    };
    let need = acb::length(&header, records, text).expect("a made-up lot is sound");
    let mut library_out = vec![1; need];
    let mut reference_out = library_out.clone();
    let written = proved::acb::write(library_header, records, text, &mut library_out);
    assert_eq!(written.number, 0);
    assert!(acb::write(&header, records, text, &mut reference_out).is_ok());
    assert_eq!(library_out, reference_out);
    alternate(
        need,
        rounds,
        || {
            let (header, records, text) = black_box((library_header, records, text));
            let out = black_box(&mut library_out);
            black_box(proved::acb::write(header, records, text, out));
        },
        || {
            let (header, records, text) = black_box((&header, records, text));
            let out = black_box(&mut reference_out);
            let _ = black_box(acb::write(header, records, text, out));
        },
    )
}
