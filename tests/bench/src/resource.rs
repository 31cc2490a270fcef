//! Times judging, reading and writing resource sections at several sizes.

use crate::report::{Report, SIZES};
use crate::timing::{alternate, alternate_judges, Times};
use crate::SEED;
use generate::resource::{Lot, Section};
use generate::Random;
use reference::resource::{self, BARE_BLOCK_LEN, ROW_LEN};
use std::hint::black_box;

/// Blocks that are all alike: how many, and the bytes of each one's name and
/// data, which are even.
#[derive(Clone, Copy)]
struct Size {
    blocks: usize,
    name: usize,
    data: usize,
}

/// Kinds of sections by the bytes of their names and data: a path's name and a
/// few numbers, or a thumbnail's picture.
const SHAPES: [(&str, usize, usize); 3] = [
    ("bare blocks", 0, 0),
    ("small blocks", 6, 16),
    ("large blocks", 6, 262_126),
];

pub fn compare(report: &mut Report, rounds: usize) {
    println!("\nresource sections");
    println!("bare: no names or data; small: 16 bytes of data; large: four blocks to the MiB");
    println!(
        "judging and reading step over data, so that their time is the blocks', not the bytes'"
    );
    let mut table = report.table("resources", "blocks");
    for (shape, name, data) in SHAPES {
        let sizes = SIZES.map(|len| Size {
            blocks: len / (BARE_BLOCK_LEN + name + data),
            name,
            data,
        });
        let blocks = sizes.map(|size| size.blocks);
        let mut add = |call, time: fn(Size, usize) -> Times| {
            table.add(call, shape, blocks, sizes.map(|size| time(size, rounds)));
        };
        add("judge", time_judge);
        add("read", time_read);
        add("write", time_write);
    }
}

fn section(size: Size) -> Vec<u8> {
    Section::uniform(&mut Random::new(SEED), size.blocks, size.name, size.data).bytes()
}

fn time_judge(size: Size, rounds: usize) -> Times {
    let section = section(size);
    assert_eq!(proved::resource::judge(&section).blocks, size.blocks);
    assert_eq!(resource::judge(&section), Ok(size.blocks));
    alternate_judges(&section, rounds, proved::resource::judge, resource::judge)
}

fn time_read(size: Size, rounds: usize) -> Times {
    let section = section(size);
    let mut library_table = vec![1; size.blocks * ROW_LEN];
    let mut reference_table = library_table.clone();
    let read = proved::resource::read(&section, &mut library_table);
    assert_eq!((read.number, read.blocks), (0, size.blocks));
    assert!(resource::read(&section, &mut reference_table).is_ok());
    assert_eq!(library_table, reference_table);
    alternate(
        section.len(),
        rounds,
        || {
            let table = black_box(&mut library_table);
            black_box(proved::resource::read(black_box(&section), table));
        },
        || {
            let table = black_box(&mut reference_table);
            let _ = black_box(resource::read(black_box(&section), table));
        },
    )
}

fn time_write(size: Size, rounds: usize) -> Times {
    let random = &mut Random::new(SEED);
    let Lot { records, text } = Lot::uniform(random, size.blocks, size.name, size.data);
    let need = resource::length(&records, &text).expect("a made-up lot is sound");
    let mut library_out = vec![1; need];
    let mut reference_out = library_out.clone();
    let written = proved::resource::write(&records, &text, &mut library_out);
    assert_eq!(written.number, 0);
    assert!(resource::write(&records, &text, &mut reference_out).is_ok());
    assert_eq!(library_out, reference_out);
    alternate(
        need,
        rounds,
        || {
            let (records, text) = black_box((&records, &text));
            let out = black_box(&mut library_out);
            black_box(proved::resource::write(records, text, out));
        },
        || {
            let (records, text) = black_box((&records, &text));
            let out = black_box(&mut reference_out);
            let _ = black_box(resource::write(records, text, out));
        },
    )
}
