//! Times two palettes compared, at several sizes of each.

use crate::report::{Report, SIZES};
use crate::size::{Frame, Size};
use crate::timing::{alternate, Times};
use crate::{NAMES, SEED};
use generate::{ase, Palette, Random, Season};
use reference::season::{self, ROW_LEN};
use reference::MAX_COLOURS;
use std::hint::black_box;

/// A palette of ASE in RGB, compared with itself.
const BLOCKS: Frame = Frame {
    head: 12,
    unnamed: 28,
    most_colours: usize::MAX,
};
/// A palette of ACO of two lists, compared with itself or with what it becomes in ASE.
const SWATCHES: Frame = Frame {
    head: 8,
    unnamed: 26,
    most_colours: MAX_COLOURS,
};

pub fn compare(report: &mut Report, rounds: usize) {
    println!("\ntwo palettes compared, equal as far as formats allow; bytes: of both");
    println!("ACO has {MAX_COLOURS} colours at most: short names are longer where it is full");
    let mut table = report.table("seasons", "colours");
    let calls: [(&str, &Frame, fn(Size) -> [Season; 2]); 3] = [
        ("ASE", &BLOCKS, two_ase),
        ("ACO", &SWATCHES, two_aco),
        ("across", &SWATCHES, across),
    ];
    for (call, frame, pair) in calls {
        for (shape, units) in NAMES {
            let sizes = SIZES.map(|len| frame.within(len, units));
            let colours = sizes.map(|size| size.colours);
            let times = sizes.map(|size| time(pair(size), rounds));
            table.add(call, shape, colours, times);
        }
    }
}

fn two_ase(Size { colours, units }: Size) -> [Season; 2] {
    let palette = ase::Palette::uniform(&mut Random::new(SEED), colours, units);
    [Season::Ase(palette.clone()), Season::Ase(palette)]
}

fn two_aco(Size { colours, units }: Size) -> [Season; 2] {
    let palette = Palette::uniform(&mut Random::new(SEED), colours, Some(units));
    [Season::Aco(palette.clone()), Season::Aco(palette)]
}

fn across(size: Size) -> [Season; 2] {
    let [first, _] = two_aco(size);
    let second = first.converted(&mut Random::new(SEED));
    [first, second]
}

fn time(pair: [Season; 2], rounds: usize) -> Times {
    let kinds = pair.each_ref().map(Season::kind);
    let [first, second] = pair.each_ref().map(Season::file);
    let said = |nth: usize, file| season::Palette {
        kind: kinds[nth],
        file,
    };
    let library = |table: &mut [u32]| {
        let (first, second) = black_box((&first, &second));
        proved::compare::compare(kinds[0], first, kinds[1], second, table)
    };
    let reference = |table: &mut [u32]| {
        let (first, second) = black_box((&first, &second));
        season::compare(said(0, first), said(1, second), table)
    };
    let mut library_table = vec![1; first.len().max(second.len()) / 10 * ROW_LEN];
    let mut reference_table = library_table.clone();
    assert_eq!(library(&mut library_table).number, 0);
    assert!(reference(&mut reference_table).is_ok());
    assert_eq!(library_table, reference_table);
    alternate(
        first.len() + second.len(),
        rounds,
        || {
            black_box(library(black_box(&mut library_table)));
        },
        || {
            let _ = black_box(reference(black_box(&mut reference_table)));
        },
    )
}
