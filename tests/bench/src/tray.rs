//! Times the conversion of whole runs, by the number of their elements.

use crate::plain;
use crate::report::Report;
use crate::timing::by_turns;
use crate::SEED;
use generate::{Random, ONE, PAIRS};
use std::hint::black_box;

const SIZES: [usize; 3] = [16, 4_096, 1_000_000];
const NAMES: [&str; 3] = ["RGB", "CMYK", "gray"];
const THERE: [&str; 3] = [
    "runs of samples to channels, RGB",
    "runs of samples to channels, CMYK",
    "runs of samples to channels, gray",
];
const BACK: [&str; 3] = [
    "runs of channels to samples, RGB",
    "runs of channels to samples, CMYK",
    "runs of channels to samples, gray",
];

/// The ways are the library, the reference, and a plain loop that judges nothing
/// and asks for no space: of samples one f32 division each, of channels one
/// f64 product each.
pub fn compare(report: &mut Report, rounds: usize) {
    println!("\nwhole runs; ns an element; ratio: library to the other, in time");
    println!(
        "{:24} {:>9} {:>9} {:>10} {:>7} {:>9} {:>7}",
        "run", "elements", "library", "reference", "ratio", "plain", "ratio"
    );
    let random = &mut Random::new(SEED);
    for ((space, model, full), kind) in PAIRS.into_iter().zip(0..) {
        let mut worst = [0.0_f64; 2];
        for size in SIZES {
            let samples: Vec<u16> = (0..size)
                .map(|_| random.below(usize::from(full) + 1) as u16)
                .collect();
            let ratio = there(kind, space, full, &samples, rounds);
            worst[0] = worst[0].max(ratio);
            let bits: Vec<u32> = (0..size)
                .map(|_| random.below(ONE as usize + 1) as u32)
                .collect();
            let ratio = back(kind, model, full, &bits, rounds);
            worst[1] = worst[1].max(ratio);
        }
        report.add_conversion(THERE[kind], worst[0]);
        report.add_conversion(BACK[kind], worst[1]);
    }
}

fn there(kind: usize, space: u16, full: u16, samples: &[u16], rounds: usize) -> f64 {
    let mut outs = vec![vec![0_u32; samples.len()]; 3];
    let [a, b, c] = &mut outs[..] else {
        return 0.0;
    };
    let best = by_turns(
        rounds,
        &mut [
            Box::new(|| {
                black_box(proved::tray::to_channels(
                    black_box(space),
                    black_box(samples),
                    a,
                ));
            }),
            Box::new(|| {
                black_box(reference_channels(black_box(space), black_box(samples), b)).ok();
            }),
            Box::new(|| plain::divide_all(black_box(full), black_box(samples), c)),
        ],
    );
    assert!(outs[0] == outs[1], "the reference differs");
    print_row(&format!("samples, {}", NAMES[kind]), samples.len(), &best)
}

fn back(kind: usize, model: u32, full: u16, bits: &[u32], rounds: usize) -> f64 {
    let mut outs = vec![vec![0_u16; bits.len()]; 3];
    let [a, b, c] = &mut outs[..] else {
        return 0.0;
    };
    let best = by_turns(
        rounds,
        &mut [
            Box::new(|| {
                black_box(proved::tray::to_samples(
                    black_box(model),
                    black_box(bits),
                    a,
                ));
            }),
            Box::new(|| {
                black_box(reference_samples(black_box(model), black_box(bits), b)).ok();
            }),
            Box::new(|| plain::cut_off_all(black_box(full), black_box(bits), c)),
        ],
    );
    assert!(outs[0] == outs[1], "the reference differs");
    print_row(&format!("channels, {}", NAMES[kind]), bits.len(), &best)
}

#[inline(never)]
fn reference_channels(
    space: u16,
    samples: &[u16],
    bits: &mut [u32],
) -> Result<(), reference::Refusal> {
    reference::to_channels(space, samples, bits)
}

#[inline(never)]
fn reference_samples(
    model: u32,
    bits: &[u32],
    samples: &mut [u16],
) -> Result<(), reference::Refusal> {
    reference::to_samples(model, bits, samples)
}

fn print_row(title: &str, elements: usize, best: &[f64]) -> f64 {
    let each = |way: usize| best[way] / elements as f64;
    println!(
        "{title:24} {elements:>9} {:>9.3} {:>10.3} {:>7.2} {:>9.3} {:>7.2}",
        each(0),
        each(1),
        best[0] / best[1],
        each(2),
        best[0] / best[2]
    );
    best[0] / best[1]
}
