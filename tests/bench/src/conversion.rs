//! Times the conversions, a buffer of elements at a time.

use crate::plain::{self, called};
use crate::report::Report;
use crate::timing::by_turns;
use crate::SEED;
use generate::{Random, ONE, PAIRS};
use std::hint::black_box;

const ELEMENTS: usize = 1 << 16;
/// As fine as the floats just below 1.
const EVEN_VALUES: usize = 1 << 24;

/// Fills a buffer with what becomes of the elements; 0 where one is refused.
type Converter<'a, To> = Box<dyn Fn(&mut [To]) + 'a>;

struct Way<'a, To> {
    title: &'static str,
    convert: Converter<'a, To>,
}

impl<'a, To> Way<'a, To> {
    fn new<From: Copy>(
        title: &'static str,
        from: &'a [From],
        convert: impl Fn(From) -> To + 'a,
    ) -> Self {
        let convert = move |to: &mut [To]| {
            for (to, &from) in to.iter_mut().zip(black_box(from)) {
                *to = convert(from);
            }
        };
        Way {
            title,
            convert: Box::new(convert),
        }
    }
}

pub fn compare(report: &mut Report, rounds: usize) {
    println!("\nconversions of RGB, {ELEMENTS} elements in a buffer, each by a call or inlined");
    println!("ratio: library to the other, in time; differ: elements that come out otherwise");
    let samples: Vec<u16> = (0..=u16::MAX).collect();
    let title = "every sample to its channel";
    report.add_conversion(title, print_times(title, &there(&samples), rounds));
    let random = &mut Random::new(SEED);
    let values = patterns(|| (random.below(EVEN_VALUES + 1) as f32 / EVEN_VALUES as f32).to_bits());
    let title = "channels to samples, evenly by value";
    report.add_conversion(title, print_times(title, &back(&values), rounds));
    let bits = patterns(|| random.below(ONE as usize + 1) as u32);
    let title = "channels to samples, evenly by bits";
    report.add_conversion(title, print_times(title, &back(&bits), rounds));
}

/// Bit patterns of channels from 0 to 1, in no order.
fn patterns(any: impl FnMut() -> u32) -> Vec<u32> {
    std::iter::repeat_with(any).take(ELEMENTS).collect()
}

/// Channels come out as their bits, as the library gives them.
fn there(samples: &[u16]) -> Vec<Way<'_, u32>> {
    // Hidden, or the reference would be compiled for this space alone.
    let (space, ..) = black_box(PAIRS[0]);
    vec![
        Way::new("library", samples, move |sample| {
            let answer = proved::to_channel(space, sample);
            let bits = (answer.number == 0).then_some(answer.bits);
            bits.unwrap_or_default()
        }),
        Way::new("reference", samples, move |sample| {
            let channel = reference_channel(space, sample);
            channel.map(f32::to_bits).unwrap_or_default()
        }),
        Way::new("f32 division", samples, |sample| {
            called::divided(sample).to_bits()
        }),
        // Hidden, each sample is taken by itself. As calls, divisions may wait
        // for each other, where the float register is not cleared before.
        Way::new("f32 division, inlined one by one", samples, |sample| {
            plain::divided(black_box(sample)).to_bits()
        }),
        Way::new("f32 division, inlined", samples, |sample| {
            plain::divided(sample).to_bits()
        }),
    ]
}

fn back(patterns: &[u32]) -> Vec<Way<'_, u16>> {
    let (_, model, _) = black_box(PAIRS[0]);
    vec![
        Way::new("library", patterns, move |bits| {
            let answer = proved::to_sample(model, bits);
            let sample = (answer.number == 0).then_some(answer.sample);
            sample.unwrap_or_default()
        }),
        Way::new("reference", patterns, move |bits| {
            reference_sample(model, bits).unwrap_or_default()
        }),
        Way::new("f32 round, unjudged", patterns, |bits| {
            called::rounded(f32::from_bits(bits))
        }),
        Way::new("f64 floor", patterns, |bits| {
            called::floored(f32::from_bits(bits)).unwrap_or_default()
        }),
        Way::new("f64 cut off", patterns, |bits| {
            called::cut_off(f32::from_bits(bits)).unwrap_or_default()
        }),
        Way::new("f32 round, unjudged, inlined", patterns, |bits| {
            plain::rounded(f32::from_bits(bits))
        }),
        Way::new("f64 floor, inlined", patterns, |bits| {
            plain::floored(f32::from_bits(bits)).unwrap_or_default()
        }),
        Way::new("f64 cut off, inlined", patterns, |bits| {
            plain::cut_off(f32::from_bits(bits)).unwrap_or_default()
        }),
    ]
}

#[inline(never)]
fn reference_channel(space: u16, sample: u16) -> Result<f32, u32> {
    reference::to_channel(space, sample)
}

#[inline(never)]
fn reference_sample(model: u32, bits: u32) -> Result<u16, u32> {
    reference::to_sample(model, bits)
}

/// The library is the first of the ways and the reference the second, whose
/// ratio is given back.
fn print_times<To: Copy + Default + PartialEq>(
    title: &str,
    ways: &[Way<To>],
    rounds: usize,
) -> f64 {
    let mut outputs: Vec<Vec<To>> = ways.iter().map(|_| vec![To::default(); ELEMENTS]).collect();
    let pairs = ways.iter().zip(&mut outputs);
    let mut calls: Vec<Box<dyn FnMut() + '_>> = pairs
        .map(|(way, output)| Box::new(|| (way.convert)(black_box(output))) as Box<_>)
        .collect();
    let best = by_turns(rounds, &mut calls);
    drop(calls);
    println!(
        "\n{:36} {:>10} {:>7} {:>7}",
        title, "ns each", "ratio", "differ"
    );
    for ((way, nanoseconds), output) in ways.iter().zip(&best).zip(&outputs) {
        let differ = output
            .iter()
            .zip(&outputs[0])
            .filter(|(a, b)| a != b)
            .count();
        println!(
            "{:36} {:>10.3} {:>7.2} {differ:>7}",
            way.title,
            nanoseconds / ELEMENTS as f64,
            best[0] / nanoseconds
        );
    }
    best[0] / best[1]
}
