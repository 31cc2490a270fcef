//! Comparing the conversion of samples and channels.

use crate::difference::{agree, Checked};
use crate::expected;
use crate::tally::Conversions;
use crate::trays;
use generate::{any_pattern, neighbourhoods, tags, Random, EACH_CLASS, PAIRS, SPACES, TAGS};

const FEW_SAMPLES: [u16; 8] = [0, 1, 10_000, 10_001, 0x7FFF, 0x8000, 0xFFFE, 0xFFFF];
/// Beside the known ones, or like them in one of the two bytes.
const UNKNOWN_SPACES: [u16; 9] = [3, 6, 9, 0x0010, 0x0100, 0x0200, 0x0802, 0x8000, 0xFFFF];

/// The parts of a run that draw numbers, each with its own source.
#[derive(Clone, Copy)]
enum Part {
    Tags,
    Patterns,
    Runs,
}

/// Goes through the spaces, samples and tags, and through `patterns` bit
/// patterns of a channel for each known model, up to the first difference. The
/// patterns where the answer changes come first, whatever their number; the
/// rest are any.
pub fn run(seed: u64, patterns: u64) -> Checked<Conversions> {
    let random = |part: Part| Random::for_part(seed, part as u64);
    let mut tally = Conversions::default();
    every_space(&mut tally)?;
    every_sample(&mut tally)?;
    there_and_back()?;
    every_tag(&mut random(Part::Tags), &mut tally)?;
    tally.runs = trays::run(&mut random(Part::Runs))?;
    for range in neighbourhoods() {
        range
            .into_iter()
            .try_for_each(|bits| check_models(bits, &mut tally))?;
    }
    let mut random = random(Part::Patterns);
    while tally.patterns < patterns {
        check_models(any_pattern(&mut random), &mut tally)?;
    }
    Ok(tally)
}

fn every_space(tally: &mut Conversions) -> Checked {
    for space in 0..=u16::MAX {
        for sample in FEW_SAMPLES {
            check_there(space, sample, tally)?;
        }
    }
    Ok(())
}

fn every_sample(tally: &mut Conversions) -> Checked {
    let known = SPACES.map(|(space, _)| space);
    for space in known.into_iter().chain(UNKNOWN_SPACES) {
        for sample in 0..=u16::MAX {
            check_there(space, sample, tally)?;
        }
    }
    Ok(())
}

/// Each sample up to its full scale comes back through the library alone.
fn there_and_back() -> Checked {
    for (space, tag, full) in PAIRS {
        for sample in 0..=full {
            let channel = proved::to_channel(space, sample);
            let wanted = proved::Sample { number: 0, sample };
            agree(
                || format!("sample {sample} of space {space} there and back, by {channel:?}"),
                &wanted,
                &proved::to_sample(tag, channel.bits),
            )?;
        }
    }
    Ok(())
}

fn every_tag(random: &mut Random, tally: &mut Conversions) -> Checked {
    for tag in tags(random) {
        for bits in EACH_CLASS {
            check_back(tag, bits, tally)?;
        }
    }
    Ok(())
}

fn check_models(bits: u32, tally: &mut Conversions) -> Checked {
    tally.patterns += 1;
    TAGS.iter()
        .try_for_each(|&tag| check_back(tag, bits, tally))
}

fn check_there(space: u16, sample: u16, tally: &mut Conversions) -> Checked {
    let wanted = expected::channel(reference::to_channel(space, sample));
    agree(
        || format!("the channel of sample {sample} of space {space}"),
        &wanted,
        &proved::to_channel(space, sample),
    )?;
    tally.there(wanted.number);
    Ok(())
}

fn check_back(tag: u32, bits: u32, tally: &mut Conversions) -> Checked {
    let wanted = expected::sample(reference::to_sample(tag, bits));
    agree(
        || format!("the sample of bits {bits:08X} of {}", shown(tag)),
        &wanted,
        &proved::to_sample(tag, bits),
    )?;
    tally.back(wanted.number);
    Ok(())
}

fn shown(tag: u32) -> String {
    let text = tag.to_be_bytes();
    format!("model {tag:08X} \"{}\"", text.escape_ascii())
}
