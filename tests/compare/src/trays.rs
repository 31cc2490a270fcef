//! Comparing the conversion of whole runs.

use crate::difference::{agree, Checked};
use crate::expected;
use crate::lent::{Canary, Lent};
use crate::tally::Counts;
use generate::{any_pattern, Random, EACH_CLASS, ONE, SPACES, TAGS};
use reference::Refusal;

const UNKNOWN_SPACES: [u16; 3] = [3, 9, 0x0800];
const UNKNOWN_TAGS: [u32; 3] = [0, 0x5247_4221, 0x4C61_6220];
/// Around the numbers of elements that one vector holds, and two.
const LENGTHS: [usize; 14] = [0, 1, 2, 3, 4, 5, 7, 8, 9, 15, 16, 17, 33, 257];
const LARGEST_GRAY: usize = 10_000;
/// Long runs, in which every place of a vector is tried by each value.
const LONG_RUNS: usize = 60;
const LONG: usize = 4_096;

pub fn run(random: &mut Random) -> Checked<Counts> {
    let mut tally = Counts::default();
    for len in LENGTHS {
        for (space, _) in SPACES {
            there(space, len, random, &mut tally)?;
        }
        for space in UNKNOWN_SPACES {
            there(space, len, random, &mut tally)?;
        }
        for tag in TAGS.into_iter().chain(UNKNOWN_TAGS) {
            back(tag, len, random, &mut tally)?;
        }
    }
    for _ in 0..LONG_RUNS {
        let samples: Vec<u16> = (0..LONG).map(|_| random.u16()).collect();
        let bits: Vec<u32> = (0..LONG).map(|_| unit(random)).collect();
        for (space, _) in SPACES {
            check_there(space, &samples, LONG, &mut tally)?;
        }
        for tag in TAGS {
            check_back(tag, &bits, LONG, &mut tally)?;
        }
    }
    Ok(tally)
}

/// A run that gray takes; then with a sample that gray refuses at each position
/// in turn, and any sample in its stead.
fn there(space: u16, len: usize, random: &mut Random, tally: &mut Counts) -> Checked {
    let mut samples: Vec<u16> = (0..len)
        .map(|_| random.below(LARGEST_GRAY + 1) as u16)
        .collect();
    for room in rooms(len) {
        check_there(space, &samples, room, tally)?;
    }
    for position in 0..len {
        let kept = samples[position];
        for wrong in [10_001, u16::MAX, random.u16()] {
            samples[position] = wrong;
            for room in rooms(len) {
                check_there(space, &samples, room, tally)?;
            }
        }
        // Some stay, so that the first of several is looked for.
        if !random.one_in(8) {
            samples[position] = kept;
        }
    }
    Ok(())
}

/// The same of channels, with a pattern of each class at each position.
fn back(tag: u32, len: usize, random: &mut Random, tally: &mut Counts) -> Checked {
    let mut bits: Vec<u32> = (0..len).map(|_| unit(random)).collect();
    for room in rooms(len) {
        check_back(tag, &bits, room, tally)?;
    }
    for position in 0..len {
        let kept = bits[position];
        for any in EACH_CLASS.into_iter().chain([any_pattern(random)]) {
            bits[position] = any;
            for room in rooms(len) {
                check_back(tag, &bits, room, tally)?;
            }
        }
        if !random.one_in(8) {
            bits[position] = kept;
        }
    }
    Ok(())
}

/// A channel from 0 to 1, evenly by its bits or by its value.
fn unit(random: &mut Random) -> u32 {
    if random.one_in(2) {
        return random.below(ONE as usize + 1) as u32;
    }
    (random.below((1 << 24) + 1) as f32 / (1 << 24) as f32).to_bits()
}

/// The exact need, one place less, one more, and none.
fn rooms(len: usize) -> impl Iterator<Item = usize> {
    [Some(len), len.checked_sub(1), Some(len + 1), Some(0)]
        .into_iter()
        .flatten()
}

fn check_there(space: u16, samples: &[u16], room: usize, tally: &mut Counts) -> Checked {
    let call = format!(
        "{} samples of space {space} in {room} places",
        samples.len()
    );
    check(
        &call,
        samples,
        room,
        |from, to| reference::to_channels(space, from, to),
        |from, to| proved::tray::to_channels(space, from, to),
        tally,
    )
}

fn check_back(tag: u32, bits: &[u32], room: usize, tally: &mut Counts) -> Checked {
    let call = format!(
        "{} channels of model {tag:08X} in {room} places",
        bits.len()
    );
    check(
        &call,
        bits,
        room,
        |from, to| reference::to_samples(tag, from, to),
        |from, to| proved::tray::to_samples(tag, from, to),
        tally,
    )
}

fn check<From, To: Canary>(
    call: &str,
    from: &[From],
    room: usize,
    reference: impl Fn(&[From], &mut [To]) -> Result<(), Refusal>,
    library: impl Fn(&[From], &mut [To]) -> proved::tray::Answer,
    tally: &mut Counts,
) -> Checked {
    let mut lent = Lent::of(room);
    let wanted = expected::tray(reference(from, lent.for_reference()));
    let found = library(from, lent.for_library());
    agree(|| call.to_string(), &wanted, &found)?;
    let used = if wanted.number == 0 { from.len() } else { 0 };
    lent.agree(call, used)?;
    tally.add(wanted.number);
    Ok(())
}
