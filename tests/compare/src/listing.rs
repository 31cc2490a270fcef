//! The inputs of the listing program of ACO.

use crate::difference::{agree, Checked};
use crate::program::check_listings;
use generate::{damage, fixed_files, Damage, Palette, Random, P3, P3_LISTING};
use reference::{LISTING_LIMIT, MAX_COLOURS};
use std::path::Path;

/// Lists the fixed inputs, those about the limit and `files` made-up ones;
/// says how many.
pub fn run(program: &Path, seed: u64, files: u64) -> Checked<usize> {
    agree(
        || "the reference's listing of P3".to_string(),
        &P3_LISTING,
        &&*reference::list(P3),
    )?;
    check_listings(program, &inputs(seed, files), reference::list)
}

fn inputs(seed: u64, files: u64) -> Vec<Vec<u8>> {
    let mut inputs: Vec<Vec<u8>> = fixed_files().into_iter().map(|fixed| fixed.file).collect();
    let mut random = Random::new(seed);
    inputs.extend(inputs_about_the_limit(&mut random));
    inputs.push(Palette::plain(&mut random, MAX_COLOURS).file());
    inputs.extend((0..files).map(|item| any_input(&mut Random::for_part(seed, item))));
    inputs
}

/// A sound file of exactly the limit, the same with a byte more, and a sound
/// file that is too long.
fn inputs_about_the_limit(random: &mut Random) -> [Vec<u8>; 3] {
    let exact = Palette::of_length(random, 100, LISTING_LIMIT).file();
    let one_more = [&exact[..], &[0]].concat();
    let longer = Palette::of_length(random, 7, LISTING_LIMIT + 2).file();
    [exact, one_more, longer]
}

/// As often sound as not: a listing says more than a refusal.
fn any_input(random: &mut Random) -> Vec<u8> {
    let palette = Palette::any(random);
    let mut file = palette.file();
    if random.one_in(2) {
        damage(&mut file, &palette, Damage::any(random), random);
    }
    file
}
