//! The inputs of the listing program of ASE.

use crate::difference::{agree, Checked};
use crate::program::check_listings;
use generate::ase::{
    damage, fixed_files, Damage, Palette, EVERY_MODEL, EVERY_MODEL_LISTING, P6, P6_LISTING,
};
use generate::Random;
use reference::LISTING_LIMIT;
use std::path::Path;

/// The most empty groups that the limit has room for: 16 bytes each, and 12
/// before them.
const GROUPS_WITHIN_LIMIT: usize = (LISTING_LIMIT - 12) / 16;

/// Lists the fixed inputs, those about the limit and `files` made-up ones;
/// says how many.
pub fn run(program: &Path, seed: u64, files: u64) -> Checked<usize> {
    for (title, file, listing) in [
        ("P6", P6, P6_LISTING),
        ("every model", EVERY_MODEL, EVERY_MODEL_LISTING),
    ] {
        agree(
            || format!("the reference's listing of {title}"),
            &listing,
            &&*reference::ase::list(file),
        )?;
    }
    check_listings(program, &inputs(seed, files), reference::ase::list)
}

fn inputs(seed: u64, files: u64) -> Vec<Vec<u8>> {
    let mut inputs: Vec<Vec<u8>> = fixed_files().into_iter().map(|fixed| fixed.file).collect();
    let mut random = Random::new(seed);
    inputs.extend(inputs_about_the_limit(&mut random));
    inputs.push(Palette::empty_groups(GROUPS_WITHIN_LIMIT).file());
    inputs.push(Palette::empty_groups(GROUPS_WITHIN_LIMIT + 1).file());
    inputs.extend((0..files).map(|item| any_input(&mut Random::for_part(seed, item))));
    inputs
}

/// A sound file of exactly the limit, the same with a byte more, and a sound
/// file that is too long.
fn inputs_about_the_limit(random: &mut Random) -> [Vec<u8>; 3] {
    let exact = Palette::of_length(random, 100, LISTING_LIMIT).file();
    let one_more = [&exact[..], &[0]].concat();
    let longer = Palette::of_length(random, 7, LISTING_LIMIT + 2).file();
    [exact, one_more, longer]
}

/// As often sound as not: a listing says more than a refusal.
fn any_input(random: &mut Random) -> Vec<u8> {
    let mut file = Palette::any(random).file();
    if random.one_in(2) {
        damage(&mut file, Damage::any(random), random);
    }
    file
}
