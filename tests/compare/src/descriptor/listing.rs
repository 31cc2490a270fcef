//! The inputs of the listing program of descriptors.

use crate::difference::{agree, Checked};
use crate::program::check_listings;
use generate::descriptor::{
    damage, deep, fixed_files, flat, wide, Damage, Laid, Object, EVERY_TYPE, EVERY_TYPE_LISTING,
    P12, P12_LISTING,
};
use generate::Random;
use reference::descriptor::{list, LISTING_LIMIT};
use std::path::Path;

/// Lists the fixed inputs, those about the limit and `files` made-up ones;
/// says how many.
pub fn run(program: &Path, seed: u64, files: u64) -> Checked<usize> {
    for (title, file, listing) in [
        ("P12", P12, P12_LISTING),
        ("every type", EVERY_TYPE, EVERY_TYPE_LISTING),
    ] {
        agree(
            || format!("the reference's listing of {title}"),
            &listing,
            &&*list(file),
        )?;
    }
    check_listings(program, &inputs(seed, files), list)
}

fn inputs(seed: u64, files: u64) -> Vec<Vec<u8>> {
    let mut inputs: Vec<Vec<u8>> = fixed_files().into_iter().map(|fixed| fixed.file).collect();
    let mut random = Random::new(seed);
    for len in [LISTING_LIMIT, LISTING_LIMIT + 1] {
        inputs.extend([flat(len), wide(&mut random, len), deep(len)].map(|long| long.file));
    }
    inputs.extend((0..files).map(|item| any_input(&mut Random::for_part(seed, item))));
    inputs
}

/// As often sound as not: a listing says more than a refusal.
fn any_input(random: &mut Random) -> Vec<u8> {
    let laid = Laid::of(&Object::any(random));
    let mut file = laid.file.clone();
    if random.one_in(2) {
        damage(&mut file, &laid, Damage::any(random), random);
    }
    file
}
