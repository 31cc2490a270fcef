//! The inputs of the listing program of ACB.

use crate::difference::{agree, Checked};
use crate::program::check_listings;
use generate::acb::{damage, fixed_files, Book, Damage, ANPA, ANPA_LISTING};
use generate::Random;
use reference::LISTING_LIMIT;
use std::path::Path;

/// Lists the fixed inputs, those about the limit and `files` made-up ones;
/// says how many.
pub fn run(program: &Path, seed: u64, files: u64) -> Checked<usize> {
    agree(
        || "the reference's listing of ANPA".to_string(),
        &ANPA_LISTING,
        &&*reference::acb::list(&ANPA),
    )?;
    check_listings(program, &inputs(seed, files), reference::acb::list)
}

fn inputs(seed: u64, files: u64) -> Vec<Vec<u8>> {
    let mut inputs: Vec<Vec<u8>> = fixed_files().into_iter().map(|fixed| fixed.file).collect();
    let mut random = Random::new(seed);
    inputs.extend(inputs_about_the_limit(&mut random));
    inputs.extend((0..files).map(|item| any_input(&mut Random::for_part(seed, item))));
    inputs
}

/// Sound files of exactly the limit, one of them with as many colours and pages
/// as there may be, the same with a byte more, and a sound file that is too long.
fn inputs_about_the_limit(random: &mut Random) -> [Vec<u8>; 4] {
    let exact = Book::of_length(random, 100, LISTING_LIMIT).file();
    let one_more = [&exact[..], &[0]].concat();
    let longer = Book::of_length(random, 7, LISTING_LIMIT + 2).file();
    let mut most = Book::of_length(random, (LISTING_LIMIT - 32) / 14, LISTING_LIMIT);
    most.page_size = 1;
    [exact, one_more, longer, most.file()]
}

/// As often sound as not: a listing says more than a refusal.
fn any_input(random: &mut Random) -> Vec<u8> {
    let book = Book::any(random);
    let mut file = book.file();
    if random.one_in(2) {
        damage(&mut file, &book, Damage::any(random), random);
    }
    file
}
