//! The inputs of the listing program of resources.

use crate::difference::{agree, Checked};
use crate::program::check_listings;
use generate::resource::{
    damage, fixed_documents, fixed_sections, Damage, Document, DocumentDamage, Section, DOCUMENT,
    DOCUMENT_LISTING, EVERY_PAD, EVERY_PAD_LISTING, ONE_BLOCK, ONE_BLOCK_LISTING,
};
use generate::Random;
use reference::resource::BARE_BLOCK_LEN;
use reference::LISTING_LIMIT;
use std::path::Path;

/// Lists the fixed inputs, those about the limit and `files` made-up ones;
/// says how many.
pub fn run(program: &Path, seed: u64, files: u64) -> Checked<usize> {
    for (title, input, listing) in [
        ("one block", ONE_BLOCK, ONE_BLOCK_LISTING),
        ("every pad", EVERY_PAD, EVERY_PAD_LISTING),
        ("a document", DOCUMENT, DOCUMENT_LISTING),
    ] {
        agree(
            || format!("the reference's listing of {title}"),
            &listing,
            &&*reference::resource::list(input),
        )?;
    }
    check_listings(program, &inputs(seed, files), reference::resource::list)
}

fn inputs(seed: u64, files: u64) -> Vec<Vec<u8>> {
    let fixed = fixed_sections().into_iter().chain(fixed_documents());
    let mut inputs: Vec<Vec<u8>> = fixed.map(|fixed| fixed.file).collect();
    let mut random = Random::new(seed);
    inputs.extend(sections_about_the_limit(&mut random));
    inputs.extend(documents_about_the_limit(&mut random));
    inputs.extend((0..files).map(|item| any_input(&mut Random::for_part(seed, item))));
    inputs
}

/// Sound sections of exactly the limit, the same with a byte more, and sound
/// sections that are too long; the most blocks, and one more.
fn sections_about_the_limit(random: &mut Random) -> [Vec<u8>; 5] {
    let exact = Section::of_length(random, 100, LISTING_LIMIT).bytes();
    let one_more = [&exact[..], &[0]].concat();
    let longer = Section::of_length(random, 7, LISTING_LIMIT + 2).bytes();
    let most = LISTING_LIMIT / BARE_BLOCK_LEN;
    let [most, too_many] = [most, most + 1].map(|blocks| Section::bare(blocks).bytes());
    [exact, one_more, longer, most, too_many]
}

/// Documents whose section ends at the limit, or past it, each alone, with more
/// behind it, cut at the limit, and damaged before the section; then those whose
/// colour mode data reaches the limit.
fn documents_about_the_limit(random: &mut Random) -> Vec<Vec<u8>> {
    let mut inputs = Vec::new();
    for over in [0, 2, 4] {
        let mut document = Document::holding(Vec::new());
        let room = LISTING_LIMIT - document.section_place();
        document.section = Section::of_length(random, 50, room + over).bytes();
        inputs.extend(behind_and_damaged(document, random));
    }
    for short in [36, 35, 34, 33, 30, 0] {
        let mut document = Document::holding(ONE_BLOCK.to_vec());
        document.colour_data = vec![0; LISTING_LIMIT - short];
        inputs.extend(behind_and_damaged(document, random));
    }
    inputs
}

fn behind_and_damaged(mut document: Document, random: &mut Random) -> Vec<Vec<u8>> {
    let alone = document.file();
    let cut = alone[..alone.len().min(LISTING_LIMIT)].to_vec();
    let behind = 1 + random.below(LISTING_LIMIT);
    document.behind = random.bytes(behind);
    let mut damaged = document.file();
    let kind = random.pick(&[
        DocumentDamage::VersionWrong,
        DocumentDamage::ReservedSet,
        DocumentDamage::SectionLengthHuge,
        DocumentDamage::SectionDamaged,
    ]);
    document.damage(&mut damaged, kind, random);
    vec![alone, cut, document.file(), damaged]
}

/// As often sound as not: a listing says more than a refusal.
fn any_input(random: &mut Random) -> Vec<u8> {
    let damaged = random.one_in(2);
    if random.one_in(2) {
        let document = Document::any(random);
        if damaged {
            return document.damaged(DocumentDamage::any(random), random);
        }
        return document.file();
    }
    let mut section = Section::any(random).bytes();
    if damaged {
        damage(&mut section, Damage::any(random), random);
    }
    section
}
