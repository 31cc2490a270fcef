//! What the listing program prints.

use super::document::{section_of, Section, SIGNATURE};
use super::reader::{judge, Records};
use crate::listing::LISTING_LIMIT;
use crate::name;
use crate::refusal::{number, Refusal};
use std::fmt::Write;

/// The whole listing of an input, a refusal's single line among them. An input
/// that begins as a document lists the document's section.
pub fn list(input: &[u8]) -> String {
    match listed(input) {
        Ok(listing) => listing,
        Err(refusal) => format!("refused {} at {}\n", refusal.number, refusal.place),
    }
}

fn listed(input: &[u8]) -> Result<String, Refusal> {
    if input.starts_with(&SIGNATURE) {
        return list_document(input);
    }
    if input.len() > LISTING_LIMIT {
        return Err(Refusal::of_call(number::TOO_LONG));
    }
    let blocks = judge(input)?;
    Ok(list_accepted(input, blocks, 0))
}

/// All places are the document's.
fn list_document(input: &[u8]) -> Result<String, Refusal> {
    let Section { first, length } = section_within_limit(input)?;
    let section = &input[first..][..length];
    let blocks =
        judge(section).map_err(|refusal| Refusal::at(refusal.number, first + refusal.place))?;
    Ok(list_accepted(section, blocks, first))
}

/// The section of a document that may go on past the limit, where the section
/// itself does not: a field that is cut off at the limit, and not by the
/// document's end, is a section that ends past it.
fn section_within_limit(input: &[u8]) -> Result<Section, Refusal> {
    let taken = &input[..input.len().min(LISTING_LIMIT)];
    section_of(taken).map_err(|refusal| {
        if taken.len() < input.len() && refusal.number == number::CUT {
            Refusal::of_call(number::TOO_LONG)
        } else {
            refusal
        }
    })
}

fn list_accepted(section: &[u8], blocks: usize, first: usize) -> String {
    let mut listing = format!("8BIM {blocks}\n");
    for (index, record) in Records::new(section).enumerate() {
        let name = name::shown(record.name_in(section));
        let (id, data) = (record.id, first + record.data);
        writeln!(listing, "{index} {id} {name} {data} {}", record.data_length)
            .expect("a string takes any text");
    }
    listing.push_str("end\n");
    listing
}
