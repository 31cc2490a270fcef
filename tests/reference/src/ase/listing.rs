//! What the listing program prints.

use super::layout::{COLOUR, GROUP_START};
use super::reader::{judge, Accepted, Record, Records};
use crate::ink;
use crate::listing::LISTING_LIMIT;
use crate::model::{self, channel_count};
use crate::name::{self, UNIT_LEN};
use crate::refusal::{number, Refusal};
use std::fmt::Write;

/// The whole listing of an input, a refusal's single line among them.
pub fn list(input: &[u8]) -> String {
    match judge_input(input) {
        Ok(accepted) => list_accepted(input, accepted),
        Err(refusal) => format!("refused {} at {}\n", refusal.number, refusal.place),
    }
}

fn judge_input(input: &[u8]) -> Result<Accepted, Refusal> {
    if input.len() > LISTING_LIMIT {
        return Err(Refusal::of_call(number::TOO_LONG));
    }
    judge(input)
}

fn list_accepted(file: &[u8], accepted: Accepted) -> String {
    let mut listing = format!("ASE {}\n", accepted.blocks);
    for (index, record) in Records::new(file, accepted).enumerate() {
        writeln!(listing, "{index} {}", shown(file, &record)).expect("a string takes any text");
    }
    listing.push_str("end\n");
    listing
}

fn shown(file: &[u8], record: &Record) -> String {
    let name = name::shown(&file[record.name..][..UNIT_LEN * record.units as usize]);
    match record.block {
        COLOUR => format!("colour {} {name}", shown_colour(record)),
        GROUP_START => format!("group {name}"),
        _ => "close".to_string(),
    }
}

/// The model, each channel's bits and the ink, as words.
fn shown_colour(record: &Record) -> String {
    let (model, ink) = (model_word(record.model), ink_word(record.ink));
    let count = channel_count(record.model).expect("an accepted file's models are known");
    let channels: Vec<String> = record.channels[..count]
        .iter()
        .map(|bits| format!("{bits:08X}"))
        .collect();
    format!("{model} {} {ink}", channels.join(" "))
}

fn model_word(tag: u32) -> &'static str {
    match tag {
        model::RGB => "RGB",
        model::CMYK => "CMYK",
        model::LAB => "LAB",
        _ => "Gray",
    }
}

fn ink_word(ink: u32) -> &'static str {
    match ink {
        ink::GLOBAL => "global",
        ink::SPOT => "spot",
        _ => "normal",
    }
}
