//! What the listing program prints.

use crate::name::{self, UNIT_LEN};
use crate::reader::{judge, Accepted, Swatch, Swatches};
use crate::refusal::{number, Refusal};
use std::fmt::Write;

/// The longest input the listing program takes, in bytes.
pub const LISTING_LIMIT: usize = 65_536;

/// The whole listing of an input, a refusal's single line among them.
pub fn list(input: &[u8]) -> String {
    match judge_input(input) {
        Ok(accepted) => list_accepted(input, accepted),
        Err(refusal) => format!("refused {} at {}\n", refusal.number, refusal.place),
    }
}

fn judge_input(input: &[u8]) -> Result<Accepted, Refusal> {
    if input.len() > LISTING_LIMIT {
        return Err(Refusal::of_call(number::TOO_LONG));
    }
    judge(input)
}

fn list_accepted(file: &[u8], accepted: Accepted) -> String {
    let kind = if accepted.lists == 2 {
        "names"
    } else {
        "plain"
    };
    let mut listing = format!("ACO {} {kind}\n", accepted.colours);
    for (index, swatch) in Swatches::new(file, accepted).enumerate() {
        let [a, b, c, d] = swatch.samples;
        let name = shown_name(file, &swatch);
        writeln!(listing, "{index} {} {a} {b} {c} {d} {name}", swatch.space)
            .expect("a string takes any text");
    }
    listing.push_str("end\n");
    listing
}

fn shown_name(file: &[u8], swatch: &Swatch) -> String {
    name::shown(&file[swatch.name..][..UNIT_LEN * swatch.units as usize])
}
