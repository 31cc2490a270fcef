//! What the listing program prints.

use super::reader::{judge, parents, read, Columns};
use crate::refusal::{number, Refusal};
use std::fmt::Write;

/// The longest input the listing program takes, in bytes.
pub const LISTING_LIMIT: usize = 16_384;

/// The whole listing of an input, a refusal's single line among them.
pub fn list(input: &[u8]) -> String {
    match rows_of(input) {
        Ok(rows) => list_accepted(&rows),
        Err(refusal) => format!("refused {} at {}\n", refusal.number, refusal.place),
    }
}

/// Of each row its kind, parent, first byte, length and depth.
fn rows_of(input: &[u8]) -> Result<Vec<[u32; 5]>, Refusal> {
    if input.len() > LISTING_LIMIT {
        return Err(Refusal::of_call(number::TOO_LONG));
    }
    let run = vec![0; judge(input)?];
    let [mut first, mut length, mut next, mut depth, mut kind] = [(); 5].map(|()| run.clone());
    let columns = Columns {
        first: &mut first,
        length: &mut length,
        next: &mut next,
        depth: &mut depth,
        kind: &mut kind,
    };
    read(input, columns)?;
    let mut parent = run;
    parents(&depth, &mut parent)?;
    let row = |i: usize| [kind[i], parent[i], first[i], length[i], depth[i]];
    Ok((0..parent.len()).map(row).collect())
}

fn list_accepted(rows: &[[u32; 5]]) -> String {
    let mut listing = format!("DESC {}\n", rows.len());
    for (row, &[kind, parent, first, length, depth]) in rows.iter().enumerate() {
        let kind = kind.to_be_bytes();
        let kind = kind.trim_ascii_end().escape_ascii();
        writeln!(listing, "{row} {kind} {parent} {first} {length} {depth}")
            .expect("a string takes any text");
    }
    listing.push_str("end\n");
    listing
}
