//! Swatch files, colour books, descriptors, resource sections and records made up
//! from a seed: sound ones, damaged ones, and a few fixed ones with the answers
//! written down beside them; those of ASE, ACB, descriptors and resources are in
//! their own modules. Then model tags and bit patterns of channels.
//!
//! Files are laid out here from the colours themselves, by no writer under test.

#![forbid(unsafe_code)]

pub mod acb;
pub mod ase;
mod bytes;
mod channels;
mod cuttings;
mod damage;
pub mod descriptor;
mod fixed;
mod names;
mod palette;
mod random;
mod records;
pub mod resource;
mod seasons;

pub use channels::{
    any_pattern, neighbourhoods, tags, CMYK_TAG, EACH_CLASS, GRAY_TAG, LAB_TAG, ONE, PAIRS,
    RGB_TAG, TAGS,
};
pub use cuttings::{chunks, Cutting};
pub use damage::{damage, Damage};
pub use fixed::{fixed_files, Answer, Fixed, P2, P3, P3_LISTING, P4};
pub use palette::{Colour, Layout, Palette, SPACES};
pub use random::Random;
pub use records::{Lot, LotDamage};
pub use seasons::{Change, Season};
