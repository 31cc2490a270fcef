//! Comparing descriptors that are built from entries, and the entries of files.

mod building;
pub mod campaign;
mod tally;

pub use tally::Tally;
