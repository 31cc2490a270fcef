//! Comparing replacements in descriptors.

pub mod campaign;
mod replacing;
mod tally;

pub use tally::Tally;
