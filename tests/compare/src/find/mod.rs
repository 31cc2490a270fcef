//! Comparing the search for keys in descriptors.

mod asking;
pub mod campaign;
mod tally;

pub use tally::Tally;
