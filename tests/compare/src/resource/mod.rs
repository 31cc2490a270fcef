//! Comparing resource sections, and the documents that they stand in.

pub mod campaign;
mod expected;
pub mod listing;
mod reading;
mod tally;
mod writing;

pub use reading::{check_document, check_section};
pub use tally::Tally;
