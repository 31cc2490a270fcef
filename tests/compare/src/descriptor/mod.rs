//! Comparing descriptors.

pub mod campaign;
mod expected;
pub mod listing;
mod reading;
mod tally;

pub use reading::check_file;
pub use tally::Tally;
