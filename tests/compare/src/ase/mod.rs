//! Comparing ASE.

pub mod campaign;
mod expected;
pub mod listing;
mod reading;
mod tally;
mod writing;

pub use reading::check_file;
pub use tally::Tally;
