//! Comparing the totals over many files.

pub mod campaign;
mod reporting;
mod tally;

pub use reporting::check_add;
pub use tally::Tally;
