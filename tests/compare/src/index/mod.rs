//! Comparing the colours of a book by their names.

pub mod campaign;
mod finding;
mod tally;

pub use tally::Tally;
