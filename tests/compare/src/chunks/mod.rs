//! Comparing ACO files that are taken in chunks.

mod altered;
pub mod campaign;
mod feeding;
mod stores;
mod tally;

pub use tally::Tally;
