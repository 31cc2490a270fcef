//! Comparing what becomes of two palettes that are compared.

pub mod campaign;
mod comparing;
mod tally;

pub use comparing::check_pair;
pub use tally::Tally;
