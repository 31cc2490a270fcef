//! Comparing walks: ACO and ASE colours, and ASE blocks, one a call.

mod aco;
mod ase;
pub mod campaign;
mod steps;
mod tally;

pub use tally::Tally;

/// The longest file that is stepped into at every place.
const SMALL_LEN: usize = 400;
