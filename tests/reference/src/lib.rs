//! The rules of ACO and ASE swatch files, of samples and channels, of ACB colour
//! books, of descriptors and of resource sections, in plain, safe Rust. What is of
//! ASE, ACB, descriptors or resources alone is in its own module.
//!
//! Written from the rules themselves, without a look at the proved
//! library: where the two agree, they agree by the rules. It is also what the
//! proved library is timed against, so it goes over a file in linear time,
//! copies nothing, and fills lent slices in place.

#![forbid(unsafe_code)]

pub mod acb;
pub mod ase;
pub mod chunks;
mod colour;
mod convert;
mod cursor;
pub mod descriptor;
pub mod ink;
pub mod kind;
mod listing;
mod model;
mod name;
mod output;
mod reader;
mod refusal;
pub mod report;
pub mod resource;
pub mod season;
mod step;
pub mod text;
mod tray;
mod walk;
mod writer;

pub use colour::{COLOUR_LEN, HEAD_LEN, MAX_COLOURS, NAME_COUNT_LEN, SAMPLES};
pub use convert::{to_channel, to_sample};
pub use listing::{list, LISTING_LIMIT};
pub use name::UNIT_LEN;
pub use reader::{judge, read, record, Accepted, Swatch};
pub use refusal::{number, Refusal};
pub use step::Step;
pub use tray::{to_channels, to_samples};
pub use walk::{walk, walk_start};
pub use writer::{length, write};

/// The longest file read and the longest output written, in bytes.
pub const LIMIT: usize = 16_777_216;

/// The numbers that stand for a colour in a table or in records to be written:
/// the space, four samples, the name's place and its units, and the ink.
pub const ROW_LEN: usize = 8;
