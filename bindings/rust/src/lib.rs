//! Colour files judged, read and written by a proved library: what its C
//! interface gives, as types of Rust. docs/INTERFACE.md has every function and
//! its refusals.
//!
//! A swatch palette becomes an ASE palette, where every colour has a
//! counterpart:
//!
//! ```
//! use khuyurek::{aco, ase, to_channel, Ink, Refusal, Space};
//!
//! fn to_ase(file: &[u8]) -> Result<Vec<u8>, Refusal> {
//!     let mut blocks = Vec::new();
//!     for swatch in aco::walk(file)? {
//!         let channel = |i: usize| to_channel(swatch.space, swatch.samples[i]);
//!         let channels = match swatch.space {
//!             Space::Cmyk => {
//!                 ase::Channels::Cmyk([channel(0)?, channel(1)?, channel(2)?, channel(3)?])
//!             }
//!             Space::Gray => ase::Channels::Gray(channel(0)?),
//!             // HSB and Lab have no counterpart: their channels are refused.
//!             _ => ase::Channels::Rgb([channel(0)?, channel(1)?, channel(2)?]),
//!         };
//!         let name = swatch.name;
//!         // An ACO file does not state an ink, and an ASE file must.
//!         let ink = Ink::Global;
//!         blocks.push(ase::Block::Colour(ase::Colour { name, channels, ink }));
//!     }
//!     ase::write(&blocks)
//! }
//!
//! let gray = [0, 1, 0, 1, 0, 8, 0x27, 0x10, 0, 0, 0, 0, 0, 0];
//! let palette = to_ase(&gray).unwrap();
//! assert_eq!(ase::judge(&palette).unwrap().colours, 1);
//! let lab = [0, 1, 0, 1, 0, 7, 0, 0, 0, 0, 0, 0, 0, 0];
//! assert_eq!(to_ase(&lab).unwrap_err().number, 14);
//! ```
//!
//! Nothing here is `unsafe`: the declarations of the C functions, and the calls
//! of them, are in the crate `khuyurek-sys`, which is [`raw`] here. It has the same
//! calls on numbers and slices, for a program that lends its own tables.

#![forbid(unsafe_code)]
#![warn(missing_docs)]

pub mod acb;
pub mod aco;
pub mod ase;
pub mod compare;
mod convert;
pub mod descriptor;
mod ink;
mod refusal;
pub mod report;
pub mod resource;
mod space;
pub mod stream;
mod text;
mod units;

pub use convert::{to_channel, to_channels, to_sample, to_samples};
pub use ink::Ink;
pub use khuyurek_sys as raw;
pub use refusal::Refusal;
pub use space::{Model, Space};
pub use units::Units;

/// The longest file that is taken or written, in bytes.
pub const LIMIT: usize = 16_777_216;
