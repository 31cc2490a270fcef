//! ASE files and records made up from a seed.

mod damage;
mod fixed;
mod kinds;
mod palette;
mod records;

pub use damage::{damage, Damage};
pub use fixed::{
    fixed_files, Answer, Fixed, EVERY_MODEL, EVERY_MODEL_LISTING, P5, P6, P6_LISTING, P7,
};
pub use palette::{Block, Colour, Palette, MODELS};
pub use records::{Lot, LotDamage};

const HEAD_LEN: usize = 12;
const ENVELOPE_LEN: usize = 6;
const GROUP_START: u16 = 0xC001;
const GROUP_END: u16 = 0xC002;
const COLOUR: u16 = 0x0001;
pub(crate) const MAX_OPEN: usize = 16;
