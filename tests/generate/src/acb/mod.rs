//! ACB books and records made up from a seed.

mod book;
mod damage;
mod fixed;
mod pickers;
mod records;

pub use book::{components, Book, Colour, Layout};
pub use damage::{damage, Damage};
pub use fixed::{
    fixed_files, fixed_strings, Answer, Fixed, FixedString, ANPA, ANPA_FULL_NAME, ANPA_LISTING,
    P10, P10_PAGES, P8, P8_SHOWN, P9, P9_SHOWN,
};
pub use pickers::IndexChange;
pub use records::{Header, Lot, LotDamage};

const RGB: u16 = 0;
const CMYK: u16 = 2;
const LAB: u16 = 7;
const SPACES: [u16; 3] = [RGB, CMYK, LAB];

/// What stands behind the colours: nothing, or one of two tags.
const TAGS: [&[u8]; 3] = [b"", b"spflspot", b"spflproc"];
