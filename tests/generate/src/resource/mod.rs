//! Resource sections, records of them and whole documents made up from a seed.

mod damage;
mod document;
mod fixed;
mod records;
mod section;

pub use damage::{damage, Damage};
pub use document::{Document, DocumentDamage};
pub use fixed::{
    fixed_documents, fixed_sections, Answer, Fixed, DOCUMENT, DOCUMENT_LISTING, EVERY_PAD,
    EVERY_PAD_LISTING, EVERY_PAD_ROWS, ONE_BLOCK, ONE_BLOCK_LISTING,
};
pub use records::{Lot, LotDamage};
pub use section::{Block, Section};

const SIGNATURE: [u8; 4] = *b"8BIM";
/// A block without name and data.
const BARE_BLOCK_LEN: usize = 12;
/// The longest name, in bytes.
const MAX_NAME: usize = 255;
