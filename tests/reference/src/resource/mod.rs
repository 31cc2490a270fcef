//! The rules of sections of image resource blocks, and of the section of a whole
//! Photoshop document. Refusals and the limit are those of the other formats.

mod document;
mod layout;
mod listing;
mod reader;
mod writer;

pub use document::{section_of, Section};
pub use layout::{BARE_BLOCK_LEN, MAX_NAME, ROW_LEN};
pub use listing::list;
pub use reader::{data, find, judge, name, read, record, Record};
pub use writer::{length, write};
