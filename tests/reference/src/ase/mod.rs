//! The rules of ASE palettes. Refusals, names, models and limits are those that
//! ACO and the conversions have, too.

mod layout;
mod listing;
mod reader;
mod walk;
mod writer;

pub use layout::{
    CHANNELS, COLOUR, ENVELOPE_LEN, GROUP_END, GROUP_START, HEAD_LEN, MAX_OPEN, ROW_LEN,
};
pub use listing::list;
pub(crate) use reader::Records;
pub use reader::{judge, read, record, Accepted, Record};
pub use walk::{walk, walk_block, walk_start};
pub use writer::{length, write};
