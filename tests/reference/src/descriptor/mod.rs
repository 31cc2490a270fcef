//! The rules of serialized descriptors. Refusals and the limit are those of the
//! other formats.

mod build;
mod entries;
mod entry;
mod find;
mod layout;
mod listing;
mod reader;
mod replace;
mod rows;
mod table;
mod walk;

pub use build::{build, build_length};
pub use entries::entries;
pub use entry::ENTRY_LEN;
pub use find::{find, NotFound};
pub use layout::MAX_DEPTH;
pub use listing::{list, LISTING_LIMIT};
pub use reader::{judge, parents, read, typed, value, values, Columns, Typed, Value};
pub use replace::{replace, Replacement};
pub use table::Table;
