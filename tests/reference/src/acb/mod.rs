//! The rules of ACB colour books. Refusals and limits are those of the other
//! formats.

mod header;
mod index;
mod layout;
mod listing;
mod reader;
mod shown;
mod writer;

pub use header::{Header, Tag, Text};
pub use index::{find, index};
pub use layout::{BARE_HEAD_LEN, CODE_LEN, COMPONENTS, MAX_COLOURS, ROW_LEN, STRINGS, TAG_LEN};
pub(crate) use layout::{CMYK, RGB};
pub use listing::list;
pub(crate) use reader::judge_whole;
pub use reader::{judge, read, record, Accepted, Record};
pub use shown::{full_length, full_name, page, shown, shown_start, shown_text, Shown};
pub use writer::{length, write};
