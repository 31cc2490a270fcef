//! What a book says before and behind its colours.

use super::layout::{STRINGS, TAG_LEN};
use crate::ink;

/// A string by where its units lie in the file, or in the text of a writer.
#[derive(Clone, Copy, Debug, Default, PartialEq, Eq)]
pub struct Text {
    pub place: usize,
    pub units: u32,
}

/// What stands behind the last colour.
#[derive(Clone, Copy, Debug, Default, PartialEq, Eq)]
pub enum Tag {
    #[default]
    None,
    Spot,
    Process,
    /// Another tag: a writer is handed it and refuses it; no file is read with it.
    Other,
}

impl Tag {
    /// The tags that a file may end with.
    pub const ALL: [Tag; 3] = [Tag::None, Tag::Spot, Tag::Process];

    /// The bytes of the tag; none where there is none, and any eight of another.
    pub fn bytes(self) -> &'static [u8] {
        match self {
            Tag::None => b"",
            Tag::Spot => b"spflspot",
            Tag::Process => b"spflproc",
            Tag::Other => &[0; TAG_LEN],
        }
    }

    /// The ink of every colour of a book, as its tag states it; another tag
    /// states none.
    pub fn ink(self) -> u32 {
        match self {
            Tag::Spot => ink::SPOT,
            Tag::Process => ink::PROCESS,
            Tag::None | Tag::Other => ink::NOT_STATED,
        }
    }

    pub(super) fn of(bytes: [u8; TAG_LEN]) -> Option<Self> {
        Tag::ALL.into_iter().find(|tag| tag.bytes() == bytes)
    }
}

#[derive(Clone, Copy, Debug, Default, PartialEq, Eq)]
pub struct Header {
    pub identifier: u16,
    pub page_size: u16,
    pub page_offset: u16,
    pub space: u16,
    pub tag: Tag,
    pub title: Text,
    pub prefix: Text,
    pub suffix: Text,
    pub description: Text,
}

impl Header {
    /// The strings in file order.
    pub fn strings(&self) -> [Text; STRINGS] {
        [self.title, self.prefix, self.suffix, self.description]
    }
}
