//! Names and strings.

use std::fmt::{self, Debug, Display, Formatter, Write};

use crate::raw::text;
use crate::text::exact;
use crate::Refusal;

/// A name or string: UTF-16 code units, big-endian, as they lie in a file. It is
/// shown as text with U+FFFD for each surrogate that is not one of a pair.
#[derive(Clone, Copy, Default, PartialEq, Eq, Hash)]
pub struct Units<'a>(&'a [u8]);

impl<'a> Units<'a> {
    /// The units in some bytes; an odd last byte is no unit and is left out.
    pub fn new(bytes: &'a [u8]) -> Self {
        Units(&bytes[..bytes.len() / 2 * 2])
    }

    /// The bytes of a text's units, without a closing zero.
    pub fn encode(text: &str) -> Vec<u8> {
        text.encode_utf16().flat_map(u16::to_be_bytes).collect()
    }

    /// Units that the library says lie in a file, and that therefore do.
    pub(crate) fn lying(file: &'a [u8], place: usize, units: u32) -> Self {
        Units(&file[place..place + 2 * units as usize])
    }

    /// The bytes, a part of the file.
    pub fn bytes(self) -> &'a [u8] {
        self.0
    }

    /// How many units there are.
    pub fn len(self) -> usize {
        self.0.len() / 2
    }

    /// Whether there is no unit.
    pub fn is_empty(self) -> bool {
        self.0.is_empty()
    }

    /// The units as numbers.
    pub fn iter(self) -> impl Iterator<Item = u16> + 'a {
        let pairs = self.0.chunks_exact(2);
        pairs.map(|pair| u16::from_be_bytes([pair[0], pair[1]]))
    }

    /// The text, with U+FFFD for each unpaired surrogate. Units of more bytes
    /// than the limit are refused by 1; a file's never are.
    pub fn to_utf8(self) -> Result<String, Refusal> {
        let units = self.len();
        let needed = text::name_utf8_length(self.0, 0, units);
        let bytes = exact(needed, |out| text::name_utf8(self.0, 0, units, out))?;
        Ok(String::from_utf8(bytes).expect("what the library writes is UTF-8"))
    }

    /// The characters, with U+FFFD for each unpaired surrogate.
    pub fn chars(self) -> impl Iterator<Item = char> + 'a {
        char::decode_utf16(self.iter()).map(|c| c.unwrap_or(char::REPLACEMENT_CHARACTER))
    }
}

impl Display for Units<'_> {
    fn fmt(&self, f: &mut Formatter<'_>) -> fmt::Result {
        match self.to_utf8() {
            Ok(text) => f.write_str(&text),
            // More than the limit, and so of no file.
            Err(_) => self.chars().try_for_each(|c| f.write_char(c)),
        }
    }
}

impl Debug for Units<'_> {
    fn fmt(&self, f: &mut Formatter<'_>) -> fmt::Result {
        Debug::fmt(&self.to_string(), f)
    }
}
