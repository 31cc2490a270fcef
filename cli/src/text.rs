//! Names as text.

use khuyurek::Units;
use std::ffi::OsStr;
use std::fmt::Write;

/// A name in quotes: its units as text. What would break the line, steer a terminal or
/// be mistaken for something else is escaped: `\"`, `\\`, and by its number in hex, as
/// `\u{A}`, each control or invisible character and each surrogate without its other half.
pub fn quoted(name: Units<'_>) -> String {
    quote(characters_of(name).into_iter())
}

/// The characters that the library gives for a name, and in the place of each U+FFFD that
/// stands for a surrogate without its other half that unit.
fn characters_of(name: Units<'_>) -> Vec<Result<char, u16>> {
    let mut units = name.iter();
    let character = |c: char| {
        let unit = units.nth(c.len_utf16() - 1);
        match unit.filter(|unit| (0xD800..0xE000).contains(unit)) {
            Some(unit) if c == char::REPLACEMENT_CHARACTER => Err(unit),
            _ => Ok(c),
        }
    };
    name.to_string().chars().map(character).collect()
}

/// The same of a text.
pub fn quoted_text(text: &str) -> String {
    quote(text.chars().map(Ok))
}

/// Bytes in quotes whose characters are not known: ASCII as it is, and each other byte
/// by its number in hex, as `\x8E`.
pub fn quoted_bytes(bytes: &[u8]) -> String {
    format!("\"{}\"", bytes.escape_ascii())
}

/// Bytes as text for programs: each is the character of its number.
pub fn characters(bytes: &[u8]) -> String {
    bytes.iter().map(|byte| char::from(*byte)).collect()
}

/// A name's units in hex, four digits each.
pub fn unit_digits(name: Units<'_>) -> String {
    name.iter().map(|unit| format!("{unit:04X}")).collect()
}

/// Whether a name has a surrogate without its other half, which no text has.
pub fn is_torn(name: Units<'_>) -> bool {
    characters_of(name).iter().any(Result::is_err)
}

/// A file's name, in quotes where it is empty or would break the line or steer a
/// terminal.
pub fn shown_name(name: &OsStr) -> String {
    let name = name.to_string_lossy();
    if name.is_empty() || name.chars().any(is_unseen) {
        quoted_text(&name)
    } else {
        name.into_owned()
    }
}

/// So many of something, in words.
pub fn many(count: usize, what: &str) -> String {
    let ending = if count == 1 { "" } else { "s" };
    format!("{count} {what}{ending}")
}

fn quote(chars: impl Iterator<Item = Result<char, u16>>) -> String {
    let mut quoted = String::from("\"");
    for c in chars {
        match c {
            Ok(c @ ('"' | '\\')) => quoted.extend(['\\', c]),
            Ok(c) if is_unseen(c) => escape(&mut quoted, c.into()),
            Ok(c) => quoted.push(c),
            Err(surrogate) => escape(&mut quoted, surrogate.into()),
        }
    }
    quoted.push('"');
    quoted
}

fn escape(quoted: &mut String, number: u32) {
    write!(quoted, "\\u{{{number:X}}}").expect("a string takes any text");
}

/// Controls, line and paragraph separators, and the characters that are not seen and
/// may turn the order of those that are.
fn is_unseen(c: char) -> bool {
    c.is_control()
        || matches!(c, '\u{200B}'..='\u{200F}' | '\u{2028}'..='\u{202E}' | '\u{2060}'..='\u{206F}' | '\u{FEFF}')
}
