//! Values of a descriptor's rows.
//!
//! Where a value lies, and that it is one of its kind, is the library's answer for the
//! accepted file; here its numbers and texts are taken out.

use khuyurek::descriptor::{Row, Tag};
use khuyurek::Units;

/// A row's key and value.
pub struct Member<'a> {
    /// The bytes of its key's ID, where it is a pair.
    pub key: Option<&'a [u8]>,
    pub value: Value<'a>,
}

pub enum Value<'a> {
    Bool(bool),
    Whole(i64),
    Double(f64),
    Measure(Tag, f64),
    Text(Units<'a>),
    /// The IDs of the type and of the value.
    Enumerated(&'a [u8], &'a [u8]),
    /// The ID of a class.
    Class(&'a [u8]),
    /// So many bytes that are not looked into.
    Data(usize),
    /// Children alone, or nothing that is shown.
    Other,
}

/// A row's key and value, by the place at which the value begins.
pub fn member<'a>(file: &'a [u8], row: &Row, value: usize) -> Member<'a> {
    let bytes = file.get(value..row.first + row.length).unwrap_or_default();
    // Before the value stand a key, in a pair, and the type.
    let head = file.get(row.first..value).unwrap_or_default();
    let key = (head.len() > 4).then(|| id(head)).flatten();
    Member {
        key: key.map(|(key, _)| key),
        value: taken(row.kind, bytes).unwrap_or(Value::Other),
    }
}

fn taken(kind: Tag, bytes: &[u8]) -> Option<Value<'_>> {
    Some(match &kind.0 {
        b"bool" => Value::Bool(*bytes.first()? != 0),
        b"long" => Value::Whole(i32::from_be_bytes(*bytes.first_chunk()?).into()),
        b"comp" => Value::Whole(i64::from_be_bytes(*bytes.first_chunk()?)),
        b"doub" => Value::Double(f64::from_be_bytes(*bytes.first_chunk()?)),
        b"UntF" => {
            let (unit, number) = bytes.split_first_chunk()?;
            Value::Measure(Tag(*unit), f64::from_be_bytes(*number.first_chunk()?))
        }
        b"TEXT" => Value::Text(string(bytes)?.0),
        b"enum" => {
            let (of, rest) = id(bytes)?;
            Value::Enumerated(of, id(rest)?.0)
        }
        b"Objc" | b"GlbO" | b"type" | b"GlbC" => {
            let (_, rest) = string(bytes)?;
            Value::Class(id(rest)?.0)
        }
        b"alis" | b"tdta" | b"Pth " => Value::Data(bytes.len().checked_sub(4)?),
        _ => Value::Other,
    })
}

/// A Unicode string without its closing zero, and what follows it.
fn string(bytes: &[u8]) -> Option<(Units<'_>, &[u8])> {
    let (count, rest) = bytes.split_first_chunk()?;
    let length = 2 * usize::try_from(u32::from_be_bytes(*count)).ok()?;
    let (units, rest) = rest.split_at_checked(length)?;
    let units = units.strip_suffix(&[0, 0]).unwrap_or(units);
    Some((Units::new(units), rest))
}

/// An ID's bytes, and what follows it.
fn id(bytes: &[u8]) -> Option<(&[u8], &[u8])> {
    let (length, rest) = bytes.split_first_chunk()?;
    let length = match u32::from_be_bytes(*length) {
        0 => 4,
        length => usize::try_from(length).ok()?,
    };
    rest.split_at_checked(length)
}
