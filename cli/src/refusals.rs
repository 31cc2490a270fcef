//! Refusals in words and as JSON.

use crate::files::{Kind, Taken};
use crate::json::Object;
use crate::places::{find, Where};
use khuyurek::Refusal;
use std::io;

/// The bytes shown at the place of a refusal.
const SHOWN_BYTES: usize = 8;
/// Refusals that are no field's.
const TOO_LONG: u32 = 1;
const NO_COUNTERPART: u32 = 14;

/// A file's refusal on one line: its name and kind, the number and place, the table's
/// sentence, and for 7 the record and field.
pub fn line(file: &Taken, refusal: &Refusal) -> String {
    format!("{} ({}): {refusal}", file.title, file.kind.title())
}

/// A refusal with the record or block that its place is in, and the bytes there.
pub fn whole(file: &Taken, refusal: &Refusal) -> String {
    let mut whole = refusal.to_string();
    match find(file, refusal) {
        // That is shown already.
        None | Some(Where::Field(..)) => {}
        Some(within) => whole += &format!(" ({})", within.words()),
    }
    if has_field(refusal) {
        let bytes = bytes_at(&file.bytes, refusal.place, SHOWN_BYTES);
        let shown = if bytes.is_empty() {
            "the end".to_string()
        } else {
            hex(bytes, " ")
        };
        whole += &format!("; there: {shown}");
    }
    if let Some(other) = in_list_1(file, refusal) {
        whole += &format!("; list 1 has {}", hex(other, " "));
    }
    whole
}

/// The same as an object.
pub fn object(file: &Taken, refusal: &Refusal, mut object: Object<'_>) -> io::Result<()> {
    object.plain("number", refusal.number)?;
    object.plain("place", refusal.place)?;
    object.text("sentence", refusal.sentence())?;
    let within = find(file, refusal);
    match &within {
        None | Some(Where::Part(_)) => {}
        Some(Where::Record(record, list)) => {
            object.plain("record", record)?;
            if let Some(list) = list {
                object.plain("list", list)?;
            }
        }
        Some(Where::Field(record, field)) => {
            object.plain("record", record)?;
            object.plain("field", field)?;
        }
        Some(Where::Block(block)) => object.plain("block", block)?,
        Some(Where::Row(row, path)) => {
            object.plain("row", row)?;
            let mut array = object.array("path")?;
            path.iter().try_for_each(|key| array.text(key))?;
            array.end()?;
        }
    }
    if let Some(within) = within {
        object.text("where", &within.words())?;
    }
    if has_field(refusal) {
        let bytes = bytes_at(&file.bytes, refusal.place, SHOWN_BYTES);
        object.text("bytes", &hex(bytes, ""))?;
    }
    if let Some(other) = in_list_1(file, refusal) {
        object.text("list_1_bytes", &hex(other, ""))?;
    }
    object.end()
}

/// Bytes in hex.
pub fn hex(bytes: &[u8], between: &str) -> String {
    let digits: Vec<String> = bytes.iter().map(|byte| format!("{byte:02X}")).collect();
    digits.join(between)
}

fn has_field(refusal: &Refusal) -> bool {
    !matches!(refusal.number, TOO_LONG | NO_COUNTERPART)
}

/// At most so many bytes at a place; a file may end there.
fn bytes_at(bytes: &[u8], place: usize, most: usize) -> &[u8] {
    let rest = bytes.get(place..).unwrap_or_default();
    &rest[..rest.len().min(most)]
}

/// What list 1 of an ACO file has where list 2 differs: the field of the same record,
/// or the count.
fn in_list_1<'a>(file: &'a Taken, refusal: &Refusal) -> Option<&'a [u8]> {
    const COUNT: usize = 5;
    if file.kind != Kind::Aco || refusal.number != 7 {
        return None;
    }
    let place = match refusal.field {
        COUNT => 2,
        field => 4 + 10 * refusal.record + 2 * field,
    };
    Some(bytes_at(&file.bytes, place, 2))
}
