//! What the program writes, in the words of docs/COMMAND.md.

use reference::Refusal;

/// The table of refusals stands in it.
const RULES: &str = include_str!("../../../../docs/RULES.md");

pub fn sentence(number: u32) -> &'static str {
    let first = format!("| {number} | ");
    let mut lines = RULES.lines();
    let line = lines.find_map(|line| line.strip_prefix(&first));
    line.and_then(|line| line.strip_suffix(" |"))
        .expect("the table of docs/RULES.md has every number")
}

pub fn refused(name: &str, kind: &str, refusal: &Refusal) -> String {
    let Refusal {
        number,
        place,
        record,
        field,
    } = *refusal;
    let mut line = format!("{name} ({kind}): refused {number} at {place}: ");
    line += sentence(number);
    if number == 7 {
        line += &format!(" (record {record}, field {field})");
    }
    line + "\n"
}

/// A name in quotes, from its bytes.
pub fn quoted(units: &[u8]) -> String {
    let (units, _) = units.as_chunks::<2>();
    let units: Vec<u16> = units.iter().map(|unit| u16::from_be_bytes(*unit)).collect();
    let mut quoted = String::new();
    for c in char::decode_utf16(units) {
        let number = match c {
            Ok('"') => {
                quoted += "\\\"";
                continue;
            }
            Ok('\\') => {
                quoted += "\\\\";
                continue;
            }
            Ok(c) => c as u32,
            Err(surrogate) => u32::from(surrogate.unpaired_surrogate()),
        };
        let is_escaped = matches!(
            number,
            0..0x20 | 0x7F..0xA0 | 0x200B..0x2010 | 0x2028..0x202F | 0x2060..0x2070 | 0xFEFF
                | 0xD800..0xE000
        );
        match char::from_u32(number) {
            Some(c) if !is_escaped => quoted.push(c),
            _ => quoted += &format!("\\u{{{number:X}}}"),
        }
    }
    format!("\"{quoted}\"")
}
