//! A cell of a page in parts: names, and what joins or ends a list of them.

/// A cell's parts: what stands in backquotes, a word, a comma or `and`, and any
/// other sign that ends a list.
#[derive(Clone, Copy, Debug, PartialEq)]
pub enum Part<'a> {
    Code(&'a str),
    Word(&'a str),
    And,
    End,
}

const SIGNS: [char; 8] = [' ', ',', ';', ':', '(', ')', '[', ']'];

pub fn parts_of(cell: &str) -> Vec<Part<'_>> {
    let mut parts = Vec::new();
    for (i, piece) in cell.split('`').enumerate() {
        if i % 2 == 1 {
            parts.push(Part::Code(piece));
            continue;
        }
        for word in piece.split_inclusive(SIGNS) {
            add_word(&mut parts, word);
        }
    }
    parts
}

/// A word, and the sign behind it.
fn add_word<'a>(parts: &mut Vec<Part<'a>>, word: &'a str) {
    let word = word.trim_end();
    let plain = word.trim_end_matches(SIGNS).trim_end_matches('.');
    match plain {
        "" => {}
        "and" => parts.push(Part::And),
        _ => parts.push(Part::Word(plain)),
    }
    match &word[plain.len()..] {
        "" => {}
        "," => parts.push(Part::And),
        _ => parts.push(Part::End),
    }
}
