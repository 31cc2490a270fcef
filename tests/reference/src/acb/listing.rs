//! What the listing program prints.

use super::header::Tag;
use super::reader::{judge_whole, string, Judged, Record};
use super::shown::{samples, shown_text};
use crate::listing::LISTING_LIMIT;
use crate::name;
use crate::refusal::{number, Refusal};

/// The whole listing of an input, a refusal's single line among them.
pub fn list(input: &[u8]) -> String {
    match judge_input(input) {
        Ok(judged) => list_accepted(input, &judged),
        Err(refusal) => format!("refused {} at {}\n", refusal.number, refusal.place),
    }
}

fn judge_input(input: &[u8]) -> Result<Judged, Refusal> {
    if input.len() > LISTING_LIMIT {
        return Err(Refusal::of_call(number::TOO_LONG));
    }
    judge_whole(input)
}

fn list_accepted(file: &[u8], judged: &Judged) -> String {
    let mut lines = heading(file, judged);
    for (index, record) in judged.records(file).enumerate() {
        lines.push(record_line(file, index, &record, judged.components()));
    }
    for (page, sample) in samples(file, judged).into_iter().enumerate() {
        let shown = sample.map_or("-".to_string(), |index| index.to_string());
        lines.push(format!("page {page} {shown}"));
    }
    lines.push("end\n".to_string());
    lines.join("\n")
}

fn heading(file: &[u8], judged: &Judged) -> Vec<String> {
    let (count, header) = (judged.accepted.count, judged.accepted.header);
    let (space, tag) = (header.space, tag_word(header.tag));
    let (size, offset, identifier) = (header.page_size, header.page_offset, header.identifier);
    let mut lines = vec![format!(
        "ACB {count} {space} {size} {offset} {identifier} {tag}"
    )];
    let words = ["title", "prefix", "suffix", "description"];
    for (word, text) in words.into_iter().zip(header.strings()) {
        let shown = name::shown(shown_text(string(file, text)));
        lines.push(format!("{word} {shown}"));
    }
    lines
}

fn record_line(file: &[u8], index: usize, record: &Record, components: usize) -> String {
    let code: String = record.code.map(|byte| format!("{byte:02X}")).concat();
    let components: Vec<String> = record.components[..components]
        .iter()
        .map(u8::to_string)
        .collect();
    let name = name::shown(string(file, record.name));
    format!("{index} {code} {} {name}", components.join(" "))
}

fn tag_word(tag: Tag) -> &'static str {
    match tag {
        Tag::None => "none",
        Tag::Spot => "spot",
        Tag::Process => "process",
        Tag::Other => unreachable!("no file is read with another tag"),
    }
}
