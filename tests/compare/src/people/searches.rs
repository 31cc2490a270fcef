//! Colours of books looked for by their names.

use super::words::{quoted, refused};
use super::{check, Folder};
use crate::difference::Checked;
use generate::acb::Book;
use generate::Random;
use reference::acb;
use std::path::Path;

pub fn run(program: &Path, folder: &Folder, seed: u64, calls: u64) -> Checked<usize> {
    let mut called = 0;
    for item in 0..calls {
        let mut random = Random::for_part(seed, 2 << 40 | item);
        let book = if random.one_in(2) {
            Book::small(&mut random)
        } else {
            Book::any(&mut random)
        };
        let Some(name) = any_name(&book, &mut random) else {
            continue;
        };
        let mut file = book.file();
        if random.one_in(10) {
            file.truncate(4 + random.below(file.len() - 4));
        }
        let path = folder.put("book.acb", &file);
        let (wanted, status) = expected(&file, &book, &path, &name);
        check(program, &["find", "--", &path, &name], &wanted, status)?;
        called += 1;
    }
    Ok(called)
}

/// A name of the book, or nearly, or another; none where it is not UTF-8 or cannot be
/// an argument.
fn any_name(book: &Book, random: &mut Random) -> Option<String> {
    let mut units = match book.colours.len() {
        0 => vec![65],
        len => book.colours[random.below(len)].name.clone(),
    };
    match random.below(6) {
        0 => units.push(65),
        1 => drop(units.pop()),
        _ => {}
    }
    let name = String::from_utf16(&units).ok()?;
    (!name.contains('\0')).then_some(name)
}

fn expected(file: &[u8], book: &Book, path: &str, name: &str) -> (String, i32) {
    if let Err(refusal) = acb::judge(file) {
        return (refused(path, "ACB", &refusal), 1);
    }
    let units: Vec<u16> = name.encode_utf16().collect();
    let mut colours = book.colours.iter();
    let record = colours.position(|colour| !units.is_empty() && colour.name == units);
    let Some(record) = record else {
        let bytes: Vec<u8> = units.iter().flat_map(|unit| unit.to_be_bytes()).collect();
        return (format!("no colour is called {}\n", quoted(&bytes)), 1);
    };
    let mut full = vec![0; acb::full_length(file, record).expect("a record")];
    acb::full_name(file, record, &mut full).expect("a record");
    let shown = acb::shown(file, record).expect("a record");
    let space = match book.space {
        0 => "RGB",
        2 => "CMYK",
        _ => "Lab",
    };
    let values = shown.values.iter().take(shown.count);
    let values: Vec<String> = values.map(|value| value.to_string()).collect();
    (
        format!("{record} {} {space} {}\n", quoted(&full), values.join(" ")),
        0,
    )
}
