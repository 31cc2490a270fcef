//! Lists a colour file of ACO, ASE, ACB and descriptor files: `list_file FILE`. The status is
//! 1 where the file is refused and 2 where it cannot be read.

use std::io::Write;
use std::process::ExitCode;
use std::{env, fs, io};

use khuyurek::descriptor::{self, Tag, Value};
use khuyurek::{acb, aco, ase, Refusal, Units};

fn main() -> ExitCode {
    let mut arguments = env::args_os().skip(1);
    let (Some(path), None) = (arguments.next(), arguments.next()) else {
        eprintln!("usage: list_file FILE");
        return ExitCode::from(2);
    };
    let shown = path.to_string_lossy();
    let file = match fs::read(&path) {
        Ok(file) => file,
        Err(error) => {
            eprintln!("{shown}: {error}");
            return ExitCode::from(2);
        }
    };
    let lines = match list(&file) {
        Ok(lines) => lines,
        Err(refusal) => {
            eprintln!("{shown}: {refusal}");
            return ExitCode::from(1);
        }
    };
    for line in lines {
        if let Err(error) = writeln!(io::stdout(), "{line}") {
            eprintln!("standard output: {error}");
            return ExitCode::from(2);
        }
    }
    ExitCode::SUCCESS
}

/// A file's kind shows in its first four bytes.
fn list(file: &[u8]) -> Result<Vec<String>, Refusal> {
    match file.get(..4) {
        Some(b"ASEF") => list_ase(file),
        Some(b"8BCB") => list_acb(file),
        Some([0, 0, 0, 16]) => list_descriptor(file),
        _ => list_aco(file),
    }
}

fn list_aco(file: &[u8]) -> Result<Vec<String>, Refusal> {
    let palette = aco::read(file)?;
    let (colours, lists) = (palette.len(), palette.lists());
    let heading = format!("ACO: {colours} colours in {lists} list(s)");
    let lines = palette.iter().map(|swatch| {
        let samples = &swatch.samples[..swatch.space.count()];
        format!("{} {:?} {samples:?}", quoted(swatch.name), swatch.space)
    });
    Ok([heading].into_iter().chain(lines).collect())
}

fn list_ase(file: &[u8]) -> Result<Vec<String>, Refusal> {
    let ase::Counts { blocks, colours } = ase::judge(file)?;
    let mut lines = vec![format!("ASE: {colours} colours in {blocks} blocks")];
    let mut indent = 0;
    for block in ase::walk_blocks(file)? {
        match block {
            ase::Block::Start(name) => {
                lines.push(format!("{:indent$}group {}", "", quoted(name)));
                indent += 2;
            }
            ase::Block::Stop => indent -= 2,
            ase::Block::Colour(colour) => {
                let (name, channels) = (quoted(colour.name), colour.channels);
                let (model, values) = (channels.model(), channels.values());
                let ink = colour.ink;
                lines.push(format!(
                    "{:indent$}{name} {model:?} {values:?} {ink:?}",
                    ""
                ));
            }
        }
    }
    Ok(lines)
}

fn list_acb(file: &[u8]) -> Result<Vec<String>, Refusal> {
    let book = acb::read(file)?;
    let header = book.header();
    let title = quoted(acb::shown_text(header.title));
    let (records, pages, space) = (book.len(), book.pages(), header.space);
    let mut lines = vec![format!(
        "ACB: {title}, {records} records on {pages} pages, {space:?}"
    )];
    for swatch in book.iter().filter(|swatch| !swatch.is_dummy()) {
        let name = book.full_name(&swatch);
        lines.push(format!(
            "{} {:?}",
            quoted(Units::new(&name)),
            book.shown(&swatch).values()
        ));
    }
    Ok(lines)
}

fn list_descriptor(file: &[u8]) -> Result<Vec<String>, Refusal> {
    let rows = descriptor::read(file)?;
    let mut lines = vec![format!("descriptor: {} rows", rows.len())];
    let values = descriptor::values(file)?;
    // Typed values are asked for one by one, and the whole file is judged each time:
    // that is for settings of usual length.
    for (i, row) in rows.iter().enumerate() {
        let mut line = " ".repeat(2 * row.depth);
        let value = &file[values[i] as usize..row.first + row.length];
        // Before its type and value a pair has its key: a length and the bytes.
        let key = &file[row.first..row.first + row.length - value.len() - 4];
        if let Some(key) = key.get(4..) {
            line += &format!("{}: ", key.trim_ascii_end().escape_ascii());
        }
        line += &row.kind.to_string();
        match descriptor::typed_at(file, i)? {
            // A count, and the units with a closing zero, if any.
            Value::Other if row.kind == Tag(*b"TEXT") => {
                let units = value[4..].strip_suffix(&[0, 0]).unwrap_or_default();
                line += &format!(" {}", quoted(Units::new(units)));
            }
            Value::Other => {}
            Value::Bool(value) => line += &format!(" {value}"),
            Value::Long(value) => line += &format!(" {value}"),
            Value::Comp(value) => line += &format!(" {value}"),
            Value::Double(value) => line += &format!(" {value}"),
            Value::UnitDouble(unit, value) => line += &format!(" {value} {unit}"),
        }
        lines.push(line);
    }
    Ok(lines)
}

/// A name in quotes, without the characters that a terminal would obey.
fn quoted(name: Units<'_>) -> String {
    let shown = |c: char| {
        if c.is_control() {
            char::REPLACEMENT_CHARACTER
        } else {
            c
        }
    };
    format!("\"{}\"", name.chars().map(shown).collect::<String>())
}
