//! `find BOOK NAME`: a colour of a book by its printed name.

use crate::arguments::{parse, Misuse};
use crate::colours::space;
use crate::each::{begun, refused, Form};
use crate::files::{complain, take, Kind, Taken};
use crate::objects::record_pairs;
use crate::refusals::line;
use crate::shown::record_words;
use crate::status::Status;
use crate::text::quoted_text;
use crate::Stopped;
use khuyurek::{acb, Refusal};
use std::ffi::OsString;
use std::io::Write;

/// The refusal of a search that finds none.
const NO_RECORD: u32 = 12;

pub fn run(words: &[OsString], out: &mut dyn Write) -> Result<Status, Stopped> {
    let arguments = parse(words, &["--json"])?;
    let [book, name] = arguments.names[..] else {
        return Err(Misuse("find takes a book and a name".to_string()).into());
    };
    let Some(name) = name.to_str() else {
        return Err(Misuse("the name is no UTF-8".to_string()).into());
    };
    let book = match take(book, arguments.kind) {
        Ok(book) if book.kind == Kind::Acb => book,
        Ok(Taken { title, kind, .. }) => {
            complain(&format!("{title}: {} is no colour book", kind.title()));
            return Ok(Status::Failed);
        }
        Err(untaken) => {
            untaken.complain();
            return Ok(Status::Failed);
        }
    };
    match (find(&book, name), Form::of(&arguments)) {
        (Ok(found), Form::Words) => write(&book, name, found, out),
        (Ok(found), Form::Json) => write_object(&book, name, found, out),
        (Err(refusal), form) => {
            match form {
                Form::Words => writeln!(out, "{}", line(&book, &refusal))?,
                Form::Json => refused(&book, &refusal, out)?,
            }
            Ok(Status::Refused)
        }
    }
}

/// The record of that name, if one has it.
fn find(book: &Taken, name: &str) -> Result<Option<usize>, Refusal> {
    let index = acb::index(&book.bytes)?;
    let units: Vec<u16> = name.encode_utf16().collect();
    match acb::find(&book.bytes, &index, &units) {
        Ok(record) => Ok(Some(record)),
        Err(refusal) if refusal.number == NO_RECORD => Ok(None),
        Err(refusal) => Err(refusal),
    }
}

const JUDGED: &str = "a record that was found is there";

fn write(
    book: &Taken,
    name: &str,
    found: Option<usize>,
    out: &mut dyn Write,
) -> Result<Status, Stopped> {
    let Some(record) = found else {
        writeln!(out, "no colour is called {}", quoted_text(name))?;
        return Ok(Status::Different);
    };
    let book = acb::read(&book.bytes).expect(JUDGED);
    let swatch = book.get(record).expect(JUDGED);
    writeln!(out, "{record} {}", record_words(&book, &swatch))?;
    Ok(Status::Fine)
}

fn write_object(
    file: &Taken,
    name: &str,
    found: Option<usize>,
    out: &mut dyn Write,
) -> Result<Status, Stopped> {
    let mut object = begun(file, true, out)?;
    object.text("asked", name)?;
    object.plain("found", found.is_some())?;
    if let Some(record) = found {
        let book = acb::read(&file.bytes).expect(JUDGED);
        let swatch = book.get(record).expect(JUDGED);
        object.plain("record", record)?;
        object.text("space", space(book.header().space))?;
        record_pairs(&book, &swatch, &mut object)?;
    }
    object.end()?;
    writeln!(out)?;
    Ok(match found {
        Some(_) => Status::Fine,
        None => Status::Different,
    })
}
