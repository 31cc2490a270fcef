//! A subcommand over many files, one after the other.

use crate::arguments::{Arguments, Misuse};
use crate::files::{complain, take, title, Taken};
use crate::json::Object;
use crate::progress::Progress;
use crate::refusals;
use crate::status::Status;
use crate::Stopped;
use khuyurek::Refusal;
use std::io::{self, Write};

/// How an answer is written.
#[derive(Clone, Copy, PartialEq, Eq)]
pub enum Form {
    /// For people.
    Words,
    /// One object a file, each on a line.
    Json,
}

impl Form {
    pub fn of(arguments: &Arguments<'_>) -> Self {
        if arguments.has("--json") {
            Form::Json
        } else {
            Form::Words
        }
    }
}

/// Does it for each file that is named. One that is not taken is complained of, and
/// keeps none of the others from it.
pub fn each(
    arguments: &Arguments<'_>,
    out: &mut dyn Write,
    mut act: impl FnMut(&Taken, &mut dyn Write) -> Result<Status, Stopped>,
) -> Result<Status, Stopped> {
    if arguments.names.is_empty() {
        return Err(Misuse("no file is named".to_string()).into());
    }
    let asked = arguments.has("--progress");
    let mut progress = Progress::of(Some(arguments.names.len()), asked, false);
    let mut status = Status::Fine;
    for name in &arguments.names {
        progress.next(&title(name));
        let done = match take(name, arguments.kind) {
            Ok(file) => act(&file, out)?,
            Err(untaken) => {
                untaken.complain();
                if Form::of(arguments) == Form::Json {
                    let mut object = Object::begin(out)?;
                    object.text("file", &untaken.title)?;
                    object.text("error", &untaken.reason)?;
                    object.end()?;
                    writeln!(out)?;
                }
                Status::Failed
            }
        };
        status = status.max(done);
    }
    Ok(status)
}

/// A field is cut: in a document of which not all was read, nothing is known.
const CUT: u32 = 2;

/// Whether a refusal says nothing of the file, since not all of it was read; then that
/// is complained of.
pub fn is_unknown(file: &Taken, refusal: &Refusal) -> bool {
    let unknown = refusal.number == CUT && file.is_cut();
    if unknown {
        let read = file.bytes.len();
        complain(&format!(
            "{}: its resources lie past {read} bytes",
            file.title
        ));
    }
    unknown
}

/// Begins a file's object: its name, its kind and whether it is accepted.
pub fn begun<'a>(file: &Taken, accepted: bool, out: &'a mut dyn Write) -> io::Result<Object<'a>> {
    let mut object = Object::begin(out)?;
    object.text("file", &file.title)?;
    object.text("kind", file.kind.word())?;
    object.plain("accepted", accepted)?;
    Ok(object)
}

/// A refused file's object, on a line.
pub fn refused(file: &Taken, refusal: &Refusal, out: &mut dyn Write) -> io::Result<()> {
    let mut object = begun(file, false, out)?;
    let within = object.object("refusal")?;
    refusals::object(file, refusal, within)?;
    object.end()?;
    writeln!(out)
}
