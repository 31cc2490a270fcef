//! `khuyurek` for people: what the proved library says of colour files, in words, and
//! as JSON for programs. docs/COMMAND.md describes it.
//!
//! All judgement is the library's. A subcommand is a module with a function `run`, and
//! a text under `usage`; what they share: `arguments`, `files`, `each` (one file after the
//! other), `held` (what a file holds), `shown`, `exact` and `objects` (three forms of a
//! listing), `colours`, `values`, `text`, `json`, `refusals`, `places`, `rows`,
//! `progress`,
//! `whole_file` and `status`.

#![forbid(unsafe_code)]

mod arguments;
mod check;
mod colours;
mod compare;
mod convert;
mod each;
mod exact;
mod files;
mod find;
mod held;
mod json;
mod list;
mod objects;
mod places;
mod progress;
mod refusals;
mod report;
mod rows;
mod shown;
mod status;
mod text;
mod totals;
mod values;
mod whole_file;

use arguments::Misuse;
use status::Status;
use std::ffi::OsString;
use std::io::{self, BufWriter, ErrorKind, Write};
use std::path::Path;
use std::process::ExitCode;

/// A subcommand: its name, what it says of its usage, and what it does.
struct Subcommand {
    name: &'static str,
    usage: &'static str,
    run: Run,
}

/// Writes its output and gives its status, or says how it is misused.
type Run = fn(&[OsString], &mut dyn Write) -> Result<Status, Stopped>;

/// Why a subcommand did not end: it is misused, or its output cannot be written.
pub enum Stopped {
    Misused(Misuse),
    Output(io::Error),
}

impl From<Misuse> for Stopped {
    fn from(misuse: Misuse) -> Self {
        Stopped::Misused(misuse)
    }
}

impl From<io::Error> for Stopped {
    fn from(error: io::Error) -> Self {
        Stopped::Output(error)
    }
}

/// A subcommand; its usage is the text of its name under `usage`.
macro_rules! subcommand {
    ($name:literal, $run:path) => {
        Subcommand {
            name: $name,
            usage: include_str!(concat!("usage/", $name, ".txt")),
            run: $run,
        }
    };
}

const SUBCOMMANDS: [Subcommand; 7] = [
    subcommand!("list", list::run),
    subcommand!("check", check::run),
    subcommand!("compare", compare::run),
    subcommand!("report", report::run),
    subcommand!("find", find::run),
    subcommand!("blocks", list::run_blocks),
    subcommand!("convert", convert::run),
];

const USAGE: &str = include_str!("usage/khuyurek.txt");

fn main() -> ExitCode {
    let words: Vec<OsString> = std::env::args_os().skip(1).collect();
    let mut out = BufWriter::new(io::stdout().lock());
    let status = called(&words, &mut out).and_then(|status| {
        out.flush()?;
        Ok(status)
    });
    match status {
        Ok(status) => status.into(),
        Err(Stopped::Misused(Misuse(complaint))) => {
            files::complain(&complaint);
            eprintln!("'khuyurek --help' says how it is used");
            Status::Failed.into()
        }
        Err(Stopped::Output(error)) => {
            // Somebody who reads the first lines alone needs no more.
            if error.kind() != ErrorKind::BrokenPipe {
                files::complain(&format!("standard output: {error}"));
            }
            Status::Failed.into()
        }
    }
}

fn called(words: &[OsString], out: &mut dyn Write) -> Result<Status, Stopped> {
    let subcommand = words.first().and_then(|name| {
        let mut known = SUBCOMMANDS.iter();
        known.find(|known| name == known.name)
    });
    let Some(subcommand) = subcommand else {
        return unnamed(words, out);
    };
    let rest = &words[1..];
    if arguments::asks(rest, &["--help", "-h"]) {
        write!(out, "{}", subcommand.usage)?;
        return Ok(Status::Fine);
    }
    (subcommand.run)(rest, out)
}

/// Without a subcommand, files are listed.
fn unnamed(words: &[OsString], out: &mut dyn Write) -> Result<Status, Stopped> {
    if arguments::asks(words, &["--help", "-h"]) {
        write!(out, "{USAGE}")?;
        return Ok(Status::Fine);
    }
    if arguments::asks(words, &["--version"]) {
        writeln!(out, "khuyurek {}", env!("CARGO_PKG_VERSION"))?;
        return Ok(Status::Fine);
    }
    // A word without a dot or a folder is meant for a subcommand, unless it is a file.
    if let Some(word) = words.first().filter(|word| is_word(word)) {
        let word = text::shown_name(word);
        return Err(Misuse(format!("neither a subcommand nor a file: {word}")).into());
    }
    list::run_headed(words, out)
}

fn is_word(word: &OsString) -> bool {
    let letters = word.as_encoded_bytes();
    let plain = !letters.is_empty() && letters.iter().all(u8::is_ascii_lowercase);
    plain && !Path::new(word).exists()
}
