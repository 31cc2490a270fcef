//! `list FILE...` and `blocks FILE...`: the records of files.

use crate::arguments::{parse, Arguments, Misuse};
use crate::each::{begun, each, is_unknown, refused};
use crate::files::{Kind, Taken};
use crate::held::{judge, read, Held};
use crate::refusals::whole;
use crate::status::Status;
use crate::{exact, objects, shown, Stopped};
use khuyurek::{Refusal, LIMIT};
use std::ffi::{OsStr, OsString};
use std::io::{stdin, IsTerminal, Write};

/// How records are listed.
#[derive(Clone, Copy, PartialEq, Eq)]
enum Listing {
    Shown,
    Exact,
    Json,
    /// As `khuyurek FILE...` lists: exact, below a heading.
    Headed,
}

const OPTIONS: [&str; 3] = ["--exact", "--json", "--progress"];

pub fn run(words: &[OsString], out: &mut dyn Write) -> Result<Status, Stopped> {
    list(parse(words, &OPTIONS)?, None, out)
}

pub fn run_blocks(words: &[OsString], out: &mut dyn Write) -> Result<Status, Stopped> {
    let mut arguments = parse(words, &OPTIONS)?;
    if arguments.kind.is_some_and(|kind| kind != Kind::Resource) {
        return Err(Misuse("blocks are of the kind resource".to_string()).into());
    }
    arguments.kind = Some(Kind::Resource);
    list(arguments, None, out)
}

/// `khuyurek FILE...`, without a subcommand.
pub fn run_headed(words: &[OsString], out: &mut dyn Write) -> Result<Status, Stopped> {
    list(parse(words, &["--progress"])?, Some(Listing::Headed), out)
}

fn list(
    mut arguments: Arguments<'_>,
    given: Option<Listing>,
    out: &mut dyn Write,
) -> Result<Status, Stopped> {
    let listing = match (arguments.has("--exact"), arguments.has("--json")) {
        (true, true) => return Err(Misuse("--exact and --json exclude each other".into()).into()),
        (true, false) => Listing::Exact,
        (false, true) => Listing::Json,
        (false, false) => given.unwrap_or(Listing::Shown),
    };
    if arguments.names.is_empty() {
        // Somebody who types the name alone wants to be told, not waited for.
        if stdin().is_terminal() {
            return Err(Misuse("no file is named".to_string()).into());
        }
        arguments.names.push(OsStr::new("-"));
    }
    each(&arguments, out, |file, out| one(file, listing, out))
}

fn one(file: &Taken, listing: Listing, out: &mut dyn Write) -> Result<Status, Stopped> {
    match read(file) {
        Ok(held) => {
            accepted(file, &held, listing, out)?;
            Ok(Status::Fine)
        }
        Err(refusal) if is_unknown(file, &refusal) => Ok(Status::Failed),
        Err(refusal) => {
            unlisted(file, &refusal, listing, out)?;
            Ok(Status::Refused)
        }
    }
}

fn accepted(
    file: &Taken,
    held: &Held<'_>,
    listing: Listing,
    out: &mut dyn Write,
) -> Result<(), Stopped> {
    let (title, kind) = (&file.title, file.kind.title());
    let counts = || judge(file).expect("a file that was read is accepted");
    match listing {
        Listing::Shown => {
            writeln!(out, "== {title} ({kind}): {}", counts().words())?;
            shown::write(&file.bytes, held, out)?;
        }
        Listing::Exact => exact::write(held, out)?,
        Listing::Headed => {
            writeln!(out, "== {title} ({kind})")?;
            exact::write(held, out)?;
        }
        Listing::Json => {
            let mut object = begun(file, true, out)?;
            counts().pairs(object.object("counts")?)?;
            objects::write(&file.bytes, held, &mut object)?;
            object.end()?;
            writeln!(out)?;
        }
    }
    Ok(())
}

fn unlisted(
    file: &Taken,
    refusal: &Refusal,
    listing: Listing,
    out: &mut dyn Write,
) -> Result<(), Stopped> {
    let (title, kind) = (&file.title, file.kind.title());
    match listing {
        Listing::Shown => writeln!(out, "== {title} ({kind}): {}", whole(file, refusal))?,
        Listing::Exact => exact::refused(refusal, out)?,
        Listing::Headed => {
            writeln!(out, "== {title} ({kind})")?;
            exact::refused(refusal, out)?;
            let reason = match refusal.number {
                1 => format!("a listing takes {LIMIT} bytes"),
                _ => format!("byte {}", refusal.place),
            };
            writeln!(out, "  {} ({reason})", refusal.sentence())?;
        }
        Listing::Json => refused(file, refusal, out)?,
    }
    Ok(())
}
