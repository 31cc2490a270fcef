//! `check FILE...`: whether files are accepted.

use crate::arguments::parse;
use crate::each::{begun, each, is_unknown, refused, Form};
use crate::files::Taken;
use crate::held::judge;
use crate::refusals::whole;
use crate::status::Status;
use crate::Stopped;
use std::ffi::OsString;
use std::io::Write;

pub fn run(words: &[OsString], out: &mut dyn Write) -> Result<Status, Stopped> {
    let arguments = parse(words, &["--json", "--progress"])?;
    let form = Form::of(&arguments);
    each(&arguments, out, |file, out| check(file, form, out))
}

fn check(file: &Taken, form: Form, out: &mut dyn Write) -> Result<Status, Stopped> {
    let Taken { title, kind, .. } = file;
    let kind = kind.title();
    match (judge(file), form) {
        (Ok(counts), Form::Words) => {
            writeln!(out, "{title} ({kind}): accepted, {}", counts.words())?;
            Ok(Status::Fine)
        }
        (Ok(counts), Form::Json) => {
            let mut object = begun(file, true, out)?;
            counts.pairs(object.object("counts")?)?;
            object.end()?;
            writeln!(out)?;
            Ok(Status::Fine)
        }
        (Err(refusal), _) if is_unknown(file, &refusal) => Ok(Status::Failed),
        (Err(refusal), form) => {
            match form {
                Form::Words => writeln!(out, "{title} ({kind}): {}", whole(file, &refusal))?,
                Form::Json => refused(file, &refusal, out)?,
            }
            Ok(Status::Refused)
        }
    }
}
