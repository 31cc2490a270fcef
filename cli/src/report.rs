//! `report FILE...`: totals over many files, and the sum of such reports.

use crate::arguments::{parse, Misuse};
use crate::files::{complain, read, take, title, Kind, Taken, Untaken};
use crate::progress::Progress;
use crate::refusals::line;
use crate::status::Status;
use crate::totals::{from_json, lines, to_json};
use crate::Stopped;
use khuyurek::report::{self, Report};
use khuyurek::{aco, Refusal};
use std::ffi::{OsStr, OsString};
use std::io::{self, BufRead, Write};

/// A report that is longer is none of ours.
const REPORT_LIMIT: usize = 1 << 16;

pub fn run(words: &[OsString], out: &mut dyn Write) -> Result<Status, Stopped> {
    let arguments = parse(words, &["--json", "--merge", "--progress"])?;
    if arguments.names.is_empty() {
        return Err(Misuse("no file is named".to_string()).into());
    }
    if arguments.has("--merge") && arguments.kind.is_some() {
        return Err(Misuse("reports that are merged have no kind".to_string()).into());
    }
    let json = arguments.has("--json");
    let mut report = Report::default();
    let status = if arguments.has("--merge") {
        sum(&arguments.names, &mut report)
    } else {
        let named = !arguments.names.iter().any(|name| *name == "-");
        let files = named.then_some(arguments.names.len());
        let mut reporting = Reporting {
            kind: arguments.kind,
            json,
            report: &mut report,
            status: Status::Fine,
            progress: Progress::of(files, arguments.has("--progress"), true),
        };
        for name in arguments.names {
            reporting.name(name, out)?;
        }
        reporting.status
    };
    let shown = if json {
        to_json(&report.totals())
    } else {
        lines(&report.totals())
    };
    out.write_all(shown.as_bytes())?;
    Ok(status)
}

/// A report that is being made.
struct Reporting<'a> {
    kind: Option<Kind>,
    json: bool,
    report: &'a mut Report,
    status: Status,
    progress: Progress,
}

impl Reporting<'_> {
    fn name(&mut self, name: &OsStr, out: &mut dyn Write) -> Result<(), Stopped> {
        if name != "-" {
            return self.file(name, out);
        }
        // Names are bytes, whatever the language.
        let mut input = io::stdin().lock();
        let mut line = Vec::new();
        loop {
            line.clear();
            match input.read_until(b'\n', &mut line) {
                Ok(0) => return Ok(()),
                Ok(_) => {
                    let name = line.strip_suffix(b"\n").unwrap_or(&line);
                    if !name.is_empty() {
                        self.file(&name_of(name), out)?;
                    }
                }
                Err(_) => {
                    self.complain("standard input: cannot be read");
                    return Ok(());
                }
            }
        }
    }

    fn file(&mut self, name: &OsStr, out: &mut dyn Write) -> Result<(), Stopped> {
        self.progress.next(&title(name));
        match take(name, self.kind) {
            Ok(file) => self.add(&file, out),
            Err(Untaken { title, reason }) => {
                self.complain(&format!("{title}: {reason}"));
                Ok(())
            }
        }
    }

    fn add(&mut self, file: &Taken, out: &mut dyn Write) -> Result<(), Stopped> {
        let title = &file.title;
        let Some(kind) = reported(file.kind) else {
            self.complain(&format!("{title}: {} are not reported", file.kind.title()));
            return Ok(());
        };
        match self.report.add(kind, &file.bytes) {
            Ok(None) => {}
            Ok(Some(refusal)) => {
                self.status = self.status.max(Status::Refused);
                let line = line(file, &with_record(file, refusal));
                if self.json {
                    complain(&line);
                } else {
                    writeln!(out, "{line}")?;
                }
            }
            Err(_) => {
                self.complain(&format!(
                    "{title}: not counted, a total would pass 4294967295"
                ));
            }
        }
        Ok(())
    }

    fn complain(&mut self, complaint: &str) {
        complain(complaint);
        self.status = Status::Failed;
    }
}

/// The library's kind; it reports no resources.
fn reported(kind: Kind) -> Option<report::Kind> {
    match kind {
        Kind::Aco => Some(report::Kind::Aco),
        Kind::Ase => Some(report::Kind::Ase),
        Kind::Acb => Some(report::Kind::Acb),
        Kind::Descriptor => Some(report::Kind::Descriptor),
        Kind::Resource => None,
    }
}

/// The refusal with the record and field of 7, which judging tells.
fn with_record(file: &Taken, refusal: Refusal) -> Refusal {
    match file.kind {
        Kind::Aco => aco::judge(&file.bytes).err().unwrap_or(refusal),
        _ => refusal,
    }
}

#[cfg(unix)]
fn name_of(bytes: &[u8]) -> OsString {
    use std::os::unix::ffi::OsStrExt;
    OsStr::from_bytes(bytes).to_os_string()
}

#[cfg(not(unix))]
fn name_of(bytes: &[u8]) -> OsString {
    String::from_utf8_lossy(bytes).into_owned().into()
}

/// Sums reports; one that is none is passed over, and named.
fn sum(names: &[&OsStr], report: &mut Report) -> Status {
    let mut status = Status::Fine;
    for name in names {
        if let Err(complaint) = add_report(name, report) {
            complain(&format!("{}: {complaint}", title(name)));
            status = Status::Failed;
        }
    }
    status
}

fn add_report(name: &OsStr, report: &mut Report) -> Result<(), String> {
    let bytes = read(name, REPORT_LIMIT)?;
    let text = String::from_utf8(bytes).map_err(|_| "is no object of totals")?;
    let other = Report::of(from_json(&text)?);
    let sum = report.merge(&other);
    sum.map_err(|_| "not added, a total would pass 4294967295".to_string())
}
