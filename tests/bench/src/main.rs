//! Times the proved library against the reference, and its conversions against
//! plain floats as well, in the same run.

mod acb;
mod aco;
mod ase;
mod build;
mod chunks;
mod conversion;
mod descriptor;
mod index;
mod keys;
mod names;
mod plain;
mod report;
mod resource;
mod season;
mod size;
mod stack;
mod text;
mod timing;
mod totals;
mod tray;

use report::Report;
use std::process::ExitCode;

const SEED: u64 = 1;
const DEFAULT_ROUNDS: usize = 15;
const SHORT_NAME: usize = 8;
const LONG_NAME: usize = 1_900;
/// Kinds of palettes and books by the units of their names.
const NAMES: [(&str, usize); 2] = [("short names", SHORT_NAME), ("long names", LONG_NAME)];

/// What is timed, where not all of it is.
#[derive(Clone, Copy, PartialEq, Eq)]
enum Part {
    Aco,
    Chunks,
    Ase,
    Acb,
    Names,
    Descriptors,
    Keys,
    Entries,
    Resources,
    Seasons,
    Reports,
    Indexes,
    Conversions,
    Text,
}

fn main() -> ExitCode {
    let args: Vec<String> = std::env::args().skip(1).collect();
    let (part, rest) = match args.first().map(String::as_str) {
        Some("aco") => (Some(Part::Aco), &args[1..]),
        Some("chunks") => (Some(Part::Chunks), &args[1..]),
        Some("ase") => (Some(Part::Ase), &args[1..]),
        Some("acb") => (Some(Part::Acb), &args[1..]),
        Some("names") => (Some(Part::Names), &args[1..]),
        Some("descriptor") => (Some(Part::Descriptors), &args[1..]),
        Some("keys") => (Some(Part::Keys), &args[1..]),
        Some("entries") => (Some(Part::Entries), &args[1..]),
        Some("resource") => (Some(Part::Resources), &args[1..]),
        Some("season") => (Some(Part::Seasons), &args[1..]),
        Some("report") => (Some(Part::Reports), &args[1..]),
        Some("index") => (Some(Part::Indexes), &args[1..]),
        Some("stack-of") => return stack::try_one(&args[1..]),
        Some("convert") => (Some(Part::Conversions), &args[1..]),
        Some("text") => (Some(Part::Text), &args[1..]),
        _ => (None, &args[..]),
    };
    let rounds = match rest.first().map(|word| word.parse()) {
        None => DEFAULT_ROUNDS,
        Some(Ok(rounds)) if rounds > 0 => rounds,
        Some(_) => {
            eprintln!(
                "usage: bench [aco|chunks|ase|acb|names|descriptor|keys|entries|resource|season|report|index|convert|text] [ROUNDS]"
            );
            return ExitCode::FAILURE;
        }
    };
    println!("best of {rounds} rounds each, all that is compared by turns in one run");
    println!("tables and outputs were prepared and touched before, and not cleared between calls");
    let wanted = |asked: Part| part.is_none_or(|part| part == asked);
    let mut report = Report::default();
    if wanted(Part::Aco) {
        aco::compare(&mut report, rounds);
    }
    if wanted(Part::Chunks) {
        chunks::compare(rounds);
    }
    if wanted(Part::Ase) {
        ase::compare(&mut report, rounds);
    }
    if wanted(Part::Acb) {
        acb::compare(&mut report, rounds);
    }
    if wanted(Part::Names) {
        names::compare(rounds);
    }
    if wanted(Part::Descriptors) {
        descriptor::compare(&mut report, rounds);
        if let Err(error) = stack::compare() {
            eprintln!("the stack was not measured: {error}");
            return ExitCode::FAILURE;
        }
    }
    if wanted(Part::Keys) {
        keys::compare(&mut report, rounds);
    }
    if wanted(Part::Entries) {
        build::compare(&mut report, rounds);
    }
    if wanted(Part::Resources) {
        resource::compare(&mut report, rounds);
    }
    if wanted(Part::Seasons) {
        season::compare(&mut report, rounds);
    }
    if wanted(Part::Reports) {
        totals::compare(&mut report, rounds);
    }
    if wanted(Part::Indexes) {
        index::compare(rounds);
    }
    if wanted(Part::Conversions) {
        conversion::compare(&mut report, rounds);
        tray::compare(&mut report, rounds);
    }
    if wanted(Part::Text) {
        text::compare(&mut report, rounds);
    }
    report.print_summary();
    ExitCode::SUCCESS
}
