//! Compares the proved library, and its listing programs, with the reference.

mod acb;
mod ase;
mod build;
mod campaign;
mod chunks;
mod converting;
mod descriptor;
mod difference;
mod expected;
mod find;
mod index;
mod lent;
mod listing;
mod people;
mod program;
mod reading;
mod real;
mod replace;
mod reports;
mod resource;
mod seasons;
mod tables;
mod tally;
mod text;
mod trays;
mod walk;
mod writing;

use difference::Checked;
use std::fmt::Display;
use std::path::{Path, PathBuf};
use std::process::ExitCode;

const USAGE: &str = "usage: compare [SEED [FILES]]
       compare ase [SEED [FILES]]
       compare chunks [SEED [FILES]]
       compare walk [SEED [FILES]]
       compare acb [SEED [FILES]]
       compare descriptor [SEED [FILES]]
       compare find [SEED [FILES]]
       compare replace [SEED [FILES]]
       compare build [SEED [LOTS]]
       compare resource [SEED [SECTIONS]]
       compare seasons [SEED [FILES]]
       compare reports [SEED [FILES]]
       compare index [SEED [FILES]]
       compare text [SEED [RUNS]]
       compare convert [SEED [PATTERNS]]
       compare list [PROGRAM [FILES [SEED]]]
       compare list-ase [PROGRAM [FILES [SEED]]]
       compare list-acb [PROGRAM [FILES [SEED]]]
       compare list-descriptor [PROGRAM [FILES [SEED]]]
       compare list-resource [PROGRAM [FILES [SEED]]]
       compare people [PROGRAM [CALLS [SEED]]]
       compare real FOLDER [PROGRAMS [SEED]]";
const DEFAULT_SEED: u64 = 20_240_229;
const DEFAULT_FILES: u64 = 300_000;
/// Every one has several tables, keys, replacements or entries.
const DEFAULT_ASKED: u64 = 20_000;
const DEFAULT_PATTERNS: u64 = 60_000_000;
const DEFAULT_LISTED: u64 = 300;
const DEFAULT_CALLS: u64 = 300;
const PEOPLE: &str = concat!(
    env!("CARGO_MANIFEST_DIR"),
    "/../../target/cargo/release/khuyurek-cli"
);
const PROGRAMS: &str = concat!(env!("CARGO_MANIFEST_DIR"), "/../../target/bin");

fn main() -> ExitCode {
    let args: Vec<String> = std::env::args().skip(1).collect();
    let rest = args.get(1..).unwrap_or_default();
    let outcome = match args.first().map(String::as_str) {
        Some("ase") => compare_library("ASE", rest, ase::campaign::run, ase::Tally::all_reached),
        Some("chunks") => compare_library(
            "chunks",
            rest,
            chunks::campaign::run,
            chunks::Tally::all_reached,
        ),
        Some("walk") => {
            compare_library("walks", rest, walk::campaign::run, walk::Tally::all_reached)
        }
        Some("acb") => compare_library("ACB", rest, acb::campaign::run, acb::Tally::all_reached),
        Some("descriptor") => compare_library(
            "descriptors",
            rest,
            descriptor::campaign::run,
            descriptor::Tally::all_reached,
        ),
        Some("find") => compare_asked("keys", rest, find::campaign::run, find::Tally::all_reached),
        Some("replace") => compare_asked(
            "replacements",
            rest,
            replace::campaign::run,
            replace::Tally::all_reached,
        ),
        Some("build") => compare_asked(
            "entries",
            rest,
            build::campaign::run,
            build::Tally::all_reached,
        ),
        Some("resource") => compare_library(
            "resources",
            rest,
            resource::campaign::run,
            resource::Tally::all_reached,
        ),
        Some("seasons") => compare_library(
            "seasons",
            rest,
            seasons::campaign::run,
            seasons::Tally::all_reached,
        ),
        Some("reports") => compare_library(
            "reports",
            rest,
            reports::campaign::run,
            reports::Tally::all_reached,
        ),
        Some("index") => compare_library(
            "name indexes",
            rest,
            index::campaign::run,
            index::Tally::all_reached,
        ),
        Some("text") => compare_library("text", rest, text::run, text::Tally::all_reached),
        Some("convert") => compare_conversions(rest),
        Some("list") => compare_listings(rest, "aco_list", listing::run),
        Some("list-ase") => compare_listings(rest, "ase_list", ase::listing::run),
        Some("list-acb") => compare_listings(rest, "acb_list", acb::listing::run),
        Some("list-descriptor") => {
            compare_listings(rest, "descriptor_list", descriptor::listing::run)
        }
        Some("list-resource") => compare_listings(rest, "resource_list", resource::listing::run),
        Some("people") => compare_people(rest),
        Some("real") => compare_real(rest),
        _ => compare_library("ACO", &args, campaign::run, tally::Tally::all_reached),
    };
    match outcome {
        Ok(summary) => {
            println!("{summary}");
            ExitCode::SUCCESS
        }
        Err(complaint) => {
            eprintln!("{complaint}");
            ExitCode::FAILURE
        }
    }
}

fn compare_library<T: Display>(
    kind: &str,
    args: &[String],
    run: impl Fn(u64, u64) -> Checked<T>,
    all_reached: impl Fn(&T) -> Result<(), String>,
) -> Result<String, String> {
    compare_files(kind, args, DEFAULT_FILES, run, all_reached)
}

fn compare_asked<T: Display>(
    kind: &str,
    args: &[String],
    run: impl Fn(u64, u64) -> Checked<T>,
    all_reached: impl Fn(&T) -> Result<(), String>,
) -> Result<String, String> {
    compare_files(kind, args, DEFAULT_ASKED, run, all_reached)
}

fn compare_files<T: Display>(
    kind: &str,
    args: &[String],
    files: u64,
    run: impl Fn(u64, u64) -> Checked<T>,
    all_reached: impl Fn(&T) -> Result<(), String>,
) -> Result<String, String> {
    let seed = number(args, 0, DEFAULT_SEED)?;
    let files = number(args, 1, files)?;
    println!("seed {seed}");
    let tally = run(seed, files).map_err(|difference| with_seed(seed, difference))?;
    all_reached(&tally).map_err(|missing| with_seed(seed, missing))?;
    Ok(format!("the library agrees on {kind}: {tally}"))
}

fn compare_conversions(args: &[String]) -> Result<String, String> {
    let seed = number(args, 0, DEFAULT_SEED)?;
    let patterns = number(args, 1, DEFAULT_PATTERNS)?;
    println!("seed {seed}");
    let tally =
        converting::run(seed, patterns).map_err(|difference| with_seed(seed, difference))?;
    tally
        .all_reached()
        .map_err(|missing| with_seed(seed, missing))?;
    Ok(format!("the conversions agree: {tally}"))
}

fn compare_real(args: &[String]) -> Result<String, String> {
    let folder = args.first().ok_or(USAGE)?;
    let programs = args.get(1).map_or(PROGRAMS, String::as_str);
    let seed = number(args, 2, DEFAULT_SEED)?;
    println!("seed {seed}");
    let compared = real::run(Path::new(folder), Path::new(programs), seed)
        .map_err(|complaint| with_seed(seed, complaint))?;
    Ok(format!("library and listing programs agree: {compared}"))
}

fn compare_listings(
    args: &[String],
    name: &str,
    run: impl Fn(&Path, u64, u64) -> Checked<usize>,
) -> Result<String, String> {
    let program = args
        .first()
        .map_or_else(|| Path::new(PROGRAMS).join(name), PathBuf::from);
    let files = number(args, 1, DEFAULT_LISTED)?;
    let seed = number(args, 2, DEFAULT_SEED)?;
    println!("seed {seed}");
    let listed = run(&program, seed, files).map_err(|difference| with_seed(seed, difference))?;
    Ok(format!("the listing program agrees: {listed} inputs"))
}

fn compare_people(args: &[String]) -> Result<String, String> {
    let program = args.first().map_or(PEOPLE, String::as_str);
    let calls = number(args, 1, DEFAULT_CALLS)?;
    let seed = number(args, 2, DEFAULT_SEED)?;
    println!("seed {seed}");
    let called = people::run(Path::new(program), seed, calls)
        .map_err(|difference| with_seed(seed, difference))?;
    Ok(format!("the program for people agrees: {called} calls"))
}

fn number(args: &[String], index: usize, default: u64) -> Result<u64, String> {
    match args.get(index) {
        None => Ok(default),
        Some(word) => word
            .parse()
            .map_err(|_| format!("not a number: {word}\n{USAGE}")),
    }
}

fn with_seed(seed: u64, complaint: impl Display) -> String {
    format!("seed {seed}\n{complaint}")
}
