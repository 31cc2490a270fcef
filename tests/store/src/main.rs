//! Writes the stored files with their listings by the reference, or says where
//! what is stored differs from them.

#![forbid(unsafe_code)]

mod kinds;

use kinds::{Kind, Titled, KINDS};
use std::collections::BTreeMap;
use std::fs;
use std::io;
use std::path::{Path, PathBuf};
use std::process::ExitCode;

const USAGE: &str = "usage: store make [FOLDER]
       store check [FOLDER]
       store largest FOLDER";
const STORED: &str = concat!(env!("CARGO_MANIFEST_DIR"), "/../files");

/// Files by their paths inside the folder.
type Files = BTreeMap<PathBuf, Vec<u8>>;

fn main() -> ExitCode {
    let args: Vec<String> = std::env::args().skip(1).collect();
    let args: Vec<&str> = args.iter().map(String::as_str).collect();
    let outcome = match args[..] {
        ["make"] => make(Path::new(STORED)),
        ["make", folder] => make(Path::new(folder)),
        ["check"] => check(Path::new(STORED)),
        ["check", folder] => check(Path::new(folder)),
        ["largest", folder] => largest(Path::new(folder)),
        _ => Err(USAGE.to_string()),
    };
    match outcome {
        Ok(summary) => {
            println!("{summary}");
            ExitCode::SUCCESS
        }
        Err(complaint) => {
            eprintln!("{complaint}");
            ExitCode::FAILURE
        }
    }
}

/// Writes all of them in the place of what the kinds' folders hold.
fn make(folder: &Path) -> Result<String, String> {
    let files = stored()?;
    for kind in &KINDS {
        let place = folder.join(kind.ending);
        if place.exists() {
            fs::remove_dir_all(&place).map_err(|error| in_path(&place, error))?;
        }
    }
    write(folder, &files)
}

fn largest(folder: &Path) -> Result<String, String> {
    let mut files = Files::new();
    for kind in &KINDS {
        add(&mut files, kind, (kind.largest)(kind.limit))?;
    }
    write(folder, &files)
}

fn write(folder: &Path, files: &Files) -> Result<String, String> {
    for (path, bytes) in files {
        let path = folder.join(path);
        let parent = path.parent().unwrap_or(folder);
        fs::create_dir_all(parent).map_err(|error| in_path(parent, error))?;
        fs::write(&path, bytes).map_err(|error| in_path(&path, error))?;
    }
    Ok(format!("{} files with listings written", files.len() / 2))
}

fn check(folder: &Path) -> Result<String, String> {
    let wanted = stored()?;
    let mut found = Files::new();
    for kind in &KINDS {
        let place = folder.join(kind.ending);
        read_folder(&place, Path::new(kind.ending), &mut found)
            .map_err(|error| in_path(&place, error))?;
    }
    let missing = wanted.iter().filter_map(|(path, bytes)| {
        let complaint = match found.get(path) {
            None => "is not stored",
            Some(stored) if stored != bytes => "is stored otherwise",
            Some(_) => return None,
        };
        Some(format!("{} {complaint}", path.display()))
    });
    let unknown = found.keys().filter(|path| !wanted.contains_key(*path));
    let unknown = unknown.map(|path| format!("{} is not one of them", path.display()));
    let complaints: Vec<String> = missing.chain(unknown).collect();
    if complaints.is_empty() {
        return Ok(format!("{} files are stored as made", wanted.len() / 2));
    }
    Err(complaints.join("\n"))
}

fn read_folder(place: &Path, shown: &Path, found: &mut Files) -> io::Result<()> {
    for entry in fs::read_dir(place)? {
        let entry = entry?;
        found.insert(shown.join(entry.file_name()), fs::read(entry.path())?);
    }
    Ok(())
}

/// All stored files and their listings. Each kind has every answer among them.
fn stored() -> Result<Files, String> {
    let mut files = Files::new();
    for kind in &KINDS {
        let mut titled = (kind.fixed)();
        titled.push(("too long to list".to_string(), too_long(kind, &titled)?));
        let mut numbers: Vec<u32> = titled
            .iter()
            .map(|(_, file)| number(&(kind.list)(file)))
            .collect();
        numbers.sort_unstable();
        numbers.dedup();
        if numbers != kind.numbers {
            return Err(format!(
                ".{} files have the numbers {numbers:?}",
                kind.ending
            ));
        }
        add(&mut files, kind, titled)?;
    }
    Ok(files)
}

/// An accepted file made longer than is listed.
fn too_long(kind: &Kind, titled: &[Titled]) -> Result<Vec<u8>, String> {
    let accepted = |(_, file): &&Titled| number(&(kind.list)(file)) == 0;
    let (_, file) = titled.iter().find(accepted).ok_or("no file is accepted")?;
    let mut file = file.clone();
    (kind.lengthen)(&mut file, kind.limit);
    Ok(file)
}

/// The number of the refusal that a listing says, or 0.
fn number(listing: &str) -> u32 {
    let mut words = listing.split_whitespace();
    match (words.next(), words.next()) {
        (Some("refused"), Some(number)) => number.parse().unwrap_or(0),
        _ => 0,
    }
}

fn add(files: &mut Files, kind: &Kind, titled: Vec<Titled>) -> Result<(), String> {
    let mut names: Vec<String> = Vec::new();
    for (title, file) in titled {
        let name = file_name(&title);
        // Folders of some systems do not tell capitals from small letters.
        if names.iter().any(|other| other.eq_ignore_ascii_case(&name)) {
            return Err(format!("two .{} files are called {name}", kind.ending));
        }
        let place = Path::new(kind.ending).join(&name);
        let listing = (kind.list)(&file).into_bytes();
        files.insert(place.with_extension("listing"), listing);
        files.insert(place.with_extension(kind.ending), file);
        names.push(name);
    }
    Ok(())
}

/// The title's letters and digits, with a dash between its words.
fn file_name(title: &str) -> String {
    let letters = title.replace(['\'', '.'], "");
    let words = letters.split(|letter: char| !letter.is_ascii_alphanumeric());
    let words: Vec<&str> = words.filter(|word| !word.is_empty()).collect();
    words.join("-")
}

fn in_path(path: &Path, error: io::Error) -> String {
    format!("{}: {error}", path.display())
}
