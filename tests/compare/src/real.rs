//! Comparing on files that other programs made, by the ending of their names.

use crate::difference::{Checked, Difference};
use crate::program::check_listings;
use crate::{acb, ase, descriptor, reading, reports, resource, seasons, tally};
use generate::Random;
use reference::report::TOTALS;
use reference::season;
use std::fmt::{self, Display, Formatter};
use std::fs;
use std::io;
use std::path::{Path, PathBuf};

/// What is done with the files of one ending.
struct Kind {
    ending: &'static str,
    program: &'static str,
    check: fn(&[u8], &mut Random) -> Checked,
    list: fn(&[u8]) -> String,
}

const KINDS: [Kind; 6] = [
    Kind {
        ending: "aco",
        program: "aco_list",
        check: |file, random| reading::check_file(file, random, &mut tally::Tally::default()),
        list: reference::list,
    },
    Kind {
        ending: "ase",
        program: "ase_list",
        check: |file, random| ase::check_file(file, random, &mut ase::Tally::default()),
        list: reference::ase::list,
    },
    Kind {
        ending: "acb",
        program: "acb_list",
        check: |file, random| acb::check_file(file, random, &mut acb::Tally::default()),
        list: reference::acb::list,
    },
    Kind {
        ending: "desc",
        program: "descriptor_list",
        check: |file, random| {
            descriptor::check_file(file, random, &mut descriptor::Tally::default())
        },
        list: reference::descriptor::list,
    },
    Kind {
        ending: "8bim",
        program: "resource_list",
        check: |file, random| {
            resource::check_section(file, random, &mut resource::Tally::default())
        },
        list: reference::resource::list,
    },
    Kind {
        ending: "psd",
        program: "resource_list",
        check: |file, random| {
            resource::check_document(file, random, &mut resource::Tally::default())
        },
        list: reference::resource::list,
    },
];

/// The endings of files that a caller says the kind of, each at its number.
const ENDINGS: [&str; 4] = ["aco", "ase", "acb", "desc"];

/// How many files of each kind were compared, and how many of them list as
/// refused.
pub struct Compared {
    files: [u64; KINDS.len()],
    refused: [u64; KINDS.len()],
    passed_over: u64,
}

/// Compares library and listing programs on every file of a folder and of the
/// folders in it, up to the first difference. A folder that is not there has no
/// files.
pub fn run(folder: &Path, programs: &Path, seed: u64) -> Result<Compared, String> {
    let mut compared = Compared {
        files: [0; KINDS.len()],
        refused: [0; KINDS.len()],
        passed_over: 0,
    };
    for path in files_in(folder).map_err(|error| in_path(folder, error))? {
        let Some(index) = KINDS.iter().position(|kind| has_ending(&path, kind.ending)) else {
            compared.passed_over += 1;
            continue;
        };
        let file = fs::read(&path).map_err(|error| in_path(&path, error))?;
        check(&KINDS[index], &file, programs, seed).map_err(|found| in_path(&path, found))?;
        compared.files[index] += 1;
        compared.refused[index] += u64::from((KINDS[index].list)(&file).starts_with("refused"));
    }
    Ok(compared)
}

fn check(kind: &Kind, file: &[u8], programs: &Path, seed: u64) -> Result<(), Difference> {
    (kind.check)(file, &mut Random::new(seed))?;
    // A palette is compared with itself.
    if let Some(said) = ENDINGS[..2].iter().position(|said| *said == kind.ending) {
        let kind = said as u32;
        let palette = season::Palette { kind, file };
        let tally = &mut seasons::Tally::default();
        seasons::check_pair([palette; 2], &mut Random::new(seed), tally)?;
    }
    if let Some(said) = ENDINGS.iter().position(|said| *said == kind.ending) {
        let tally = &mut reports::Tally::default();
        reports::check_add([0; TOTALS], said as u32, file, tally)?;
    }
    let program = programs.join(kind.program);
    check_listings(&program, &[file.to_vec()], kind.list).map(|_| ())
}

fn in_path(path: &Path, complaint: impl Display) -> String {
    format!("{}: {complaint}", path.display())
}

fn has_ending(path: &Path, ending: &str) -> bool {
    let found = path.extension().and_then(|found| found.to_str());
    found.is_some_and(|found| found.eq_ignore_ascii_case(ending))
}

/// The paths of all files, in order.
fn files_in(folder: &Path) -> io::Result<Vec<PathBuf>> {
    if !folder.exists() {
        return Ok(Vec::new());
    }
    let mut files = Vec::new();
    for entry in fs::read_dir(folder)? {
        let path = entry?.path();
        if path.is_dir() {
            files.extend(files_in(&path)?);
        } else {
            files.push(path);
        }
    }
    files.sort();
    Ok(files)
}

impl Display for Compared {
    fn fmt(&self, f: &mut Formatter<'_>) -> fmt::Result {
        for (index, kind) in KINDS.iter().enumerate() {
            let (files, refused) = (self.files[index], self.refused[index]);
            write!(f, "{files} .{} ({refused} refused), ", kind.ending)?;
        }
        write!(f, "{} others passed over", self.passed_over)
    }
}
