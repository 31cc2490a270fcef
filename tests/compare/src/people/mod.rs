//! Comparing what the program for people writes with what the reference says.

mod palettes;
mod reports;
mod searches;
mod words;

use crate::difference::{agree, Checked};
use std::fs;
use std::path::{Path, PathBuf};
use std::process::{self, Command};

/// Calls each subcommand on so many made-up sets of files; says how many calls.
pub fn run(program: &Path, seed: u64, calls: u64) -> Checked<usize> {
    let folder = Folder::new();
    let compared = palettes::run(program, &folder, seed, calls)?;
    let reported = reports::run(program, &folder, seed, calls / REPORTS)?;
    let found = searches::run(program, &folder, seed, calls)?;
    Ok(compared + reported + found)
}

/// One report, of many files, to so many calls of the others.
const REPORTS: u64 = 10;

/// A folder of its own for the files of a run.
struct Folder(PathBuf);

impl Folder {
    fn new() -> Self {
        let folder = std::env::temp_dir().join(format!("khuyurek-{}", process::id()));
        fs::create_dir_all(&folder).expect("a folder for the files is made");
        Folder(folder)
    }

    /// A file in it, by its whole name.
    fn put(&self, name: &str, bytes: &[u8]) -> String {
        let path = self.0.join(name);
        fs::write(&path, bytes).expect("a file is written");
        path.into_os_string()
            .into_string()
            .expect("the folder's name is UTF-8")
    }
}

impl Drop for Folder {
    fn drop(&mut self) {
        let _ = fs::remove_dir_all(&self.0);
    }
}

/// Holds what a call writes, and its status, to what is expected.
fn check(program: &Path, arguments: &[&str], wanted: &str, status: i32) -> Checked {
    let output = Command::new(program).args(arguments).output();
    let found = match &output {
        Ok(output) => {
            let text = String::from_utf8_lossy(&output.stdout).into_owned();
            (text, output.status.code())
        }
        Err(error) => (error.to_string(), None),
    };
    let call = || format!("{} {}", program.display(), arguments.join(" "));
    agree(call, &(wanted.to_string(), Some(status)), &found)
}
