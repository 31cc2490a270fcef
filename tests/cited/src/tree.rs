//! What is there: the crates with their definitions, functions and must-fail
//! edits, and every word of the sources.

use std::collections::{BTreeMap, HashSet};
use std::fs;
use std::path::{Path, PathBuf};

pub type Names = HashSet<String>;

#[derive(Default)]
pub struct Crate {
    /// The definitions of the files of a name, under specs/ and proofs/ together.
    pub files: BTreeMap<String, Names>,
    /// All definitions, those that only a function's proof has too.
    pub definitions: Names,
    /// Functions, types, variants and constants.
    pub code: Names,
    pub edits: Names,
}

pub struct Tree {
    pub root: PathBuf,
    pub crates: BTreeMap<String, Crate>,
    pub words: Names,
    /// The rules that docs/RULES.md numbers.
    pub rules: Names,
}

impl Crate {
    /// A name of the crate, wherever in it.
    pub fn has(&self, name: &str) -> bool {
        self.definitions.contains(name) || self.code.contains(name) || self.edits.contains(name)
    }
}

impl Tree {
    pub fn read(root: &Path) -> Tree {
        let mut tree = Tree {
            root: root.into(),
            crates: BTreeMap::new(),
            words: Names::new(),
            rules: rules(&root.join("docs/RULES.md")),
        };
        for folder in entries(&root.join("crates")) {
            let name = file_name(&folder);
            tree.words.insert(name.clone());
            let found = tree.read_crate(&folder);
            tree.crates.insert(name, found);
        }
        for part in [
            "tests",
            "include",
            "examples",
            "khuyurek",
            "crates.txt",
            ".ci",
        ] {
            let mut paths = files_under(&root.join(part));
            // This program has names that are nowhere; stored files have none.
            let passed = ["tests/cited", "tests/files"].map(|part| root.join(part));
            paths.retain(|path| !passed.iter().any(|part| path.starts_with(part)));
            for path in paths {
                tree.add_words(&path);
            }
        }
        tree
    }

    fn read_crate(&mut self, folder: &Path) -> Crate {
        let mut found = Crate::default();
        for path in files_under(&folder.join("must-fail")) {
            found.edits.insert(stem(&path));
            self.words.insert(stem(&path));
        }
        for path in files_under(&folder.join("src")) {
            let text = self.add_words(&path);
            found.code.extend(text.lines().filter_map(declared));
        }
        for part in ["specs", "proofs"] {
            let part = folder.join(part);
            for path in files_under(&part) {
                let names: Names = self.add_words(&path).lines().flat_map(defined).collect();
                found.definitions.extend(names.iter().cloned());
                let folders = [part.clone(), part.join("scaffold")];
                if folders.iter().any(|folder| path.parent() == Some(folder)) {
                    found.files.entry(stem(&path)).or_default().extend(names);
                }
            }
        }
        found
    }

    /// Adds the words of a file, and gives its text; what is no text has none.
    fn add_words(&mut self, path: &Path) -> String {
        let text = fs::read_to_string(path).unwrap_or_default();
        let words = text.split(|c: char| !(c.is_ascii_alphanumeric() || c == '_' || c == '-'));
        self.words.extend(words.map(String::from));
        text
    }
}

/// The numbers at the heads of rules, `- **A19** ..`.
fn rules(path: &Path) -> Names {
    let text = fs::read_to_string(path).expect("the rules");
    let heads = text
        .lines()
        .filter_map(|line| line.strip_prefix("- **")?.split_once("**"));
    heads.map(|(number, _)| number.to_string()).collect()
}

/// The names that a line of a definition file declares: `name : type`, also of a
/// field or a constructor, `data Name` or `record Name`.
fn defined(line: &str) -> Vec<String> {
    let mut words = line.split_whitespace().peekable();
    let modifiers = ["pub", "abbrev", "unfoldable"];
    while words.next_if(|word| modifiers.contains(word)).is_some() {}
    if words
        .next_if(|word| ["data", "record"].contains(word))
        .is_some()
    {
        return words.next().map(String::from).into_iter().collect();
    }
    let words: Vec<&str> = words.collect();
    let Some(end) = words.iter().position(|word| *word == ":") else {
        return Vec::new();
    };
    let names = &words[..end];
    let names = if names.iter().all(|name| is_name(name)) {
        names
    } else {
        &[]
    };
    names.iter().map(|name| name.to_string()).collect()
}

/// The function, type, variant or constant that a line of code declares.
fn declared(line: &str) -> Option<String> {
    let line = line.trim_start();
    let mut rest = line.strip_prefix("pub ").unwrap_or(line);
    rest = rest.strip_prefix("extern \"C\" ").unwrap_or(rest);
    let keywords = ["fn ", "struct ", "enum ", "const "];
    let after = keywords
        .iter()
        .find_map(|keyword| rest.strip_prefix(keyword));
    let variant = || {
        rest.starts_with(|c: char| c.is_ascii_uppercase())
            .then_some(rest)
    };
    let after = after.or_else(variant)?;
    let end = after.find(|c: char| !(c.is_ascii_alphanumeric() || c == '_'));
    Some(after[..end.unwrap_or(after.len())].into())
}

pub fn is_name(text: &str) -> bool {
    let inside = |c: char| c.is_ascii_alphanumeric() || "_-'".contains(c);
    text.starts_with(|c: char| c.is_ascii_alphabetic()) && text.chars().all(inside)
}

fn entries(folder: &Path) -> Vec<PathBuf> {
    let entries = fs::read_dir(folder).into_iter().flatten();
    let mut paths: Vec<PathBuf> = entries.map(|entry| entry.unwrap().path()).collect();
    paths.sort();
    paths
}

/// The files of a folder and of those in it; a file is itself.
fn files_under(path: &Path) -> Vec<PathBuf> {
    if path.is_dir() {
        return entries(path)
            .iter()
            .flat_map(|inner| files_under(inner))
            .collect();
    }
    vec![path.into()]
}

fn file_name(path: &Path) -> String {
    path.file_name().unwrap().to_string_lossy().into()
}

fn stem(path: &Path) -> String {
    path.file_stem().unwrap().to_string_lossy().into()
}
