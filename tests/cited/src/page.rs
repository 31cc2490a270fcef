//! What a page cites, in the forms that docs/ARCHITECTURE.md fixes ("How these
//! pages cite").

use crate::parts::{parts_of, Part};
use crate::tree::{is_name, Crate, Tree};

/// The crates whose files a section of docs/PROMISES.md may name alone.
const SECTIONS: [(&str, &[&str]); 7] = [
    ("ACO", &["aco"]),
    ("ASE", &["ase"]),
    ("ACB", &["acb"]),
    ("Descriptors", &["descriptor", "descriptor_tree"]),
    ("Walkers", &["walk", "aco_walk", "ase_walk"]),
    ("Samples and channels", &["colour"]),
    ("The readers' algebra", &["fields"]),
];

/// A crate and a file of it.
type File = (String, String);

/// What the names that follow belong to.
#[derive(Clone)]
enum Holder {
    /// Any of the files.
    Any(Vec<File>),
    /// Each of the files, of which more may follow.
    Each(Vec<File>),
    /// Each of the files, of which a name was cited.
    Named(Vec<File>),
    Code(String),
    Crate(String),
}

pub struct Page<'a> {
    tree: &'a Tree,
    section: &'static [&'static str],
    edits_last: bool,
    quoted: bool,
    pub checked: usize,
    pub missing: Vec<String>,
}

impl<'a> Page<'a> {
    pub fn new(tree: &'a Tree) -> Self {
        let (section, edits_last, quoted) = (&[][..], false, false);
        let (checked, missing) = (0, Vec::new());
        Page {
            tree,
            section,
            edits_last,
            quoted,
            checked,
            missing,
        }
    }

    /// A line of the page; code that stands by itself is passed over.
    pub fn read_line(&mut self, line: &str) {
        self.quoted ^= line.starts_with("```");
        if !self.quoted && !line.starts_with("    ") {
            self.line(line);
        }
    }

    fn line(&mut self, line: &str) {
        if let Some(title) = line.strip_prefix("## ") {
            let known = SECTIONS.iter().find(|(name, _)| *name == title);
            self.section = known.map_or(&[], |(_, crates)| crates);
        }
        let Some(row) = line.strip_prefix('|') else {
            self.edits_last = false;
            return self.cell(line);
        };
        let mut cells: Vec<&str> = row.trim_end().trim_end_matches('|').split('|').collect();
        if cells
            .last()
            .is_some_and(|cell| cell.trim() == "Must-fail edit")
        {
            self.edits_last = true;
        } else if self.edits_last {
            let last = cells.pop().unwrap_or_default();
            self.edits(last);
        }
        cells.iter().for_each(|cell| self.cell(cell));
    }

    /// A cell of must-fail edits: `crate/edit`, or an edit of the crate before it;
    /// what is no edit stands in parentheses.
    fn edits(&mut self, cell: &str) {
        let mut rest = String::new();
        let mut depth = 0;
        for c in cell.chars() {
            depth += i32::from(c == '(');
            if depth == 0 {
                rest.push(c);
            }
            depth -= i32::from(c == ')');
        }
        self.expect(!cell.contains("(those of"), cell.trim(), "names no edit");
        let mut of = "";
        let plain = |c: char| c == '`' || c.is_whitespace();
        for edit in rest.split([',', ';']).map(|edit| edit.trim_matches(plain)) {
            if edit.is_empty() || edit.starts_with("--") {
                continue;
            }
            let (holder, name) = edit.split_once('/').unwrap_or((of, edit));
            of = holder;
            let there = self.of(holder).is_some_and(|of| of.edits.contains(name));
            self.expect(there, edit, "no such must-fail edit");
        }
    }

    fn cell(&mut self, cell: &str) {
        let parts = parts_of(cell);
        let mut holder = None;
        for (i, part) in parts.iter().enumerate() {
            holder = match part {
                Part::And => holder,
                Part::End => None,
                Part::Word(word) => self.word(word, holder, &parts[i + 1..]),
                Part::Code(code) => self.code(code, holder, &parts[i..]),
            };
        }
    }

    fn word(&mut self, word: &str, holder: Option<Holder>, after: &[Part]) -> Option<Holder> {
        if let Some(found) = self.slashed(word, &holder) {
            return found;
        }
        if is_rule(word) {
            self.expect(self.tree.rules.contains(word), word, "no such rule");
            return None;
        }
        let names = matches!(after.first(), Some(Part::Code(_)));
        if names && self.tree.crates.contains_key(word) {
            return Some(Holder::Crate(word.into()));
        }
        let files = self.files_called(word);
        (names && !files.is_empty()).then_some(Holder::Any(files))
    }

    /// The files of a name in the crates of the section, else in all.
    fn files_called(&self, name: &str) -> Vec<File> {
        let has = |of: &&str| self.of(of).is_some_and(|of| of.files.contains_key(name));
        let mut found: Vec<&str> = self.section.iter().copied().filter(has).collect();
        if found.is_empty() {
            found = self
                .tree
                .crates
                .keys()
                .map(String::as_str)
                .filter(has)
                .collect();
        }
        found
            .iter()
            .map(|of| (of.to_string(), name.to_string()))
            .collect()
    }

    fn of(&self, name: &str) -> Option<&'a Crate> {
        self.tree.crates.get(name)
    }

    /// `crate/File`, `crate/edit` or a path; none where it is neither.
    fn slashed(&mut self, text: &str, before: &Option<Holder>) -> Option<Option<Holder>> {
        let (first, rest) = text.split_once('/')?;
        if let Some(of) = self.of(first) {
            if ["src", "specs", "proofs", "must-fail"].contains(&rest.split('/').next()?) {
                self.path(&format!("crates/{text}"));
            } else if rest.starts_with(|c: char| c.is_ascii_uppercase()) && is_name(rest) {
                let there = of.files.contains_key(rest);
                self.expect(there, text, "no such file under specs/ or proofs/");
                let mut files = match before {
                    Some(Holder::Each(files)) => files.clone(),
                    _ => Vec::new(),
                };
                files.push((first.into(), rest.into()));
                return Some(Some(Holder::Each(files)));
            } else if is_name(rest) {
                let there = of.edits.contains(rest);
                self.expect(there, text, "no such must-fail edit");
            }
            return Some(None);
        }
        let roots = ["crates", "tests", "docs", "include", "examples", ".ci"];
        if roots.contains(&first) {
            self.path(text);
            return Some(None);
        }
        None
    }

    /// A path of the repository; one with a part in capitals stands for many.
    fn path(&mut self, path: &str) {
        let path = path.split(char::is_whitespace).next().unwrap_or_default();
        let capitals = |part: &str| part.len() > 1 && part.chars().all(|c| c.is_ascii_uppercase());
        let many = |part: &str| part == "*" || capitals(part);
        if path.ends_with(".md") || !path.split(['/', '.']).any(many) {
            self.expect(self.tree.root.join(path).exists(), path, "no such path");
        }
    }

    fn code(&mut self, code: &str, holder: Option<Holder>, from: &[Part]) -> Option<Holder> {
        if let Some(found) = self.slashed(code, &holder) {
            return found;
        }
        let called = code.split('(').next().unwrap_or(code);
        let mut parts = called.split("::");
        let first = parts.next().unwrap_or_default();
        if called.contains("::") && self.tree.crates.contains_key(first) {
            let of = Holder::Code(first.into());
            parts.for_each(|name| self.name(name, &of));
            return Some(of);
        }
        if !called.split("::").all(is_name) {
            return holder;
        }
        if self.tree.crates.contains_key(called) {
            return None;
        }
        let holders = match &holder {
            Some(holder) => vec![holder.clone()],
            None => self.holders_after(from),
        };
        for name in called.split("::") {
            holders.iter().for_each(|of| self.name(name, of));
            if holders.is_empty() {
                self.anywhere(name);
            }
        }
        match holder {
            Some(Holder::Each(files)) => Some(Holder::Named(files)),
            _ => holder,
        }
    }

    /// What names belong to that stand before `of`: crates, or files of crates.
    fn holders_after(&self, from: &[Part]) -> Vec<Holder> {
        let names = from
            .iter()
            .take_while(|part| matches!(part, Part::Code(_) | Part::And));
        let after = &from[names.count()..];
        if after.first() != Some(&Part::Word("of")) {
            return Vec::new();
        }
        let listed = after[1..].iter().filter(|part| **part != Part::And);
        listed.map_while(|part| self.holder(part)).collect()
    }

    fn holder(&self, part: &Part) -> Option<Holder> {
        let (Part::Code(text) | Part::Word(text)) = part else {
            return None;
        };
        if self.tree.crates.contains_key(*text) {
            return Some(Holder::Crate(text.to_string()));
        }
        let (of, file) = text.split_once('/')?;
        let file = (of.to_string(), file.to_string());
        self.tree
            .crates
            .contains_key(of)
            .then(|| Holder::Each(vec![file]))
    }

    fn name(&mut self, name: &str, holder: &Holder) {
        let crates = &self.tree.crates;
        let in_file = |(of, file): &File| {
            let names = crates.get(of).and_then(|of| of.files.get(file));
            names.is_some_and(|names| names.contains(name))
        };
        let (there, of) = match holder {
            Holder::Any(files) => (files.iter().any(in_file), shown(files)),
            Holder::Each(files) | Holder::Named(files) => (files.iter().all(in_file), shown(files)),
            Holder::Code(of) => (crates[of].code.contains(name), format!("the code of {of}")),
            Holder::Crate(of) => (crates[of].has(name), of.clone()),
        };
        self.expect(there, name, &format!("not in {of}"));
    }

    /// A name by itself is a word of the sources. A plain word may be no name, and
    /// `x_` begins the crates of a format to come.
    fn anywhere(&mut self, name: &str) {
        let capital = |c: char| c.is_ascii_uppercase();
        let marked =
            name.contains(['_', '-']) || !name.starts_with(capital) && name.contains(capital);
        if marked && !name.starts_with("x_") {
            self.expect(
                self.tree.words.contains(name),
                name,
                "nowhere in the sources",
            );
        }
    }

    fn expect(&mut self, there: bool, what: &str, missing: &str) {
        self.checked += 1;
        if !there {
            self.missing.push(format!("{what}: {missing}"));
        }
    }
}

/// A letter and one or two digits.
fn is_rule(word: &str) -> bool {
    let digits = word
        .strip_prefix(|c: char| c.is_ascii_uppercase())
        .unwrap_or_default();
    matches!(digits.len(), 1..=2) && digits.chars().all(|c| c.is_ascii_digit())
}

fn shown(files: &[File]) -> String {
    let files: Vec<String> = files
        .iter()
        .map(|(of, file)| format!("{of}/{file}"))
        .collect();
    files.join(", ")
}
