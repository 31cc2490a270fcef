//! Options and names.

use crate::files::Kind;
use crate::text::shown_name;
use std::ffi::{OsStr, OsString};

/// How a call is misused, in words.
#[derive(Debug)]
pub struct Misuse(pub String);

/// What a call names, its options aside.
#[derive(Default)]
pub struct Arguments<'a> {
    /// The kind of all files, where it is given.
    pub kind: Option<Kind>,
    /// The words of other options that were given.
    pub flags: Vec<&'static str>,
    pub names: Vec<&'a OsStr>,
}

impl Arguments<'_> {
    pub fn has(&self, flag: &str) -> bool {
        self.flags.contains(&flag)
    }
}

/// The options come before `--`, in any order and among the names; `flags` are those
/// that a subcommand has besides `--kind`.
pub fn parse<'a>(words: &'a [OsString], flags: &[&'static str]) -> Result<Arguments<'a>, Misuse> {
    let mut arguments = Arguments::default();
    let mut words = words.iter();
    while let Some(word) = words.next() {
        if word == "--" {
            arguments
                .names
                .extend(words.by_ref().map(OsString::as_os_str));
        } else if word == "--kind" {
            let kind = words.next();
            let kind = kind.ok_or_else(|| Misuse("--kind needs a kind".to_string()))?;
            arguments.kind = Some(kind_of(kind)?);
        } else if let Some(kind) = after(word, "--kind=") {
            arguments.kind = Some(kind_of(OsStr::new(kind))?);
        } else if let Some(flag) = flags.iter().find(|flag| word == **flag) {
            arguments.flags.push(flag);
        } else if word.as_encoded_bytes().starts_with(b"-") && word != "-" {
            return Err(Misuse(format!("no such option: {}", shown_name(word))));
        } else {
            arguments.names.push(word);
        }
    }
    Ok(arguments)
}

/// Whether one of some options is given, before `--`.
pub fn asks(words: &[OsString], options: &[&str]) -> bool {
    let mut before = words.iter().take_while(|word| *word != "--");
    before.any(|word| options.iter().any(|option| word == option))
}

/// What follows the first letters of a word.
fn after<'a>(word: &'a OsStr, first: &str) -> Option<&'a str> {
    word.to_str()?.strip_prefix(first)
}

fn kind_of(word: &OsStr) -> Result<Kind, Misuse> {
    let known = Kind::ALL.into_iter().find(|kind| word == kind.word());
    known.ok_or_else(|| Misuse(format!("no such kind: {}", shown_name(word))))
}
