//! Reading files and telling their kinds, the same way as `khuyurek` lists them.

use crate::places::DOCUMENT;
use crate::progress;
use crate::text::shown_name;
use khuyurek::LIMIT;
use std::ffi::OsStr;
use std::fs::{self, File};
use std::io::{self, Read};

/// The library takes a section of its limit, and a document may have much before it.
const DOCUMENT_LIMIT: usize = 2 * LIMIT;

/// Standard input by its name.
const STANDARD: &str = "-";

/// The kinds of files.
#[derive(Clone, Copy, Debug, PartialEq, Eq)]
pub enum Kind {
    Aco,
    Ase,
    Acb,
    Descriptor,
    Resource,
}

impl Kind {
    /// As it is shown beside a name.
    pub fn title(self) -> &'static str {
        match self {
            Kind::Aco => "ACO",
            Kind::Ase => "ASE",
            Kind::Acb => "ACB",
            Kind::Descriptor => "descriptor",
            Kind::Resource => "resources",
        }
    }

    /// As `--kind` has it.
    pub fn word(self) -> &'static str {
        match self {
            Kind::Aco => "aco",
            Kind::Ase => "ase",
            Kind::Acb => "acb",
            Kind::Descriptor => "descriptor",
            Kind::Resource => "resource",
        }
    }

    pub const ALL: [Kind; 5] = [
        Kind::Aco,
        Kind::Ase,
        Kind::Acb,
        Kind::Descriptor,
        Kind::Resource,
    ];
}

/// A file's name as it is shown, its kind and its bytes.
pub struct Taken {
    pub title: String,
    pub kind: Kind,
    pub bytes: Vec<u8>,
}

/// Says on standard error what is no file's refusal.
pub fn complain(complaint: &str) {
    progress::clear();
    eprintln!("khuyurek: {complaint}");
}

/// A file's name as it is shown.
pub fn title(name: &OsStr) -> String {
    if name == STANDARD {
        "standard input".to_string()
    } else {
        shown_name(name)
    }
}

/// Reads a file, or standard input for `-`, and tells its kind where none is given;
/// or says why not. Of a file that is longer than the library takes a byte more is
/// read, which has the same refusal.
pub fn take(name: &OsStr, given: Option<Kind>) -> Result<Taken, Untaken> {
    let title = title(name);
    let untaken = |reason: &str| Untaken {
        title: title.clone(),
        reason: reason.to_string(),
    };
    let bytes = read(name, LIMIT + 1).map_err(untaken)?;
    let kind = match given {
        Some(kind) => kind,
        None => tell(&title, name, &bytes).map_err(untaken)?,
    };
    Ok(Taken { title, kind, bytes })
}

/// Why a file was not taken.
pub struct Untaken {
    pub title: String,
    pub reason: String,
}

impl Untaken {
    pub fn complain(&self) {
        complain(&format!("{}: {}", self.title, self.reason));
    }
}

/// At most so many bytes of a file; of a document more.
pub fn read(name: &OsStr, most: usize) -> Result<Vec<u8>, &'static str> {
    let mut bytes = Vec::new();
    let read = if name == STANDARD {
        read_to(io::stdin().lock(), most, &mut bytes)
    } else {
        let folder = fs::metadata(name).map_err(|_| "no such file")?.is_dir();
        if folder {
            return Err("is a folder");
        }
        File::open(name).and_then(|file| read_to(file, most, &mut bytes))
    };
    read.map_err(|_| "cannot be read")?;
    Ok(bytes)
}

fn read_to(mut input: impl Read, most: usize, bytes: &mut Vec<u8>) -> io::Result<()> {
    input.by_ref().take(most as u64).read_to_end(bytes)?;
    if bytes.len() == most && bytes.starts_with(DOCUMENT) {
        let more = DOCUMENT_LIMIT.saturating_sub(most);
        input.take(more as u64).read_to_end(bytes)?;
    }
    Ok(())
}

impl Taken {
    /// Whether there may be more of it that was not read.
    pub fn is_cut(&self) -> bool {
        self.bytes.len() >= DOCUMENT_LIMIT
    }
}

/// First bytes without which a kind is never accepted decide, so that a wrong name
/// hides no sound file; then the name, so that a damaged file gets its own reader's
/// refusal; then ACO's second list alone, which no reader takes.
fn tell(title: &str, name: &OsStr, bytes: &[u8]) -> Result<Kind, &'static str> {
    let (by_bytes, by_name) = (by_bytes(bytes), by_name(name));
    let second_list = bytes.starts_with(&[0, 2]).then_some(Kind::Aco);
    let kind = by_bytes.or(by_name).or(second_list);
    let kind = kind.ok_or("neither its first bytes nor its name say the kind; --kind does")?;
    if by_name.is_some_and(|named| named != kind) {
        complain(&format!(
            "{title}: taken as {}, by its first bytes",
            kind.title()
        ));
    }
    Ok(kind)
}

fn by_bytes(bytes: &[u8]) -> Option<Kind> {
    match bytes {
        [b'A', b'S', b'E', b'F', ..] => Some(Kind::Ase),
        [b'8', b'B', b'C', b'B', ..] => Some(Kind::Acb),
        [b'8', b'B', b'I', b'M', ..] | [b'8', b'B', b'P', b'S', ..] => Some(Kind::Resource),
        [0, 0, 0, 16, ..] => Some(Kind::Descriptor),
        [0, 1, ..] => Some(Kind::Aco),
        _ => None,
    }
}

/// The kind that the end of a name says.
pub fn by_name(name: &OsStr) -> Option<Kind> {
    let ends = [
        (".aco", Kind::Aco),
        (".ase", Kind::Ase),
        (".acb", Kind::Acb),
        (".desc", Kind::Descriptor),
        (".8bim", Kind::Resource),
        (".psd", Kind::Resource),
    ];
    let name = name.as_encoded_bytes().to_ascii_lowercase();
    let known = ends
        .into_iter()
        .find(|(end, _)| name.ends_with(end.as_bytes()));
    known.map(|(_, kind)| kind)
}
