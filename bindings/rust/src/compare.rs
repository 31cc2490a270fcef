//! Two palettes compared by position.

use std::error::Error;
use std::fmt::{self, Display, Formatter};

use crate::{raw, Refusal};

/// A palette's bytes, with what the caller says that they are.
#[derive(Clone, Copy, Debug, PartialEq, Eq)]
pub enum Palette<'a> {
    /// Swatches.
    Aco(&'a [u8]),
    /// An exchange palette.
    Ase(&'a [u8]),
}

/// What a position shows.
#[derive(Clone, Copy, Debug, PartialEq, Eq, Hash)]
pub enum Difference {
    /// Colour and name are equal.
    Same,
    /// The name differs.
    Name,
    /// The colour differs.
    Colour,
    /// Colour and name differ.
    Both,
    /// Only the first palette has the position.
    OnlyFirst,
    /// Only the second palette has the position.
    OnlySecond,
}

/// Which palette was refused, and why.
#[derive(Clone, Copy, Debug, PartialEq, Eq, Hash)]
pub struct Refused {
    /// 1 for the first palette, 2 for the second.
    pub file: u32,
    /// Its refusal.
    pub refusal: Refusal,
}

impl Display for Refused {
    fn fmt(&self, f: &mut Formatter<'_>) -> fmt::Result {
        let which = if self.file == 1 { "first" } else { "second" };
        write!(f, "{which} file: {}", self.refusal)
    }
}

impl Error for Refused {
    fn source(&self) -> Option<&(dyn Error + 'static)> {
        Some(&self.refusal)
    }
}

impl<'a> Palette<'a> {
    /// Its kind for the library, its bytes, and how many colours it has, none where
    /// it is refused.
    fn parts(self) -> (u32, &'a [u8], usize) {
        match self {
            Palette::Aco(file) => (0, file, raw::judge(file).colours),
            Palette::Ase(file) => (1, file, raw::ase::judge(file).colours),
        }
    }
}

impl Difference {
    fn of(kind: u32) -> Difference {
        match kind {
            0 => Difference::Same,
            1 => Difference::Name,
            2 => Difference::Colour,
            3 => Difference::Both,
            4 => Difference::OnlyFirst,
            _ => Difference::OnlySecond,
        }
    }
}

/// The difference at every position of the longer palette.
///
/// ```
/// use khuyurek::compare::{compare, Difference, Palette};
///
/// let black = [0, 1, 0, 1, 0, 8, 0, 0, 0, 0, 0, 0, 0, 0];
/// let white = [0, 1, 0, 1, 0, 8, 0x27, 0x10, 0, 0, 0, 0, 0, 0];
/// let rows = compare(Palette::Aco(&black), Palette::Aco(&white)).unwrap();
/// assert_eq!(rows, [Difference::Colour]);
/// let refused = compare(Palette::Aco(&black), Palette::Ase(&white)).unwrap_err();
/// assert_eq!((refused.file, refused.refusal.number), (2, 3));
/// let words = "second file: refused 3 at 0: wrong signature, version or closing tag";
/// assert_eq!(refused.to_string(), words);
/// ```
pub fn compare(first: Palette<'_>, second: Palette<'_>) -> Result<Vec<Difference>, Refused> {
    let (first_kind, first, here) = first.parts();
    let (second_kind, second, there) = second.parts();
    let mut table = vec![0; 2 * here.max(there)];
    let answer = raw::compare::compare(first_kind, first, second_kind, second, &mut table);
    let file = answer.file;
    Refusal::unless_differing(answer.number, answer.place, answer.record, answer.field)
        .map_err(|refusal| Refused { file, refusal })?;
    Ok(table.chunks(2).map(|row| Difference::of(row[1])).collect())
}
