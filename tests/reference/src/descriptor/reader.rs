//! The calls on a descriptor.

use super::layout::item;
use super::rows::{Count, Fill, Find, Found, Values};
use super::walk::walk;
use crate::refusal::{number, Refusal};

/// What a row of a number, a boolean or a unit double holds.
#[derive(Clone, Copy, Debug, PartialEq)]
pub enum Typed {
    Bool(bool),
    Long(i32),
    Large(i64),
    Double(f64),
    /// The unit by its four characters, and the double.
    Unit(u32, f64),
    /// A row of another kind.
    Other,
}

/// Where a row's value lies in the file.
#[derive(Clone, Copy, Debug, PartialEq, Eq)]
pub struct Value {
    pub first: usize,
    pub length: usize,
}

/// The table: a run of numbers for each thing that a row says.
pub struct Columns<'a> {
    pub first: &'a mut [u32],
    pub length: &'a mut [u32],
    pub next: &'a mut [u32],
    pub depth: &'a mut [u32],
    pub kind: &'a mut [u32],
}

impl Columns<'_> {
    /// As many rows as the shortest run takes.
    fn room(&self) -> usize {
        [
            &self.first,
            &self.length,
            &self.next,
            &self.depth,
            &self.kind,
        ]
        .map(|run| run.len())
        .into_iter()
        .min()
        .unwrap_or(0)
    }
}

/// Judges a whole file, and gives the number of its rows.
pub fn judge(file: &[u8]) -> Result<usize, Refusal> {
    let mut count = Count::default();
    walk(file, &mut count)?;
    Ok(count.rows())
}

/// Judges the file, then fills its rows into the columns, and gives their number.
/// Nothing of them changes on a refusal, nor past the rows.
pub fn read(file: &[u8], mut columns: Columns<'_>) -> Result<usize, Refusal> {
    let count = judge(file)?;
    if columns.room() < count {
        return Err(Refusal::of_call(number::NO_ROOM));
    }
    walk(file, &mut Fill::new(&mut columns, count))?;
    Ok(count)
}

/// Judges the file, then fills in where each row's value begins, and gives the
/// number of rows. Nothing changes on a refusal, nor past the rows.
pub fn values(file: &[u8], values: &mut [u32]) -> Result<usize, Refusal> {
    let count = judge(file)?;
    let values = values
        .get_mut(..count)
        .ok_or(Refusal::of_call(number::NO_ROOM))?;
    walk(file, &mut Values::new(values))?;
    Ok(count)
}

/// The parent of every row, found from the depths: the last row before it that
/// stands less deep, 0 where none does.
pub fn parents(depth: &[u32], parents: &mut [u32]) -> Result<usize, Refusal> {
    let parents = parents
        .get_mut(..depth.len())
        .ok_or(Refusal::of_call(number::NO_ROOM))?;
    // Rows that may still be a parent: each deeper than the one below it.
    let mut open: Vec<usize> = Vec::new();
    for (row, parent) in parents.iter_mut().enumerate() {
        while open.last().is_some_and(|&last| depth[last] >= depth[row]) {
            open.pop();
        }
        *parent = open.last().map_or(0, |&last| last as u32);
        open.push(row);
    }
    Ok(depth.len())
}

/// Judges the file, then says where the value of that row lies: from after its
/// type or form to its end.
pub fn value(file: &[u8], row: usize) -> Result<Value, Refusal> {
    let found = find(file, row)?;
    Ok(Value {
        first: found.first,
        length: found.end - found.first,
    })
}

/// Judges the file, then gives what that row holds.
pub fn typed(file: &[u8], row: usize) -> Result<Typed, Refusal> {
    let Found { kind, first, end } = find(file, row)?;
    Ok(typed_of(kind, &file[first..end]).unwrap_or(Typed::Other))
}

fn find(file: &[u8], row: usize) -> Result<Found, Refusal> {
    let mut find = Find::new(row);
    walk(file, &mut find)?;
    find.found().ok_or(Refusal::of_call(number::NO_ROW))
}

/// No answer for a kind that has another sort of value.
fn typed_of(kind: u32, value: &[u8]) -> Option<Typed> {
    Some(match kind {
        item::BOOL => Typed::Bool(value == [1]),
        item::LONG => Typed::Long(i32::from_be_bytes(*value.first_chunk()?)),
        item::LARGE => Typed::Large(i64::from_be_bytes(*value.first_chunk()?)),
        item::DOUBLE => Typed::Double(f64::from_be_bytes(*value.first_chunk()?)),
        item::UNIT_DOUBLE => {
            let (unit, double) = value.split_first_chunk()?;
            let double = f64::from_be_bytes(*double.first_chunk()?);
            Typed::Unit(u32::from_be_bytes(*unit), double)
        }
        _ => return None,
    })
}
