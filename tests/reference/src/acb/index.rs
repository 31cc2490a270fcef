//! The colours of a book by their names.

use super::reader::{judge_whole, string, Judged};
use crate::name::UNIT_LEN;
use crate::refusal::{number, Refusal};

/// Judges the file, then puts the numbers of all colours but dummies into `index`, by
/// their names and then by their numbers; gives how many. Nothing of `index` changes
/// on a refusal, nor past those.
pub fn index(file: &[u8], index: &mut [u32]) -> Result<usize, Refusal> {
    let judged = judge_whole(file)?;
    let mut shown = shown(file, &judged);
    let index = index
        .get_mut(..shown.len())
        .ok_or(Refusal::of_call(number::NO_ROOM))?;
    // Units are compared as numbers, and stand with their high byte first: as the
    // bytes do. The numbers tell equal names apart.
    shown.sort_unstable();
    for (entry, (_, number)) in index.iter_mut().zip(&shown) {
        *entry = *number;
    }
    Ok(shown.len())
}

/// Judges the file, and that the index begins with the file's; then gives the first
/// colour that has the name.
pub fn find(file: &[u8], index: &[u32], name: &[u16]) -> Result<usize, Refusal> {
    let judged = judge_whole(file)?;
    let shown = shown(file, &judged);
    let entries = index
        .get(..shown.len())
        .and_then(|index| in_order(&shown, index, judged.accepted.count))
        .ok_or(Refusal::of_call(number::OUT_OF_RANGE))?;
    let name: Vec<u8> = name.iter().flat_map(|unit| unit.to_be_bytes()).collect();
    let at = entries.partition_point(|(entry, _)| *entry < &name[..]);
    match entries.get(at) {
        Some((entry, number)) if *entry == name => Ok(*number as usize),
        _ => Err(Refusal::of_call(number::NO_RECORD)),
    }
}

/// A name's units as their bytes, and the colour's number.
type Entry<'a> = (&'a [u8], u32);

/// All colours but dummies, in file order.
fn shown<'a>(file: &'a [u8], judged: &Judged) -> Vec<Entry<'a>> {
    let numbered = (0..).zip(judged.records(file));
    let shown = numbered.filter(|(_, record)| !record.is_dummy());
    shown
        .map(|(number, record)| (string(file, record.name), number))
        .collect()
}

/// The entries of an index, where they are shown colours of which each comes before
/// the next. As many as are shown are then all of them, each once.
fn in_order<'a>(shown: &[Entry<'a>], index: &[u32], count: usize) -> Option<Vec<Entry<'a>>> {
    let mut names = vec![&[][..]; count];
    for &(name, number) in shown {
        names[number as usize] = name;
    }
    let entry = |&number: &u32| {
        let name = *names.get(number as usize)?;
        (name.len() >= UNIT_LEN).then_some((name, number))
    };
    let entries: Vec<Entry> = index.iter().map(entry).collect::<Option<_>>()?;
    entries.is_sorted_by(|a, b| a < b).then_some(entries)
}
