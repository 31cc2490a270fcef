//! Comparing one book and its index.

use super::tally::Tally;
use crate::difference::{agree, hex, Checked};
use crate::lent::Lent;
use generate::Random;
use proved::acb::{Found, Indexed};
use reference::acb;
use reference::Refusal;

/// Entries lent with a book that is refused.
const SPARE_ENTRIES: usize = 3;

/// Builds the index of a book in rooms of the exact need, one less, more, none and any;
/// gives the index, which a refused book does not have.
pub fn check_build(file: &[u8], random: &mut Random, tally: &mut Tally) -> Checked<Vec<u32>> {
    let judged = acb::judge(file);
    tally.file(judged.map_or_else(|refusal| refusal.number, |_| 0));
    let mut entries = vec![0; judged.map_or(0, |accepted| accepted.count)];
    let shown = acb::index(file, &mut entries);
    entries.truncate(shown.unwrap_or(0));
    let need = shown.unwrap_or(SPARE_ENTRIES);
    let any = random.below(need + 4);
    let rooms = [
        need,
        need.saturating_sub(1),
        need + 1 + random.below(3),
        0,
        any,
    ];
    for len in rooms {
        let found = check_index(file, len)?;
        if judged.is_ok() {
            tally.built(found.number);
        }
    }
    Ok(entries)
}

fn check_index(file: &[u8], len: usize) -> Checked<Indexed> {
    let mut entries = Lent::<u32>::of(len);
    let wanted = match acb::index(file, entries.for_reference()) {
        Ok(shown) => Indexed {
            shown,
            ..Indexed::default()
        },
        Err(Refusal { number, place, .. }) => Indexed {
            number,
            place,
            ..Indexed::default()
        },
    };
    let found = proved::acb::index(file, entries.for_library());
    let call = || format!("the index in {len} entries");
    let given = |difference: crate::difference::Difference| difference.given("file", hex(file));
    agree(call, &wanted, &found).map_err(given)?;
    entries.agree(&call(), wanted.shown).map_err(given)?;
    Ok(found)
}

/// Looks for a name by an index, whatever that is.
pub fn check_find(file: &[u8], index: &[u32], name: &[u16], tally: &mut Tally) -> Checked {
    let wanted = match acb::find(file, index, name) {
        Ok(record) => Found {
            record,
            ..Found::default()
        },
        Err(Refusal { number, place, .. }) => Found {
            number,
            place,
            ..Found::default()
        },
    };
    let found = proved::acb::find(file, index, name);
    agree(|| "a name looked for".into(), &wanted, &found).map_err(|difference| {
        difference
            .given("file", hex(file))
            .given("index", format!("{:?}", &index[..index.len().min(40)]))
            .given("name", format!("{:04X?}", &name[..name.len().min(40)]))
    })?;
    if acb::judge(file).is_ok() {
        tally.found(found.number);
    }
    Ok(())
}
