//! Comparing one pair of palettes.

use super::tally::Tally;
use crate::difference::{agree, hex, Checked};
use crate::lent::Lent;
use generate::Random;
use proved::compare::Compared;
use reference::season::{self, Palette, Refused, ROW_LEN};
use reference::{COLOUR_LEN, HEAD_LEN};

/// Rows lent with a pair that is refused.
const SPARE_ROWS: usize = 3;

/// Compares a pair of palettes in tables of the exact need, one number less, more, none
/// and any.
pub fn check_pair(pair: [Palette; 2], random: &mut Random, tally: &mut Tally) -> Checked {
    let need = need(pair);
    let any = random.below(need + 2 * ROW_LEN);
    let more = need + 1 + random.below(2 * ROW_LEN);
    check_rooms(pair, &[need, need.saturating_sub(1), more, 0, any], tally)
}

/// In tables of the exact need and one number less alone: for pairs that are very many.
pub fn check_briefly(pair: [Palette; 2], tally: &mut Tally) -> Checked {
    let need = need(pair);
    check_rooms(pair, &[need.saturating_sub(1), need], tally)
}

fn check_rooms(pair: [Palette; 2], rooms: &[usize], tally: &mut Tally) -> Checked {
    tally.pair();
    rooms
        .iter()
        .try_for_each(|&len| check_call(pair, len, tally))
        .map_err(|difference| {
            let [first, second] = pair;
            difference
                .given("first", format!("kind {}, {}", first.kind, hex(first.file)))
                .given(
                    "second",
                    format!("kind {}, {}", second.kind, hex(second.file)),
                )
        })
}

/// The numbers that a table needs; of a refused pair some, which must not be filled.
fn need([first, second]: [Palette; 2]) -> usize {
    // A colour has ten bytes at least.
    let most = first.file.len().max(second.file.len()) / COLOUR_LEN + HEAD_LEN;
    let mut table = vec![0; most * ROW_LEN];
    let compared = season::compare(first, second, &mut table);
    compared.map_or(SPARE_ROWS, |compared| compared.positions) * ROW_LEN
}

fn check_call(pair: [Palette; 2], len: usize, tally: &mut Tally) -> Checked {
    let [first, second] = pair;
    let mut table = Lent::<u32>::of(len);
    let wanted = expected(season::compare(first, second, table.for_reference()));
    let found = proved::compare::compare(
        first.kind,
        first.file,
        second.kind,
        second.file,
        table.for_library(),
    );
    let call = || format!("compare into a table of {len} numbers");
    agree(call, &wanted, &found)?;
    let used = wanted.positions * ROW_LEN;
    table.agree(&call(), used)?;
    tally.call(&found);
    tally.rows([first.kind, second.kind], table.found(used));
    Ok(())
}

fn expected(result: Result<season::Compared, Refused>) -> Compared {
    match result {
        Ok(season::Compared {
            positions,
            differences,
        }) => Compared {
            positions,
            differences,
            ..Compared::default()
        },
        Err(Refused { refusal, file }) => Compared {
            number: refusal.number,
            file,
            place: refusal.place,
            record: refusal.record,
            field: refusal.field,
            ..Compared::default()
        },
    }
}
