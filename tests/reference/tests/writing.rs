//! The writing rules, each with its answer written out.

use generate::{Lot, LotDamage, Random, P3};
use reference::{judge, length, read, write, Accepted, Refusal, LIMIT};

const CANARY: u8 = 0xA5;
const ROW_LEN: usize = 8;
const P3_RECORD: [u32; ROW_LEN] = [0, 65535, 0, 32896, 0, 0, 1, 4];
const P3_TEXT: [u8; 2] = [0x00, 0x41];

fn refused(number: u32) -> Refusal {
    Refusal {
        number,
        place: 0,
        record: 0,
        field: 0,
    }
}

/// The length's answer for P3's record with some of its numbers changed.
fn changed(changes: &[(usize, u32)]) -> Result<usize, Refusal> {
    let mut record = P3_RECORD;
    changes
        .iter()
        .for_each(|&(index, value)| record[index] = value);
    length(&record, &P3_TEXT)
}

#[test]
fn p3_is_written_and_the_rest_is_kept() {
    let mut out = [CANARY; 40];
    assert_eq!(write(&P3_RECORD, &P3_TEXT, &mut out), Ok(36));
    assert_eq!(&out[..36], P3);
    assert_eq!(out[36..], [CANARY; 4]);
}

#[test]
fn no_records_make_two_empty_lists() {
    let mut out = [CANARY; 8];
    assert_eq!(write(&[], &[], &mut out), Ok(8));
    assert_eq!(out, [0, 1, 0, 0, 0, 2, 0, 0]);
    assert_eq!(length(&[9; ROW_LEN - 1], &[]), Ok(8));
}

#[test]
fn a_missing_name_is_written_as_an_empty_one() {
    let mut out = [CANARY; 34];
    let record = [0, 65535, 0, 32896, 0, u32::MAX, 0, 4];
    assert_eq!(write(&record, &[], &mut out), Ok(34));
    assert_eq!(out[..28], P3[..28]);
    assert_eq!(out[28..], [0, 0, 0, 1, 0, 0]);
}

#[test]
fn room_is_judged_last_and_nothing_changes() {
    let mut out = [CANARY; 35];
    assert_eq!(write(&P3_RECORD, &P3_TEXT, &mut out), Err(refused(11)));
    assert_eq!(out, [CANARY; 35]);
    assert_eq!(write(&P3_RECORD, &[0, 0], &mut out), Err(refused(8)));
    assert_eq!(write(&P3_RECORD, &[0, 0], &mut []), Err(refused(8)));
    assert_eq!(out, [CANARY; 35]);
}

#[test]
fn colours_are_judged_as_the_reader_would() {
    for space in [3, 4, 5, 6, 9, 65535, 65536, u32::MAX] {
        assert_eq!(changed(&[(0, space)]), Err(refused(4)), "space {space}");
    }
    for sample in [1, 2, 3] {
        assert_eq!(changed(&[(sample, 65535)]), Ok(36));
        assert_eq!(changed(&[(sample, 65536)]), Err(refused(5)));
    }
    assert_eq!(changed(&[(4, 1)]), Err(refused(5)));
    assert_eq!(changed(&[(4, 65536)]), Err(refused(5)));
    assert_eq!(changed(&[(0, 2), (4, 65535)]), Ok(36));
    assert_eq!(changed(&[(0, 8)]), Err(refused(5)));
    assert_eq!(changed(&[(0, 65544), (1, 65536)]), Err(refused(4)));
}

#[test]
fn names_lie_in_the_text() {
    assert_eq!(changed(&[(5, 1)]), Err(refused(2)));
    assert_eq!(changed(&[(6, 2)]), Err(refused(2)));
    assert_eq!(changed(&[(5, u32::MAX)]), Err(refused(2)));
    assert_eq!(changed(&[(5, u32::MAX), (6, 0)]), Ok(34));
    assert_eq!(length(&P3_RECORD, &[0, 0]), Err(refused(8)));
}

#[test]
fn every_colour_is_judged_before_any_name() {
    let past_text = [0, 1, 2, 3, 0, 9, 1, 4];
    let wrong_space = [3, 1, 2, 3, 0, 0, 1, 4];
    let both = [past_text, wrong_space].concat();
    assert_eq!(length(&both, &P3_TEXT), Err(refused(4)));
    let unused_then_space = [[0, 1, 2, 3, 4, 0, 0, 4], wrong_space].concat();
    assert_eq!(length(&unused_then_space, &P3_TEXT), Err(refused(5)));
    let cut_then_zero = [past_text, [0, 1, 2, 3, 0, 0, 1, 4]].concat();
    assert_eq!(length(&cut_then_zero, &[0, 0]), Err(refused(2)));
}

#[test]
fn a_stated_ink_is_refused_after_every_fault() {
    for ink in [0, 1, 2, 3, 5, 260, 0x1_0004, u32::MAX] {
        assert_eq!(changed(&[(7, ink)]), Err(refused(14)), "ink {ink}");
        assert_eq!(changed(&[(7, ink), (5, 1)]), Err(refused(2)));
        assert_eq!(changed(&[(7, ink), (0, 3)]), Err(refused(4)));
        let stated = [&P3_RECORD[..7], &[ink]].concat();
        let mut out = [CANARY; 36];
        assert_eq!(write(&stated, &P3_TEXT, &mut out), Err(refused(14)));
        assert_eq!(write(&stated, &P3_TEXT, &mut []), Err(refused(14)));
        assert_eq!(out, [CANARY; 36]);
        assert_eq!(length(&stated, &[0, 0]), Err(refused(8)));
        let then_cut = [&stated[..], &[0, 1, 2, 3, 0, 9, 1, 4]].concat();
        assert_eq!(length(&then_cut, &P3_TEXT), Err(refused(2)));
    }
}

#[test]
fn the_whole_length_is_judged_first() {
    let most_units = (LIMIT as u32 - 34) / 2;
    assert_eq!(changed(&[(0, 3), (6, most_units)]), Err(refused(4)));
    assert_eq!(changed(&[(0, 3), (6, most_units + 1)]), Err(refused(1)));
    assert_eq!(changed(&[(6, most_units)]), Err(refused(2)));
    for units in [0x7FFF_FFF3, 0x8000_0000, u32::MAX] {
        assert_eq!(changed(&[(6, units)]), Err(refused(1)));
    }
}

#[test]
fn a_list_holds_4096_colours() {
    let records = |count| [0, 0, 0, 0, 0, 0, 0, 4].repeat(count);
    assert_eq!(length(&records(4096), &[]), Ok(8 + 26 * 4096));
    assert_eq!(length(&records(4097), &[]), Err(refused(5)));
    // The last count whose output is within the limit, and the next.
    assert_eq!(length(&records(645_277), &[]), Err(refused(5)));
    assert_eq!(length(&records(645_278), &[]), Err(refused(1)));
}

#[test]
fn what_is_written_reads_back() {
    for seed in 0..2_000 {
        let mut random = Random::new(seed);
        let lot = Lot::any(&mut random);
        let mut out = vec![CANARY; length(&lot.records, &lot.text).unwrap()];
        write(&lot.records, &lot.text, &mut out).unwrap();
        assert_eq!(
            judge(&out),
            Ok(Accepted {
                colours: lot.count(),
                lists: 2
            })
        );
        let mut table = vec![0; lot.records.len()];
        read(&out, &mut table).unwrap();
        for (given, got) in lot.records.chunks(ROW_LEN).zip(table.chunks(ROW_LEN)) {
            assert_eq!(given[..5], got[..5]);
            assert_eq!(given[7], got[7]);
            let name = |bytes: &[u8], row: &[u32]| {
                bytes[row[5] as usize..][..2 * row[6] as usize].to_vec()
            };
            assert_eq!(name(&lot.text, given), name(&out, got));
        }
    }
}

/// The bytes made from records that fit their fields, judged by nobody.
fn bytes_made(lot: &Lot) -> Option<Vec<u8>> {
    let rows = || lot.records.chunks_exact(ROW_LEN);
    let count = u16::try_from(lot.count()).ok()?;
    let mut colours = Vec::new();
    for row in rows() {
        let mut colour = Vec::new();
        for &field in &row[..5] {
            colour.extend(u16::try_from(field).ok()?.to_be_bytes());
        }
        colours.push(colour);
    }
    let mut file = [[0, 1], count.to_be_bytes()].concat();
    file.extend(colours.concat());
    file.extend([[0, 2], count.to_be_bytes()].concat());
    for (row, colour) in rows().zip(colours) {
        file.extend(colour);
        file.extend(row[6].checked_add(1)?.to_be_bytes());
        if row[6] > 0 {
            file.extend(
                lot.text
                    .get(row[5] as usize..)?
                    .get(..2 * row[6] as usize)?,
            );
        }
        file.extend([0, 0]);
    }
    Some(file)
}

#[test]
fn the_writer_judges_as_the_reader_judges_the_bytes() {
    let mut made = 0;
    for seed in 0..20_000 {
        let mut random = Random::new(seed);
        let mut lot = Lot::any(&mut random);
        for _ in 0..random.below(4) {
            lot.damage(LotDamage::any(&mut random), &mut random);
        }
        let Some(file) = bytes_made(&lot) else {
            continue;
        };
        made += 1;
        let judged = judge(&file).err().map(|refusal| refusal.number);
        // The bytes do not state the ink.
        let stated = lot.records.chunks_exact(ROW_LEN).any(|row| row[7] != 4);
        let wanted = judged.or(stated.then_some(14));
        let found = length(&lot.records, &lot.text);
        assert_eq!(wanted, found.err().map(|refusal| refusal.number), "{lot:?}");
    }
    assert!(made > 10_000);
}

#[test]
fn damaged_lots_never_panic() {
    for seed in 0..20_000 {
        let mut random = Random::new(seed);
        let mut lot = Lot::any(&mut random);
        for _ in 0..1 + random.below(3) {
            lot.damage(LotDamage::any(&mut random), &mut random);
        }
        if let Err(refusal) = length(&lot.records, &lot.text) {
            assert!([1, 2, 4, 5, 8, 14].contains(&refusal.number));
            assert_eq!(refusal, refused(refusal.number));
        }
    }
}
