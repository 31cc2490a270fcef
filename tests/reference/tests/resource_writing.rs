//! The writing rules of resource sections, each with its answer written out.

use generate::resource::{Lot, LotDamage, Section, EVERY_PAD, EVERY_PAD_ROWS, ONE_BLOCK};
use generate::Random;
use reference::resource::{judge, length, read, write};
use reference::{Refusal, LIMIT};
use std::collections::BTreeSet;

const CANARY: u8 = 0xA5;
const ROW_LEN: usize = 5;
const JUNK: u32 = 0x9E37_79B9;

/// A name of two bytes and data of one, the text's first bytes.
const RECORD: [u32; ROW_LEN] = [2000, 0, 2, 2, 1];
const TEXT: &[u8] = b"ABz";
const WRITTEN: &[u8] = b"8BIM\x07\xD0\x02AB\0\0\0\0\x01z\0";

fn refused(number: u32) -> Refusal {
    Refusal {
        number,
        place: 0,
        record: 0,
        field: 0,
    }
}

/// The length's answer for the record with some of its numbers changed.
fn changed(changes: &[(usize, u32)]) -> Result<usize, Refusal> {
    let mut record = RECORD;
    changes
        .iter()
        .for_each(|&(index, value)| record[index] = value);
    length(&record, TEXT)
}

#[test]
fn a_record_is_written_and_the_rest_is_kept() {
    let mut out = [CANARY; 24];
    assert_eq!(length(&RECORD, TEXT), Ok(16));
    assert_eq!(write(&RECORD, TEXT, &mut out), Ok(16));
    assert_eq!(&out[..16], WRITTEN);
    assert_eq!(out[16..], [CANARY; 8]);
}

#[test]
fn no_records_make_no_bytes() {
    let mut out = [CANARY; 2];
    assert_eq!(write(&[], &[], &mut out), Ok(0));
    assert_eq!(write(&[JUNK; ROW_LEN - 1], &[], &mut out), Ok(0));
    assert_eq!(out, [CANARY; 2]);
    assert_eq!(write(&[], TEXT, &mut []), Ok(0));
}

#[test]
fn a_section_is_written_back_as_it_is() {
    let mut out = [CANARY; EVERY_PAD.len()];
    let records = EVERY_PAD_ROWS.concat();
    assert_eq!(write(&records, EVERY_PAD, &mut out), Ok(EVERY_PAD.len()));
    assert_eq!(out, EVERY_PAD);
    let mut out = [CANARY; ONE_BLOCK.len()];
    let records = [1005, JUNK, 0, 12, 2];
    assert_eq!(write(&records, ONE_BLOCK, &mut out), Ok(ONE_BLOCK.len()));
    assert_eq!(out, ONE_BLOCK);
}

#[test]
fn made_up_sections_are_written_back_as_they_are() {
    for seed in 0..3_000 {
        let section = Section::any(&mut Random::new(seed));
        let bytes = section.bytes();
        let mut records = vec![0; ROW_LEN * section.blocks.len()];
        read(&bytes, &mut records).unwrap();
        assert_eq!(length(&records, &bytes), Ok(bytes.len()));
        let mut out = vec![CANARY; bytes.len()];
        write(&records, &bytes, &mut out).unwrap();
        assert_eq!(out, bytes);
    }
}

#[test]
fn room_is_judged_last_and_nothing_changes() {
    let mut out = [CANARY; 15];
    assert_eq!(write(&RECORD, TEXT, &mut out), Err(refused(11)));
    assert_eq!(write(&RECORD, TEXT, &mut []), Err(refused(11)));
    assert_eq!(write(&RECORD, &TEXT[..2], &mut []), Err(refused(2)));
    assert_eq!(
        write(&[RECORD, [JUNK; 5]].concat(), TEXT, &mut out),
        Err(refused(1))
    );
    assert_eq!(out, [CANARY; 15]);
}

/// A record wrong in each of its fields, which are put right one by one; then
/// the one behind it.
#[test]
fn faults_of_records_come_in_turn() {
    let mut records = [RECORD, [0x1_0000, 0, 0, 0, 0]].concat();
    let mut steps = |index: usize, value: u32| {
        records[index] = value;
        length(&records, TEXT)
    };
    assert_eq!(steps(4, u32::MAX), Err(refused(1)));
    assert_eq!(steps(4, 4), Err(refused(2)));
    assert_eq!(steps(1, 2), Err(refused(2)));
    assert_eq!(steps(2, 256), Err(refused(5)));
    assert_eq!(steps(0, 0x1_0000), Err(refused(5)));
    assert_eq!(steps(2, 2), Err(refused(5)));
    assert_eq!(steps(0, 0xFFFF), Err(refused(2)));
    assert_eq!(steps(1, 1), Err(refused(2)));
    assert_eq!(steps(4, 1), Err(refused(5)));
    assert_eq!(steps(5, 0), Ok(28));
}

#[test]
fn numbers_that_their_fields_cannot_hold_are_refused() {
    assert_eq!(changed(&[(0, 0xFFFF)]), Ok(16));
    assert_eq!(changed(&[(0, 0x1_0000)]), Err(refused(5)));
    assert_eq!(changed(&[(0, 0x1_07D0)]), Err(refused(5)));
    assert_eq!(changed(&[(2, 256)]), Err(refused(5)));
    // One that 8 bits would cut to a name in the text.
    assert_eq!(changed(&[(2, 257)]), Err(refused(5)));
    assert_eq!(changed(&[(2, 255)]), Err(refused(2)));
}

#[test]
fn parts_lie_in_the_text() {
    for (place, length) in [(0, 3), (1, 2), (2, 1), (3, 0), (u32::MAX, 0), (JUNK, 0)] {
        for part in [1, 3] {
            assert!(changed(&[(part, place), (part + 1, length)]).is_ok());
        }
    }
    for (place, length) in [(0, 4), (1, 3), (3, 1), (4, 1), (u32::MAX, 1), (u32::MAX, 2)] {
        for part in [1, 3] {
            let found = changed(&[(part, place), (part + 1, length)]);
            assert_eq!(found, Err(refused(2)));
        }
    }
    assert_eq!(length(&[7, 5, 0, 5, 0], &[]), Ok(12));
}

#[test]
fn lengths_of_names_and_data() {
    let text = vec![0x55; 300];
    for name in 0..=255_u32 {
        for data in [0_u32, 1, 2, 3, 299, 300] {
            let padded = 12 + name / 2 * 2 + data.div_ceil(2) * 2;
            let record = [1, 0, name, 0, data];
            assert_eq!(length(&record, &text), Ok(padded as usize));
            let mut out = vec![CANARY; padded as usize];
            assert_eq!(write(&record, &text, &mut out), Ok(out.len()));
            assert_eq!(judge(&out), Ok(1));
            assert_eq!(out[6], name as u8);
        }
    }
}

#[test]
fn the_limit_comes_first_and_counts_what_is_given() {
    // 12 bytes besides the data: within the limit it is not in the text.
    let most = LIMIT as u32 - 12;
    assert_eq!(length(&[1, 0, 0, 0, most], TEXT), Err(refused(2)));
    assert_eq!(length(&[1, 0, 0, 0, most + 1], TEXT), Err(refused(1)));
    assert_eq!(length(&[1, 0, 0, 0, most - 1], TEXT), Err(refused(2)));
    // A name too long for its field is counted as long as it is given.
    assert_eq!(length(&[1, 0, most, 0, 0], TEXT), Err(refused(5)));
    assert_eq!(length(&[1, 0, most + 1, 0, 0], TEXT), Err(refused(5)));
    assert_eq!(length(&[1, 0, most + 2, 0, 0], TEXT), Err(refused(1)));
    // An ID that is wrong comes after it, and so does a record behind it.
    assert_eq!(
        length(&[JUNK, 0, u32::MAX, 0, u32::MAX], TEXT),
        Err(refused(1))
    );
    let records = [[JUNK, 0, 0, 0, 0], [1, 0, 0, 0, most]].concat();
    assert_eq!(length(&records, TEXT), Err(refused(1)));
    let text = vec![0; LIMIT];
    let mut out = vec![CANARY; LIMIT];
    assert_eq!(write(&[1, 0, 0, 0, most], &text, &mut out), Ok(LIMIT));
    assert_eq!(judge(&out), Ok(1));
}

#[test]
fn sums_of_lengths_do_not_wrap() {
    let records = [1, 0, u32::MAX, 0, u32::MAX].repeat(5);
    assert_eq!(length(&records, TEXT), Err(refused(1)));
    let records = [1, 0, 0x8000_0000, 0, 0x7FFF_FFF4].repeat(2);
    assert_eq!(length(&records, TEXT), Err(refused(1)));
}

/// What is accepted reads back; each refusal comes up.
#[test]
fn made_up_lots() {
    let mut numbers = BTreeSet::new();
    for seed in 0..30_000 {
        let random = &mut Random::new(seed);
        let mut lot = Lot::any(random);
        assert!(length(&lot.records, &lot.text).is_ok(), "seed {seed}");
        lot.damage(LotDamage::any(random), random);
        match length(&lot.records, &lot.text) {
            Err(refusal) => {
                assert_eq!(refusal, refused(refusal.number));
                numbers.insert(refusal.number);
            }
            Ok(len) => {
                let mut out = vec![CANARY; len];
                assert_eq!(write(&lot.records, &lot.text, &mut out), Ok(len));
                assert_eq!(judge(&out), Ok(lot.count()));
            }
        }
    }
    assert_eq!(numbers, BTreeSet::from([1, 2, 5]));
}
