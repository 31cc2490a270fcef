//! The writing rules of ASE, each with its answer written out.

use generate::ase::{Lot, LotDamage, Palette, EVERY_MODEL, P5, P6};
use generate::Random;
use reference::ase::{judge, length, read, write, Accepted};
use reference::{Refusal, LIMIT};
use std::collections::BTreeSet;

const CANARY: u8 = 0xA5;
const ROW_LEN: usize = 9;

const RGB: u32 = 0x5247_4220;
const CMYK: u32 = 0x434D_594B;
const LAB: u32 = 0x4C41_4220;
const GRAY: u32 = 0x4772_6179;
const ONE: u32 = 0x3F80_0000;
const JUNK: u32 = 0x9E37_79B9;

const P6_RECORD: [u32; ROW_LEN] = [1, 0, 0, GRAY, ONE, 0, 0, 0, 2];
/// A gray colour with a name of one unit, at the text's start.
const NAMED: [u32; ROW_LEN] = [1, 0, 1, GRAY, ONE, 0, 0, 0, 2];
const START: [u32; ROW_LEN] = [0xC001, 0, 0, 0, 0, 0, 0, 0, 0];
const END: [u32; ROW_LEN] = [0xC002, 0, 0, 0, 0, 0, 0, 0, 0];
const TEXT: [u8; 2] = [0x00, 0x41];

fn refused(number: u32) -> Refusal {
    Refusal {
        number,
        place: 0,
        record: 0,
        field: 0,
    }
}

/// The length's answer for the named record with some of its numbers changed.
fn changed(changes: &[(usize, u32)]) -> Result<usize, Refusal> {
    let mut record = NAMED;
    changes
        .iter()
        .for_each(|&(index, value)| record[index] = value);
    length(&record, &TEXT)
}

#[test]
fn p6_is_written_and_the_rest_is_kept() {
    let mut out = [CANARY; 40];
    assert_eq!(write(&P6_RECORD, &[], &mut out), Ok(32));
    assert_eq!(&out[..32], P6);
    assert_eq!(out[32..], [CANARY; 8]);
}

#[test]
fn no_records_make_no_blocks() {
    let mut out = [CANARY; 12];
    assert_eq!(write(&[], &[], &mut out), Ok(12));
    assert_eq!(out, P5);
    assert_eq!(length(&[JUNK; ROW_LEN - 1], &[]), Ok(12));
}

#[test]
fn a_file_is_written_back_as_it_is() {
    for file in [P5, P6, EVERY_MODEL] {
        let blocks = judge(file).unwrap().blocks;
        let mut records = vec![0; ROW_LEN * blocks];
        read(file, &mut records).unwrap();
        let mut out = vec![CANARY; file.len()];
        assert_eq!(write(&records, file, &mut out), Ok(file.len()));
        assert_eq!(out, file);
    }
}

#[test]
fn made_up_files_are_written_back_as_they_are() {
    for seed in 0..2_000 {
        let palette = Palette::any(&mut Random::new(seed));
        let file = palette.file();
        let mut records = vec![0; ROW_LEN * palette.blocks.len()];
        read(&file, &mut records).unwrap();
        assert_eq!(length(&records, &file), Ok(file.len()));
        let mut out = vec![CANARY; file.len()];
        write(&records, &file, &mut out).unwrap();
        assert_eq!(out, file);
    }
}

#[test]
fn room_is_judged_last_and_nothing_changes() {
    let mut out = [CANARY; 31];
    assert_eq!(write(&P6_RECORD, &[], &mut out), Err(refused(11)));
    assert_eq!(write(&START, &[], &mut out), Err(refused(9)));
    assert_eq!(write(&START, &[], &mut []), Err(refused(9)));
    assert_eq!(write(&NAMED, &[0, 0], &mut out), Err(refused(8)));
    assert_eq!(out, [CANARY; 31]);
}

/// A record wrong in each of its fields, which are put right one by one.
#[test]
fn faults_of_a_record_come_in_turn() {
    let mut record = [0x1_0001, 9, 8_400_000, 0, 0x7FC0_0000, JUNK, JUNK, JUNK, 5];
    let mut text = [0, 0];
    let mut steps = |index: usize, value: u32, zero: bool| {
        record[index] = value;
        text[1] = u8::from(!zero);
        length(&record, &text)
    };
    // Unknown, it is counted with its envelope alone.
    assert_eq!(steps(0, 0x1_0001, true), Err(refused(4)));
    assert_eq!(steps(0, 1, true), Err(refused(1)));
    assert_eq!(steps(2, 65_535, true), Err(refused(5)));
    assert_eq!(steps(2, 65_534, true), Err(refused(2)));
    assert_eq!(steps(2, 1, true), Err(refused(2)));
    assert_eq!(steps(1, 0, true), Err(refused(8)));
    assert_eq!(steps(1, 0, false), Err(refused(4)));
    assert_eq!(steps(3, GRAY, false), Err(refused(5)));
    assert_eq!(steps(4, ONE, false), Err(refused(5)));
    assert_eq!(steps(8, 3, false), Err(refused(14)));
    assert_eq!(steps(8, 2, false), Ok(34));
}

#[test]
fn numbers_that_their_fields_cannot_hold_are_refused() {
    for block in [0, 2, 0xC000, 0xC003, 0x1_0001, 0x1_C002, u32::MAX] {
        assert_eq!(changed(&[(0, block)]), Err(refused(4)), "type {block:X}");
    }
    for ink in [5, 0xFFFF, 0x1_0000, 0x1_0002, 0x1_0004, u32::MAX] {
        assert_eq!(changed(&[(8, ink)]), Err(refused(5)));
    }
    for units in [65_535, 65_536, 0x2_0000] {
        assert_eq!(changed(&[(2, units)]), Err(refused(5)));
    }
    assert_eq!(changed(&[(2, 65_534)]), Err(refused(2)));
    let text = vec![1; 2 * 65_534];
    let longest = [1, 0, 65_534, GRAY, ONE, 0, 0, 0, 2];
    assert_eq!(length(&longest, &text), Ok(32 + text.len()));
}

#[test]
fn models_have_their_channels() {
    for (model, channels) in [(RGB, 3), (CMYK, 4), (LAB, 3), (GRAY, 1)] {
        for channel in 0..4 {
            // Out of range by any model, and to spare in some.
            let changes = [(3, model), (4 + channel, 0x7F80_0000)];
            let expected = if channel < channels {
                Err(refused(5))
            } else {
                Ok(30 + 4 * channels)
            };
            assert_eq!(changed(&changes), expected, "channel {channel}");
        }
        let beyond = [(3, model), (4, ONE + 1)];
        assert_eq!(changed(&beyond).is_ok(), model == LAB);
        let subnormal = [(3, model), (4, 0x8000_0001)];
        assert_eq!(changed(&subnormal).is_ok(), model == LAB);
        let minus_zero = [(3, model), (4, 0x8000_0000)];
        assert_eq!(changed(&minus_zero), Ok(30 + 4 * channels));
    }
}

#[test]
fn names_lie_in_the_text() {
    assert_eq!(changed(&[]), Ok(34));
    assert_eq!(changed(&[(1, 1)]), Err(refused(2)));
    assert_eq!(changed(&[(2, 2)]), Err(refused(2)));
    assert_eq!(changed(&[(1, u32::MAX)]), Err(refused(2)));
    assert_eq!(changed(&[(1, u32::MAX), (2, 0)]), Ok(32));
    assert_eq!(length(&NAMED, &[0, 0]), Err(refused(8)));
    let group = [[0xC001, 1, 1, 0, 0, 0, 0, 0, 0], END].concat();
    assert_eq!(length(&group, &TEXT), Err(refused(2)));
    assert_eq!(length(&group, &[1, 0, 0]), Err(refused(8)));
    assert_eq!(length(&group, &[0, 0, 1]), Ok(30));
}

#[test]
fn places_to_spare_are_not_looked_at() {
    let start = [0xC001, JUNK, 0, JUNK, JUNK, JUNK, JUNK, JUNK, JUNK];
    let end = [0xC002, JUNK, JUNK, JUNK, JUNK, JUNK, JUNK, JUNK, JUNK];
    let gray = [1, JUNK, 0, GRAY, ONE, JUNK, JUNK, JUNK, 2];
    let mut out = [CANARY; 48];
    assert_eq!(write(&[start, gray, end].concat(), &[], &mut out), Ok(48));
    let mut table = [JUNK; 3 * ROW_LEN];
    read(&out, &mut table).unwrap();
    let start = [0xC001, 20, 0, 0, 0, 0, 0, 0, 0];
    let gray = [1, 30, 0, GRAY, ONE, 0, 0, 0, 2];
    assert_eq!(table[..], [start, gray, END].concat());
}

#[test]
fn groups_are_in_balance() {
    let lengths = |rows: &[[u32; ROW_LEN]]| length(&rows.concat(), &TEXT);
    assert_eq!(lengths(&[START, END]), Ok(28));
    assert_eq!(lengths(&[START]), Err(refused(9)));
    assert_eq!(lengths(&[END]), Err(refused(9)));
    assert_eq!(lengths(&[END, START]), Err(refused(9)));
    let unknown = [0; ROW_LEN];
    assert_eq!(lengths(&[END, unknown]), Err(refused(9)));
    assert_eq!(lengths(&[START, unknown]), Err(refused(4)));
    for depth in 0..20 {
        let expected = if depth <= 16 {
            Ok(12 + 16 * depth)
        } else {
            Err(refused(10))
        };
        assert_eq!(length(&Lot::nested(depth).records, &[]), expected);
    }
    // The seventeenth start is refused before its name.
    let long_name = [0xC001, 0, 65_535, 0, 0, 0, 0, 0, 0];
    let mut rows = vec![START; 16];
    rows.push(long_name);
    assert_eq!(lengths(&rows), Err(refused(10)));
    assert_eq!(lengths(&rows[1..]), Err(refused(5)));
}

#[test]
fn the_whole_length_is_judged_first() {
    for units in [8_400_000, 0x7FFF_FFF3, 0x8000_0000, u32::MAX] {
        assert_eq!(changed(&[(2, units)]), Err(refused(1)));
        assert_eq!(changed(&[(2, units), (0, 0xC001)]), Err(refused(1)));
        // These have no name.
        assert_eq!(changed(&[(2, units), (0, 0xC002)]), Err(refused(9)));
        assert_eq!(changed(&[(2, units), (0, 0)]), Err(refused(4)));
    }
    // Gray, 20 bytes and 12 before it, to the limit and just past it.
    let most = (LIMIT as u32 - 32) / 2;
    assert_eq!(changed(&[(2, most)]), Err(refused(5)));
    assert_eq!(changed(&[(2, most + 1)]), Err(refused(1)));
    // An unknown model is counted without a channel.
    assert_eq!(changed(&[(2, most + 2), (3, 0)]), Err(refused(5)));
    assert_eq!(changed(&[(2, most + 3), (3, 0)]), Err(refused(1)));
}

#[test]
fn the_limit_is_the_longest_output() {
    // 128 names of one text that fill 16,777,216 bytes.
    let mut units = [65_521; 128];
    units[..122].fill(65_522);
    let lot = Lot::sharing_text(&mut Random::new(1), &units);
    assert_eq!(length(&lot.records, &lot.text), Ok(LIMIT));
    units[127] += 1;
    let mut lot = Lot::sharing_text(&mut Random::new(1), &units);
    assert_eq!(length(&lot.records, &lot.text), Err(refused(1)));
    // An unknown type is counted with its envelope alone.
    lot.records[0] = 0;
    assert_eq!(length(&lot.records, &lot.text), Err(refused(4)));
    // 2,796,200 envelopes are within the limit.
    let unknown = |count: usize| length(&vec![0; ROW_LEN * count], &[]);
    assert_eq!(unknown(2_796_200), Err(refused(4)));
    assert_eq!(unknown(2_796_201), Err(refused(1)));
}

/// A sound record without what it does not use, and its name.
fn abstract_record(bytes: &[u8], row: &[u32]) -> (Vec<u32>, Vec<u8>) {
    let used = match (row[0], row[3]) {
        (0xC002, _) => return (vec![0xC002], Vec::new()),
        (0xC001, _) => vec![0xC001],
        (_, GRAY) => vec![row[0], row[3], row[4], row[8]],
        (_, CMYK) => [&row[..1], &row[3..9]].concat(),
        _ => [&row[..1], &row[3..7], &row[8..]].concat(),
    };
    let name = match row[2] {
        0 => Vec::new(),
        units => bytes[row[1] as usize..][..2 * units as usize].to_vec(),
    };
    (used, name)
}

#[test]
fn what_is_written_reads_back() {
    for seed in 0..2_000 {
        let lot = Lot::any(&mut Random::new(seed));
        let mut out = vec![CANARY; length(&lot.records, &lot.text).unwrap()];
        write(&lot.records, &lot.text, &mut out).unwrap();
        let colours = lot
            .records
            .chunks(ROW_LEN)
            .filter(|row| row[0] == 1)
            .count();
        let blocks = lot.count();
        assert_eq!(judge(&out), Ok(Accepted { blocks, colours }));
        let mut table = vec![0; lot.records.len()];
        read(&out, &mut table).unwrap();
        for (given, got) in lot.records.chunks(ROW_LEN).zip(table.chunks(ROW_LEN)) {
            assert_eq!(
                abstract_record(&lot.text, given),
                abstract_record(&out, got)
            );
        }
    }
}

/// The bytes made from records that fit their fields, judged by nobody.
fn bytes_made(lot: &Lot) -> Option<Vec<u8>> {
    let mut file = [&P5[..8], &(lot.count() as u32).to_be_bytes()].concat();
    for row in lot.records.chunks_exact(ROW_LEN) {
        let block = u16::try_from(row[0]).ok()?;
        let mut payload = Vec::new();
        if block == 1 || block == 0xC001 {
            payload.extend(u16::try_from(row[2].checked_add(1)?).ok()?.to_be_bytes());
            if row[2] > 0 {
                let name = lot.text.get(row[1] as usize..)?;
                payload.extend(name.get(..2 * row[2] as usize)?);
            }
            payload.extend([0, 0]);
        }
        if block == 1 {
            payload.extend(row[3].to_be_bytes());
            let channels = match row[3] {
                RGB | LAB => 3,
                CMYK => 4,
                GRAY => 1,
                _ => 0,
            };
            row[4..4 + channels]
                .iter()
                .for_each(|bits| payload.extend(bits.to_be_bytes()));
            payload.extend(u16::try_from(row[8]).ok()?.to_be_bytes());
        }
        file.extend(block.to_be_bytes());
        file.extend((payload.len() as u32).to_be_bytes());
        file.extend(payload);
    }
    Some(file)
}

/// Makes the inks that no file states normal; says whether there are any.
fn state_inks(lot: &mut Lot) -> bool {
    let rows = lot.records.chunks_exact_mut(ROW_LEN);
    let unstated = rows.filter(|row| row[0] == 1 && (row[8] == 3 || row[8] == 4));
    unstated.map(|row| row[8] = 2).count() > 0
}

#[test]
fn process_and_not_stated_are_refused_after_every_fault() {
    for ink in [3, 4] {
        assert_eq!(changed(&[(8, ink)]), Err(refused(14)));
        assert_eq!(changed(&[(8, ink), (3, 0)]), Err(refused(4)));
        let mut unstated = NAMED;
        unstated[8] = ink;
        let lengths = |rows: &[[u32; ROW_LEN]]| length(&rows.concat(), &TEXT);
        assert_eq!(lengths(&[unstated, END]), Err(refused(9)));
        assert_eq!(lengths(&[START, unstated]), Err(refused(9)));
        assert_eq!(lengths(&[START, unstated, END]), Err(refused(14)));
        assert_eq!(lengths(&[unstated, [0; ROW_LEN]]), Err(refused(4)));
        let mut none = unstated;
        none[8] = 5;
        assert_eq!(lengths(&[unstated, none]), Err(refused(5)));
        // A group's ink is spare.
        let (mut start, mut end) = (START, END);
        (start[8], end[8]) = (ink, ink);
        assert!(lengths(&[start, NAMED, end]).is_ok());
        let mut out = [CANARY; 60];
        assert_eq!(write(&unstated, &TEXT, &mut out), Err(refused(14)));
        assert_eq!(write(&unstated, &TEXT, &mut []), Err(refused(14)));
        assert_eq!(out, [CANARY; 60]);
    }
}

#[test]
fn the_writer_judges_as_the_reader_judges_the_bytes() {
    let mut made = 0;
    let mut reached = BTreeSet::new();
    for seed in 0..20_000 {
        let mut random = Random::new(seed);
        let mut lot = Lot::any(&mut random);
        for _ in 0..random.below(4) {
            lot.damage(LotDamage::any(&mut random), &mut random);
        }
        let mut stated = lot.clone();
        let unstated = state_inks(&mut stated);
        let Some(file) = bytes_made(&stated) else {
            continue;
        };
        made += 1;
        let number = length(&lot.records, &lot.text).map_err(|refusal| refusal.number);
        let judged = judge(&file).map_err(|refusal| refusal.number);
        // An ink that no file states is refused after every other fault.
        let wanted = match judged {
            Ok(_) if unstated => Err(14),
            judged => judged.map(|_| file.len()),
        };
        assert_eq!(number, wanted, "{lot:?}");
        reached.extend(number.err());
    }
    assert!(made > 10_000, "{made} lots");
    assert_eq!(reached, BTreeSet::from([4, 5, 8, 9, 10, 14]));
}

#[test]
fn damaged_lots_never_panic() {
    let mut reached = BTreeSet::new();
    for seed in 0..20_000 {
        let mut random = Random::new(seed);
        let mut lot = Lot::any(&mut random);
        for _ in 0..1 + random.below(3) {
            lot.damage(LotDamage::any(&mut random), &mut random);
        }
        if let Err(refusal) = length(&lot.records, &lot.text) {
            assert_eq!(refusal, refused(refusal.number));
            reached.insert(refusal.number);
        }
    }
    assert_eq!(reached, BTreeSet::from([1, 2, 4, 5, 8, 9, 10, 14]));
}
