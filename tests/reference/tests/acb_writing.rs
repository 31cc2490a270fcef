//! The writing rules of ACB, each with its answer written out.

use generate::acb::{self, components, Book, Lot, LotDamage, ANPA, P10, P8, P9};
use generate::Random;
use reference::acb::{judge, length, read, write, Header, Tag, Text};
use reference::{Refusal, LIMIT};
use std::collections::BTreeSet;

const CANARY: u8 = 0xA5;
const ROW_LEN: usize = 13;
const JUNK: u32 = 0x9E37_79B9;

/// An RGB colour with a name of one unit, at the text's start.
const NAMED: [u32; ROW_LEN] = [0, 1, 32, 32, 32, 32, 32, 32, 1, 2, 3, 0, 4];
const TEXT: [u8; 2] = [0x00, 0x41];

fn refused(number: u32) -> Refusal {
    Refusal {
        number,
        place: 0,
        record: 0,
        field: 0,
    }
}

fn bare(space: u16) -> Header {
    Header {
        page_size: 1,
        space,
        ..Header::default()
    }
}

fn tag(number: u32) -> Tag {
    Tag::ALL.get(number as usize).copied().unwrap_or(Tag::Other)
}

/// The ink that a tag states, by its number.
fn ink(tag: u32) -> u32 {
    match tag {
        1 => 1,
        2 => 3,
        _ => 4,
    }
}

fn header(made: &acb::Header) -> Header {
    let text = |index: usize| {
        let (place, units) = made.strings[index];
        Text { place, units }
    };
    Header {
        identifier: made.identifier,
        page_size: made.page_size,
        page_offset: made.page_offset,
        space: made.space,
        tag: tag(made.tag),
        title: text(0),
        prefix: text(1),
        suffix: text(2),
        description: text(3),
    }
}

/// The length's answer for the named record with some of its numbers changed.
fn changed(changes: &[(usize, u32)]) -> Result<usize, Refusal> {
    let mut record = NAMED;
    changes
        .iter()
        .for_each(|&(index, value)| record[index] = value);
    length(&bare(0), &record, &TEXT)
}

#[test]
fn a_file_is_written_back_as_it_is() {
    let tagged = [&ANPA[..], b"spflproc"].concat();
    for file in [&ANPA[..], &tagged, P8, P9, P10] {
        let accepted = judge(file).unwrap();
        let mut records = vec![0; ROW_LEN * accepted.count];
        read(file, &mut records).unwrap();
        let mut out = vec![CANARY; file.len() + 3];
        let written = write(&accepted.header, &records, file, &mut out);
        assert_eq!(written, Ok(file.len()));
        assert_eq!(&out[..file.len()], file);
        assert_eq!(out[file.len()..], [CANARY; 3]);
    }
}

#[test]
fn made_up_files_are_written_back_as_they_are() {
    for seed in 0..2_000 {
        let file = Book::any(&mut Random::new(seed)).file();
        let accepted = judge(&file).unwrap();
        let mut records = vec![0; ROW_LEN * accepted.count];
        read(&file, &mut records).unwrap();
        assert_eq!(length(&accepted.header, &records, &file), Ok(file.len()));
        let mut out = vec![CANARY; file.len()];
        write(&accepted.header, &records, &file, &mut out).unwrap();
        assert_eq!(out, file);
    }
}

#[test]
fn room_is_judged_last_and_nothing_changes() {
    let mut out = [CANARY; 46];
    assert_eq!(length(&bare(0), &NAMED, &TEXT), Ok(47));
    assert_eq!(write(&bare(0), &NAMED, &TEXT, &mut out), Err(refused(11)));
    assert_eq!(write(&bare(1), &NAMED, &TEXT, &mut out), Err(refused(4)));
    assert_eq!(write(&bare(0), &NAMED, &[], &mut []), Err(refused(2)));
    assert_eq!(out, [CANARY; 46]);
    let mut out = [CANARY; 47];
    assert_eq!(write(&bare(0), &NAMED, &TEXT, &mut out), Ok(47));
}

/// A header and a record wrong in each of their fields, which are put right one
/// by one.
#[test]
fn faults_come_in_turn() {
    let mut header = Header {
        page_size: 0,
        space: 1,
        ..Header::default()
    };
    header.title = Text { place: 1, units: 1 };
    header.prefix = Text { place: 0, units: 2 };
    header.suffix = Text {
        place: usize::MAX,
        units: 1,
    };
    header.description = Text { place: 3, units: 1 };
    let many = NAMED.repeat(65_536);
    let most = &many[ROW_LEN..];
    let outcome = |header: &Header, records: &[u32]| length(header, records, &TEXT);
    let here = Text { place: 0, units: 1 };
    assert_eq!(outcome(&header, &many), Err(refused(2)));
    header.title = here;
    assert_eq!(outcome(&header, &many), Err(refused(2)));
    header.prefix = here;
    assert_eq!(outcome(&header, &many), Err(refused(2)));
    header.suffix = here;
    assert_eq!(outcome(&header, &many), Err(refused(2)));
    header.description = here;
    assert_eq!(outcome(&header, &many), Err(refused(5)));
    assert_eq!(outcome(&header, most), Err(refused(5)));
    header.page_size = 1;
    assert_eq!(outcome(&header, &many), Err(refused(5)));
    assert_eq!(outcome(&header, most), Err(refused(4)));
    header.space = 7;
    assert_eq!(outcome(&header, most), Ok(32 + 8 + 65_535 * 15));

    let mut record = [1, 1, 32, 256, 32, 32, 32, 32, 256, 2, 3, JUNK, 4];
    assert_eq!(outcome(&header, &record), Err(refused(2)));
    record[0] = 0;
    assert_eq!(outcome(&header, &record), Err(refused(5)));
    record[3] = 255;
    assert_eq!(outcome(&header, &record), Err(refused(5)));
    record[8] = 255;
    assert_eq!(outcome(&header, &record), Ok(55));
    header.space = 2;
    assert_eq!(outcome(&header, &record), Err(refused(5)));
}

/// What comes first in the output is refused first, though it be of a record.
#[test]
fn records_are_judged_one_by_one() {
    let mut wrong_code = NAMED;
    wrong_code[7] = 256;
    let mut wrong_name = NAMED;
    wrong_name[0] = 1;
    let records = |rows: &[[u32; ROW_LEN]]| length(&bare(0), &rows.concat(), &TEXT);
    assert_eq!(records(&[wrong_code, wrong_name]), Err(refused(5)));
    assert_eq!(records(&[wrong_name, wrong_code]), Err(refused(2)));
    assert_eq!(records(&[NAMED, NAMED]), Ok(62));
}

#[test]
fn numbers_that_are_no_bytes_are_refused() {
    for index in 2..12 {
        for value in [255, 256, 257, 0x1_0000, u32::MAX] {
            // The fourth component is to spare in RGB.
            let expected = if value > 255 && index < 11 {
                Err(refused(5))
            } else {
                Ok(47)
            };
            assert_eq!(changed(&[(index, value)]), expected, "{value} at {index}");
        }
    }
}

#[test]
fn strings_and_names_lie_in_the_text() {
    assert_eq!(changed(&[(0, 1)]), Err(refused(2)));
    assert_eq!(changed(&[(1, 2)]), Err(refused(2)));
    assert_eq!(changed(&[(0, u32::MAX)]), Err(refused(2)));
    assert_eq!(changed(&[(0, u32::MAX), (1, 0)]), Ok(45));
    for place in [1, 2, 3, u32::MAX as usize, usize::MAX - 1, usize::MAX] {
        let mut header = bare(0);
        header.suffix = Text { place, units: 1 };
        assert_eq!(length(&header, &[], &TEXT), Err(refused(2)), "{place}");
        header.suffix.units = 0;
        assert_eq!(length(&header, &[], &TEXT), Ok(32));
    }
}

#[test]
fn a_remainder_and_a_spare_component_are_left_alone() {
    assert_eq!(length(&bare(0), &[JUNK; ROW_LEN - 1], &[]), Ok(32));
    let mut record = NAMED;
    record[11] = JUNK;
    let records = [&record[..], &[JUNK; 11]].concat();
    let mut out = [CANARY; 47];
    assert_eq!(write(&bare(7), &records, &TEXT, &mut out), Ok(47));
    let mut table = [JUNK; ROW_LEN];
    read(&out, &mut table).unwrap();
    assert_eq!(table, [36, 1, 32, 32, 32, 32, 32, 32, 1, 2, 3, 0, 4]);
}

#[test]
fn the_whole_length_is_judged_first() {
    for units in [8_400_000, 0x7FFF_FFF3, 0x8000_0000, u32::MAX] {
        assert_eq!(changed(&[(1, units)]), Err(refused(1)));
        for space in [0, 1, 2] {
            let mut header = bare(space);
            header.page_size = 0;
            header.title = Text { place: 9, units };
            assert_eq!(length(&header, &[], &TEXT), Err(refused(1)));
        }
    }
    // 32 bytes, and 13 of a colour in a space that is not known.
    let most = (LIMIT as u32 - 46) / 2;
    let counted = |space, units| {
        let mut record = NAMED;
        record[1] = units;
        length(&bare(space), &record, &TEXT)
    };
    for space in [0, 1, 2, 7] {
        let fault = if space == 1 { 4 } else { 2 };
        assert_eq!(counted(space, most), Err(refused(fault)));
        assert_eq!(counted(space, most + 1), Err(refused(1)));
    }
    let mut tagged = bare(0);
    tagged.title = Text {
        place: 0,
        units: (LIMIT as u32 - 40) / 2,
    };
    for tag in [Tag::Spot, Tag::Other] {
        tagged.tag = tag;
        assert_eq!(length(&tagged, &[], &TEXT), Err(refused(2)));
        tagged.title.units += 1;
        assert_eq!(length(&tagged, &[], &TEXT), Err(refused(1)));
        tagged.title.units -= 1;
    }
}

#[test]
fn another_tag_is_judged_last() {
    let mut other = bare(0);
    other.tag = Tag::Other;
    assert_eq!(length(&other, &NAMED, &TEXT), Err(refused(3)));
    let mut record = NAMED;
    record[10] = 256;
    assert_eq!(length(&other, &record, &TEXT), Err(refused(5)));
    record[1] = 2;
    assert_eq!(length(&other, &record, &TEXT), Err(refused(2)));
    other.space = 1;
    assert_eq!(length(&other, &record, &TEXT), Err(refused(4)));
    other.page_size = 0;
    assert_eq!(length(&other, &record, &TEXT), Err(refused(5)));
    other.page_size = 1;
    other.space = 0;
    let mut out = [CANARY; 100];
    assert_eq!(write(&other, &NAMED, &TEXT, &mut out), Err(refused(3)));
    assert_eq!(write(&other, &NAMED, &TEXT, &mut []), Err(refused(3)));
    assert_eq!(out, [CANARY; 100]);
}

#[test]
fn every_record_has_the_ink_that_the_tag_states() {
    for tag_number in 0..4 {
        let mut header = bare(0);
        header.tag = tag(tag_number);
        for other in [0, 1, 2, 3, 4, 5, 0x104, 0x1_0001, u32::MAX] {
            for index in 0..2 {
                let mut rows = [NAMED; 2];
                rows.iter_mut().for_each(|row| row[12] = ink(tag_number));
                rows[index][12] = other;
                let wanted = match tag_number {
                    3 => Err(refused(3)),
                    _ if other != ink(tag_number) => Err(refused(14)),
                    0 => Ok(62),
                    _ => Ok(70),
                };
                assert_eq!(length(&header, &rows.concat(), &TEXT), wanted);
                // A dummy has its ink, too.
                rows[index][1] = 0;
                let wanted = wanted.map(|length| length - 2);
                assert_eq!(length(&header, &rows.concat(), &TEXT), wanted);
                rows[1 - index][2] = 256;
                assert_eq!(length(&header, &rows.concat(), &TEXT), Err(refused(5)));
            }
        }
    }
    let mut out = [CANARY; 47];
    let mut record = NAMED;
    record[12] = 1;
    assert_eq!(write(&bare(0), &record, &TEXT, &mut out), Err(refused(14)));
    assert_eq!(write(&bare(0), &record, &TEXT, &mut []), Err(refused(14)));
    assert_eq!(out, [CANARY; 47]);
}

#[test]
fn the_limit_is_the_longest_output() {
    // 32 bytes and 14 a colour; the names are of one text.
    let lot = Lot::sharing_text(&mut Random::new(1), 2, &[8_388_585]);
    let made = header(&lot.header);
    let mut out = vec![CANARY; LIMIT];
    assert_eq!(write(&made, &lot.records, &lot.text, &mut out), Ok(LIMIT));
    assert_eq!(judge(&out).unwrap().count, 1);
    let longer = Lot::sharing_text(&mut Random::new(1), 2, &[8_388_586]);
    let outcome = length(&header(&longer.header), &longer.records, &longer.text);
    assert_eq!(outcome, Err(refused(1)));
}

/// The bytes made from records that fit their fields, judged by nobody.
fn bytes_made(lot: &Lot) -> Option<Vec<u8>> {
    let string = |place: usize, units: u32| {
        let mut bytes = units.to_be_bytes().to_vec();
        if units > 0 {
            bytes.extend(lot.text.get(place..)?.get(..2 * units as usize)?);
        }
        Some(bytes)
    };
    let made = &lot.header;
    let mut file = b"8BCB\0\x01".to_vec();
    file.extend(made.identifier.to_be_bytes());
    for (place, units) in made.strings {
        file.extend(string(place, units)?);
    }
    let count = u16::try_from(lot.count()).ok()?;
    for number in [count, made.page_size, made.page_offset, made.space] {
        file.extend(number.to_be_bytes());
    }
    for row in lot.records.chunks_exact(ROW_LEN) {
        file.extend(string(row[0] as usize, row[1])?);
        for &number in &row[2..8 + components(made.space)] {
            file.push(u8::try_from(number).ok()?);
        }
    }
    file.extend(tag(made.tag).bytes());
    Some(file)
}

fn damaged(seed: u64) -> Lot {
    let mut random = Random::new(seed);
    let mut lot = Lot::any(&mut random);
    for _ in 0..random.below(4) {
        lot.damage(LotDamage::any(&mut random), &mut random);
    }
    lot
}

#[test]
fn the_writer_judges_as_the_reader_judges_the_bytes() {
    let mut made = 0;
    let mut reached = BTreeSet::new();
    for lot in (0..20_000).map(damaged) {
        let Some(file) = bytes_made(&lot) else {
            continue;
        };
        made += 1;
        let outcome = length(&header(&lot.header), &lot.records, &lot.text);
        let number = outcome.map_err(|refusal| refusal.number);
        let judged = judge(&file).map_err(|refusal| refusal.number);
        // The bytes have one ink, that of the tag.
        let ink = ink(lot.header.tag);
        let other = lot.records.chunks_exact(ROW_LEN).any(|row| row[12] != ink);
        let wanted = match judged {
            Ok(_) if other => Err(14),
            judged => judged.map(|_| file.len()),
        };
        assert_eq!(number, wanted, "{lot:?}");
        reached.extend(number.err());
    }
    assert!(made > 8_000, "{made} lots");
    assert_eq!(reached, BTreeSet::from([3, 4, 5, 14]));
}

#[test]
fn damaged_lots_never_panic() {
    let mut reached = BTreeSet::new();
    for lot in (0..20_000).map(damaged) {
        let mut out = [CANARY; 400];
        match write(&header(&lot.header), &lot.records, &lot.text, &mut out) {
            Ok(len) => assert_eq!(Some(&out[..len]), bytes_made(&lot).as_deref()),
            Err(refusal) => {
                assert_eq!(refusal, refused(refusal.number));
                assert_eq!(out, [CANARY; 400]);
                reached.insert(refusal.number);
            }
        }
    }
    assert_eq!(reached, BTreeSet::from([1, 2, 3, 4, 5, 11, 14]));
}
