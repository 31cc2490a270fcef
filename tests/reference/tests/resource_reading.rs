//! The reading rules of resource sections and documents, each with its answer
//! written out.

use generate::resource::{
    damage, fixed_documents, fixed_sections, Answer, Block, Damage, Document, DocumentDamage,
    Section, DOCUMENT, DOCUMENT_LISTING, EVERY_PAD, EVERY_PAD_LISTING, EVERY_PAD_ROWS, ONE_BLOCK,
    ONE_BLOCK_LISTING,
};
use generate::Random;
use reference::resource::{self, data, find, judge, list, name, read, record, section_of, Record};
use reference::{Refusal, LIMIT, LISTING_LIMIT};
use std::collections::BTreeSet;

const CANARY: u32 = 0xC0FF_EE11;
const ROW_LEN: usize = 5;

fn refused(number: u32, place: usize) -> Refusal {
    Refusal {
        number,
        place,
        record: 0,
        field: 0,
    }
}

fn refusal(refusal: Refusal) -> Answer {
    assert_eq!(refusal, refused(refusal.number, refusal.place));
    Answer::Refused {
        number: refusal.number,
        place: refusal.place,
    }
}

fn answer(section: &[u8]) -> Answer {
    judge(section).map_or_else(refusal, Answer::Blocks)
}

fn answer_of_document(document: &[u8]) -> Answer {
    let lies = |resource::Section { first, length }| Answer::Section { first, length };
    section_of(document).map_or_else(refusal, lies)
}

fn rows_of(section: &[u8]) -> Vec<[u32; ROW_LEN]> {
    let mut rows = vec![[CANARY; ROW_LEN]; judge(section).unwrap()];
    assert_eq!(read(section, rows.as_flattened_mut()), Ok(rows.len()));
    rows
}

#[test]
fn fixed_sections_get_their_answers() {
    for fixed in fixed_sections() {
        assert_eq!(answer(&fixed.file), fixed.answer, "{}", fixed.title);
    }
}

#[test]
fn fixed_documents_get_their_answers() {
    for fixed in fixed_documents() {
        let found = answer_of_document(&fixed.file);
        assert_eq!(found, fixed.answer, "{}", fixed.title);
    }
}

#[test]
fn rows_and_listings_are_those_written_down() {
    assert_eq!(rows_of(ONE_BLOCK), [[1005, 7, 0, 12, 2]]);
    assert_eq!(rows_of(EVERY_PAD), EVERY_PAD_ROWS);
    assert_eq!(list(ONE_BLOCK), ONE_BLOCK_LISTING);
    assert_eq!(list(EVERY_PAD), EVERY_PAD_LISTING);
    assert_eq!(list(DOCUMENT), DOCUMENT_LISTING);
    assert_eq!(list(&[]), "8BIM 0\nend\n");
}

/// The cut is placed where a field begins that is not there, or not all of it.
#[test]
fn every_prefix_is_cut_at_its_field() {
    let fields = [
        0, 4, 6, 7, 8, 12, // no name, even data
        14, 18, 20, 21, 22, 26, 27, // a name of one byte, odd data
        28, 32, 34, 35, 37, 38, // a name of two bytes, no data
        42, 46, 48, 49, 52, 56, 59, // a name of three bytes, odd data
    ];
    let ends = [0, 14, 28, 42];
    for len in 0..EVERY_PAD.len() {
        let judged = judge(&EVERY_PAD[..len]);
        if let Some(blocks) = ends.iter().position(|&end| end == len) {
            assert_eq!(judged, Ok(blocks), "length {len}");
        } else {
            let place = fields.into_iter().rfind(|&start| start <= len).unwrap();
            assert_eq!(judged, Err(refused(2, place)), "length {len}");
        }
    }
}

#[test]
fn every_prefix_of_a_document_is_cut_at_its_field() {
    let fields = [0, 4, 6, 12, 14, 18, 22, 24, 26, 30, 34];
    for len in 0..DOCUMENT.len() {
        let place = fields.into_iter().rfind(|&start| start <= len).unwrap();
        let cut = &DOCUMENT[..len];
        assert_eq!(section_of(cut), Err(refused(2, place)), "length {len}");
    }
}

/// A block wrong in each of its fields, which are put right one by one.
#[test]
fn faults_of_a_block_come_in_turn() {
    let mut section = b"8BIN\x03\xED\xFFAB\x01\xFF\xFF\xFF\xFF\x07\x01".to_vec();
    let steps: [(usize, &[u8], Result<usize, Refusal>); 6] = [
        (0, b"8BIN", Err(refused(3, 0))),
        (3, b"M", Err(refused(2, 7))),
        (6, &[2], Err(refused(5, 9))),
        (9, &[0], Err(refused(2, 14))),
        (10, &[0, 0, 0, 1], Err(refused(5, 15))),
        (15, &[0], Ok(1)),
    ];
    for (place, bytes, expected) in steps {
        section[place..place + bytes.len()].copy_from_slice(bytes);
        assert_eq!(judge(&section), expected, "put right at {place}");
    }
}

/// A pad is refused at every other value, and nothing else in a block is.
#[test]
fn every_byte_of_a_pad() {
    let pads = [7, 27, 37, 59];
    for byte in 1..=u8::MAX {
        for place in pads {
            let mut section = EVERY_PAD.to_vec();
            section[place] = byte;
            assert_eq!(judge(&section), Err(refused(5, place)));
        }
        for place in [4, 5, 12, 13, 18, 21, 26, 35, 36, 49, 56, 58] {
            let mut section = EVERY_PAD.to_vec();
            section[place] = byte;
            assert_eq!(judge(&section), Ok(4));
        }
    }
}

#[test]
fn names_of_every_length() {
    for length in 0..=255 {
        let section = Section::uniform(&mut Random::new(length as u64), 1, length, 3);
        let bytes = section.bytes();
        // Length byte, text and pad together are even.
        assert_eq!(bytes.len(), 6 + 2 * (length / 2 + 1) + 4 + 4);
        assert_eq!(judge(&bytes), Ok(1));
        assert_eq!(name(&bytes, 0), Ok(&section.blocks[0].name[..]));
        assert_eq!(data(&bytes, 0), Ok(&section.blocks[0].data[..]));
    }
}

#[test]
fn tables_have_room_or_not() {
    for len in 0..=4 * ROW_LEN + 6 {
        let mut table = vec![CANARY; len];
        let outcome = read(EVERY_PAD, &mut table);
        if len < 4 * ROW_LEN {
            assert_eq!(outcome, Err(refused(11, 0)));
            assert_eq!(table, vec![CANARY; len]);
        } else {
            assert_eq!(outcome, Ok(4));
            assert_eq!(table[..4 * ROW_LEN], EVERY_PAD_ROWS.concat());
            assert_eq!(table[4 * ROW_LEN..], vec![CANARY; len - 4 * ROW_LEN]);
        }
    }
    let mut table = [CANARY; 3 * ROW_LEN];
    let cut = &EVERY_PAD[..59];
    assert_eq!(read(cut, &mut table), Err(refused(2, 59)));
    assert_eq!(read(cut, &mut []), Err(refused(2, 59)));
    assert_eq!(table, [CANARY; 3 * ROW_LEN]);
    assert_eq!(read(&[], &mut []), Ok(0));
}

#[test]
fn records_by_number() {
    let third = Record {
        id: 2999,
        name: 35,
        name_length: 2,
        data: 42,
        data_length: 0,
    };
    assert_eq!(record(EVERY_PAD, 2), Ok(third));
    assert_eq!(name(EVERY_PAD, 3), Ok(&[0x00, 0xFF, 0x7A][..]));
    assert_eq!(data(EVERY_PAD, 3), Ok(&b"8BI"[..]));
    for index in [4, 5, usize::MAX] {
        assert_eq!(record(EVERY_PAD, index), Err(refused(12, 0)));
        assert_eq!(name(EVERY_PAD, index), Err(refused(12, 0)));
        assert_eq!(data(EVERY_PAD, index), Err(refused(12, 0)));
    }
    assert_eq!(record(&[], 0), Err(refused(12, 0)));
    // The section is judged first, and to its end.
    for index in [0, 9] {
        assert_eq!(record(&EVERY_PAD[..59], index), Err(refused(2, 59)));
    }
}

#[test]
fn the_first_block_with_an_id_is_found() {
    assert_eq!(find(EVERY_PAD, 1005), Ok(0));
    assert_eq!(find(EVERY_PAD, 2000), Ok(1));
    assert_eq!(find(EVERY_PAD, 2999), Ok(2));
    assert_eq!(find(EVERY_PAD, 0), Err(refused(12, 0)));
    assert_eq!(find(&[], 0), Err(refused(12, 0)));
    assert_eq!(find(&EVERY_PAD[..59], 1005), Err(refused(2, 59)));
}

#[test]
fn made_up_sections_read_as_they_were_laid_out() {
    for seed in 0..3_000 {
        let section = Section::any(&mut Random::new(seed));
        let bytes = section.bytes();
        let rows = rows_of(&bytes);
        assert_eq!(rows.len(), section.blocks.len());
        let mut end = 0;
        for (index, (row, block)) in rows.iter().zip(&section.blocks).enumerate() {
            let [id, name_at, name_length, data_at, data_length] =
                row.map(|number| number as usize);
            assert_eq!(id, usize::from(block.id));
            assert_eq!(name(&bytes, index), Ok(&block.name[..]));
            assert_eq!(data(&bytes, index), Ok(&block.data[..]));
            assert_eq!(bytes[name_at..][..name_length], block.name);
            assert_eq!(bytes[data_at..][..data_length], block.data);
            // Each block begins where the one before it ends.
            assert_eq!(name_at, end + 7);
            end = data_at + data_length + data_length % 2;
        }
        assert_eq!(end, bytes.len());
        for block in &section.blocks {
            let first = |other: &Block| other.id == block.id;
            assert_eq!(
                find(&bytes, block.id).ok(),
                section.blocks.iter().position(first)
            );
        }
    }
}

#[test]
fn the_limit() {
    let mut random = Random::new(1);
    let mut section = Section::of_length(&mut random, 3, LIMIT).bytes();
    assert_eq!(judge(&section), Ok(3));
    section.push(0);
    assert_eq!(judge(&section), Err(refused(1, 0)));
    assert_eq!(record(&section, 9), Err(refused(1, 0)));
    assert_eq!(find(&section, 9), Err(refused(1, 0)));
    section[0] = 0;
    assert_eq!(read(&section, &mut []), Err(refused(1, 0)));
}

#[test]
fn a_document_as_long_as_it_likes() {
    let mut random = Random::new(1);
    let section = Section::of_length(&mut random, 3, LIMIT).bytes();
    let mut document = Document::holding(section);
    document.behind = vec![0; 100];
    let place = document.section_place();
    let file = document.file();
    let lies = |length| Ok(resource::Section { first: 34, length });
    assert_eq!((place, section_of(&file)), (34, lies(LIMIT)));
    document.section.push(0);
    assert_eq!(section_of(&document.file()), Err(refused(1, 0)));
    // The length is judged before the section is looked for.
    assert_eq!(section_of(&document.file()[..34]), Err(refused(1, 0)));
    assert_eq!(section_of(&document.file()[..33]), Err(refused(2, 30)));
}

/// The listing of a section that begins at a place of its document.
fn listing_at(section: &[u8], first: usize) -> String {
    if let Err(Refusal { number, place, .. }) = judge(section) {
        return format!("refused {number} at {}\n", first + place);
    }
    let mut listing = format!("8BIM {}\n", judge(section).unwrap());
    for (index, [id, name, name_length, data, data_length]) in
        rows_of(section).into_iter().enumerate()
    {
        let text = &section[name as usize..][..name_length as usize];
        let text: String = text.iter().map(|byte| format!("{byte:02X}")).collect();
        let text = if text.is_empty() { "-" } else { &text };
        let data = first + data as usize;
        listing += &format!("{index} {id} {text} {data} {data_length}\n");
    }
    listing + "end\n"
}

#[test]
fn documents_list_at_their_own_places() {
    for seed in 0..2_000 {
        let random = &mut Random::new(seed);
        let mut document = Document::small(random);
        if random.one_in(2) {
            damage(&mut document.section, Damage::any(random), random);
        }
        let wanted = listing_at(&document.section, document.section_place());
        assert_eq!(list(&document.file()), wanted, "seed {seed}");
    }
}

#[test]
fn listings_about_the_limit() {
    let mut random = Random::new(1);
    let mut of_length = |len| Section::of_length(&mut random, 2, len).bytes();
    let exact = of_length(LISTING_LIMIT);
    assert!(list(&exact).starts_with("8BIM 2\n"));
    assert_eq!(list(&[&exact[..], &[0]].concat()), "refused 1 at 0\n");
    // Of a document the section alone is to be within the limit.
    let mut document = Document::holding(of_length(LISTING_LIMIT - 34));
    assert_eq!(document.file().len(), LISTING_LIMIT);
    let listing = list(&document.file());
    assert!(listing.starts_with("8BIM 2\n"));
    document.behind = vec![7; 3 * LISTING_LIMIT];
    assert_eq!(list(&document.file()), listing);
    document.section = of_length(LISTING_LIMIT - 32);
    assert_eq!(list(&document.file()), "refused 1 at 0\n");
    document.behind.clear();
    assert_eq!(list(&document.file()), "refused 1 at 0\n");
    // Two bytes too long and cut by two: there is no more of it.
    assert_eq!(list(&document.file()[..LISTING_LIMIT]), "refused 2 at 34\n");
    // Colour mode data that reaches past the limit takes the section with it.
    let mut document = Document::holding(ONE_BLOCK.to_vec());
    document.colour_data = vec![0; LISTING_LIMIT];
    assert_eq!(list(&document.file()), "refused 1 at 0\n");
    // Faults before it come first.
    let mut file = document.file();
    file[5] = 2;
    assert_eq!(list(&file), "refused 3 at 4\n");
    file.truncate(LISTING_LIMIT);
    file[5] = 1;
    assert_eq!(list(&file), "refused 2 at 30\n");
}

/// Each kind of damage is found out somewhere, and each refusal given.
#[test]
fn every_refusal_of_a_section_comes_up() {
    let mut numbers = BTreeSet::new();
    for seed in 0..20_000 {
        let random = &mut Random::new(seed);
        let mut section = Section::any(random).bytes();
        damage(&mut section, Damage::any(random), random);
        numbers.extend(judge(&section).err().map(|refusal| refusal.number));
    }
    assert_eq!(numbers, BTreeSet::from([2, 3, 5]));
}

#[test]
fn every_damage_is_found_out() {
    let harmless = [
        Damage::IdAny,
        Damage::BlockDropped,
        Damage::BlockTwice,
        Damage::BlocksSwapped,
    ];
    for kind in Damage::ALL {
        let mut refusals = 0;
        for seed in 0..500 {
            let random = &mut Random::new(seed);
            let mut section = Section::any(random).bytes();
            damage(&mut section, kind, random);
            refusals += usize::from(judge(&section).is_err());
        }
        assert_eq!(refusals == 0, harmless.contains(&kind), "{kind:?}");
    }
}

#[test]
fn every_refusal_of_a_document_comes_up() {
    let mut numbers = BTreeSet::new();
    for seed in 0..20_000 {
        let random = &mut Random::new(seed);
        let file = Document::any(random).damaged(DocumentDamage::any(random), random);
        numbers.extend(section_of(&file).err().map(|refusal| refusal.number));
    }
    assert_eq!(numbers, BTreeSet::from([1, 2, 3, 5]));
}
