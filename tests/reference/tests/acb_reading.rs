//! The reading rules of ACB, each with its answer written out.

use generate::acb::{
    components, damage, fixed_files, fixed_strings, Answer, Book, Damage, ANPA, ANPA_FULL_NAME,
    ANPA_LISTING, P10, P10_PAGES, P8, P8_SHOWN, P9, P9_SHOWN,
};
use generate::Random;
use reference::acb::{
    full_length, full_name, judge, list, page, read, record, shown, shown_start, shown_text,
    Accepted, Header, Record, Shown, Tag, Text,
};
use reference::{Refusal, LIMIT, LISTING_LIMIT};
use std::collections::BTreeSet;

const CANARY: u32 = 0xC0FF_EE11;
const BYTE_CANARY: u8 = 0xA5;
const ROW_LEN: usize = 13;

fn refused(number: u32, place: usize) -> Refusal {
    Refusal {
        number,
        place,
        record: 0,
        field: 0,
    }
}

fn answer(file: &[u8]) -> Answer {
    match judge(file) {
        Ok(accepted) => Answer::Accepted {
            count: accepted.count,
        },
        Err(refusal) => {
            assert_eq!(refusal, refused(refusal.number, refusal.place));
            Answer::Refused {
                number: refusal.number,
                place: refusal.place,
            }
        }
    }
}

/// A file without strings and colours, for pages of 6, and what follows.
fn book(count: u16, space: u16, rest: &[u8]) -> Vec<u8> {
    let numbers = [count, 6, 0, space].map(u16::to_be_bytes).concat();
    [&P8[..24], &numbers, rest].concat()
}

#[test]
fn fixed_files_get_their_answers() {
    for fixed in fixed_files() {
        assert_eq!(answer(&fixed.file), fixed.answer, "{}", fixed.title);
    }
}

#[test]
fn anpa_is_read() {
    let text = |place, units| Text { place, units };
    let header = Header {
        identifier: 0x0BB8,
        page_size: 6,
        page_offset: 5,
        space: 7,
        tag: Tag::None,
        title: text(0x0C, 0x23),
        prefix: text(0x56, 0x1F),
        suffix: text(0x98, 0x21),
        description: text(0xDE, 0x1F),
    };
    let accepted = Accepted { count: 2, header };
    assert_eq!(judge(&ANPA), Ok(accepted));
    let mut table = [CANARY; 2 * ROW_LEN + 3];
    assert_eq!(read(&ANPA, &mut table), Ok(accepted));
    let first = [
        0x128, 4, 0x20, 0x37, 0x31, 0x2D, 0x31, 0x44, 0xF8, 0x7B, 0x7B, 0, 4,
    ];
    let second = [
        0x13D, 4, 0x20, 0x37, 0x31, 0x2D, 0x32, 0x44, 0xF1, 0x78, 0x78, 0, 4,
    ];
    assert_eq!(table[..ROW_LEN], first);
    assert_eq!(table[ROW_LEN..2 * ROW_LEN], second);
    assert_eq!(table[2 * ROW_LEN..], [CANARY; 3]);
    let second = Record {
        name: text(0x13D, 4),
        code: *b" 71-2D",
        components: [0xF1, 0x78, 0x78, 0],
        ink: 4,
    };
    assert_eq!(record(&ANPA, 1), Ok(second));
    assert_eq!(record(&ANPA, 2), Err(refused(12, 0)));
    assert_eq!(list(&ANPA), ANPA_LISTING);
}

#[test]
fn full_names_are_put_together() {
    let mut out = [BYTE_CANARY; 40];
    assert_eq!(full_length(&ANPA, 0), Ok(30));
    assert_eq!(full_name(&ANPA, 0, &mut out), Ok(30));
    assert_eq!(&out[..30], ANPA_FULL_NAME);
    assert_eq!(out[30..], [BYTE_CANARY; 10]);
    let mut short = [BYTE_CANARY; 29];
    assert_eq!(full_name(&ANPA, 0, &mut short), Err(refused(11, 0)));
    assert_eq!(full_name(&ANPA, 2, &mut short), Err(refused(12, 0)));
    assert_eq!(full_name(&ANPA[..9], 2, &mut short), Err(refused(2, 8)));
    assert_eq!(short, [BYTE_CANARY; 29]);
    // A dummy's is of the prefix and the suffix, here of none.
    assert_eq!(full_length(P8, 0), Ok(0));
    assert_eq!(full_name(P8, 0, &mut []), Ok(0));
}

/// A record's name is never cut, though it look like a key.
#[test]
fn names_are_shown_whole() {
    let name = b"\0$\0$\0$\0/\0=\0a";
    let colour = [&[0, 0, 0, 6], &name[..], b"code  \x01\x02\x03"].concat();
    let file = book(1, 0, &colour);
    let mut out = [0; 12];
    assert_eq!(full_name(&file, 0, &mut out), Ok(12));
    assert_eq!(&out, name);
    assert_eq!(record(&file, 0).unwrap().name.units, 6);
}

#[test]
fn shown_text_begins_behind_the_first_equals_sign() {
    for fixed in fixed_strings() {
        let string = &fixed.string;
        assert_eq!(shown_start(string), fixed.start, "{string:?}");
        assert_eq!(shown_text(string), &string[fixed.start..]);
    }
}

#[test]
fn components_are_shown() {
    let values = |file, count, values| assert_eq!(shown(file, 0), Ok(Shown { count, values }));
    values(P8, 3, P8_SHOWN);
    values(P9, 4, P9_SHOWN);
    values(P10, 3, [0; 4]);
    assert_eq!(shown(P8, 1), Err(refused(12, 0)));
    assert_eq!(shown(&P8[..44], 1), Err(refused(2, 44)));
    for byte in 0..=u8::MAX {
        let rounded = |part: u8| (f64::from(part) / 2.55 + 0.5).floor() as i32;
        let colour = |space, bytes: &[u8]| {
            let colour = [&[0, 0, 0, 0], &b"code  "[..], bytes].concat();
            shown(&book(1, space, &colour), 0).unwrap().values
        };
        let signed = i32::from(byte) - 128;
        assert_eq!(
            colour(0, &[byte; 3]),
            [i32::from(byte), i32::from(byte), i32::from(byte), 0]
        );
        assert_eq!(colour(2, &[byte; 4]), [rounded(255 - byte); 4]);
        assert_eq!(colour(7, &[byte; 3]), [rounded(byte), signed, signed, 0]);
    }
}

#[test]
fn pages_show_their_samples() {
    for (number, sample) in P10_PAGES.into_iter().enumerate() {
        assert_eq!(
            page(P10, number),
            sample.ok_or(refused(12, 0)),
            "page {number}"
        );
    }
    for far in [usize::MAX, usize::MAX / 3, usize::MAX / 3 + 1, 1 << 63] {
        assert_eq!(page(P10, far), Err(refused(12, 0)));
        assert_eq!(
            page(&P10[..P10.len() - 1], far),
            Err(refused(2, P10.len() - 1))
        );
    }
    assert_eq!(page(P8, 0), Err(refused(12, 0)));
}

#[test]
fn made_up_pages_show_their_samples() {
    for seed in 0..2_000 {
        let book = Book::any(&mut Random::new(seed));
        let file = book.file();
        let samples = book.samples();
        for (number, sample) in samples.iter().enumerate().take(20) {
            assert_eq!(page(&file, number), sample.ok_or(refused(12, 0)));
        }
        assert_eq!(page(&file, samples.len()), Err(refused(12, 0)));
        if file.len() <= LISTING_LIMIT {
            let listing = list(&file);
            let pages = listing.lines().filter(|line| line.starts_with("page "));
            let expected = samples
                .iter()
                .enumerate()
                .map(|(number, sample)| match sample {
                    Some(index) => format!("page {number} {index}"),
                    None => format!("page {number} -"),
                });
            assert!(pages.eq(expected));
        }
    }
}

#[test]
fn made_up_books_are_read() {
    for seed in 0..2_000 {
        let book = Book::any(&mut Random::new(seed));
        let file = book.file();
        let layout = book.layout();
        let accepted = judge(&file).unwrap();
        assert_eq!(accepted.count, book.colours.len());
        let header = accepted.header;
        let tag = [Tag::None, Tag::Spot, Tag::Process][book.tag];
        assert_eq!((header.tag, header.space), (tag, book.space));
        assert_eq!(header.identifier, book.identifier);
        for (index, text) in header.strings().iter().enumerate() {
            assert_eq!(text.place, layout.strings[index] + 4);
            assert_eq!(text.units as usize, book.strings[index].len());
        }
        let mut table = vec![CANARY; ROW_LEN * accepted.count];
        read(&file, &mut table).unwrap();
        for (index, row) in table.chunks(ROW_LEN).enumerate() {
            let colour = &book.colours[index];
            assert_eq!(row[0] as usize, layout.colours[index] + 4);
            assert_eq!(row[1] as usize, colour.name.len());
            assert!(row[2..8].iter().eq(colour.code.map(u32::from).iter()));
            assert!(row[8..12]
                .iter()
                .eq(colour.components.map(u32::from).iter()));
            assert_eq!(row[12], [4, 1, 3][book.tag as usize]);
        }
    }
}

/// Where each field of a book begins; bytes of strings and codes are one field.
fn field_starts(book: &Book) -> Vec<usize> {
    let layout = book.layout();
    let mut starts = vec![0, 4, 6];
    starts.extend(layout.strings.iter().flat_map(|&place| [place, place + 4]));
    starts.extend([0, 2, 4, 6].map(|offset| layout.count + offset));
    for (&place, colour) in layout.colours.iter().zip(&book.colours) {
        let code = place + 4 + 2 * colour.name.len();
        starts.extend([place, place + 4, code]);
        starts.extend((0..components(book.space)).map(|index| code + 6 + index));
    }
    starts
}

#[test]
fn every_prefix_is_cut_at_its_field() {
    for seed in 0..300 {
        let mut book = Book::small(&mut Random::new(seed));
        book.tag = 0;
        let file = book.file();
        let starts = field_starts(&book);
        for len in 0..file.len() {
            let place = starts.iter().copied().rfind(|&start| start <= len);
            assert_eq!(judge(&file[..len]), Err(refused(2, place.unwrap())));
        }
    }
}

#[test]
fn tables_have_room_or_not() {
    for len in 0..=2 * ROW_LEN + 1 {
        let mut table = vec![CANARY; len];
        let outcome = read(&ANPA, &mut table);
        if len < 2 * ROW_LEN {
            assert_eq!(outcome, Err(refused(11, 0)));
            assert_eq!(table, vec![CANARY; len]);
        } else {
            assert_eq!(outcome, judge(&ANPA));
            assert_eq!(table[2 * ROW_LEN..], vec![CANARY; len - 2 * ROW_LEN]);
        }
    }
}

#[test]
fn the_file_comes_before_the_call() {
    let cut = &ANPA[..ANPA.len() - 1];
    let expected = refused(2, cut.len());
    assert_eq!(read(cut, &mut []), Err(expected));
    assert_eq!(record(cut, 9), Err(expected));
    assert_eq!(shown(cut, 9), Err(expected));
    assert_eq!(page(cut, 9), Err(expected));
    assert_eq!(full_length(cut, 9), Err(expected));
    assert_eq!(full_name(cut, 9, &mut []), Err(expected));
}

#[test]
fn the_limit_is_the_longest_file() {
    let mut file = Book::of_length(&mut Random::new(1), 65_535, LIMIT).file();
    assert_eq!(judge(&file).unwrap().count, 65_535);
    assert_eq!(record(&file, 65_534).unwrap().components.len(), 4);
    file.push(0);
    assert_eq!(judge(&file), Err(refused(1, 0)));
    assert_eq!(judge(&vec![0; LIMIT + 1]), Err(refused(1, 0)));
    assert_eq!(judge(&vec![0; LIMIT]), Err(refused(3, 0)));
}

#[test]
fn the_listing_has_its_own_limit() {
    let mut file = Book::of_length(&mut Random::new(1), 100, LISTING_LIMIT).file();
    assert!(list(&file).starts_with("ACB 100 2 6 0 0 none\n"));
    file.push(0);
    assert_eq!(list(&file), "refused 1 at 0\n");
    assert_eq!(list(b""), "refused 2 at 0\n");
}

#[test]
fn damaged_files_never_panic() {
    let mut reached = BTreeSet::new();
    for seed in 0..20_000 {
        let mut random = Random::new(seed);
        let book = Book::any(&mut random);
        let mut file = book.file();
        for _ in 0..1 + random.below(3) {
            damage(&mut file, &book, Damage::any(&mut random), &mut random);
        }
        reached.extend(judge(&file).err().map(|refusal| refusal.number));
    }
    assert_eq!(reached, BTreeSet::from([2, 3, 4, 5, 6]));
}
