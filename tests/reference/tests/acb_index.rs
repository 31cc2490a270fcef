//! The rules of the name index, each with its answer written out.

use generate::acb::{Book, Colour, IndexChange, P10, P8};
use generate::Random;
use reference::acb::{find, index, judge};
use reference::Refusal;

const CANARY: u32 = 0xC0FF_EE00;

fn refused<T>(number: u32, place: usize) -> Result<T, Refusal> {
    Err(Refusal {
        number,
        place,
        record: 0,
        field: 0,
    })
}

fn book(names: &[&[u16]]) -> Book {
    let mut random = Random::new(3);
    let mut book = Book::small(&mut random);
    let colour = |name: &&[u16]| Colour {
        name: name.to_vec(),
        ..Colour::any(&mut random, book.space, 0)
    };
    book.colours = names.iter().map(colour).collect();
    book
}

fn index_of(book: &Book) -> Vec<u32> {
    let mut room = vec![CANARY; book.colours.len() + 2];
    let shown = index(&book.file(), &mut room).unwrap();
    assert!(room[shown..].iter().all(|&entry| entry == CANARY));
    room.truncate(shown);
    room
}

#[test]
fn names_are_ordered_by_their_units() {
    // A shorter name before one that begins with it, equal names by number, a zero
    // unit before all others, and 0x0100 above 0x00FF.
    let names: [&[u16]; 9] = [
        &[66],
        &[65, 66],
        &[],
        &[65],
        &[0x0100],
        &[66],
        &[0x00FF],
        &[0],
        &[65, 0],
    ];
    let book = book(&names);
    assert_eq!(index_of(&book), [7, 3, 8, 1, 0, 5, 6, 4]);
    let (file, entries) = (book.file(), index_of(&book));
    assert_eq!(find(&file, &entries, &[66]), Ok(0));
    assert_eq!(find(&file, &entries, &[65, 0]), Ok(8));
    assert_eq!(find(&file, &entries, &[0]), Ok(7));
    for none in [&[][..], &[67], &[65, 66, 0], &[0, 0], &[0xFF00]] {
        assert_eq!(find(&file, &entries, none), refused(12, 0));
    }
}

#[test]
fn room_is_one_entry_for_each_shown() {
    let mut room = [CANARY; 9];
    assert_eq!(index(P10, &mut room[..6]), refused(11, 0));
    assert_eq!(room, [CANARY; 9]);
    assert_eq!(index(P10, &mut room), Ok(7));
    assert_eq!(room[7..], [CANARY; 2]);
    // P8 is a dummy alone: every index begins with its own.
    assert_eq!(index(P8, &mut []), Ok(0));
    assert_eq!(find(P8, &[], &[65]), refused(12, 0));
    assert_eq!(find(P8, &room, &[65]), refused(12, 0));
    assert_eq!(index(&P10[..9], &mut []), refused(2, 8));
    assert_eq!(find(&P10[..9], &[], &[]), refused(2, 8));
}

#[test]
fn an_index_is_held_to_the_file() {
    let named = book(&[&[66], &[], &[65], &[66]]);
    let file = named.file();
    assert_eq!(index_of(&named), [2, 0, 3]);
    for right in [&[2, 0, 3][..], &[2, 0, 3, 1], &[2, 0, 3, CANARY, 0]] {
        assert_eq!(find(&file, right, &[66]), Ok(0));
        assert_eq!(find(&file, right, &[67]), refused(12, 0));
    }
    let wrong = [
        &[][..],
        &[2, 0],
        &[2, 3, 0],
        &[0, 2, 3],
        &[2, 0, 0],
        &[2, 2, 0],
        &[1, 2, 0, 3],
        &[2, 0, 1],
        &[2, 0, 4],
        &[2, 0, 0x1_0003],
        &[u32::MAX, 0, 3],
    ];
    for wrong in wrong {
        assert_eq!(find(&file, wrong, &[66]), refused(5, 0), "{wrong:?}");
        assert_eq!(find(&file, wrong, &[]), refused(5, 0));
    }
    // Kept past a change, an index is right as long as the order is.
    let longer = book(&[&[66, 1], &[], &[65], &[66, 2]]);
    assert_eq!(find(&longer.file(), &[2, 0, 3], &[66, 2]), Ok(3));
    let other = book(&[&[66, 2], &[], &[65], &[66, 1]]);
    assert_eq!(find(&other.file(), &[2, 0, 3], &[66, 2]), refused(5, 0));
    let shown = book(&[&[66], &[67], &[65], &[66]]);
    assert_eq!(find(&shown.file(), &[2, 0, 3], &[66]), refused(5, 0));
}

/// Every permutation of a few colours, as an index, by the rule itself.
#[test]
fn no_other_order_is_taken() {
    for seed in 0..60 {
        let mut random = Random::new(seed);
        let units: [&[u16]; 5] = [&[], &[65], &[65, 65], &[66], &[65]];
        let names: Vec<&[u16]> = (0..4).map(|_| random.pick(&units)).collect();
        let book = book(&names);
        let (file, right) = (book.file(), index_of(&book));
        assert_eq!(judge(&file).unwrap().count, 4);
        let mut sorted: Vec<u32> = (0..4).filter(|&n| !names[n as usize].is_empty()).collect();
        sorted.sort_by_key(|&number| (names[number as usize], number));
        assert_eq!(right, sorted);
        for digits in 0..4_u32.pow(4) {
            let entries = [digits & 3, digits >> 2 & 3, digits >> 4 & 3, digits >> 6];
            let found = find(&file, &entries, &[65]);
            let first = names.iter().position(|name| name == &[65]);
            let wanted = if !entries.starts_with(&right) {
                refused(5, 0)
            } else {
                first.map_or(refused(12, 0), Ok)
            };
            assert_eq!(found, wanted, "{names:?} {entries:?}");
        }
    }
}

/// Books whose names are hard to tell apart, by what they were laid out from.
#[test]
fn made_up_books_are_searched() {
    for seed in 0..4_000 {
        let mut random = Random::new(seed);
        let book = Book::of_pickers(&mut random);
        let (file, right) = (book.file(), book.index());
        assert_eq!(index_of(&book), right, "seed {seed}");
        let name = book.looked_for(&mut random);
        let mut entries = right.clone();
        if random.one_in(2) {
            let change = random.pick(&IndexChange::ALL);
            change.change(&mut entries, book.colours.len(), &mut random);
        }
        let named = |colour: &Colour| !name.is_empty() && colour.name == name;
        let first = book.colours.iter().position(named);
        let wanted = if entries.starts_with(&right) {
            first.map_or(refused(12, 0), Ok)
        } else {
            refused(5, 0)
        };
        assert_eq!(find(&file, &entries, &name), wanted, "seed {seed}");
    }
}
