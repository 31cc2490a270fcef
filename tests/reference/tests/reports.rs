//! The rules of the report, each with its answer written out.

use generate::{acb, ase, descriptor, fixed_files, Palette, Random, P2, P3, P4};
use reference::report::{add, merge, Reported, Totals};

const ZERO: Totals = [0; 31];

/// Zeros, and so much at some places.
fn totals(counted: &[(usize, u32)]) -> Totals {
    let mut totals = ZERO;
    for &(index, count) in counted {
        totals[index] = count;
    }
    totals
}

fn reported(kind: u32, file: &[u8]) -> Totals {
    let reported = add(&ZERO, kind, file);
    assert_eq!(reported.number, 0);
    reported.totals
}

#[test]
fn what_a_file_has_is_counted() {
    assert_eq!(reported(0, P2), totals(&[(0, 1)]));
    assert_eq!(reported(0, P3), totals(&[(0, 1), (15, 1), (27, 1)]));
    assert_eq!(reported(0, &P3[..14]), totals(&[(0, 1), (15, 1), (28, 1)]));
    assert_eq!(reported(1, ase::P5), totals(&[(0, 1)]));
    assert_eq!(reported(1, ase::P6), totals(&[(0, 1), (23, 1), (28, 1)]));
    // P10 has seven colours and no dummies; P8 is a dummy alone.
    let p10 = reported(2, acb::P10);
    assert_eq!(p10[24..27].iter().sum::<u32>(), 7);
    assert_eq!(p10[27..], [7, 0, 0, 0]);
    assert_eq!(reported(2, acb::P8), totals(&[(0, 1), (29, 1)]));
    assert_eq!(reported(3, descriptor::P11), totals(&[(0, 1), (30, 1)]));
    assert_eq!(reported(3, descriptor::P12), totals(&[(0, 1), (30, 4)]));
}

#[test]
fn spaces_and_models_have_their_places() {
    for (nth, (space, _)) in generate::SPACES.into_iter().enumerate() {
        let colours = vec![generate::Colour {
            space,
            samples: [0; 4],
        }];
        let names = None;
        let file = Palette { colours, names }.file();
        assert_eq!(
            reported(0, &file),
            totals(&[(0, 1), (15 + nth, 1), (28, 1)])
        );
    }
    for (nth, known) in ase::MODELS.into_iter().enumerate() {
        let file = ase::Palette::single(&mut Random::new(1), known, 2).file();
        assert_eq!(
            reported(1, &file),
            totals(&[(0, 1), (20 + nth, 1), (27, 1)])
        );
    }
    for (nth, space) in [0, 2, 7].into_iter().enumerate() {
        let mut random = Random::new(2);
        let mut book = acb::Book::small(&mut random);
        book.space = space;
        book.colours = [1, 0, 3, 0]
            .map(|units| acb::Colour::any(&mut random, space, units))
            .to_vec();
        let wanted = totals(&[(0, 1), (24 + nth, 2), (27, 2), (29, 2)]);
        assert_eq!(reported(2, &book.file()), wanted);
    }
}

#[test]
fn a_refused_file_counts_once_at_its_number() {
    assert_eq!(reported(0, P4), totals(&[(7, 1)]));
    let reported_p4 = add(&ZERO, 0, P4);
    assert_eq!((reported_p4.file_number, reported_p4.file_place), (7, 24));
    for fixed in fixed_files() {
        let reported = add(&ZERO, 0, &fixed.file);
        let index = reported.file_number as usize;
        assert_eq!(reported.totals[..15], totals(&[(index, 1)])[..15]);
        if index > 0 {
            assert_eq!(reported.totals[15..], ZERO[15..]);
        }
    }
    // The same bytes as another kind.
    assert_eq!(reported(1, P3), totals(&[(3, 1)]));
    assert_eq!(reported(3, &[]), totals(&[(2, 1)]));
}

#[test]
fn a_full_total_refuses_the_whole_file() {
    let named = totals(&[(0, 7), (27, u32::MAX), (15, 1)]);
    let refused = Reported {
        number: 5,
        file_number: 0,
        file_place: 0,
        totals: named,
    };
    assert_eq!(add(&named, 0, P3), refused);
    // What it would not add to may be full.
    assert_eq!(add(&named, 0, &P3[..14]).number, 0);
    let almost = totals(&[(27, u32::MAX - 1), (15, 1)]);
    let after = totals(&[(0, 1), (27, u32::MAX), (15, 2)]);
    assert_eq!(add(&almost, 0, P3).totals, after);
    let full = totals(&[(7, u32::MAX)]);
    let refused = Reported {
        number: 5,
        file_number: 7,
        file_place: 24,
        totals: full,
    };
    assert_eq!(add(&full, 0, P4), refused);
    let accepted = totals(&[(0, u32::MAX)]);
    assert_eq!(add(&accepted, 0, P2).number, 5);
}

#[test]
fn a_kind_is_one_of_four() {
    let some = totals(&[(3, 9)]);
    for kind in [4, 5, 0x100, u32::MAX] {
        let wanted = Reported {
            number: 4,
            file_number: 0,
            file_place: 0,
            totals: some,
        };
        assert_eq!(add(&some, kind, P3), wanted);
        assert_eq!(add(&some, kind, &[]), wanted);
    }
}

#[test]
fn reports_are_added_place_by_place() {
    let [first, second] = [1, 2].map(|step| std::array::from_fn(|index| step * index as u32));
    let sum: Totals = std::array::from_fn(|index| 3 * index as u32);
    assert_eq!(merge(&first, &second), Ok(sum));
    for index in 0..31 {
        let most = totals(&[(index, u32::MAX)]);
        assert_eq!(merge(&most, &ZERO), Ok(most));
        assert_eq!(merge(&ZERO, &most), Ok(most));
        assert_eq!(merge(&most, &totals(&[(index, 1)])), Err(5));
        let half = totals(&[(index, 0x8000_0000)]);
        assert_eq!(merge(&half, &half), Err(5));
    }
}
