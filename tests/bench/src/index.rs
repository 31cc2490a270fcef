//! Times the index of a book's names, built and searched, by the number of its colours.

use crate::timing::by_turns;
use crate::{SEED, SHORT_NAME};
use generate::acb::Book;
use generate::Random;
use reference::acb::{self, MAX_COLOURS};
use std::hint::black_box;

const COLOURS: [usize; 3] = [1_000, 8_000, MAX_COLOURS];

/// How the names of a book lie.
type Shape = fn(&mut Book);

const SHAPES: [(&str, Shape); 4] = [
    ("any names", |_| {}),
    ("in order", |book| {
        book.colours.sort_by(|a, b| a.name.cmp(&b.name));
    }),
    ("backward", |book| {
        book.colours.sort_by(|a, b| b.name.cmp(&a.name));
    }),
    ("one name", |book| {
        let name = book.colours[0].name.clone();
        for colour in &mut book.colours {
            colour.name.clone_from(&name);
        }
    }),
];

pub fn compare(rounds: usize) {
    println!("\nname index of ACB, names of {SHORT_NAME} units; ratio: library to reference");
    println!(
        "{:6} {:10} {:>9} {:>13} {:>15} {:>6}",
        "call", "names", "colours", "library us", "reference us", "ratio"
    );
    for (shape, arrange) in SHAPES {
        for colours in COLOURS {
            let mut book = Book::uniform(&mut Random::new(SEED), colours, SHORT_NAME);
            arrange(&mut book);
            time(shape, &book, rounds);
        }
    }
}

fn time(shape: &str, book: &Book, rounds: usize) {
    let file = book.file();
    let colours = book.colours.len();
    let name = &book.colours[colours / 3].name;
    let mut library_index = vec![1; colours];
    let mut reference_index = library_index.clone();
    assert_eq!(proved::acb::index(&file, &mut library_index).number, 0);
    assert!(acb::index(&file, &mut reference_index).is_ok());
    assert_eq!(library_index, reference_index);
    let best = by_turns(
        rounds,
        &mut [
            Box::new(|| {
                black_box(proved::acb::index(black_box(&file), &mut library_index));
            }),
            Box::new(|| {
                let _ = black_box(acb::index(black_box(&file), &mut reference_index));
            }),
        ],
    );
    print_row("index", shape, colours, &best);
    let index = &library_index[..];
    let found = proved::acb::find(&file, index, name);
    assert_eq!(Ok(found.record), acb::find(&file, index, name));
    let best = by_turns(
        rounds,
        &mut [
            Box::new(|| {
                black_box(proved::acb::find(black_box(&file), index, black_box(name)));
            }),
            Box::new(|| {
                let _ = black_box(acb::find(black_box(&file), index, black_box(name)));
            }),
        ],
    );
    print_row("find", shape, colours, &best);
}

fn print_row(call: &str, shape: &str, colours: usize, best: &[f64]) {
    let [library, reference] = [0, 1].map(|way| best[way] / 1_000.0);
    let ratio = library / reference;
    println!("{call:6} {shape:10} {colours:>9} {library:>13.1} {reference:>15.1} {ratio:>6.2}");
}
