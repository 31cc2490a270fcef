//! Times the index of a book by its names, and search in it, at two sizes.

use crate::timing::{alternate, Times};
use crate::SEED;
use generate::Random;
use reference::acb;
use std::hint::black_box;

const COUNTS: [u16; 2] = [1_000, 65_535];

/// Names in the order of the file.
#[derive(Clone, Copy)]
enum Names {
    Random,
    Sorted,
    Reversed,
    LongBeginnings,
}

const SHAPES: [(&str, Names); 4] = [
    ("random", Names::Random),
    ("sorted", Names::Sorted),
    ("reversed", Names::Reversed),
    ("long common beginnings", Names::LongBeginnings),
];

pub fn compare(rounds: usize) {
    println!("\nthe index of a book, and search with its comparison; nanoseconds, and the ratio");
    println!("call    colours  names                        library    reference  ratio");
    for count in COUNTS {
        for (shape, names) in SHAPES {
            let names = names.of(count);
            let file = book(&names);
            print("index", count, shape, &time_index(&file, count, rounds));
            print("find", count, shape, &time_find(&file, &names, rounds));
        }
    }
}

impl Names {
    fn of(self, count: u16) -> Vec<Vec<u16>> {
        let mut random = Random::new(SEED);
        let mut unit = || 0x41 + random.below(26) as u16;
        let mut names: Vec<Vec<u16>> = (0..count)
            .map(|_| match self {
                Names::LongBeginnings => {
                    let mut name = vec![0x41; 100];
                    name.extend((0..15).map(|_| unit()));
                    name
                }
                _ => {
                    let units = 3 + (unit() - 0x41) % 10;
                    (0..units).map(|_| unit()).collect()
                }
            })
            .collect();
        match self {
            Names::Sorted => names.sort(),
            Names::Reversed => names.sort_by(|a, b| b.cmp(a)),
            Names::Random | Names::LongBeginnings => {}
        }
        names
    }
}

/// A book in RGB of such names, with no title, prefix, suffix and description.
fn book(names: &[Vec<u16>]) -> Vec<u8> {
    let mut file = b"8BCB\0\x01\0\x09".to_vec();
    file.extend([0; 16]);
    file.extend((names.len() as u16).to_be_bytes());
    file.extend([0, 7, 0, 0, 0, 0]);
    for name in names {
        file.extend((name.len() as u32).to_be_bytes());
        file.extend(name.iter().flat_map(|unit| unit.to_be_bytes()));
        file.extend([1, 2, 3, 4, 5, 6, 7, 8, 9]);
    }
    file
}

fn time_index(file: &[u8], count: u16, rounds: usize) -> Times {
    let mut library = vec![1; count.into()];
    let mut reference = library.clone();
    assert_eq!(proved::acb::index(file, &mut library).number, 0);
    assert!(acb::index(file, &mut reference).is_ok());
    assert_eq!(library, reference);
    alternate(
        file.len(),
        rounds,
        || {
            black_box(proved::acb::index(black_box(file), &mut library));
        },
        || {
            let _ = black_box(acb::index(black_box(file), &mut reference));
        },
    )
}

fn time_find(file: &[u8], names: &[Vec<u16>], rounds: usize) -> Times {
    let mut index = vec![1; names.len()];
    assert_eq!(proved::acb::index(file, &mut index).number, 0);
    let name = &names[names.len() / 2];
    let found = proved::acb::find(file, &index, name);
    assert_eq!(found.number, 0);
    assert_eq!(acb::find(file, &index, name).ok(), Some(found.record));
    alternate(
        file.len(),
        rounds,
        || {
            black_box(proved::acb::find(black_box(file), &index, name));
        },
        || {
            let _ = black_box(acb::find(black_box(file), &index, name));
        },
    )
}

fn print(call: &str, count: u16, shape: &str, times: &Times) {
    let (library, reference) = (times.library, times.reference);
    let ratio = times.ratio();
    println!("{call:6} {count:8}  {shape:24} {library:12.0} {reference:12.0}  {ratio:5.2}");
}
