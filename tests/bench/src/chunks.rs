//! Times an ACO file that is taken in chunks, by their length, and the same file
//! judged whole.

use crate::timing::by_turns;
use crate::{LONG_NAME, SEED, SHORT_NAME};
use generate::{Palette, Random};
use reference::chunks::{self, STORE_LEN};
use reference::MAX_COLOURS;
use std::hint::black_box;

const CHUNKS: [usize; 4] = [1, 64, 1_500, 65_536];
/// Palettes by the units of their names, and their colours: fewer where names are
/// long, so that single bytes do not take too long.
const KINDS: [(&str, Option<usize>, usize); 3] = [
    ("plain", None, MAX_COLOURS),
    ("short names", Some(SHORT_NAME), MAX_COLOURS),
    ("long names", Some(LONG_NAME), 256),
];

pub fn compare(rounds: usize) {
    println!("\nACO in chunks; ratio: library to reference, in time");
    println!("judge: the library's whole-file judge; to it: chunks to judge, in time\n");
    println!(
        "{:12} {:>9} {:>8} {:>13} {:>15} {:>6} {:>11} {:>7}",
        "palette",
        "bytes",
        "chunk",
        "library ns/B",
        "reference ns/B",
        "ratio",
        "judge ns/B",
        "to it"
    );
    for (title, units, colours) in KINDS {
        let file = Palette::uniform(&mut Random::new(SEED), colours, units).file();
        for chunk in CHUNKS {
            compare_chunks(title, &file, chunk, rounds);
        }
    }
}

fn compare_chunks(title: &str, file: &[u8], chunk: usize, rounds: usize) {
    let mut library_store = vec![1; STORE_LEN];
    let mut reference_store = library_store.clone();
    let answer = by_library(file, chunk, &mut library_store);
    assert_eq!(answer, proved::judge(file));
    assert!(by_reference(file, chunk, &mut reference_store).is_ok());
    assert_eq!(library_store, reference_store);
    let best = by_turns(
        rounds,
        &mut [
            Box::new(|| {
                black_box(by_library(black_box(file), chunk, &mut library_store));
            }),
            Box::new(|| {
                let _ = black_box(by_reference(black_box(file), chunk, &mut reference_store));
            }),
            Box::new(|| {
                black_box(proved::judge(black_box(file)));
            }),
        ],
    );
    let a_byte = |way: usize| best[way] / file.len() as f64;
    println!(
        "{title:12} {:>9} {chunk:>8} {:>13.4} {:>15.4} {:>6.2} {:>11.4} {:>7.2}",
        file.len(),
        a_byte(0),
        a_byte(1),
        best[0] / best[1],
        a_byte(2),
        best[0] / best[2]
    );
}

fn by_library(file: &[u8], chunk: usize, store: &mut [u8]) -> proved::Answer {
    let mut stream = proved::stream::start(store).stream;
    for bytes in file.chunks(chunk) {
        stream = proved::stream::feed(stream, store, bytes).stream;
    }
    proved::stream::finish(stream, store).answer
}

fn by_reference(
    file: &[u8],
    chunk: usize,
    store: &mut [u8],
) -> Result<reference::Accepted, reference::Refusal> {
    let mut stream = chunks::start(store).stream;
    for bytes in file.chunks(chunk) {
        stream = chunks::feed(stream, store, bytes).stream;
    }
    chunks::finish(stream, store).answer
}
