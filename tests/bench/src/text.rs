//! Times names and units in UTF-8, by what they hold and how long they are.

use crate::report::Report;
use crate::timing::by_turns;
use crate::SEED;
use generate::Random;
use std::hint::black_box;

const KINDS: [(&str, &str); 4] = [
    ("ASCII", "names in UTF-8, ASCII"),
    ("Latin", "names in UTF-8, one in eight of two bytes"),
    ("Chinese", "names in UTF-8, three bytes"),
    ("pairs", "names in UTF-8, pairs"),
];
const LENGTHS: [usize; 4] = [8, 32, 1_000, 1_000_000];

/// The ways are the library into room for any units, the library into the exact
/// room, the reference into room for any units, and std's `from_utf16_lossy`, which
/// takes memory.
pub fn compare(report: &mut Report, rounds: usize) {
    println!("\nnames in UTF-8; ns a unit; ratio: library to the other, in time");
    println!(
        "{:8} {:>9} {:>9} {:>9} {:>10} {:>7} {:>9} {:>7}",
        "name", "units", "library", "exact", "reference", "ratio", "lossy", "ratio"
    );
    let random = &mut Random::new(SEED);
    for (kind, (name, title)) in KINDS.into_iter().enumerate() {
        let mut worst = 0.0_f64;
        for length in LENGTHS {
            let units: Vec<u16> = (0..length).map(|i| unit(kind, i, random)).collect();
            worst = worst.max(timed(name, &units, rounds));
        }
        report.add_conversion(title, worst);
    }
}

fn unit(kind: usize, index: usize, random: &mut Random) -> u16 {
    let letter = 0x61 + random.below(26) as u16;
    match kind {
        0 => letter,
        1 if random.one_in(8) => 0xE0 + random.below(30) as u16,
        1 => letter,
        2 => 0x4E00 + random.below(5_000) as u16,
        _ if index % 2 == 0 => 0xD800 + random.below(0x400) as u16,
        _ => 0xDC00 + random.below(0x400) as u16,
    }
}

fn timed(name: &str, units: &[u16], rounds: usize) -> f64 {
    let file: Vec<u8> = units.iter().flat_map(|unit| unit.to_be_bytes()).collect();
    let count = units.len();
    let exact = proved::text::utf8_length(units).length;
    let mut outs = vec![vec![0_u8; 3 * count]; 3];
    let [a, b, c] = &mut outs[..] else {
        return 0.0;
    };
    let best = by_turns(
        rounds,
        &mut [
            Box::new(|| {
                black_box(proved::text::name_utf8(black_box(&file), 0, count, a));
            }),
            Box::new(|| {
                let out = &mut b[..exact];
                black_box(proved::text::name_utf8(black_box(&file), 0, count, out));
            }),
            Box::new(|| {
                black_box(reference_name(black_box(&file), count, c)).ok();
            }),
            Box::new(|| {
                black_box(String::from_utf16_lossy(black_box(units)));
            }),
        ],
    );
    assert!(
        outs[0] == outs[2] && outs[1] == outs[2],
        "the reference differs"
    );
    let each = |way: usize| best[way] / count as f64;
    println!(
        "{name:8} {count:>9} {:>9.3} {:>9.3} {:>10.3} {:>7.2} {:>9.3} {:>7.2}",
        each(0),
        each(1),
        each(2),
        best[0] / best[2],
        each(3),
        best[0] / best[3]
    );
    best[0] / best[2]
}

#[inline(never)]
fn reference_name(file: &[u8], units: usize, out: &mut [u8]) -> Result<usize, u32> {
    reference::text::name_utf8(file, 0, units, out)
}
