//! Timing several ways to do the same, by turns.

use std::hint::black_box;
use std::time::{Duration, Instant};

/// A batch of calls takes about this long, far above the clock's resolution.
const BATCH: Duration = Duration::from_millis(4);

/// The best times of a call, in nanoseconds, and the bytes it goes over.
pub struct Times {
    pub bytes: usize,
    pub library: f64,
    pub reference: f64,
}

impl Times {
    pub fn ratio(&self) -> f64 {
        self.library / self.reference
    }

    pub fn library_a_byte(&self) -> f64 {
        self.library / self.bytes as f64
    }

    pub fn reference_a_byte(&self) -> f64 {
        self.reference / self.bytes as f64
    }

    pub fn megabytes_a_second(&self, nanoseconds: f64) -> f64 {
        self.bytes as f64 * 1_000.0 / nanoseconds
    }
}

/// The best of `rounds` batches of each.
pub fn alternate(
    bytes: usize,
    rounds: usize,
    library: impl FnMut(),
    reference: impl FnMut(),
) -> Times {
    let best = by_turns(rounds, &mut [Box::new(library), Box::new(reference)]);
    Times {
        bytes,
        library: best[0],
        reference: best[1],
    }
}

/// Judging a file, which fills nothing.
pub fn alternate_judges<A, B>(
    file: &[u8],
    rounds: usize,
    library: impl Fn(&[u8]) -> A,
    reference: impl Fn(&[u8]) -> B,
) -> Times {
    alternate(
        file.len(),
        rounds,
        || {
            black_box(library(black_box(file)));
        },
        || {
            black_box(reference(black_box(file)));
        },
    )
}

/// The best of `rounds` batches of each way, in nanoseconds a call. The ways
/// take turns at going first.
pub fn by_turns(rounds: usize, ways: &mut [Box<dyn FnMut() + '_>]) -> Vec<f64> {
    let calls: Vec<u32> = ways.iter_mut().map(calls_a_batch).collect();
    let mut best = vec![f64::INFINITY; ways.len()];
    for round in 0..rounds {
        for turn in 0..ways.len() {
            let way = (round + turn) % ways.len();
            best[way] = best[way].min(time(&mut ways[way], calls[way]));
        }
    }
    best
}

/// How many calls make a batch, told from one that is not counted.
fn calls_a_batch(call: &mut impl FnMut()) -> u32 {
    let once = time(call, 1).max(1.0);
    (BATCH.as_nanos() as f64 / once).clamp(1.0, 10_000.0) as u32
}

/// Nanoseconds a call, over a batch.
fn time(call: &mut impl FnMut(), calls: u32) -> f64 {
    let start = Instant::now();
    for _ in 0..calls {
        call();
    }
    start.elapsed().as_nanos() as f64 / f64::from(calls)
}
