//! Files cut into chunks.

use crate::palette::{Palette, COLOUR_LEN, HEAD_LEN, NAME_COUNT_LEN};
use crate::random::Random;

const FIELD_LEN: usize = 2;

/// A way to cut a file.
#[derive(Clone, Copy, Debug, PartialEq, Eq)]
pub enum Cutting {
    /// One chunk.
    Whole,
    /// A byte each.
    Bytes,
    /// Where a field begins.
    AtFields,
    /// Behind the first byte of each field.
    InFields,
    /// Chunks of one length.
    Even(usize),
    /// A few places.
    Few,
    /// Many places, some of them next to each other.
    Many,
}

impl Cutting {
    pub const ALL: [Cutting; 9] = [
        Cutting::Whole,
        Cutting::Bytes,
        Cutting::AtFields,
        Cutting::InFields,
        Cutting::Even(3),
        Cutting::Even(7),
        Cutting::Even(64),
        Cutting::Few,
        Cutting::Many,
    ];

    /// The places where a file of a palette, damaged or not, is cut: in order,
    /// inside the file, and repeated where a chunk of no bytes stands.
    pub fn places(self, palette: &Palette, len: usize, random: &mut Random) -> Vec<usize> {
        let mut places: Vec<usize> = match self {
            Cutting::Whole => Vec::new(),
            Cutting::Bytes => (1..len).collect(),
            Cutting::AtFields => field_places(palette),
            Cutting::InFields => field_places(palette).iter().map(|at| at + 1).collect(),
            Cutting::Even(step) => (step..len).step_by(step).collect(),
            Cutting::Few => any_places(random, len, 3),
            Cutting::Many => any_places(random, len, 1 + len / 4),
        };
        places.retain(|&place| place <= len);
        if random.one_in(2) {
            let empty = any_places(random, len, 3);
            let again: Vec<usize> = empty.iter().chain(&empty).copied().collect();
            places.extend(again);
            places.extend([0, len]);
        }
        places.sort_unstable();
        places
    }
}

/// The chunks of a file that is cut at these places, which are in order.
pub fn chunks<'a>(file: &'a [u8], places: &[usize]) -> Vec<&'a [u8]> {
    let starts = [&[0], places].concat();
    let ends = [places, &[file.len()]].concat();
    let pairs = starts.into_iter().zip(ends);
    pairs.map(|(start, end)| &file[start..end]).collect()
}

fn any_places(random: &mut Random, len: usize, most: usize) -> Vec<usize> {
    let count = random.below(most + 1);
    (0..count).map(|_| random.below(len + 1)).collect()
}

/// Where each field of a palette's file begins; each unit of a name is one.
fn field_places(palette: &Palette) -> Vec<usize> {
    let layout = palette.layout();
    let list_one_end = HEAD_LEN + layout.colours * COLOUR_LEN;
    let mut places: Vec<usize> = (0..list_one_end).step_by(FIELD_LEN).collect();
    let Some(names) = &palette.names else {
        return places;
    };
    places.extend([list_one_end, list_one_end + FIELD_LEN]);
    for (&record, name) in layout.named.iter().zip(names) {
        let count = record + COLOUR_LEN;
        let body = count + NAME_COUNT_LEN;
        let end = body + FIELD_LEN * (name.len() + 1);
        places.extend((record..=count).step_by(FIELD_LEN));
        places.extend((body..=end).step_by(FIELD_LEN));
    }
    places
}
