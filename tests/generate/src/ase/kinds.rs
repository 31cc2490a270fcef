//! The kinds of blocks, one after the other, before anything is in them.

use super::MAX_OPEN;
use crate::random::Random;

#[derive(Clone, Copy, Debug, PartialEq, Eq)]
pub enum Kind {
    Start,
    End,
    Colour,
}

/// Groups in balance: some blocks, and what they need to be closed.
pub fn balanced(random: &mut Random, blocks: usize) -> Vec<Kind> {
    let deepest = random.pick(&[0, 1, 3, MAX_OPEN, MAX_OPEN]);
    // Where starts are drawn far more often than ends, groups nest deep.
    let draws = random.pick(&[
        &[Kind::Start, Kind::End, Kind::Colour, Kind::Colour][..],
        &[
            Kind::Start,
            Kind::Start,
            Kind::Start,
            Kind::Colour,
            Kind::End,
        ],
    ]);
    let mut kinds = Vec::new();
    let mut open = 0;
    for _ in 0..blocks {
        let kind = match random.pick(draws) {
            Kind::Start if open == deepest => Kind::Colour,
            Kind::End if open == 0 => Kind::Colour,
            kind => kind,
        };
        match kind {
            Kind::Start => open += 1,
            Kind::End => open -= 1,
            Kind::Colour => {}
        }
        kinds.push(kind);
    }
    kinds.extend(vec![Kind::End; open]);
    kinds
}

/// Groups inside each other, a colour innermost. With more than 16 of them
/// this is not sound.
pub fn nested(depth: usize) -> Vec<Kind> {
    let mut kinds = vec![Kind::Start; depth];
    kinds.push(Kind::Colour);
    kinds.extend(vec![Kind::End; depth]);
    kinds
}
