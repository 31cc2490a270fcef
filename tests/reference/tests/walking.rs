//! Steps of walks, with their answers written down as the rules give them.

use generate::P3;
use reference::{ase, number, walk, walk_start, Step, Swatch};

/// The length of P3's list 1.
const PLAIN_LEN: usize = 14;

/// A group without a name around a gray.
const GROUPED: &[u8] = &[
    0x41, 0x53, 0x45, 0x46, 0x00, 0x01, 0x00, 0x00, 0x00, 0x00, 0x00, 0x03, //
    0xC0, 0x01, 0x00, 0x00, 0x00, 0x04, 0x00, 0x01, 0x00, 0x00, //
    0x00, 0x01, 0x00, 0x00, 0x00, 0x0E, 0x00, 0x01, 0x00, 0x00, //
    0x47, 0x72, 0x61, 0x79, 0x3F, 0x80, 0x00, 0x00, 0x00, 0x02, //
    0xC0, 0x02, 0x00, 0x00, 0x00, 0x00,
];

fn swatch(name: usize, units: u32) -> Swatch {
    Swatch {
        space: 0,
        samples: [0xFFFF, 0, 0x8080, 0],
        name,
        units,
        ink: 4,
    }
}

fn given<T>(item: T, next: usize) -> Step<T> {
    Step {
        found: Ok(Some(item)),
        next,
    }
}

/// The number of a refused step and its place, with the place of the next.
fn refused<T>(step: Step<T>) -> Option<(u32, usize, usize)> {
    let refusal = step.found.err()?;
    Some((refusal.number, refusal.place, step.next))
}

#[test]
fn named_colours_are_those_of_list_two() {
    assert_eq!(walk_start(P3), Ok(18));
    assert_eq!(walk(P3, 18), given(swatch(32, 1), 36));
    assert_eq!(walk(P3, 36).found, Ok(None));
    assert_eq!(walk(P3, 36).next, 36);
}

#[test]
fn plain_colours_are_those_of_list_one() {
    let plain = &P3[..PLAIN_LEN];
    assert_eq!(walk_start(plain), Ok(4));
    assert_eq!(walk(plain, 4), given(swatch(0, 0), PLAIN_LEN));
    assert_eq!(walk(plain, PLAIN_LEN).found, Ok(None));
}

#[test]
fn other_places_are_refused_past_the_end() {
    let lost = Some((number::OUT_OF_RANGE, 0, P3.len() + 1));
    for at in [4, 17, 35, 37, usize::MAX] {
        assert_eq!(refused(walk(P3, at)), lost, "at {at}");
    }
}

#[test]
fn no_bytes_are_done() {
    assert_eq!(walk(&[], 0).found, Ok(None));
    assert_eq!(ase::walk(&[], 0).found, Ok(None));
    assert_eq!(ase::walk_block(&[], 0).found, Ok(None));
}

#[test]
fn colour_steps_pass_over_groups() {
    assert_eq!(ase::walk_start(GROUPED), Ok(12));
    let step = ase::walk(GROUPED, 12);
    assert_eq!(step, ase::walk(GROUPED, 22));
    assert_eq!(step, given(ase::record(GROUPED, 1).unwrap(), 42));
    assert_eq!(ase::walk(GROUPED, 42).found, Ok(None));
    assert_eq!(ase::walk(GROUPED, 42).next, GROUPED.len());
}

#[test]
fn block_steps_give_groups() {
    let places = [12, 22, 42, GROUPED.len()];
    for (index, ends) in places.windows(2).enumerate() {
        let record = ase::record(GROUPED, index).unwrap();
        assert_eq!(ase::walk_block(GROUPED, ends[0]), given(record, ends[1]));
    }
    let lost = Some((number::OUT_OF_RANGE, 0, GROUPED.len() + 1));
    assert_eq!(refused(ase::walk_block(GROUPED, 13)), lost);
}
