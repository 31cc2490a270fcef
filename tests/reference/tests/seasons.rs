//! The rules of two palettes compared, each with its answer written out.

use generate::{ase, Colour, Palette, Random, CMYK_TAG, GRAY_TAG, LAB_TAG, P2, P3, P4, RGB_TAG};
use reference::season::{compare, Compared, Palette as Said, Refused};
use reference::{kind, Refusal};

const CANARY: u32 = 0xC0FF_EE00;
const ONE: u32 = 0x3F80_0000;
const MINUS_ZERO: u32 = 0x8000_0000;

fn aco(file: &[u8]) -> Said<'_> {
    let kind = kind::ACO;
    Said { kind, file }
}

fn ase(file: &[u8]) -> Said<'_> {
    let kind = kind::ASE;
    Said { kind, file }
}

/// What is found at each position.
fn found(first: Said, second: Said) -> Vec<u32> {
    let mut table = vec![CANARY; 64];
    let compared = compare(first, second, &mut table).unwrap();
    let (rows, _) = table.as_chunks::<2>();
    let positions: Vec<u32> = rows[..compared.positions]
        .iter()
        .map(|row| row[0])
        .collect();
    assert_eq!(positions, Vec::from_iter(0..compared.positions as u32));
    assert!(table[2 * compared.positions..].iter().all(|&n| n == CANARY));
    let found: Vec<u32> = rows[..compared.positions]
        .iter()
        .map(|row| row[1])
        .collect();
    let differences = found.iter().filter(|&&found| found != 0).count();
    assert_eq!(differences, compared.differences);
    // The other way round only the last two kinds change places.
    let mut back = vec![CANARY; 64];
    assert_eq!(compare(second, first, &mut back), Ok(compared));
    for (here, back) in found.iter().zip(back.as_chunks::<2>().0) {
        assert_eq!(back[1], [0, 1, 2, 3, 5, 4][*here as usize]);
    }
    found
}

fn swatch(space: u16, samples: [u16; 4], name: &[u16]) -> Vec<u8> {
    Palette {
        colours: vec![Colour { space, samples }],
        names: Some(vec![name.to_vec()]),
    }
    .file()
}

fn block(model: u32, channels: [u32; 4], colour_type: u16, name: &[u16]) -> ase::Block {
    let colour = ase::Colour {
        model,
        channels,
        colour_type,
    };
    ase::Block::Colour(name.to_vec(), colour)
}

fn palette(blocks: &[ase::Block]) -> Vec<u8> {
    let blocks = blocks.to_vec();
    ase::Palette { blocks }.file()
}

fn single(model: u32, channels: [u32; 4], name: &[u16]) -> Vec<u8> {
    palette(&[block(model, channels, 0, name)])
}

#[test]
fn swatches_are_equal_by_space_samples_and_name() {
    let one = swatch(0, [1, 2, 3, 0], &[65]);
    assert_eq!(found(aco(&one), aco(&one)), [0]);
    assert_eq!(found(aco(&one), aco(&swatch(0, [1, 2, 3, 0], &[66]))), [1]);
    assert_eq!(
        found(aco(&one), aco(&swatch(0, [1, 2, 3, 0], &[65, 65]))),
        [1]
    );
    assert_eq!(found(aco(&one), aco(&swatch(0, [1, 2, 4, 0], &[65]))), [2]);
    // HSB with the same samples, and one that RGB does not use in CMYK.
    assert_eq!(found(aco(&one), aco(&swatch(1, [1, 2, 3, 0], &[65]))), [2]);
    assert_eq!(found(aco(&one), aco(&swatch(2, [1, 2, 3, 9], &[]))), [3]);
    assert_eq!(found(aco(&one), aco(P2)), [4]);
    assert_eq!(found(aco(P2), aco(&one)), [5]);
    assert_eq!(found(aco(P2), aco(P2)), []);
}

#[test]
fn an_absent_list_has_empty_names() {
    let plain = &P3[..14];
    assert_eq!(found(aco(plain), aco(P3)), [1]);
    let empty = swatch(0, [0xFFFF, 0, 0x8080, 0], &[]);
    assert_eq!(found(aco(plain), aco(&empty)), [0]);
    let gray = swatch(8, [10_000, 0, 0, 0], &[]);
    let twin = single(GRAY_TAG, [ONE, 0, 0, 0], &[]);
    let end = gray.len() / 2 - 3;
    assert_eq!(found(aco(&gray[..end]), ase(&twin)), [0]);
}

#[test]
fn palettes_are_equal_by_model_bits_and_name() {
    let one = single(GRAY_TAG, [0, 0, 0, 0], &[65]);
    assert_eq!(found(ase(&one), ase(&one)), [0]);
    let minus = single(GRAY_TAG, [MINUS_ZERO, 0, 0, 0], &[65]);
    assert_eq!(found(ase(&one), ase(&minus)), [2]);
    assert_eq!(found(ase(&minus), ase(&minus)), [0]);
    let black = single(RGB_TAG, [0, 0, 0, 0], &[65]);
    assert_eq!(found(ase(&one), ase(&black)), [2]);
    let lab = single(LAB_TAG, [0, 0, 0, 0], &[66]);
    assert_eq!(found(ase(&black), ase(&lab)), [3]);
}

/// Neither the ink nor a group is compared.
#[test]
fn groups_and_inks_are_left_aside() {
    let (a, b) = (
        block(GRAY_TAG, [ONE, 0, 0, 0], 0, &[65]),
        block(GRAY_TAG, [0, 0, 0, 0], 1, &[66]),
    );
    let bare = palette(&[a.clone(), b.clone()]);
    let start = ase::Block::Start(vec![67]);
    let end = ase::Block::End;
    let empty = [start.clone(), end.clone()];
    let grouped = [&empty[..], &[start, a, end.clone(), b.clone()], &empty].concat();
    assert_eq!(found(ase(&bare), ase(&palette(&grouped))), [0, 0]);
    let other = palette(&[block(GRAY_TAG, [ONE, 0, 0, 0], 2, &[65]), b]);
    assert_eq!(found(ase(&bare), ase(&other)), [0, 0]);
}

/// Across formats an ACO colour is equal to what it converts to.
#[test]
fn formats_meet_in_the_channels_bits() {
    let half = 32_768.0_f32 / 65_535.0;
    let rgb = swatch(0, [0, 32_768, 65_535, 0], &[65]);
    let twin = [0, half.to_bits(), ONE, 0];
    assert_eq!(found(aco(&rgb), ase(&single(RGB_TAG, twin, &[65]))), [0]);
    assert_eq!(found(aco(&rgb), ase(&single(RGB_TAG, twin, &[]))), [1]);
    for channel in 0..3 {
        for bits in [twin[channel] ^ 1, MINUS_ZERO] {
            let mut other = twin;
            other[channel] = if bits > ONE && bits != MINUS_ZERO {
                ONE - 1
            } else {
                bits
            };
            assert_eq!(found(aco(&rgb), ase(&single(RGB_TAG, other, &[65]))), [2]);
        }
    }
    // ACO counts 0 as full ink.
    let cmyk = swatch(2, [0, 65_535, 32_767, 0], &[]);
    let twin = [ONE, 0, half.to_bits(), ONE];
    assert_eq!(found(aco(&cmyk), ase(&single(CMYK_TAG, twin, &[]))), [0]);
    // Gray runs to 10,000; gray 0 is not RGB 0, 0, 0.
    let gray = swatch(8, [5_000, 0, 0, 0], &[]);
    let twin = [0.5_f32.to_bits(), 0, 0, 0];
    assert_eq!(found(aco(&gray), ase(&single(GRAY_TAG, twin, &[]))), [0]);
    let black = swatch(8, [0; 4], &[]);
    assert_eq!(found(aco(&black), ase(&single(GRAY_TAG, [0; 4], &[]))), [0]);
    assert_eq!(found(aco(&black), ase(&single(RGB_TAG, [0; 4], &[]))), [2]);
}

#[test]
fn a_colour_without_a_counterpart_differs() {
    for space in [1, 7] {
        let none = swatch(space, [0; 4], &[65]);
        for model in [RGB_TAG, CMYK_TAG, LAB_TAG, GRAY_TAG] {
            assert_eq!(found(aco(&none), ase(&single(model, [0; 4], &[65]))), [2]);
        }
    }
    for (space, _) in generate::SPACES {
        let black = swatch(space, [0; 4], &[]);
        assert_eq!(found(aco(&black), ase(&single(LAB_TAG, [0; 4], &[]))), [2]);
    }
}

fn refused(number: u32, place: usize, file: u32) -> Result<Compared, Refused> {
    let refusal = Refusal {
        number,
        place,
        record: 0,
        field: 0,
    };
    Err(Refused { refusal, file })
}

#[test]
fn refusals_come_in_turn() {
    let mut table = [CANARY; 4];
    let lent = &mut table[..];
    for unknown in [2, 3, 4, u32::MAX] {
        let unknown = Said {
            kind: unknown,
            file: P3,
        };
        assert_eq!(compare(unknown, aco(&[]), lent), refused(4, 0, 0));
        assert_eq!(compare(aco(&[]), unknown, lent), refused(4, 0, 0));
    }
    assert_eq!(compare(aco(&[]), ase(&[]), lent), refused(2, 0, 1));
    assert_eq!(compare(aco(P3), ase(P3), lent), refused(3, 0, 2));
    assert_eq!(compare(aco(&P3[..15]), aco(&[]), lent), refused(2, 14, 1));
    let Err(disagreement) = compare(aco(P3), aco(P4), lent) else {
        panic!("P4 is refused");
    };
    assert_eq!((disagreement.refusal.number, disagreement.file), (7, 2));
    assert_eq!(
        (disagreement.refusal.record, disagreement.refusal.field),
        (0, 3)
    );
    assert_eq!(compare(aco(P3), aco(P3), &mut lent[..1]), refused(11, 0, 0));
    assert_eq!(compare(aco(P3), aco(&[]), &mut lent[..0]), refused(2, 0, 2));
    let nothing = Compared {
        positions: 0,
        differences: 0,
    };
    assert_eq!(compare(aco(P2), aco(P2), &mut lent[..0]), Ok(nothing));
    assert_eq!(table, [CANARY; 4]);
    // A remainder is left alone.
    assert!(compare(aco(P3), aco(P3), &mut table[..3]).is_ok());
    assert_eq!(table, [0, 0, CANARY, CANARY]);
}

#[test]
fn a_palette_is_the_same_as_itself() {
    for seed in 0..300 {
        let mut random = Random::new(seed);
        let swatches = Palette::any(&mut random).file();
        let blocks = ase::Palette::any(&mut random).file();
        for said in [aco(&swatches), ase(&blocks)] {
            let mut table = vec![CANARY; 10_000];
            let compared = compare(said, said, &mut table).unwrap();
            assert_eq!(compared.differences, 0);
        }
    }
}
