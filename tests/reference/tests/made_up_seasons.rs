//! Pairs of palettes by what they were laid out from.

use generate::{ase, Change, Random, Season};
use reference::season::{compare, Palette};
use std::collections::BTreeSet;

/// A colour as its bytes would say it in its own format, and in the other.
type Said = (String, Option<String>);

/// The colours and names of a palette.
fn colours(season: &Season) -> Vec<(Said, Vec<u16>)> {
    match season {
        Season::Aco(palette) => {
            let names = palette.names.clone();
            let names = names.unwrap_or_else(|| vec![Vec::new(); palette.colours.len()]);
            let said = palette.colours.iter().map(|colour| {
                let [a, b, c, d] = colour.samples.map(f32::from);
                let other = match colour.space {
                    0 => Some(("RGB ", vec![a / 65_535.0, b / 65_535.0, c / 65_535.0])),
                    2 => {
                        let inks = [a, b, c, d].map(|sample| (65_535.0 - sample) / 65_535.0);
                        Some(("CMYK", inks.to_vec()))
                    }
                    8 => Some(("Gray", vec![a / 10_000.0])),
                    _ => None,
                };
                let other = other.map(|(model, channels)| {
                    let bits: Vec<u32> = channels.iter().map(|channel| channel.to_bits()).collect();
                    format!("{model} {bits:?}")
                });
                (format!("{colour:?}"), other)
            });
            said.zip(names).collect()
        }
        Season::Ase(palette) => {
            let colours = palette.blocks.iter().filter_map(|block| match block {
                ase::Block::Colour(name, colour) => {
                    let model = String::from_utf8(colour.model.to_be_bytes().to_vec()).unwrap();
                    let said = format!("{model} {:?}", colour.used());
                    Some(((said.clone(), Some(said)), name.clone()))
                }
                _ => None,
            });
            colours.collect()
        }
    }
}

fn wanted(first: &Season, second: &Season) -> Vec<u32> {
    let (first_colours, second_colours) = (colours(first), colours(second));
    let positions = first_colours.len().max(second_colours.len());
    let found = |position: usize| {
        let pair = (first_colours.get(position), second_colours.get(position));
        let ((colour, name), (other, other_name)) = match pair {
            (Some(first), Some(second)) => (first, second),
            (Some(_), None) => return 4,
            _ => return 5,
        };
        let same = if first.kind() == second.kind() {
            colour.0 == other.0
        } else {
            colour.1.is_some() && colour.1 == other.1
        };
        u32::from(name != other_name) + 2 * u32::from(!same)
    };
    (0..positions).map(found).collect()
}

#[test]
fn pairs_are_what_they_were_laid_out_as() {
    let mut reached = BTreeSet::new();
    for seed in 0..20_000 {
        let mut random = Random::new(seed);
        let [first, mut second] = Season::pair(&mut random);
        for _ in 0..random.below(3) {
            let change = random.pick(&Change::ALL);
            second.change(change, &mut random);
        }
        let pairs = [[&first, &second], [&second, &first]];
        for [first, second] in pairs {
            let wanted = wanted(first, second);
            let mut table = vec![9; 2 * wanted.len()];
            let (first_file, second_file) = (first.file(), second.file());
            let said = |kind, file| Palette { kind, file };
            let compared = compare(
                said(first.kind(), &first_file),
                said(second.kind(), &second_file),
                &mut table,
            );
            assert_eq!(
                compared.map(|compared| compared.positions),
                Ok(wanted.len())
            );
            let found: Vec<u32> = table.iter().skip(1).step_by(2).copied().collect();
            assert_eq!(found, wanted, "seed {seed}");
            let kinds = first.kind() != second.kind();
            reached.extend(found.iter().map(|&found| (kinds, found)));
        }
    }
    assert_eq!(reached.len(), 12);
}
