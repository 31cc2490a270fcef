//! The reading rules, each with its answer written out.

use generate::{damage, fixed_files, Answer, Damage, Palette, Random, P2, P3, P3_LISTING, P4};
use reference::{judge, list, read, record, Accepted, Refusal, Swatch, LIMIT, LISTING_LIMIT};

const CANARY: u32 = 0xC0FF_EE11;
const ROW_LEN: usize = 8;

fn refused(number: u32, place: usize) -> Refusal {
    Refusal {
        number,
        place,
        record: 0,
        field: 0,
    }
}

fn answer(file: &[u8]) -> Answer {
    match judge(file) {
        Ok(Accepted { colours, lists }) => Answer::Accepted { colours, lists },
        Err(Refusal {
            number,
            place,
            record,
            field,
        }) => Answer::Refused {
            number,
            place,
            record,
            field,
        },
    }
}

#[test]
fn fixed_files_get_their_answers() {
    for fixed in fixed_files() {
        assert_eq!(answer(&fixed.file), fixed.answer, "{}", fixed.title);
    }
}

#[test]
fn every_prefix_of_p3_but_its_list_1_is_cut() {
    let field_starts = [0, 2, 4, 6, 8, 10, 12, 14, 16, 18, 20, 22, 24, 26, 28, 32];
    for len in 0..P3.len() {
        let place = field_starts
            .into_iter()
            .rfind(|&start| start <= len)
            .unwrap();
        let expected = if len == 14 {
            Ok(Accepted {
                colours: 1,
                lists: 1,
            })
        } else {
            Err(refused(2, place))
        };
        assert_eq!(judge(&P3[..len]), expected, "length {len}");
    }
}

#[test]
fn each_field_of_p3_that_differs_is_named() {
    for field in 0..5 {
        let mut file = P3.to_vec();
        let place = 18 + 2 * field;
        file[place + 1] ^= 0x40;
        let expected = Refusal {
            number: 7,
            place,
            record: 0,
            field,
        };
        assert_eq!(judge(&file), Err(expected));
    }
}

#[test]
fn unused_samples_are_judged_by_space() {
    let used = [(0, 3), (1, 3), (2, 4), (7, 3), (8, 1)];
    for space in 0..=u16::MAX {
        let known = used.iter().find(|known| known.0 == space);
        for sample in 0..4 {
            let mut file = [0, 1, 0, 1, 0, 0, 0, 0, 0, 0, 0, 0, 0, 0];
            file[4..6].copy_from_slice(&space.to_be_bytes());
            let place = 6 + 2 * sample;
            file[place] = 1;
            let expected = match known {
                None => Err(refused(4, 4)),
                Some(&(_, used)) if sample >= used => Err(refused(5, place)),
                Some(_) => Ok(Accepted {
                    colours: 1,
                    lists: 1,
                }),
            };
            assert_eq!(judge(&file), expected, "space {space}, sample {sample}");
        }
    }
}

#[test]
fn gray_and_lab_have_scales_of_their_own() {
    let short = |sample: u16| sample <= 10_000;
    let signed = |sample: u16| sample <= 12_700 || sample >= 52_736;
    let ranges: [(u16, usize, &dyn Fn(u16) -> bool); 4] = [
        (8, 0, &short),
        (7, 0, &short),
        (7, 1, &signed),
        (7, 2, &signed),
    ];
    for (space, index, is_in_range) in ranges {
        for sample in 0..=u16::MAX {
            let mut file = [0, 1, 0, 1, 0, 0, 0, 0, 0, 0, 0, 0, 0, 0];
            file[4..6].copy_from_slice(&space.to_be_bytes());
            let place = 6 + 2 * index;
            file[place..place + 2].copy_from_slice(&sample.to_be_bytes());
            let accepted = Accepted {
                colours: 1,
                lists: 1,
            };
            let expected = match is_in_range(sample) {
                true => Ok(accepted),
                false => Err(refused(5, place)),
            };
            assert_eq!(judge(&file), expected, "space {space}, sample {sample}");
        }
    }
}

#[test]
fn names_badly_closed_are_placed_at_the_count() {
    let with_name = |name: &[u8]| [&P3[..28], name].concat();
    for name in [
        &[0u8, 0, 0, 0][..],
        &[0, 0, 0, 1, 0, 1],
        &[0, 0, 0, 2, 0, 0, 0, 0],
        &[0, 0, 0, 2, 0, 0x41, 0, 0x42],
        &[0, 0, 0, 3, 0, 0x41, 0, 0, 0, 0],
    ] {
        assert_eq!(judge(&with_name(name)), Err(refused(8, 28)), "{name:?}");
    }
    // Zero bytes side by side that are no unit.
    let straddling = with_name(&[0, 0, 0, 3, 1, 0, 0, 1, 0, 0]);
    assert_eq!(
        judge(&straddling),
        Ok(Accepted {
            colours: 1,
            lists: 2
        })
    );
    let leftover = with_name(&[0, 0, 0, 1, 0, 0, 0, 0]);
    assert_eq!(judge(&leftover), Err(refused(6, 34)));
}

#[test]
fn a_zero_unit_is_found_wherever_it_stands() {
    for units in 0..200 {
        let mut random = Random::new(units as u64);
        let file = Palette::named(&mut random, 1, |_| units).file();
        assert_eq!(
            judge(&file),
            Ok(Accepted {
                colours: 1,
                lists: 2
            })
        );
        for unit in 0..units {
            let mut damaged = file.clone();
            damaged[32 + 2 * unit..][..2].fill(0);
            assert_eq!(
                judge(&damaged),
                Err(refused(8, 28)),
                "unit {unit} of {units}"
            );
        }
    }
}

#[test]
fn the_limit_is_the_longest_file() {
    let mut file = Palette::of_length(&mut Random::new(1), 3, LIMIT).file();
    assert_eq!(
        judge(&file),
        Ok(Accepted {
            colours: 3,
            lists: 2
        })
    );
    file.push(0);
    assert_eq!(judge(&file), Err(refused(1, 0)));
}

#[test]
fn rows_are_filled_and_the_rest_is_kept() {
    let mut table = [CANARY; ROW_LEN + 3];
    assert_eq!(
        read(P3, &mut table),
        Ok(Accepted {
            colours: 1,
            lists: 2
        })
    );
    assert_eq!(table[..ROW_LEN], [0, 65535, 0, 32896, 0, 32, 1, 4]);
    assert_eq!(table[ROW_LEN..], [CANARY; 3]);
}

#[test]
fn a_file_of_one_list_has_no_names() {
    let mut table = [CANARY; ROW_LEN];
    assert_eq!(
        read(&P3[..14], &mut table),
        Ok(Accepted {
            colours: 1,
            lists: 1
        })
    );
    assert_eq!(table, [0, 65535, 0, 32896, 0, 0, 0, 4]);
}

#[test]
fn an_empty_name_of_list_2_has_its_place() {
    let file = [&P3[..28], &[0, 0, 0, 1, 0, 0]].concat();
    let expected = Swatch {
        space: 0,
        samples: [65535, 0, 32896, 0],
        name: 32,
        units: 0,
        ink: 4,
    };
    assert_eq!(record(&file, 0), Ok(expected));
}

#[test]
fn a_refusal_changes_no_row() {
    let mut table = [CANARY; ROW_LEN];
    assert_eq!(read(P3, &mut table[..ROW_LEN - 1]), Err(refused(11, 0)));
    assert_eq!(read(P3, &mut []), Err(refused(11, 0)));
    assert_eq!(read(P4, &mut table).unwrap_err().number, 7);
    // The file's own refusal comes before that of the table.
    assert_eq!(read(P4, &mut []).unwrap_err().number, 7);
    assert_eq!(table, [CANARY; ROW_LEN]);
    assert_eq!(
        read(P2, &mut []),
        Ok(Accepted {
            colours: 0,
            lists: 1
        })
    );
}

#[test]
fn a_record_is_asked_for_by_number() {
    let expected = Swatch {
        space: 0,
        samples: [65535, 0, 32896, 0],
        name: 32,
        units: 1,
        ink: 4,
    };
    assert_eq!(record(P3, 0), Ok(expected));
    assert_eq!(record(P3, 1), Err(refused(12, 0)));
    assert_eq!(record(P3, usize::MAX), Err(refused(12, 0)));
    assert_eq!(record(P4, 1).unwrap_err().number, 7);
}

#[test]
fn rows_are_the_palette_the_file_was_laid_out_from() {
    for seed in 0..300 {
        let palette = Palette::any(&mut Random::new(seed));
        let file = palette.file();
        let mut table = vec![CANARY; ROW_LEN * palette.colours.len()];
        let lists = if palette.names.is_some() { 2 } else { 1 };
        let accepted = Accepted {
            colours: palette.colours.len(),
            lists,
        };
        assert_eq!(read(&file, &mut table), Ok(accepted));
        for (index, row) in table.chunks(ROW_LEN).enumerate() {
            let colour = palette.colours[index];
            assert_eq!(row[0], u32::from(colour.space));
            assert_eq!(row[1..5], colour.samples.map(u32::from));
            assert_eq!(row[7], 4);
            let name: Vec<u16> = file[row[5] as usize..][..2 * row[6] as usize]
                .chunks(2)
                .map(|unit| u16::from_be_bytes([unit[0], unit[1]]))
                .collect();
            let expected = palette
                .names
                .as_ref()
                .map_or(&[][..], |names| &names[index]);
            assert_eq!(name, expected);
        }
    }
}

#[test]
fn damage_never_panics_and_places_lie_in_the_file() {
    for seed in 0..20_000 {
        let mut random = Random::new(seed);
        let palette = Palette::small(&mut random);
        let mut file = palette.file();
        for _ in 0..1 + random.below(3) {
            damage(&mut file, &palette, Damage::any(&mut random), &mut random);
        }
        if let Err(refusal) = judge(&file) {
            assert!((2..=8).contains(&refusal.number));
            assert!(refusal.place <= file.len());
            assert!(refusal.number == 2 || refusal.place < file.len());
        }
    }
}

#[test]
fn listings_are_printed_whole() {
    assert_eq!(list(P3), P3_LISTING);
    assert_eq!(list(P4), "refused 7 at 24\n");
    assert_eq!(list(P2), "ACO 0 plain\nend\n");
    assert_eq!(list(&[]), "refused 2 at 0\n");
    assert_eq!(list(&P3[..14]), "ACO 1 plain\n0 0 65535 0 32896 0 -\nend\n");
    let letters = [&P3[..28], &[0, 0, 0, 3, 0xD8, 0x0A, 0xFF, 0x0F, 0, 0]].concat();
    assert_eq!(
        list(&letters),
        "ACO 1 names\n0 0 65535 0 32896 0 D80AFF0F\nend\n"
    );
}

#[test]
fn a_listing_takes_its_own_limit() {
    let mut file = Palette::of_length(&mut Random::new(1), 3, LISTING_LIMIT).file();
    assert!(list(&file).starts_with("ACO 3 names\n"));
    file.push(0);
    assert_eq!(list(&file), "refused 1 at 0\n");
}
