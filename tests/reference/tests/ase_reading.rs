//! The reading rules of ASE, each with its answer written out.

use generate::ase::{
    damage, fixed_files, Answer, Block, Damage, Palette, EVERY_MODEL, EVERY_MODEL_LISTING, MODELS,
    P5, P6, P6_LISTING, P7,
};
use generate::{neighbourhoods, tags, Random, EACH_CLASS, GRAY_TAG, LAB_TAG, TAGS};
use reference::ase::{judge, list, read, record, Accepted, Record};
use reference::{Refusal, LIMIT, LISTING_LIMIT};
use std::collections::BTreeSet;

const CANARY: u32 = 0xC0FF_EE11;
const ROW_LEN: usize = 9;
const ONE_COLOUR: Accepted = Accepted {
    blocks: 1,
    colours: 1,
};

fn refused(number: u32, place: usize) -> Refusal {
    Refusal {
        number,
        place,
        record: 0,
        field: 0,
    }
}

fn answer(file: &[u8]) -> Answer {
    match judge(file) {
        Ok(Accepted { blocks, colours }) => Answer::Accepted { blocks, colours },
        Err(refusal) => {
            assert_eq!(refusal, refused(refusal.number, refusal.place));
            Answer::Refused {
                number: refusal.number,
                place: refusal.place,
            }
        }
    }
}

/// P6 with bytes put over others.
fn p6_with(place: usize, bytes: &[u8]) -> Vec<u8> {
    let mut file = P6.to_vec();
    file[place..place + bytes.len()].copy_from_slice(bytes);
    file
}

/// A file of one block, whose length is what its payload has.
fn single(kind: u16, payload: &[u8]) -> Vec<u8> {
    let len = payload.len() as u32;
    [&P6[..12], &kind.to_be_bytes(), &len.to_be_bytes(), payload].concat()
}

#[test]
fn fixed_files_get_their_answers() {
    for fixed in fixed_files() {
        assert_eq!(answer(&fixed.file), fixed.answer, "{}", fixed.title);
    }
}

#[test]
fn every_prefix_of_p6_is_cut() {
    let field_starts = [0, 4, 6, 8, 12, 14, 18];
    for len in 0..P6.len() {
        let place = field_starts
            .into_iter()
            .rfind(|&start| start <= len)
            .unwrap();
        assert_eq!(judge(&P6[..len]), Err(refused(2, place)), "length {len}");
    }
}

/// Each field is looked for in the payload alone, whatever follows it.
#[test]
fn a_payload_of_any_other_length_is_13() {
    for known in MODELS {
        for units in 0..3 {
            let file = Palette::single(&mut Random::new(1), known, units).file();
            let payload = &file[18..];
            for len in 0..payload.len() {
                assert_eq!(judge(&single(1, &payload[..len])), Err(refused(13, 14)));
                let left_over = [single(1, &payload[..len]), vec![0; 40]].concat();
                assert_eq!(judge(&left_over), Err(refused(13, 14)));
            }
            for more in 1..10 {
                let longer = [payload, &vec![0; more]].concat();
                assert_eq!(judge(&single(1, &longer)), Err(refused(13, 14)));
            }
        }
    }
}

/// A colour wrong in each of its fields, which are put right one by one.
#[test]
fn faults_of_a_block_come_in_turn() {
    let nan = [0x7F, 0xC0, 0, 0];
    let mut file = [
        &P6[..8],
        &[0, 0, 0, 2], // one block more than there is
        &[0, 9, 0, 0, 0, 0xFF],
        &[0, 0, 0, 1],
        b"gray",
        &nan,
        &[0, 3, 0],
    ]
    .concat();
    let steps: [(usize, &[u8], Result<Accepted, Refusal>); 10] = [
        (8, &[0, 0, 0, 2], Err(refused(4, 12))),
        (12, &[0, 1], Err(refused(2, 18))),
        (17, &[0x0F], Err(refused(8, 18))),
        (18, &[0, 1], Err(refused(8, 18))),
        (20, &[0, 0], Err(refused(4, 22))),
        (22, b"Gray", Err(refused(5, 26))),
        (26, &[0x80, 0, 0, 0], Err(refused(5, 30))),
        (30, &[0, 2], Err(refused(13, 14))),
        (17, &[0x0E], Err(refused(2, 32))),
        (11, &[1], Err(refused(6, 32))),
    ];
    for (place, bytes, expected) in steps {
        file[place..place + bytes.len()].copy_from_slice(bytes);
        assert_eq!(judge(&file), expected, "put right at {place}");
    }
    file.pop();
    assert_eq!(judge(&file), Ok(ONE_COLOUR));
}

#[test]
fn an_unknown_type_with_a_cut_length_is_cut() {
    for len in 2..6 {
        let file = [&P6[..12], &[0, 2, 0, 0, 0, 0][..len]].concat();
        assert_eq!(judge(&file), Err(refused(2, 14)), "{len} bytes");
    }
    let whole = [&P6[..12], &[0, 2, 0, 0, 0, 0]].concat();
    assert_eq!(judge(&whole), Err(refused(4, 12)));
}

#[test]
fn sixteen_groups_stand_open() {
    for depth in 0..=40 {
        let file = Palette::nested(&mut Random::new(1), depth).file();
        match judge(&file) {
            Ok(accepted) => {
                assert!(depth <= 16);
                let blocks = 2 * depth + 1;
                assert_eq!(accepted, Accepted { blocks, colours: 1 });
            }
            Err(refusal) => {
                assert!(depth > 16);
                assert_eq!(refusal.number, 10);
                let starts: Vec<usize> = starts_of_groups(&file);
                assert_eq!(refusal.place, starts[16]);
            }
        }
    }
}

/// Where the groups at a file's start begin.
fn starts_of_groups(file: &[u8]) -> Vec<usize> {
    let mut places = Vec::new();
    let mut place = 12;
    while file[place..place + 2] == [0xC0, 0x01] {
        places.push(place);
        place += 6 + usize::from(file[place + 5]);
    }
    places
}

#[test]
fn groups_open_at_the_end_come_before_bytes_left_over() {
    let open = [&P6[..12], &[0xC0, 1, 0, 0, 0, 4, 0, 1, 0, 0]].concat();
    assert_eq!(judge(&open), Err(refused(9, 22)));
    let more = [&open[..], &[0xC0, 2, 0, 0, 0, 0]].concat();
    assert_eq!(judge(&more), Err(refused(9, 22)));
}

#[test]
fn a_huge_count_is_answered_at_once() {
    let huge = p6_with(8, &[0xFF; 4]);
    assert_eq!(judge(&huge), Err(refused(2, 32)));
    assert_eq!(judge(&huge[..12]), Err(refused(2, 12)));
    assert_eq!(record(&huge, 0), Err(refused(2, 32)));
    assert_eq!(read(&huge, &mut []), Err(refused(2, 32)));
}

#[test]
fn three_types_are_known() {
    for kind in 0..=u16::MAX {
        let expected = match kind {
            0x0001 => Ok(ONE_COLOUR),
            0xC001 => Err(refused(13, 14)),
            0xC002 => Err(refused(13, 14)),
            _ => Err(refused(4, 12)),
        };
        let file = p6_with(12, &kind.to_be_bytes());
        assert_eq!(judge(&file), expected, "type {kind:04X}");
    }
}

#[test]
fn three_inks_are_stated() {
    for ink in 0..=u16::MAX {
        let expected = match ink {
            0..=2 => Ok(ONE_COLOUR),
            _ => Err(refused(5, 30)),
        };
        let file = p6_with(30, &ink.to_be_bytes());
        assert_eq!(judge(&file), expected, "ink {ink}");
    }
}

#[test]
fn four_models_are_known() {
    for tag in tags(&mut Random::new(1)) {
        let known = MODELS.iter().find(|known| known.0 == tag);
        let expected = match known {
            None => Err(refused(4, 22)),
            Some((GRAY_TAG, _)) => Ok(ONE_COLOUR),
            Some(_) => Err(refused(13, 14)),
        };
        let file = p6_with(22, &tag.to_be_bytes());
        assert_eq!(judge(&file), expected, "model {tag:08X}");
    }
}

/// By the bits, as the rule is: the reference goes by values.
fn in_range(tag: u32, bits: u32) -> bool {
    match tag {
        LAB_TAG => bits & 0x7F80_0000 != 0x7F80_0000,
        _ => bits <= 0x3F80_0000 || bits == 0x8000_0000,
    }
}

#[test]
fn channels_are_judged_by_their_bits_and_kept() {
    for (tag, channels) in MODELS {
        for channel in 0..channels {
            for bits in EACH_CLASS {
                let palette = Palette::single(&mut Random::new(1), (tag, channels), 0);
                let mut file = palette.file();
                let place = 26 + 4 * channel;
                file[place..place + 4].copy_from_slice(&bits.to_be_bytes());
                if in_range(tag, bits) {
                    let record = record(&file, 0).unwrap();
                    assert_eq!(record.channels[channel], bits);
                } else {
                    assert_eq!(judge(&file), Err(refused(5, place)), "{bits:08X}");
                }
            }
        }
    }
}

#[test]
fn the_ends_of_the_range_go_by_bits() {
    let turns = [
        0,
        0x3F80_0000,
        0x7F80_0000,
        0x8000_0000,
        0xFF80_0000,
        u32::MAX,
    ];
    let mut file = p6_with(22, b"Gray");
    for turn in turns {
        for bits in turn - turn.min(300)..=turn.saturating_add(300) {
            file[26..30].copy_from_slice(&bits.to_be_bytes());
            assert_eq!(judge(&file).is_ok(), in_range(GRAY_TAG, bits), "{bits:08X}");
        }
    }
    // About each exponent, one pattern in a few.
    for bits in neighbourhoods().into_iter().map(|range| *range.start()) {
        for tag in TAGS {
            let known = MODELS.iter().find(|known| known.0 == tag).unwrap();
            let mut file = Palette::single(&mut Random::new(1), *known, 0).file();
            file[26..30].copy_from_slice(&bits.to_be_bytes());
            assert_eq!(judge(&file).is_ok(), in_range(tag, bits), "{bits:08X}");
        }
    }
}

#[test]
fn a_zero_unit_is_found_wherever_it_stands() {
    for units in 0..200 {
        let file = Palette::single(&mut Random::new(units as u64), MODELS[0], units).file();
        assert_eq!(judge(&file), Ok(ONE_COLOUR));
        for unit in 0..units {
            let mut damaged = file.clone();
            damaged[20 + 2 * unit..][..2].fill(0);
            assert_eq!(
                judge(&damaged),
                Err(refused(8, 18)),
                "unit {unit} of {units}"
            );
        }
    }
}

#[test]
fn the_longest_name_has_65534_units() {
    let file = Palette::single(&mut Random::new(1), MODELS[3], 65_534).file();
    assert_eq!(file[18..20], [0xFF, 0xFF]);
    assert_eq!(judge(&file), Ok(ONE_COLOUR));
    assert_eq!(record(&file, 0).unwrap().units, 65_534);
}

#[test]
fn the_limit_is_the_longest_file() {
    let mut file = Palette::of_length(&mut Random::new(1), 200, LIMIT).file();
    let accepted = Accepted {
        blocks: 200,
        colours: 200,
    };
    assert_eq!(judge(&file), Ok(accepted));
    file.push(0);
    assert_eq!(judge(&file), Err(refused(1, 0)));
    // Before the signature, too.
    file[0] = 0;
    assert_eq!(judge(&file), Err(refused(1, 0)));
}

const EVERY_MODEL_ROWS: [[u32; ROW_LEN]; 6] = [
    [0xC001, 20, 2, 0, 0, 0, 0, 0, 0],
    [1, 34, 1, 0x5247_4220, 0x3F80_0000, 0, 0x8000_0000, 0, 0],
    [1, 64, 0, 0x434D_594B, 1, 0x3F00_0000, 0x3F7F_FFFF, 0, 1],
    [
        1,
        96,
        2,
        0x4C41_4220,
        0x42C8_0000,
        0xC300_0000,
        0x7F7F_FFFF,
        0,
        2,
    ],
    [0xC002, 0, 0, 0, 0, 0, 0, 0, 0],
    [1, 134, 0, 0x4772_6179, 0x3F80_0000, 0, 0, 0, 2],
];

#[test]
fn rows_are_filled_and_the_rest_is_kept() {
    let accepted = Ok(Accepted {
        blocks: 6,
        colours: 4,
    });
    let mut table = [CANARY; 6 * ROW_LEN + 11];
    assert_eq!(read(EVERY_MODEL, &mut table), accepted);
    assert_eq!(table[..54], EVERY_MODEL_ROWS.concat());
    assert_eq!(table[54..], [CANARY; 11]);
}

#[test]
fn a_refusal_changes_no_row() {
    let mut table = [CANARY; 6 * ROW_LEN];
    for len in 0..table.len() {
        assert_eq!(read(EVERY_MODEL, &mut table[..len]), Err(refused(11, 0)));
    }
    assert_eq!(read(P7, &mut table), Err(refused(13, 14)));
    // The file's own refusal comes before that of the table.
    assert_eq!(read(P7, &mut []), Err(refused(13, 14)));
    assert_eq!(table, [CANARY; 6 * ROW_LEN]);
    assert_eq!(
        read(P5, &mut []),
        Ok(Accepted {
            blocks: 0,
            colours: 0
        })
    );
}

#[test]
fn a_record_is_asked_for_by_number() {
    for (index, row) in EVERY_MODEL_ROWS.iter().enumerate() {
        let expected = Record {
            block: row[0] as u16,
            name: row[1] as usize,
            units: row[2],
            model: row[3],
            channels: row[4..8].try_into().unwrap(),
            ink: row[8],
        };
        assert_eq!(record(EVERY_MODEL, index), Ok(expected));
    }
    assert_eq!(record(EVERY_MODEL, 6), Err(refused(12, 0)));
    assert_eq!(record(EVERY_MODEL, usize::MAX), Err(refused(12, 0)));
    assert_eq!(record(P5, 0), Err(refused(12, 0)));
    assert_eq!(record(P7, 0), Err(refused(13, 14)));
    assert_eq!(record(P7, 1), Err(refused(13, 14)));
}

#[test]
fn rows_are_the_palette_the_file_was_laid_out_from() {
    for seed in 0..300 {
        let palette = Palette::any(&mut Random::new(seed));
        let file = palette.file();
        let mut table = vec![CANARY; ROW_LEN * palette.blocks.len()];
        let accepted = Accepted {
            blocks: palette.blocks.len(),
            colours: palette.colours(),
        };
        assert_eq!(read(&file, &mut table), Ok(accepted));
        for (block, row) in palette.blocks.iter().zip(table.chunks(ROW_LEN)) {
            assert_eq!(block_of(&file, row), *block);
        }
    }
}

/// A row as the block it stands for.
fn block_of(file: &[u8], row: &[u32]) -> Block {
    let name = file[row[1] as usize..][..2 * row[2] as usize]
        .chunks(2)
        .map(|unit| u16::from_be_bytes([unit[0], unit[1]]))
        .collect();
    match row[0] {
        1 => {
            let colour = generate::ase::Colour {
                model: row[3],
                channels: row[4..8].try_into().unwrap(),
                colour_type: row[8] as u16,
            };
            Block::Colour(name, colour)
        }
        0xC001 => {
            assert_eq!(row[3..], [0; 6]);
            Block::Start(name)
        }
        _ => {
            assert_eq!(*row, [0xC002, 0, 0, 0, 0, 0, 0, 0, 0]);
            Block::End
        }
    }
}

#[test]
fn damage_never_panics_and_places_lie_in_the_file() {
    let mut reached = BTreeSet::new();
    for seed in 0..20_000 {
        let mut random = Random::new(seed);
        let mut file = Palette::small(&mut random).file();
        for _ in 0..1 + random.below(3) {
            damage(&mut file, Damage::any(&mut random), &mut random);
        }
        if let Err(Refusal { number, place, .. }) = judge(&file) {
            reached.insert(number);
            let at_end = [2, 9].contains(&number);
            assert!(place < file.len() || at_end && place == file.len());
        }
    }
    assert_eq!(reached, BTreeSet::from([2, 3, 4, 5, 6, 8, 9, 10, 13]));
}

#[test]
fn listings_are_printed_whole() {
    assert_eq!(list(P6), P6_LISTING);
    assert_eq!(list(P7), "refused 13 at 14\n");
    assert_eq!(list(P5), "ASE 0\nend\n");
    assert_eq!(list(&[]), "refused 2 at 0\n");
    assert_eq!(list(EVERY_MODEL), EVERY_MODEL_LISTING);
}

#[test]
fn a_listing_takes_its_own_limit() {
    let mut file = Palette::of_length(&mut Random::new(1), 3, LISTING_LIMIT).file();
    assert!(list(&file).starts_with("ASE 3\n0 colour RGB "));
    file.push(0);
    assert_eq!(list(&file), "refused 1 at 0\n");
}
