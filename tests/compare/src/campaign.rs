//! The files and records a run goes through.

use crate::difference::{agree, hex, Checked};
use crate::reading::check_file;
use crate::tally::Tally;
use crate::writing::check_lot;
use generate::{damage, fixed_files, Answer, Damage, Lot, LotDamage, Palette, Random, P3, P4};
use reference::{ink, COLOUR_LEN, HEAD_LEN, LIMIT, MAX_COLOURS, NAME_COUNT_LEN, ROW_LEN, UNIT_LEN};

/// One lot of records for so many files.
const FILES_A_LOT: u64 = 2;
/// One damaged file in so many is gone through at each of its lengths.
const FILES_A_PREFIX_RUN: u64 = 200;
const SMALL_FILES: u64 = 60;
/// A record without a name, whose ink is not stated.
const BLACK: [u32; ROW_LEN] = [0, 0, 0, 0, 0, 0, 0, ink::NOT_STATED];
/// The most records whose output, without names, is within the limit.
const RECORDS_WITHIN_LIMIT: usize = (LIMIT - 2 * HEAD_LEN) / UNNAMED_LEN;
const UNNAMED_LEN: usize = 2 * COLOUR_LEN + NAME_COUNT_LEN + UNIT_LEN;

/// The parts of a run, each with its own source of numbers.
#[derive(Clone, Copy)]
enum Part {
    Fixed,
    Bytes,
    Prefixes,
    Differences,
    Inks,
    Damaged,
    Lots,
    LongFiles,
    LongLots,
}

struct Campaign {
    seed: u64,
    tally: Tally,
}

/// Goes through `files` made-up files, and through the fixed, the exhaustive
/// and the long ones besides, up to the first difference.
pub fn run(seed: u64, files: u64) -> Checked<Tally> {
    let mut campaign = Campaign {
        seed,
        tally: Tally::default(),
    };
    campaign.fixed()?;
    campaign.every_byte()?;
    campaign.every_prefix()?;
    campaign.every_difference()?;
    campaign.every_ink()?;
    campaign.damaged_files(files)?;
    campaign.lots(files / FILES_A_LOT)?;
    campaign.long_files()?;
    campaign.long_lots()?;
    Ok(campaign.tally)
}

impl Campaign {
    fn random(&self, part: Part, item: u64) -> Random {
        Random::for_part(self.seed, (part as u64) << 40 | item)
    }

    fn fixed(&mut self) -> Checked {
        let mut random = self.random(Part::Fixed, 0);
        for fixed in fixed_files() {
            let wanted = written_down(fixed.answer);
            agree(
                || format!("judge of {}", fixed.title),
                &wanted,
                &proved::judge(&fixed.file),
            )
            .map_err(|difference| difference.given("file", hex(&fixed.file)))?;
            check_file(&fixed.file, &mut random, &mut self.tally)?;
        }
        Ok(())
    }

    /// P3 with each of its bytes at each of its values.
    fn every_byte(&mut self) -> Checked {
        let mut random = self.random(Part::Bytes, 0);
        for place in 0..P3.len() {
            let mut file = P3.to_vec();
            for byte in 0..=u8::MAX {
                file[place] = byte;
                check_file(&file, &mut random, &mut self.tally)?;
            }
        }
        Ok(())
    }

    /// Small files, sound and damaged, at each of their lengths.
    fn every_prefix(&mut self) -> Checked {
        let mut random = self.random(Part::Prefixes, 0);
        self.prefixes(P3, &mut random)?;
        self.prefixes(P4, &mut random)?;
        for item in 1..=SMALL_FILES {
            let mut random = self.random(Part::Prefixes, item);
            let palette = Palette::small(&mut random);
            let mut file = palette.file();
            self.prefixes(&file, &mut random)?;
            damage(&mut file, &palette, Damage::any(&mut random), &mut random);
            self.prefixes(&file, &mut random)?;
        }
        Ok(())
    }

    /// A file at each of its lengths. What was cut off still lies behind the
    /// lent part, so that reading past the end gives a wrong answer.
    fn prefixes(&mut self, file: &[u8], random: &mut Random) -> Checked {
        (0..=file.len()).try_for_each(|len| check_file(&file[..len], random, &mut self.tally))
    }

    /// List 2 differing by each bit of each field of each record.
    fn every_difference(&mut self) -> Checked {
        let mut random = self.random(Part::Differences, 0);
        let palette = Palette::named(&mut random, 4, |random| random.below(3));
        let mut file = palette.file();
        for record in palette.layout().named {
            for bit in 0..8 * COLOUR_LEN {
                let (place, mask) = (record + bit / 8, 1 << (bit % 8));
                file[place] ^= mask;
                check_file(&file, &mut random, &mut self.tally)?;
                file[place] ^= mask;
            }
        }
        Ok(())
    }

    /// Every ink of the first and of the last record, alone and with a fault of the
    /// other one's colour or name.
    fn every_ink(&mut self) -> Checked {
        let mut random = self.random(Part::Inks, 0);
        for ink in (0..300).chain([0xFFFF, 0x1_0004, 0xFFFF_0004, u32::MAX]) {
            for (record, other) in [(0, 1), (1, 0)] {
                for (number, value) in [(0, 0), (0, 3), (4, 1), (6, 1)] {
                    let mut records = BLACK.repeat(2);
                    records[record * ROW_LEN + ROW_LEN - 1] = ink;
                    records[other * ROW_LEN + number] = value;
                    let text = Vec::new();
                    check_lot(&Lot { records, text }, &mut random, &mut self.tally)?;
                }
            }
        }
        Ok(())
    }

    fn damaged_files(&mut self, files: u64) -> Checked {
        for item in 0..files {
            let mut random = self.random(Part::Damaged, item);
            let in_prefixes = item % FILES_A_PREFIX_RUN == 0;
            let palette = if in_prefixes {
                Palette::small(&mut random)
            } else {
                Palette::any(&mut random)
            };
            let mut file = palette.file();
            for _ in 0..damages(&mut random) {
                damage(&mut file, &palette, Damage::any(&mut random), &mut random);
            }
            check_file(&file, &mut random, &mut self.tally)?;
            if in_prefixes {
                self.prefixes(&file, &mut random)?;
            }
        }
        Ok(())
    }

    fn lots(&mut self, lots: u64) -> Checked {
        for item in 0..lots {
            let mut random = self.random(Part::Lots, item);
            let mut lot = Lot::any(&mut random);
            for _ in 0..damages(&mut random) {
                lot.damage(LotDamage::any(&mut random), &mut random);
            }
            check_lot(&lot, &mut random, &mut self.tally)?;
        }
        Ok(())
    }

    /// Files of the limit, sound and damaged near their end, and just longer ones.
    fn long_files(&mut self) -> Checked {
        let mut random = self.random(Part::LongFiles, 0);
        for colours in [1, MAX_COLOURS] {
            let palette = Palette::of_length(&mut random, colours, LIMIT);
            let mut file = palette.file();
            check_file(&file, &mut random, &mut self.tally)?;
            check_file(&file[..LIMIT - 1], &mut random, &mut self.tally)?;
            file.push(0);
            check_file(&file, &mut random, &mut self.tally)?;
            file.truncate(LIMIT);
            file[LIMIT - 1] = 1;
            check_file(&file, &mut random, &mut self.tally)?;
            damage(&mut file, &palette, Damage::LastRecordDiffers, &mut random);
            check_file(&file, &mut random, &mut self.tally)?;
        }
        let longer = Palette::of_length(&mut random, 2, LIMIT + 2).file();
        check_file(&longer, &mut random, &mut self.tally)?;
        let mut left_over = vec![0; LIMIT];
        left_over[..8].copy_from_slice(&[0, 1, 0, 0, 0, 2, 0, 0]);
        check_file(&left_over, &mut random, &mut self.tally)
    }

    /// Outputs of the limit and just longer, and counts past what a list or
    /// 16 bits hold.
    fn long_lots(&mut self) -> Checked {
        let mut random = self.random(Part::LongLots, 0);
        for colours in [1, 2, MAX_COLOURS] {
            for len in [LIMIT, LIMIT + 2] {
                let units = units_for(colours, len);
                let lot = Lot::sharing_text(&mut random, &units);
                check_lot(&lot, &mut random, &mut self.tally)?;
            }
        }
        for count in [
            0x1_0000,
            0x1_0001,
            RECORDS_WITHIN_LIMIT,
            RECORDS_WITHIN_LIMIT + 1,
        ] {
            let lot = Lot {
                records: BLACK.repeat(count),
                text: Vec::new(),
            };
            check_lot(&lot, &mut random, &mut self.tally)?;
        }
        Ok(())
    }
}

fn written_down(answer: Answer) -> proved::Answer {
    let nothing = proved::Answer::default();
    match answer {
        Answer::Accepted { colours, lists } => proved::Answer {
            colours,
            lists,
            ..nothing
        },
        Answer::Refused {
            number,
            place,
            record,
            field,
        } => proved::Answer {
            number,
            place,
            record,
            field,
            ..nothing
        },
    }
}

/// Mostly one damage; some more of them set faults against each other.
pub fn damages(random: &mut Random) -> usize {
    random.pick(&[0, 1, 1, 1, 2, 2, 3])
}

/// The units of names with which so many colours are written in `len` bytes.
fn units_for(colours: usize, len: usize) -> Vec<usize> {
    let units = (len - 2 * HEAD_LEN - colours * UNNAMED_LEN) / UNIT_LEN;
    let (each, spare) = (units / colours, units % colours);
    (0..colours)
        .map(|index| each + usize::from(index < spare))
        .collect()
}
