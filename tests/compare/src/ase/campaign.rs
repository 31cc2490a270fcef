//! The files and records a run goes through.

use super::reading::{check_briefly, check_file};
use super::tally::Tally;
use super::writing::check_lot;
use crate::difference::{agree, hex, Checked};
use generate::ase::{
    damage, fixed_files, Answer, Damage, Lot, LotDamage, Palette, EVERY_MODEL, MODELS, P6, P7,
};
use generate::{tags, Random, EACH_CLASS, ONE};
use reference::ase::{ENVELOPE_LEN, GROUP_END, GROUP_START, HEAD_LEN, MAX_OPEN, ROW_LEN};
use reference::{LIMIT, UNIT_LEN};

/// One lot of records for so many files.
const FILES_A_LOT: u64 = 2;
/// One damaged file in so many is gone through at each of its lengths.
const FILES_A_PREFIX_RUN: u64 = 200;
const SMALL_FILES: u64 = 60;
const DEPTHS: usize = MAX_OPEN + 4;

/// Where the fields of P6 stand, in the file and in its record.
const TYPE: usize = 12;
const NAME_COUNT: usize = 18;
const PAYLOAD: usize = 18;
const MODEL: usize = 22;
const FIRST_CHANNEL: usize = 26;
const INK: usize = 30;
const P6_RECORD: [u32; ROW_LEN] = [1, 0, 0, 0x4772_6179, 0x3F80_0000, 0, 0, 0, 2];

/// The least and the most RGB colours whose names fill an output of the limit.
const FEWEST: usize = 128;
const MANY: usize = 40_000;
/// What such a colour adds to the output besides its name's units.
const UNNAMED_LEN: usize = 28;
/// A group without a name and its end: 16 bytes.
const GROUPS_WITHIN_LIMIT: usize = (LIMIT - HEAD_LEN) / 16;
/// The most records whose output is within the limit, however short.
const RECORDS_WITHIN_LIMIT: usize = (LIMIT - HEAD_LEN) / ENVELOPE_LEN;

/// The parts of a run, each with its own source of numbers.
#[derive(Clone, Copy)]
enum Part {
    Fixed,
    Bytes,
    Numbers,
    Inks,
    Channels,
    Payloads,
    Depths,
    Prefixes,
    Damaged,
    Lots,
    LongFiles,
    LongLots,
}

struct Campaign {
    seed: u64,
    tally: Tally,
}

/// Goes through `files` made-up files, and through the fixed, the exhaustive
/// and the long ones besides, up to the first difference.
pub fn run(seed: u64, files: u64) -> Checked<Tally> {
    let mut campaign = Campaign {
        seed,
        tally: Tally::default(),
    };
    campaign.fixed()?;
    campaign.every_byte()?;
    campaign.every_number()?;
    campaign.every_ink()?;
    campaign.every_class_of_channel()?;
    campaign.every_payload_length()?;
    campaign.every_depth()?;
    campaign.every_prefix()?;
    campaign.damaged_files(files)?;
    campaign.lots(files / FILES_A_LOT)?;
    campaign.long_files()?;
    campaign.long_lots()?;
    Ok(campaign.tally)
}

impl Campaign {
    fn random(&self, part: Part, item: u64) -> Random {
        Random::for_part(self.seed, (part as u64) << 40 | item)
    }

    fn fixed(&mut self) -> Checked {
        let mut random = self.random(Part::Fixed, 0);
        for fixed in fixed_files() {
            let wanted = written_down(fixed.answer);
            agree(
                || format!("judge of {}", fixed.title),
                &wanted,
                &proved::ase::judge(&fixed.file),
            )
            .map_err(|difference| difference.given("file", hex(&fixed.file)))?;
            check_file(&fixed.file, &mut random, &mut self.tally)?;
        }
        Ok(())
    }

    /// A file with each of its bytes at each of its values.
    fn every_byte(&mut self) -> Checked {
        let mut random = self.random(Part::Bytes, 0);
        let mut file = EVERY_MODEL.to_vec();
        for place in 0..file.len() {
            let kept = file[place];
            for byte in 0..=u8::MAX {
                file[place] = byte;
                check_file(&file, &mut random, &mut self.tally)?;
            }
            file[place] = kept;
        }
        Ok(())
    }

    /// P6, and its record, with each block type, name count and ink of
    /// 16 bits, and with tags that are a model's or nearly so.
    fn every_number(&mut self) -> Checked {
        let mut random = self.random(Part::Numbers, 0);
        for value in 0..=u16::MAX {
            for place in [TYPE, NAME_COUNT, INK] {
                let file = p6_with(place, &value.to_be_bytes());
                check_file(&file, &mut random, &mut self.tally)?;
            }
            for index in [0, 8] {
                self.check_record(index, u32::from(value), &mut random)?;
            }
        }
        for value in [0x1_0000, 0x1_0002, 0x1_0003, 0x1_0004, u32::MAX] {
            self.check_record(8, value, &mut random)?;
        }
        for tag in tags(&mut random) {
            let file = p6_with(MODEL, &tag.to_be_bytes());
            check_file(&file, &mut random, &mut self.tally)?;
            self.check_record(3, tag, &mut random)?;
        }
        Ok(())
    }

    /// P6's record with one of its numbers changed.
    fn check_record(&mut self, index: usize, value: u32, random: &mut Random) -> Checked {
        let records = with(index, value).to_vec();
        let text = Vec::new();
        check_lot(&Lot { records, text }, random, &mut self.tally)
    }

    /// Every ink of a colour alone, inside a group and before or behind a fault, that of
    /// a group that stays open too: 14 comes after all of them.
    fn every_ink(&mut self) -> Checked {
        let mut random = self.random(Part::Inks, 0);
        let start = with(0, GROUP_START.into());
        let end = with(0, GROUP_END.into());
        let faults = [
            with(0, 2),
            with(2, 1),
            with(3, 0),
            with(4, ONE + 1),
            with(8, 5),
        ];
        for ink in (0..40).chain([0xFF03, 0x1_0002, 0x1_0003, 0x1_0004, u32::MAX]) {
            let colour = with(8, ink);
            let mut lots = vec![
                vec![colour],
                vec![start, colour, end],
                vec![with(8, 4), colour, P6_RECORD],
                vec![start, colour],
                vec![colour, end],
            ];
            for fault in faults {
                lots.extend([vec![colour, fault], vec![fault, colour]]);
            }
            // A group's is spare.
            for mut group in [start, end] {
                group[8] = ink;
                lots.extend([vec![group, P6_RECORD, end], vec![start, P6_RECORD, group]]);
            }
            for rows in lots {
                let (records, text) = (rows.concat(), Vec::new());
                check_lot(&Lot { records, text }, &mut random, &mut self.tally)?;
            }
        }
        Ok(())
    }

    /// Each channel of each model with bits of every class.
    fn every_class_of_channel(&mut self) -> Checked {
        let mut random = self.random(Part::Channels, 0);
        for (model, channels) in MODELS {
            let file = Palette::single(&mut random, (model, channels), 0).file();
            for channel in 0..channels {
                for bits in EACH_CLASS {
                    let mut file = file.clone();
                    let place = FIRST_CHANNEL + 4 * channel;
                    file[place..place + 4].copy_from_slice(&bits.to_be_bytes());
                    check_file(&file, &mut random, &mut self.tally)?;
                    let mut records = P6_RECORD.to_vec();
                    (records[3], records[4 + channel]) = (model, bits);
                    let text = Vec::new();
                    check_lot(&Lot { records, text }, &mut random, &mut self.tally)?;
                }
            }
        }
        Ok(())
    }

    /// A colour of each model whose payload is cut, or longer, and its length
    /// with it; the same with a damage to what is left.
    fn every_payload_length(&mut self) -> Checked {
        let mut random = self.random(Part::Payloads, 0);
        for known in MODELS {
            for units in 0..4 {
                let whole = Palette::single(&mut random, known, units).file();
                for len in 0..whole.len() - PAYLOAD + 8 {
                    let mut file = whole.clone();
                    file.resize(PAYLOAD + len, 0);
                    file[TYPE + 2..PAYLOAD].copy_from_slice(&(len as u32).to_be_bytes());
                    check_file(&file, &mut random, &mut self.tally)?;
                    damage(&mut file, Damage::any(&mut random), &mut random);
                    check_file(&file, &mut random, &mut self.tally)?;
                }
            }
        }
        Ok(())
    }

    /// Groups inside each other up to 16 and past it, sound and damaged.
    fn every_depth(&mut self) -> Checked {
        for depth in 0..=DEPTHS {
            let mut random = self.random(Part::Depths, depth as u64);
            let whole = Palette::nested(&mut random, depth).file();
            check_file(&whole, &mut random, &mut self.tally)?;
            for kind in Damage::ALL {
                let mut file = whole.clone();
                damage(&mut file, kind, &mut random);
                check_file(&file, &mut random, &mut self.tally)?;
            }
            let whole = Lot::nested(depth);
            check_lot(&whole, &mut random, &mut self.tally)?;
            for kind in LotDamage::ALL {
                let mut lot = whole.clone();
                lot.damage(kind, &mut random);
                check_lot(&lot, &mut random, &mut self.tally)?;
            }
        }
        Ok(())
    }

    /// Small files, sound and damaged, at each of their lengths.
    fn every_prefix(&mut self) -> Checked {
        let mut random = self.random(Part::Prefixes, 0);
        for file in [P6, P7, EVERY_MODEL] {
            self.prefixes(file, &mut random)?;
        }
        for item in 1..=SMALL_FILES {
            let mut random = self.random(Part::Prefixes, item);
            let mut file = Palette::small(&mut random).file();
            self.prefixes(&file, &mut random)?;
            damage(&mut file, Damage::any(&mut random), &mut random);
            self.prefixes(&file, &mut random)?;
        }
        Ok(())
    }

    /// A file at each of its lengths. What was cut off still lies behind the
    /// lent part, so that reading past the end gives a wrong answer.
    fn prefixes(&mut self, file: &[u8], random: &mut Random) -> Checked {
        (0..=file.len()).try_for_each(|len| check_file(&file[..len], random, &mut self.tally))
    }

    fn damaged_files(&mut self, files: u64) -> Checked {
        for item in 0..files {
            let mut random = self.random(Part::Damaged, item);
            let in_prefixes = item % FILES_A_PREFIX_RUN == 0;
            let palette = if in_prefixes {
                Palette::small(&mut random)
            } else {
                Palette::any(&mut random)
            };
            let mut file = palette.file();
            for _ in 0..damages(&mut random) {
                damage(&mut file, Damage::any(&mut random), &mut random);
            }
            check_file(&file, &mut random, &mut self.tally)?;
            if in_prefixes {
                self.prefixes(&file, &mut random)?;
            }
        }
        Ok(())
    }

    fn lots(&mut self, lots: u64) -> Checked {
        for item in 0..lots {
            let mut random = self.random(Part::Lots, item);
            let mut lot = Lot::any(&mut random);
            for _ in 0..damages(&mut random) {
                lot.damage(LotDamage::any(&mut random), &mut random);
            }
            check_lot(&lot, &mut random, &mut self.tally)?;
        }
        Ok(())
    }

    /// Files of the limit, sound and damaged near their end, and just longer ones.
    fn long_files(&mut self) -> Checked {
        let mut random = self.random(Part::LongFiles, 0);
        for colours in [FEWEST, MANY] {
            let mut file = Palette::of_length(&mut random, colours, LIMIT).file();
            check_file(&file, &mut random, &mut self.tally)?;
            check_file(&file[..LIMIT - 1], &mut random, &mut self.tally)?;
            file.push(0);
            check_file(&file, &mut random, &mut self.tally)?;
            file.truncate(LIMIT);
            file[LIMIT - 1] = 3;
            check_file(&file, &mut random, &mut self.tally)?;
            file[8..12].copy_from_slice(&[0xFF; 4]);
            check_file(&file, &mut random, &mut self.tally)?;
        }
        let longer = Palette::of_length(&mut random, FEWEST, LIMIT + 2).file();
        check_file(&longer, &mut random, &mut self.tally)?;
        let mut left_over = vec![0; LIMIT];
        left_over[..P6.len()].copy_from_slice(P6);
        check_file(&left_over, &mut random, &mut self.tally)?;
        let groups = Palette::empty_groups(GROUPS_WITHIN_LIMIT).file();
        check_briefly(&groups, &mut self.tally)
    }

    /// Outputs of the limit and just longer, with and without a fault that
    /// changes what is counted, and more records than any output has room for.
    fn long_lots(&mut self) -> Checked {
        let mut random = self.random(Part::LongLots, 0);
        for colours in [FEWEST, FEWEST + 1, MANY] {
            // An unknown model has no channels: 12 bytes fewer than RGB.
            for (len, model) in [(0, false), (2, false), (12, true), (14, true)] {
                let units = units_for(colours, LIMIT + len);
                let mut lot = Lot::sharing_text(&mut random, &units);
                if model {
                    lot.records[3] = 0;
                }
                check_lot(&lot, &mut random, &mut self.tally)?;
                lot.records[0] = 0;
                check_lot(&lot, &mut random, &mut self.tally)?;
            }
        }
        for count in [RECORDS_WITHIN_LIMIT, RECORDS_WITHIN_LIMIT + 1] {
            let lot = Lot {
                records: vec![0; count * ROW_LEN],
                text: Vec::new(),
            };
            check_lot(&lot, &mut random, &mut self.tally)?;
        }
        for units in [65_533, 65_534, 65_535, 65_536] {
            let lot = Lot::sharing_text(&mut random, &[units]);
            check_lot(&lot, &mut random, &mut self.tally)?;
        }
        Ok(())
    }
}

fn p6_with(place: usize, bytes: &[u8]) -> Vec<u8> {
    let mut file = P6.to_vec();
    file[place..place + bytes.len()].copy_from_slice(bytes);
    file
}

fn written_down(answer: Answer) -> proved::ase::Answer {
    let nothing = proved::ase::Answer::default();
    match answer {
        Answer::Accepted { blocks, colours } => proved::ase::Answer {
            blocks,
            colours,
            ..nothing
        },
        Answer::Refused { number, place } => proved::ase::Answer {
            number,
            place,
            ..nothing
        },
    }
}

/// P6's record with one of its numbers changed.
fn with(index: usize, value: u32) -> [u32; ROW_LEN] {
    let mut record = P6_RECORD;
    record[index] = value;
    record
}

/// Mostly one damage; some more of them set faults against each other.
fn damages(random: &mut Random) -> usize {
    random.pick(&[0, 1, 1, 1, 2, 2, 3])
}

/// The units of names with which so many RGB colours are written in `len` bytes.
fn units_for(colours: usize, len: usize) -> Vec<usize> {
    let units = (len - HEAD_LEN - colours * UNNAMED_LEN) / UNIT_LEN;
    let (each, spare) = (units / colours, units % colours);
    (0..colours)
        .map(|index| each + usize::from(index < spare))
        .collect()
}
