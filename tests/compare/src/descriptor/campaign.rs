//! The files a run goes through.

use super::reading::{check_file, check_laid, check_tables, rows_of};
use super::tally::Tally;
use crate::difference::{agree, agree_runs, hex, Checked};
use generate::descriptor::{
    damage, deep, fixed_files, flat, wide, Answer, Damage, Field, Laid, Object, Value, ARRAY_UNITS,
    EVERY_TYPE, FORMS, MAX_DEPTH, P11, P12, P12_ROWS, TYPES, UNITS,
};
use generate::Random;
use reference::LIMIT;
use std::ops::Range;
use std::panic::resume_unwind;
use std::thread;

/// One damaged file in so many is gone through at each of its lengths.
const FILES_A_PREFIX_RUN: u64 = 200;
const SMALL_FILES: u64 = 60;
const DEPTHS: usize = MAX_DEPTH + 4;
/// Long files are gone through on a stack of this size.
const SMALL_STACK: usize = 256 << 10;

/// Where a long file has the root's pair count.
const PAIR_COUNT: Range<usize> = 13..17;

/// The parts of a run, each with its own source of numbers.
#[derive(Clone, Copy)]
enum Part {
    Fixed,
    Bytes,
    Tags,
    Depths,
    Tables,
    Prefixes,
    Damaged,
    LongFiles,
}

struct Campaign {
    seed: u64,
    tally: Tally,
}

/// Goes through `files` made-up files, and through the fixed, the exhaustive
/// and the long ones besides, up to the first difference.
pub fn run(seed: u64, files: u64) -> Checked<Tally> {
    let mut campaign = Campaign {
        seed,
        tally: Tally::default(),
    };
    campaign.fixed()?;
    campaign.every_byte()?;
    campaign.every_tag()?;
    campaign.every_depth()?;
    campaign.every_table()?;
    campaign.every_prefix()?;
    campaign.damaged_files(files)?;
    campaign.long_files()?;
    Ok(campaign.tally)
}

impl Campaign {
    fn random(&self, part: Part, item: u64) -> Random {
        Random::for_part(self.seed, (part as u64) << 40 | item)
    }

    fn fixed(&mut self) -> Checked {
        let mut random = self.random(Part::Fixed, 0);
        for fixed in fixed_files() {
            let found = written_down(&proved::descriptor::judge(&fixed.file));
            agree(
                || format!("judge of {}", fixed.title),
                &fixed.answer,
                &found,
            )
            .map_err(|difference| difference.given("file", hex(&fixed.file)))?;
            check_file(&fixed.file, &mut random, &mut self.tally)?;
            check_tables(&fixed.file, &mut self.tally)?;
        }
        let (_, rows) = rows_of(P12, 4);
        agree_runs(|| "the rows of P12".to_string(), &P12_ROWS, &rows)
    }

    /// A file of every type with each of its bytes at each of its values.
    fn every_byte(&mut self) -> Checked {
        let mut random = self.random(Part::Bytes, 0);
        let mut file = EVERY_TYPE.to_vec();
        for place in 0..file.len() {
            let kept = file[place];
            for byte in 0..=u8::MAX {
                file[place] = byte;
                check_file(&file, &mut random, &mut self.tally)?;
            }
            file[place] = kept;
        }
        Ok(())
    }

    /// Items of every type, sound, with every tag there is in each field that
    /// holds one, and with each damage.
    fn every_tag(&mut self) -> Checked {
        let tags = [&TYPES[..], &FORMS, &UNITS, &ARRAY_UNITS, &[*b"UnFl"]].concat();
        for (item, tag) in TYPES.into_iter().enumerate() {
            let mut random = self.random(Part::Tags, item as u64);
            let laid = Laid::of(&Object::of_type(&mut random, tag));
            check_laid(&laid)?;
            for &(_, place) in laid.fields.iter().filter(|(field, _)| holds_tag(*field)) {
                for tag in &tags {
                    let mut file = laid.file.clone();
                    file[place..place + 4].copy_from_slice(tag);
                    check_file(&file, &mut random, &mut self.tally)?;
                }
            }
            for kind in Damage::ALL {
                let mut file = laid.file.clone();
                damage(&mut file, &laid, kind, &mut random);
                check_file(&file, &mut random, &mut self.tally)?;
            }
        }
        Ok(())
    }

    /// Members inside each other up to the greatest depth and past it: a leaf,
    /// and containers without members, sound and damaged.
    fn every_depth(&mut self) -> Checked {
        for depth in 1..=DEPTHS {
            for tag in TYPES {
                let mut random = self.random(Part::Depths, depth as u64);
                let innermost = empty(tag, &mut random);
                let laid = Laid::of(&Object::nested(&mut random, depth, innermost));
                if depth <= MAX_DEPTH {
                    check_laid(&laid)?;
                }
                check_file(&laid.file, &mut random, &mut self.tally)?;
                let mut file = laid.file.clone();
                damage(&mut file, &laid, Damage::any(&mut random), &mut random);
                check_file(&file, &mut random, &mut self.tally)?;
            }
        }
        Ok(())
    }

    /// Small files with tables of every length.
    fn every_table(&mut self) -> Checked {
        for item in 0..SMALL_FILES {
            let mut random = self.random(Part::Tables, item);
            let laid = Laid::of(&Object::small(&mut random));
            check_tables(&laid.file, &mut self.tally)?;
            check_laid(&laid)?;
        }
        Ok(())
    }

    /// Small files, sound and damaged, at each of their lengths.
    fn every_prefix(&mut self) -> Checked {
        let mut random = self.random(Part::Prefixes, 0);
        for file in [P11, P12, EVERY_TYPE] {
            self.prefixes(file, &mut random)?;
        }
        for item in 1..=SMALL_FILES {
            let mut random = self.random(Part::Prefixes, item);
            let laid = Laid::of(&Object::small(&mut random));
            let mut file = laid.file.clone();
            self.prefixes(&file, &mut random)?;
            damage(&mut file, &laid, Damage::any(&mut random), &mut random);
            self.prefixes(&file, &mut random)?;
        }
        Ok(())
    }

    /// A file at each of its lengths. What was cut off still lies behind the
    /// lent part, so that reading past the end gives a wrong answer.
    fn prefixes(&mut self, file: &[u8], random: &mut Random) -> Checked {
        (0..=file.len()).try_for_each(|len| check_file(&file[..len], random, &mut self.tally))
    }

    fn damaged_files(&mut self, files: u64) -> Checked {
        for item in 0..files {
            let mut random = self.random(Part::Damaged, item);
            let in_prefixes = item % FILES_A_PREFIX_RUN == 0;
            let object = if in_prefixes {
                Object::small(&mut random)
            } else {
                Object::any(&mut random)
            };
            let laid = Laid::of(&object);
            check_laid(&laid)?;
            let mut file = laid.file.clone();
            for _ in 0..damages(&mut random) {
                damage(&mut file, &laid, Damage::any(&mut random), &mut random);
            }
            check_file(&file, &mut random, &mut self.tally)?;
            if in_prefixes {
                self.prefixes(&file, &mut random)?;
            }
        }
        Ok(())
    }

    /// Files of the limit, sound and damaged near their end, and just longer
    /// ones: many siblings, members of every type, and the greatest depth. The
    /// stack that they are gone through on is small.
    fn long_files(&mut self) -> Checked {
        thread::scope(|scope| {
            let thread = thread::Builder::new().stack_size(SMALL_STACK);
            let going = thread
                .spawn_scoped(scope, || self.long_files_here())
                .expect("a thread starts");
            going.join().unwrap_or_else(|panic| resume_unwind(panic))
        })
    }

    fn long_files_here(&mut self) -> Checked {
        let mut random = self.random(Part::LongFiles, 0);
        for sort in 0..3 {
            let mut long = |len: usize| match sort {
                0 => flat(len),
                1 => wide(&mut random, len),
                _ => deep(len),
            };
            let (exact, longer) = (long(LIMIT), long(LIMIT + 1));
            agree(
                || "the rows of a long file".to_string(),
                &exact.rows,
                &proved::descriptor::judge(&exact.file).rows,
            )?;
            check_file(&longer.file, &mut random, &mut self.tally)?;
            let mut file = exact.file;
            check_file(&file, &mut random, &mut self.tally)?;
            check_file(&file[..LIMIT - 1], &mut random, &mut self.tally)?;
            // A pair fewer than there are, and far more.
            let count = &mut file[PAIR_COUNT];
            let pairs = u32::from_be_bytes(*count.first_chunk().expect("four bytes"));
            count.copy_from_slice(&(pairs - 1).to_be_bytes());
            check_file(&file, &mut random, &mut self.tally)?;
            file[PAIR_COUNT].fill(0xFF);
            check_file(&file, &mut random, &mut self.tally)?;
        }
        let mut left_over = vec![0; LIMIT];
        left_over[..P12.len()].copy_from_slice(P12);
        check_file(&left_over, &mut random, &mut self.tally)
    }
}

fn holds_tag(field: Field) -> bool {
    matches!(
        field,
        Field::Type | Field::ArrayPairType | Field::Form | Field::Unit | Field::ArrayUnit
    )
}

/// An item of that type; a container has no members.
fn empty(tag: [u8; 4], random: &mut Random) -> Value {
    let (_, value) = Object::of_type(random, tag).pairs.remove(0);
    match value {
        Value::List(_) => Value::List(Vec::new()),
        Value::Reference(_) => Value::Reference(Vec::new()),
        Value::Object(tag, mut object) => {
            object.pairs.clear();
            Value::Object(tag, object)
        }
        Value::Array(mut array) => {
            array.pairs.clear();
            Value::Array(array)
        }
        value => value,
    }
}

/// Of an answer what is written down beside the fixed files.
fn written_down(answer: &proved::descriptor::Answer) -> Answer {
    match *answer {
        proved::descriptor::Answer {
            number: 0, rows, ..
        } => Answer::Accepted { rows },
        proved::descriptor::Answer { number, place, .. } => Answer::Refused { number, place },
    }
}

/// Mostly one damage; some more of them set faults against each other.
fn damages(random: &mut Random) -> usize {
    random.pick(&[0, 1, 1, 1, 2, 2, 3])
}
