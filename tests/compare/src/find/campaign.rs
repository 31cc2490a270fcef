//! The files, tables and keys a run goes through.

use super::asking::{check_laid, rooms, Asked};
use super::tally::Tally;
use crate::difference::Checked;
use crate::tables::{Runs, RUNS};
use generate::descriptor::{
    any_keys, any_number, damage, deep, fixed_files, flat, root_keys, wide, Damage, Laid, Object,
    EVERY_TYPE, P11, P12,
};
use generate::Random;
use reference::LIMIT;

const SMALL_FILES: u64 = 60;
/// How often a number of a small table is altered.
const ALTERATIONS: usize = 5;
/// A key of one byte, which long files and that of every type have.
const KEYS: &[u8] = b"\0\0\0\x01k\0\0\0\x01a\0\0\0\0abcd";
const KEY_COUNT: usize = 3;

/// The parts of a run, each with its own source of numbers.
#[derive(Clone, Copy)]
enum Part {
    Fixed,
    Numbers,
    Lengths,
    Cuts,
    Files,
    LongFiles,
}

struct Campaign {
    seed: u64,
    tally: Tally,
}

/// Goes through `files` made-up files, and through the fixed, the exhaustive and
/// the long ones besides, up to the first difference.
pub fn run(seed: u64, files: u64) -> Checked<Tally> {
    let mut campaign = Campaign {
        seed,
        tally: Tally::default(),
    };
    campaign.fixed()?;
    campaign.every_number()?;
    campaign.every_length()?;
    campaign.every_cut()?;
    campaign.files(files)?;
    campaign.long_files()?;
    Ok(campaign.tally)
}

impl Campaign {
    fn random(&self, part: Part, item: u64) -> Random {
        Random::for_part(self.seed, (part as u64) << 40 | item)
    }

    fn check(&mut self, file: &[u8], runs: &Runs, keys: &[u8], room: usize) -> Checked<Vec<u32>> {
        Asked { file, runs, keys }.check(room, &mut self.tally)
    }

    fn fixed(&mut self) -> Checked {
        let mut random = self.random(Part::Fixed, 0);
        for fixed in fixed_files() {
            let runs = Runs::of(&fixed.file, &mut random);
            self.check(&fixed.file, &runs, KEYS, KEY_COUNT)?;
            let altered = runs.altered(&mut random);
            self.check(&fixed.file, &altered, KEYS, KEY_COUNT)?;
        }
        Ok(())
    }

    /// Small files, every number of whose tables is altered in turn.
    fn every_number(&mut self) -> Checked {
        for item in 0..SMALL_FILES {
            let mut random = self.random(Part::Numbers, item);
            let laid = small(item, &mut random);
            let right = Runs::of(&laid, &mut random);
            for run in 0..RUNS {
                for row in 0..right.rows() {
                    for _ in 0..ALTERATIONS {
                        let number = any_number(right.0[run][row], &mut random);
                        let runs = right.with(run, row, number).longer(&mut random);
                        self.check(&laid, &runs, KEYS, KEY_COUNT)?;
                    }
                }
            }
        }
        Ok(())
    }

    /// Small files, each run of whose tables has every length.
    fn every_length(&mut self) -> Checked {
        for item in 0..SMALL_FILES {
            let mut random = self.random(Part::Lengths, item);
            let file = small(item, &mut random);
            let right = Runs::of(&file, &mut random);
            for run in 0..RUNS {
                for len in 0..=right.rows() + 2 {
                    let runs = right.with_length(run, len, &mut random);
                    self.check(&file, &runs, KEYS, KEY_COUNT)?;
                }
            }
            for len in 0..=right.rows() {
                let runs = (0..RUNS).fold(right.clone(), |runs, run| {
                    runs.with_length(run, len, &mut random)
                });
                self.check(&file, &runs, KEYS, KEY_COUNT)?;
            }
        }
        Ok(())
    }

    /// Runs of keys cut at every byte. What was cut off still lies behind the
    /// lent part in one of two tries.
    fn every_cut(&mut self) -> Checked {
        for item in 0..SMALL_FILES {
            let mut random = self.random(Part::Cuts, item);
            let laid = Laid::of(&Object::any(&mut random));
            let runs = Runs::of(&laid.file, &mut random);
            let keys = any_keys(&mut random, &root_keys(&laid)).concat();
            for len in 0..=keys.len() {
                self.check(&laid.file, &runs, &keys[..len], keys.len())?;
            }
        }
        Ok(())
    }

    fn files(&mut self, files: u64) -> Checked {
        for item in 0..files {
            let mut random = self.random(Part::Files, item);
            let laid = Laid::of(&Object::any(&mut random));
            let keys = any_keys(&mut random, &root_keys(&laid));
            let right = Runs::of(&laid.file, &mut random);
            let joined = keys.concat();
            for room in rooms(keys.len()) {
                let answers = self.check(&laid.file, &right, &joined, room)?;
                if room >= keys.len() {
                    check_laid(&laid, &keys, &answers)?;
                }
            }
            let mut file = laid.file.clone();
            for _ in 0..random.below(3) {
                damage(&mut file, &laid, Damage::any(&mut random), &mut random);
            }
            for runs in [Runs::of(&file, &mut random), right] {
                let keys = cut(&joined, &mut random);
                let room = random.below(joined.len() / 4 + 3);
                self.check(&file, &runs, keys, room)?;
                self.check(&file, &runs.longer(&mut random), keys, room)?;
                self.check(&file, &runs.altered(&mut random), keys, room)?;
                self.check(&laid.file, &runs.altered(&mut random), keys, room)?;
                let short = runs.rows() - random.below(runs.rows().min(2) + 1);
                let runs = runs.with_length(random.below(RUNS), short, &mut random);
                self.check(&file, &runs, keys, room)?;
            }
        }
        Ok(())
    }

    /// Files of the limit and just longer ones, with their tables, and these with
    /// another number in the last row.
    fn long_files(&mut self) -> Checked {
        let mut random = self.random(Part::LongFiles, 0);
        for sort in 0..3 {
            let mut long = |len: usize| match sort {
                0 => flat(len).file,
                1 => wide(&mut random, len).file,
                _ => deep(len).file,
            };
            let (exact, longer) = (long(LIMIT), long(LIMIT + 1));
            let runs = Runs::of(&exact, &mut random);
            self.check(&exact, &runs, KEYS, KEY_COUNT)?;
            self.check(&longer, &runs, KEYS, KEY_COUNT)?;
            self.check(&exact[..LIMIT - 1], &runs, KEYS, KEY_COUNT)?;
            let last = runs.rows() - 1;
            for run in 0..RUNS {
                let number = any_number(runs.0[run][last], &mut random);
                self.check(&exact, &runs.with(run, last, number), KEYS, KEY_COUNT)?;
            }
        }
        Ok(())
    }
}

/// One of the files of a few bytes, or a small one that is made up.
fn small(item: u64, random: &mut Random) -> Vec<u8> {
    match item {
        0 => P11.to_vec(),
        1 => P12.to_vec(),
        2 => EVERY_TYPE.to_vec(),
        _ => Laid::of(&Object::small(random)).file,
    }
}

/// All keys, or some first bytes of them.
fn cut<'a>(keys: &'a [u8], random: &mut Random) -> &'a [u8] {
    if random.one_in(2) {
        keys
    } else {
        &keys[..random.below(keys.len() + 1)]
    }
}
