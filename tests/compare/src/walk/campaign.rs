//! The files a run walks over.

use super::tally::Tally;
use super::{aco, ase};
use crate::campaign::damages;
use crate::difference::Checked;
use generate::ase as generate_ase;
use generate::{damage, fixed_files, Damage, Palette, Random, P3};
use reference::ase::HEAD_LEN as FIRST_BLOCK;
use reference::{COLOUR_LEN, HEAD_LEN, LIMIT, MAX_COLOURS};

/// Files of each format that are walked over at each of their lengths.
const SMALL_FILES: u64 = 60;
/// One made-up file in so many is of few kinds of bytes.
const FILES_A_DENSE: u64 = 4;
const DENSE_LEN: usize = 120;
/// Bytes of which records are made up that are sound at many places: those of
/// known spaces, short counts and closing zeros.
const DENSE: [u8; 8] = [0, 0, 0, 0, 0, 1, 2, 7];
/// Colours whose names fill a file of the limit and more; in ASE fewer cannot,
/// since the units of a name are counted in 16 bits.
const LONG_COLOURS: usize = 200;
/// A group without a name and its end: 16 bytes.
const GROUPS_WITHIN_LIMIT: usize = (LIMIT - FIRST_BLOCK) / 16;

/// The parts of a run, each with its own source of numbers.
#[derive(Clone, Copy)]
enum Part {
    Prefixes,
    Damaged,
    Dense,
    Long,
    TooLong,
    TooMany,
}

struct Campaign {
    seed: u64,
    tally: Tally,
}

/// Walks over `files` made-up files of each format, and over the fixed, the
/// exhaustive and the long ones besides, up to the first difference.
pub fn run(seed: u64, files: u64) -> Checked<Tally> {
    let mut campaign = Campaign {
        seed,
        tally: Tally::default(),
    };
    campaign.fixed()?;
    campaign.every_byte()?;
    campaign.every_prefix()?;
    campaign.damaged_files(files)?;
    campaign.dense_files(files / FILES_A_DENSE)?;
    campaign.long_files()?;
    campaign.too_long_files()?;
    campaign.too_many_colours()?;
    Ok(campaign.tally)
}

impl Campaign {
    fn random(&self, part: Part, item: u64) -> Random {
        Random::for_part(self.seed, (part as u64) << 40 | item)
    }

    fn aco(&mut self, file: &[u8]) -> Checked {
        aco::check_file(file, &mut self.tally.aco)
    }

    fn ase(&mut self, file: &[u8]) -> Checked {
        ase::check_file(file, &mut self.tally.ase, &mut self.tally.ase_blocks)
    }

    /// Each format's files as the other's, too.
    fn both(&mut self, file: &[u8]) -> Checked {
        self.aco(file)?;
        self.ase(file)
    }

    fn fixed(&mut self) -> Checked {
        for fixed in fixed_files() {
            self.both(&fixed.file)?;
        }
        for fixed in generate_ase::fixed_files() {
            self.both(&fixed.file)?;
        }
        Ok(())
    }

    /// P3 and P6 with each of their bytes at each of its values.
    fn every_byte(&mut self) -> Checked {
        each_byte(P3, |file| self.aco(file))?;
        each_byte(generate_ase::P6, |file| self.ase(file))
    }

    /// Small files, sound and damaged, at each of their lengths. What was cut
    /// off still lies behind the lent part, so that reading past the end gives a
    /// wrong answer.
    fn every_prefix(&mut self) -> Checked {
        for item in 0..SMALL_FILES {
            let mut random = self.random(Part::Prefixes, item);
            let palette = Palette::small(&mut random);
            let mut file = palette.file();
            each_length(&file, |file| self.aco(file))?;
            damage(&mut file, &palette, Damage::any(&mut random), &mut random);
            each_length(&file, |file| self.aco(file))?;
            let mut file = generate_ase::Palette::small(&mut random).file();
            each_length(&file, |file| self.ase(file))?;
            damage_ase(&mut file, &mut random);
            each_length(&file, |file| self.ase(file))?;
        }
        Ok(())
    }

    fn damaged_files(&mut self, files: u64) -> Checked {
        for item in 0..files {
            let mut random = self.random(Part::Damaged, item);
            let palette = Palette::any(&mut random);
            let mut file = palette.file();
            for _ in 0..damages(&mut random) {
                damage(&mut file, &palette, Damage::any(&mut random), &mut random);
            }
            self.aco(&file)?;
            let mut file = generate_ase::Palette::any(&mut random).file();
            for _ in 0..damages(&mut random) {
                damage_ase(&mut file, &mut random);
            }
            self.ase(&file)?;
        }
        Ok(())
    }

    /// Files in which records begin at many places, and inside of each other.
    fn dense_files(&mut self, files: u64) -> Checked {
        for item in 0..files {
            let mut random = self.random(Part::Dense, item);
            let file = dense_aco(&mut random);
            self.aco(&file)?;
            let file = dense_ase(&mut random);
            self.ase(&file)?;
        }
        Ok(())
    }

    /// Files of the limit, one of them of groups alone, which one colour step
    /// passes over.
    fn long_files(&mut self) -> Checked {
        let mut random = self.random(Part::Long, 0);
        self.aco(&Palette::of_length(&mut random, LONG_COLOURS, LIMIT).file())?;
        self.ase(&generate_ase::Palette::of_length(&mut random, LONG_COLOURS, LIMIT).file())?;
        self.ase(&generate_ase::Palette::empty_groups(GROUPS_WITHIN_LIMIT).file())
    }

    /// Files just longer than the limit: no walk starts there, but a step is
    /// not refused for it.
    fn too_long_files(&mut self) -> Checked {
        let mut random = self.random(Part::TooLong, 0);
        let len = LIMIT + 2;
        let past = [len - 1, len, len + 1, usize::MAX];
        let palette = Palette::of_length(&mut random, LONG_COLOURS, len);
        let places = [&palette.layout().named[..], &past].concat();
        aco::check_at(&palette.file(), &places, &mut self.tally.aco)?;
        let file = generate_ase::Palette::of_length(&mut random, LONG_COLOURS, len).file();
        let places = [&[FIRST_BLOCK], &past[..]].concat();
        let Tally {
            ase, ase_blocks, ..
        } = &mut self.tally;
        ase::check_at(&file, &places, ase, ase_blocks)
    }

    /// A list 1 alone of more colours than may be: no walk starts there, but a
    /// step asks of the count only whether the list is alone.
    fn too_many_colours(&mut self) -> Checked {
        let mut random = self.random(Part::TooMany, 0);
        for colours in [MAX_COLOURS + 1, usize::from(u16::MAX)] {
            let file = Palette::plain(&mut random, colours).file();
            let places: Vec<usize> = (HEAD_LEN..=file.len()).step_by(COLOUR_LEN).collect();
            aco::check_at(&file, &places, &mut self.tally.aco)?;
        }
        Ok(())
    }
}

fn each_byte(file: &[u8], mut check: impl FnMut(&[u8]) -> Checked) -> Checked {
    for place in 0..file.len() {
        let mut file = file.to_vec();
        for byte in 0..=u8::MAX {
            file[place] = byte;
            check(&file)?;
        }
    }
    Ok(())
}

fn each_length(file: &[u8], mut check: impl FnMut(&[u8]) -> Checked) -> Checked {
    (0..=file.len()).try_for_each(|len| check(&file[..len]))
}

fn damage_ase(file: &mut Vec<u8>, random: &mut Random) {
    generate_ase::damage(file, generate_ase::Damage::any(random), random);
}

/// Bytes of few kinds, half of them as long as their count says of list 1.
fn dense_aco(random: &mut Random) -> Vec<u8> {
    let len = random.below(DENSE_LEN);
    let mut file: Vec<u8> = (0..len).map(|_| random.pick(&DENSE)).collect();
    if random.one_in(2) {
        let colours = len / COLOUR_LEN;
        file.resize(HEAD_LEN + colours * COLOUR_LEN, 0);
        file[2..4].copy_from_slice(&(colours as u16).to_be_bytes());
    }
    file
}

/// A sound file's blocks, some of them again with a few bytes before them, so
/// that they are found at any place and in any order.
fn dense_ase(random: &mut Random) -> Vec<u8> {
    let mut file = generate_ase::Palette::small(random).file();
    let blocks = file[FIRST_BLOCK..].to_vec();
    let from = random.below(blocks.len() + 1);
    let between = random.below(4);
    file.extend((0..between).map(|_| random.pick(&DENSE)));
    file.extend(&blocks[from..]);
    file.extend(&blocks);
    file
}
