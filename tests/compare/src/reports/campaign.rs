//! The files and reports a run goes through.

use super::reporting::{check_add, check_merge};
use super::tally::Tally;
use crate::campaign::damages;
use crate::difference::{agree, Checked};
use generate::{acb, ase, damage, descriptor, Damage, Palette, Random};
use reference::report::{Totals, TOTALS};
use reference::{kind, LIMIT, MAX_COLOURS};

/// A run of files for so many of a run's number, and how long it is at the most.
const FILES_A_RUN: u64 = 24;
const RUN: usize = 12;
const FILES_A_MERGE: u64 = 3;
/// Numbers that are no kind's; some are once cut to fewer bits.
const WRONG_KINDS: [u32; 7] = [4, 5, 7, 0x100, 0x1_0000, 0x1_0003, u32::MAX];

/// The parts of a run, each with its own source of numbers.
#[derive(Clone, Copy)]
enum Part {
    Fixed,
    Kinds,
    Places,
    Runs,
    Full,
    Merges,
    Long,
}

struct Campaign {
    seed: u64,
    tally: Tally,
}

/// A file as a caller says it is.
type Said = (u32, Vec<u8>);

/// Goes through runs of made-up files, some for each so many of `files`, and through
/// the fixed and the long ones besides, up to the first difference.
pub fn run(seed: u64, files: u64) -> Checked<Tally> {
    let mut campaign = Campaign {
        seed,
        tally: Tally::default(),
    };
    campaign.fixed()?;
    campaign.every_kind()?;
    campaign.every_place()?;
    campaign.runs(files / FILES_A_RUN)?;
    campaign.full(files / FILES_A_MERGE)?;
    campaign.merges(files / FILES_A_MERGE)?;
    campaign.long()?;
    Ok(campaign.tally)
}

impl Campaign {
    fn random(&self, part: Part, item: u64) -> Random {
        Random::for_part(self.seed, (part as u64) << 40 | item)
    }

    fn add(&mut self, totals: Totals, kind: u32, file: &[u8]) -> Checked<Totals> {
        check_add(totals, kind, file, &mut self.tally)
    }

    /// Every fixed file as each kind, to one report; and with each total full in turn.
    fn fixed(&mut self) -> Checked {
        let mut random = self.random(Part::Fixed, 0);
        let mut totals = any_totals(&mut random);
        for file in fixed() {
            for kind in 0..4 {
                totals = self.add(totals, kind, &file)?;
                self.add([0; TOTALS], kind, &file)?;
                if file.len() > LIMIT {
                    continue;
                }
                for index in 0..TOTALS {
                    let mut full = [0; TOTALS];
                    full[index] = u32::MAX;
                    self.add(full, kind, &file)?;
                }
            }
        }
        Ok(())
    }

    /// A kind that there is not comes before all else.
    fn every_kind(&mut self) -> Checked {
        let mut random = self.random(Part::Kinds, 0);
        let file = Palette::small(&mut random).file();
        for kind in WRONG_KINDS {
            for file in [&file[..], &[]] {
                for totals in [[0; TOTALS], [u32::MAX; TOTALS], any_totals(&mut random)] {
                    self.add(totals, kind, file)?;
                }
            }
        }
        Ok(())
    }

    /// Each total just below the bound, by exactly what a file adds to it, by one less,
    /// and by one more.
    fn every_place(&mut self) -> Checked {
        for item in 0..200 {
            let mut random = self.random(Part::Places, item);
            let (kind, file) = any_file(&mut random);
            let one = reference::report::add(&[0; TOTALS], kind, &file).totals;
            for index in 0..TOTALS {
                for spare in [one[index].saturating_sub(1), one[index], one[index] + 1] {
                    let mut totals = any_totals(&mut random).map(|total| total / 2);
                    totals[index] = u32::MAX - spare;
                    self.add(totals, kind, &file)?;
                }
            }
        }
        Ok(())
    }

    /// Files in one order, in another, and in two parts that are merged: one report.
    fn runs(&mut self, runs: u64) -> Checked {
        for item in 0..runs {
            let mut random = self.random(Part::Runs, item);
            let files: Vec<Said> = (0..random.below(RUN + 1))
                .map(|_| any_file(&mut random))
                .collect();
            let begun = [0; TOTALS];
            let whole = self.all(begun, files.iter())?;
            let mut turned: Vec<&Said> = files.iter().collect();
            for index in (1..turned.len()).rev() {
                turned.swap(index, random.below(index + 1));
            }
            let again = self.all(begun, turned.iter().copied())?;
            agree(|| "files in another order".into(), &whole, &again)?;
            let (front, back) = turned.split_at(random.below(turned.len() + 1));
            let [front, back] = [front, back];
            let front = self.all(begun, front.iter().copied())?;
            let back = self.all(begun, back.iter().copied())?;
            for (first, second) in [(front, back), (back, front)] {
                let merged = check_merge(first, second, &mut self.tally)?;
                let merged = merged.report.totals;
                agree(|| "files in two parts".into(), &whole, &merged)?;
            }
            self.tally.run();
        }
        Ok(())
    }

    fn all<'a>(&mut self, begun: Totals, files: impl Iterator<Item = &'a Said>) -> Checked<Totals> {
        let mut totals = begun;
        for (kind, file) in files {
            totals = self.add(totals, *kind, file)?;
        }
        Ok(totals)
    }

    /// Reports whose totals are near the bound.
    fn full(&mut self, files: u64) -> Checked {
        for item in 0..files {
            let mut random = self.random(Part::Full, item);
            let (kind, file) = any_file(&mut random);
            let totals = near_the_bound(&mut random);
            self.add(totals, kind, &file)?;
        }
        Ok(())
    }

    fn merges(&mut self, merges: u64) -> Checked {
        for index in 0..TOTALS {
            for (first, second) in [
                (u32::MAX, 0),
                (u32::MAX, 1),
                (u32::MAX - 1, 1),
                (1 << 31, 1 << 31),
            ] {
                let [mut a, mut b] = [[0; TOTALS]; 2];
                (a[index], b[index]) = (first, second);
                check_merge(a, b, &mut self.tally)?;
                check_merge(b, a, &mut self.tally)?;
            }
        }
        for item in 0..merges {
            let mut random = self.random(Part::Merges, item);
            let first = near_the_bound(&mut random);
            let second = if random.one_in(2) {
                // What just fits, save perhaps for one.
                let mut rest = first.map(|total| u32::MAX - total);
                let index = random.below(TOTALS);
                rest[index] = rest[index].wrapping_add(random.below(2) as u32);
                rest
            } else {
                near_the_bound(&mut random)
            };
            check_merge(first, second, &mut self.tally)?;
        }
        Ok(())
    }

    /// Files of the limit, and longer ones, of each kind.
    fn long(&mut self) -> Checked {
        let mut random = self.random(Part::Long, 0);
        let long = [
            (
                kind::ACO,
                Palette::of_length(&mut random, MAX_COLOURS, LIMIT).file(),
            ),
            (
                kind::ASE,
                ase::Palette::uniform(&mut random, 599_000, 0).file(),
            ),
            (kind::ASE, ase::Palette::empty_groups(1_000_000).file()),
            (
                kind::ACB,
                acb::Book::of_length(&mut random, acb_most(), LIMIT).file(),
            ),
            (kind::DESCRIPTOR, descriptor::flat(LIMIT).file),
        ];
        let mut totals = any_totals(&mut random).map(|total| total / 2);
        for (kind, mut file) in long {
            totals = self.add(totals, kind, &file)?;
            let places = [file.len() - 1, file.len() / 2];
            for place in places {
                file[place] ^= 1;
                totals = self.add(totals, kind, &file)?;
                file[place] ^= 1;
            }
            file.resize(LIMIT + 1, 0);
            totals = self.add(totals, kind, &file)?;
            self.add([u32::MAX; TOTALS], kind, &file)?;
        }
        Ok(())
    }
}

fn acb_most() -> usize {
    reference::acb::MAX_COLOURS
}

/// The fixed files of all kinds.
fn fixed() -> Vec<Vec<u8>> {
    let mut files: Vec<Vec<u8>> = Vec::new();
    files.extend(generate::fixed_files().into_iter().map(|fixed| fixed.file));
    files.extend(ase::fixed_files().into_iter().map(|fixed| fixed.file));
    files.extend(acb::fixed_files().into_iter().map(|fixed| fixed.file));
    files.extend(
        descriptor::fixed_files()
            .into_iter()
            .map(|fixed| fixed.file),
    );
    files
}

/// A file of any kind, sound or damaged, and now and then said to be another.
fn any_file(random: &mut Random) -> Said {
    let times = damages(random) * random.below(2);
    let kind = random.below(4) as u32;
    let mut file;
    match kind {
        kind::ACO => {
            let palette = Palette::any(random);
            file = palette.file();
            for _ in 0..times {
                damage(&mut file, &palette, Damage::any(random), random);
            }
        }
        kind::ASE => {
            file = ase::Palette::any(random).file();
            for _ in 0..times {
                ase::damage(&mut file, ase::Damage::any(random), random);
            }
        }
        kind::ACB => {
            let book = acb::Book::any(random);
            file = book.file();
            for _ in 0..times {
                acb::damage(&mut file, &book, acb::Damage::any(random), random);
            }
        }
        _ => {
            let laid = descriptor::Laid::of(&descriptor::Object::any(random));
            file = laid.file.clone();
            for _ in 0..times {
                let damage = descriptor::Damage::any(random);
                descriptor::damage(&mut file, &laid, damage, random);
            }
        }
    }
    if random.one_in(30) {
        return (random.below(4) as u32, file);
    }
    (kind, file)
}

fn any_totals(random: &mut Random) -> Totals {
    std::array::from_fn(|_| random.u32())
}

/// Zeros, small numbers, the most, or a little less.
fn near_the_bound(random: &mut Random) -> Totals {
    let chances = random.pick(&[2, 8, 40]);
    std::array::from_fn(|_| {
        if random.one_in(chances) {
            u32::MAX - random.below(4) as u32
        } else {
            random.pick(&[0, 1, 7, 0x7FFF_FFFF, 0x8000_0000])
        }
    })
}
