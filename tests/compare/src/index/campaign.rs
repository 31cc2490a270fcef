//! The books, indexes and names a run goes through.

use super::finding::{check_build, check_find};
use super::tally::Tally;
use crate::campaign::damages;
use crate::difference::{agree, agree_runs, Checked};
use generate::acb::{damage, fixed_files, Book, Colour, Damage, IndexChange};
use generate::Random;
use reference::acb::MAX_COLOURS;
use reference::LIMIT;

/// A book for so many of a run's number.
const FILES_A_BOOK: u64 = 12;
const FILES_A_DAMAGED: u64 = 12;
/// Names that are looked for in a book.
const NAMES: usize = 6;
/// Books of which every run of entries is tried as an index.
const EVERY_ORDER: u64 = 40;
/// In longer books not every name is looked for.
const FEW_COLOURS: usize = 40;

/// The parts of a run, each with its own source of numbers.
#[derive(Clone, Copy)]
enum Part {
    Fixed,
    Orders,
    Books,
    Kept,
    Damaged,
    Long,
}

struct Campaign {
    seed: u64,
    tally: Tally,
}

/// Goes through made-up books, some for each so many of `files`, and through the fixed,
/// the exhaustive and the long ones besides, up to the first difference.
pub fn run(seed: u64, files: u64) -> Checked<Tally> {
    let mut campaign = Campaign {
        seed,
        tally: Tally::default(),
    };
    campaign.fixed()?;
    campaign.every_order()?;
    campaign.books(files / FILES_A_BOOK)?;
    campaign.kept(files / FILES_A_BOOK)?;
    campaign.damaged(files / FILES_A_DAMAGED)?;
    campaign.long()?;
    Ok(campaign.tally)
}

impl Campaign {
    fn random(&self, part: Part, item: u64) -> Random {
        Random::for_part(self.seed, (part as u64) << 40 | item)
    }

    fn build(&mut self, file: &[u8], random: &mut Random) -> Checked<Vec<u32>> {
        check_build(file, random, &mut self.tally)
    }

    fn find(&mut self, file: &[u8], index: &[u32], name: &[u16]) -> Checked {
        check_find(file, index, name, &mut self.tally)
    }

    fn fixed(&mut self) -> Checked {
        let mut random = self.random(Part::Fixed, 0);
        for fixed in fixed_files() {
            let index = self.build(&fixed.file, &mut random)?;
            for name in [&[][..], &[0], &[0x41], &[0x41, 0x42]] {
                self.find(&fixed.file, &index, name)?;
                self.find(&fixed.file, &[], name)?;
                self.find(&fixed.file, &[0, 1, 2, 3], name)?;
            }
        }
        Ok(())
    }

    /// Books of a few colours, and as an index every run of so many entries and of one
    /// more: one alone is right.
    fn every_order(&mut self) -> Checked {
        for item in 0..EVERY_ORDER {
            let mut random = self.random(Part::Orders, item);
            let mut book = Book::shown(&mut random, 1 + item as usize % 4);
            if random.one_in(2) {
                let dummy = random.below(book.colours.len());
                book.colours[dummy].name.clear();
            }
            let file = book.file();
            let colours = book.colours.len();
            let name = book.looked_for(&mut random);
            let kinds = colours + 1;
            for len in 0..=colours {
                for code in 0..kinds.pow(len as u32) {
                    let digit = |place: usize| (code / kinds.pow(place as u32) % kinds) as u32;
                    let index: Vec<u32> = (0..len).map(digit).collect();
                    self.find(&file, &index, &name)?;
                }
            }
        }
        Ok(())
    }

    /// Books with their own index, by which names that are there and others are found,
    /// and with changed ones.
    fn books(&mut self, books: u64) -> Checked {
        for item in 0..books {
            let mut random = self.random(Part::Books, item);
            let book = Book::of_pickers(&mut random);
            let file = book.file();
            let index = self.build(&file, &mut random)?;
            agree_runs(|| "the made-up index".into(), &book.index(), &index)?;
            if book.colours.len() <= FEW_COLOURS {
                for colour in &book.colours {
                    self.find(&file, &index, &colour.name)?;
                }
            }
            for _ in 0..NAMES {
                let name = book.looked_for(&mut random);
                self.find(&file, &index, &name)?;
                let mut changed = index.clone();
                for _ in 0..damages(&mut random) {
                    let change = random.pick(&IndexChange::ALL);
                    change.change(&mut changed, book.colours.len(), &mut random);
                }
                self.find(&file, &changed, &name)?;
            }
        }
        Ok(())
    }

    /// An index kept past changes to its book.
    fn kept(&mut self, books: u64) -> Checked {
        for item in 0..books {
            let mut random = self.random(Part::Kept, item);
            let mut book = Book::of_pickers(&mut random);
            let kept = book.index();
            for _ in 0..random.pick(&[1, 1, 1, 2]) {
                book.change(&mut random);
            }
            let file = book.file();
            let name = book.looked_for(&mut random);
            self.find(&file, &kept, &name)?;
            let right = kept.starts_with(&book.index());
            let refused = reference::acb::find(&file, &kept, &name);
            let refused = matches!(refused, Err(refusal) if refusal.number == 5);
            agree(|| "a kept index".into(), &right, &!refused)?;
        }
        Ok(())
    }

    fn damaged(&mut self, books: u64) -> Checked {
        for item in 0..books {
            let mut random = self.random(Part::Damaged, item);
            let book = Book::of_pickers(&mut random);
            let mut file = book.file();
            for _ in 0..1 + damages(&mut random) {
                damage(&mut file, &book, Damage::any(&mut random), &mut random);
            }
            let index = self.build(&file, &mut random)?;
            let name = book.looked_for(&mut random);
            self.find(&file, &index, &name)?;
            self.find(&file, &book.index(), &name)?;
        }
        Ok(())
    }

    /// As many colours as there may be: with few names, with one name, in order, in the
    /// other order, and of the limit; and a book that is too long.
    fn long(&mut self) -> Checked {
        let mut random = self.random(Part::Long, 0);
        let few = Book::shown(&mut random, MAX_COLOURS);
        let mut one = few.clone();
        for colour in &mut one.colours {
            colour.name = vec![0x41; 8];
        }
        let mut numbered = few.clone();
        for (number, colour) in (1..).zip(&mut numbered.colours) {
            colour.name = vec![0x41, number];
        }
        let mut backward = numbered.clone();
        backward.colours.reverse();
        let whole = Book::of_length(&mut random, 4_000, LIMIT);
        for book in [&few, &one, &numbered, &backward, &whole] {
            self.long_book(book, &mut random)?;
        }
        let mut file = whole.file();
        file.push(0);
        self.build(&file, &mut random)?;
        self.find(&file, &whole.index(), &[0x41])?;
        // Two names that are one long beginning, and differ at the end.
        let mut pair = Book::of_length(&mut random, 2, LIMIT / 4);
        let name = pair.colours[0].name.clone();
        pair.colours[1] = Colour {
            name,
            ..pair.colours[1].clone()
        };
        for _ in 0..2 {
            self.long_book(&pair, &mut random)?;
            if let Some(last) = pair.colours[0].name.last_mut() {
                *last ^= 1;
            }
        }
        Ok(())
    }

    fn long_book(&mut self, book: &Book, random: &mut Random) -> Checked {
        let file = book.file();
        let index = self.build(&file, random)?;
        agree_runs(|| "the made-up index".into(), &book.index(), &index)?;
        for _ in 0..3 {
            let name = book.looked_for(random);
            self.find(&file, &index, &name)?;
            let mut changed = index.clone();
            let change = random.pick(&IndexChange::ALL);
            change.change(&mut changed, book.colours.len(), random);
            self.find(&file, &changed, &name)?;
        }
        Ok(())
    }
}
