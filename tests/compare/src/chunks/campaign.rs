//! The files a run cuts, and how.

use super::altered::check_altered;
use super::feeding::check_cut;
use super::stores::Stores;
use super::tally::Tally;
use crate::campaign::damages;
use crate::difference::Checked;
use generate::{damage, fixed_files, Cutting, Damage, Palette, Random, P3, P4};
use proved::stream::{feed, start};
use reference::{LIMIT, MAX_COLOURS};

/// Files that are cut at each of their places.
const SMALL_FILES: u64 = 60;
/// A file that is made up for so many of a run's number.
const FILES_A_CUT: u64 = 4;
const FILES_AN_ALTERED: u64 = 6;
/// The most bytes that are fed before a stream is altered, and after it.
const FED_BEFORE: usize = 120;

/// The parts of a run, each with its own source of numbers.
#[derive(Clone, Copy)]
enum Part {
    Fixed,
    Places,
    Bytes,
    Damaged,
    Most,
    Long,
    Altered,
}

struct Campaign {
    seed: u64,
    stores: Stores,
    tally: Tally,
}

/// Goes through made-up files, some for each so many of `files`, and through the
/// fixed, the exhaustive and the long ones besides, up to the first difference.
pub fn run(seed: u64, files: u64) -> Checked<Tally> {
    let mut campaign = Campaign {
        seed,
        stores: Stores::new(),
        tally: Tally::default(),
    };
    campaign.fixed()?;
    campaign.every_place()?;
    campaign.every_byte()?;
    campaign.damaged_files(files / FILES_A_CUT)?;
    campaign.most_colours()?;
    campaign.long_files()?;
    campaign.altered(files / FILES_AN_ALTERED)?;
    Ok(campaign.tally)
}

impl Campaign {
    fn random(&self, part: Part, item: u64) -> Random {
        Random::for_part(self.seed, (part as u64) << 40 | item)
    }

    fn cut(&mut self, file: &[u8], places: &[usize], random: &mut Random) -> Checked {
        check_cut(file, places, &mut self.stores, random, &mut self.tally)
    }

    /// Every way to cut a file, whose fields lie as a palette has them.
    fn every_way(&mut self, file: &[u8], palette: &Palette, random: &mut Random) -> Checked {
        Cutting::ALL.iter().try_for_each(|cutting| {
            let places = cutting.places(palette, file.len(), random);
            self.cut(file, &places, random)
        })
    }

    fn fixed(&mut self) -> Checked {
        let mut random = self.random(Part::Fixed, 0);
        let palette = Palette::small(&mut random);
        for fixed in fixed_files() {
            if fixed.file.len() > LIMIT {
                continue;
            }
            self.every_way(&fixed.file, &palette, &mut random)?;
        }
        Ok(())
    }

    /// Small files, sound and damaged, cut at each place and in all their bytes.
    fn every_place(&mut self) -> Checked {
        let mut random = self.random(Part::Places, 0);
        self.places(P3, &mut random)?;
        self.places(P4, &mut random)?;
        for item in 1..=SMALL_FILES {
            let mut random = self.random(Part::Places, item);
            let palette = Palette::small(&mut random);
            let mut file = palette.file();
            self.places(&file, &mut random)?;
            damage(&mut file, &palette, Damage::any(&mut random), &mut random);
            self.places(&file, &mut random)?;
            self.every_way(&file, &palette, &mut random)?;
        }
        Ok(())
    }

    /// A file cut at each place, and at two places next to each other, with a chunk
    /// of no bytes and without; and each of its fronts as a file of its own.
    fn places(&mut self, file: &[u8], random: &mut Random) -> Checked {
        for place in 0..=file.len() {
            self.cut(file, &[place], random)?;
            self.cut(file, &[place, place], random)?;
            self.cut(file, &[place, (place + 1).min(file.len())], random)?;
            self.cut(&file[..place], &[place / 2], random)?;
        }
        let bytes: Vec<usize> = (1..file.len()).collect();
        self.cut(file, &bytes, random)
    }

    /// P3 with each of its bytes at each of its values, cut at that byte.
    fn every_byte(&mut self) -> Checked {
        let mut random = self.random(Part::Bytes, 0);
        for place in 0..P3.len() {
            let mut file = P3.to_vec();
            for byte in 0..=u8::MAX {
                file[place] = byte;
                self.cut(&file, &[place], &mut random)?;
            }
        }
        Ok(())
    }

    fn damaged_files(&mut self, files: u64) -> Checked {
        for item in 0..files {
            let mut random = self.random(Part::Damaged, item);
            let palette = Palette::any(&mut random);
            let mut file = palette.file();
            for _ in 0..damages(&mut random) {
                damage(&mut file, &palette, Damage::any(&mut random), &mut random);
            }
            let cutting = random.pick(&Cutting::ALL);
            let places = cutting.places(&palette, file.len(), &mut random);
            self.cut(&file, &places, &mut random)?;
        }
        Ok(())
    }

    /// As many colours as a store holds, each damage, each way to cut.
    fn most_colours(&mut self) -> Checked {
        for (item, kind) in (0..).zip(Damage::ALL) {
            let mut random = self.random(Part::Most, item);
            let palette = Palette::named(&mut random, MAX_COLOURS, |random| random.below(3));
            let mut file = palette.file();
            damage(&mut file, &palette, kind, &mut random);
            let cutting = Cutting::ALL[item as usize % Cutting::ALL.len()];
            let places = cutting.places(&palette, file.len(), &mut random);
            self.cut(&file, &places, &mut random)?;
        }
        Ok(())
    }

    /// Files of the limit, sound and damaged, and longer ones, also with a fault
    /// before the limit.
    fn long_files(&mut self) -> Checked {
        let mut random = self.random(Part::Long, 0);
        for (colours, step) in [(1, 65_536), (MAX_COLOURS, 1_500)] {
            let even = |len: usize| -> Vec<usize> { (step..len).step_by(step).collect() };
            let palette = Palette::of_length(&mut random, colours, LIMIT);
            let mut file = palette.file();
            self.cut(&file, &even(LIMIT), &mut random)?;
            file.push(0);
            self.cut(&file, &even(LIMIT + 1), &mut random)?;
            self.cut(&file, &[LIMIT, LIMIT], &mut random)?;
            self.cut(&file, &[LIMIT - 1], &mut random)?;
            damage(&mut file, &palette, Damage::LastRecordDiffers, &mut random);
            self.cut(&file, &even(LIMIT + 1), &mut random)?;
            self.cut(&file[..LIMIT], &even(LIMIT), &mut random)?;
            file[1] = 0;
            self.cut(&file, &[LIMIT / 2, LIMIT + 1], &mut random)?;
            self.cut(&file[..LIMIT], &[1], &mut random)?;
        }
        Ok(())
    }

    /// Streams altered behind the front of a file, and fed the rest of it.
    fn altered(&mut self, streams: u64) -> Checked {
        for item in 0..streams {
            let mut random = self.random(Part::Altered, item);
            let file = Palette::small(&mut random).file();
            let (front, back) = file.split_at(random.below(FED_BEFORE.min(file.len() + 1)));
            let mut stream = start(self.stores.for_library()).stream;
            stream = feed(stream, self.stores.for_library(), front).stream;
            self.stores.restore(front.len());
            let (stores, tally) = (&mut self.stores, &mut self.tally);
            check_altered(stream, back, stores, &mut random, tally)?;
        }
        Ok(())
    }
}
