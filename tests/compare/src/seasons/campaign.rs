//! The pairs of palettes a run goes through.

use super::comparing::{check_briefly, check_pair};
use super::tally::Tally;
use crate::campaign::damages;
use crate::difference::Checked;
use generate::{
    ase, damage, fixed_files, Change, Colour, Damage, Palette, Random, Season, CMYK_TAG, GRAY_TAG,
    ONE, P3, RGB_TAG,
};
use reference::season;
use reference::{kind, to_channel, LIMIT, MAX_COLOURS};

/// A pair for so many of a run's number.
const FILES_A_PAIR: u64 = 6;
const FILES_A_DAMAGED: u64 = 6;
/// Fixed files that are longer are left to the long ones.
const SHORT: usize = 4096;
/// Numbers that are no palette's kind; some are once cut to fewer bits.
const WRONG_KINDS: [u32; 7] = [2, 3, 4, 0x100, 0x1_0000, 0x1_0001, u32::MAX];
/// Palettes in which each position is changed in every way.
const CHANGED: u64 = 12;
/// RGB colours without a name in about 16 MiB of ASE, of 28 bytes each.
const MANY: usize = 599_000;

/// The parts of a run, each with its own source of numbers.
#[derive(Clone, Copy)]
enum Part {
    Kinds,
    Changes,
    Pairs,
    Damaged,
    Long,
}

struct Campaign {
    seed: u64,
    tally: Tally,
}

/// Goes through made-up pairs, some for each so many of `files`, and through the fixed,
/// the exhaustive and the long ones besides, up to the first difference.
pub fn run(seed: u64, files: u64) -> Checked<Tally> {
    let mut campaign = Campaign {
        seed,
        tally: Tally::default(),
    };
    campaign.fixed()?;
    campaign.every_kind()?;
    campaign.every_sample()?;
    campaign.every_change()?;
    campaign.pairs(files / FILES_A_PAIR)?;
    campaign.damaged(files / FILES_A_DAMAGED)?;
    campaign.long()?;
    Ok(campaign.tally)
}

fn said(kind: u32, file: &[u8]) -> season::Palette<'_> {
    season::Palette { kind, file }
}

impl Campaign {
    fn random(&self, part: Part, item: u64) -> Random {
        Random::for_part(self.seed, (part as u64) << 40 | item)
    }

    fn both_ways(&mut self, first: &Season, second: &Season, random: &mut Random) -> Checked {
        let (first_file, second_file) = (first.file(), second.file());
        let first = said(first.kind(), &first_file);
        let second = said(second.kind(), &second_file);
        check_pair([first, second], random, &mut self.tally)?;
        check_pair([second, first], random, &mut self.tally)
    }

    /// Every two of the fixed files, and each said to be what it is not.
    fn fixed(&mut self) -> Checked {
        let aco = fixed_files()
            .into_iter()
            .map(|fixed| (kind::ACO, fixed.file));
        let ase = ase::fixed_files()
            .into_iter()
            .map(|fixed| (kind::ASE, fixed.file));
        let mut files: Vec<(u32, Vec<u8>)> = aco.chain(ase).collect();
        files.retain(|(_, file)| file.len() <= SHORT);
        for (kind, file) in &files {
            for (other_kind, other) in &files {
                let pair = [said(*kind, file), said(*other_kind, other)];
                check_briefly(pair, &mut self.tally)?;
            }
            for other in [said(*kind, file), said(1 - kind, file), said(kind::ACO, P3)] {
                check_briefly([said(1 - kind, file), other], &mut self.tally)?;
            }
        }
        Ok(())
    }

    /// A kind that the call does not take comes before all else.
    fn every_kind(&mut self) -> Checked {
        let mut random = self.random(Part::Kinds, 0);
        let file = Palette::small(&mut random).file();
        for wrong in WRONG_KINDS {
            for right in [kind::ACO, kind::ASE, wrong] {
                for bytes in [&file[..], &[]] {
                    let pair = [said(wrong, bytes), said(right, &file)];
                    check_pair(pair, &mut random, &mut self.tally)?;
                    let pair = [said(right, &file), said(wrong, bytes)];
                    check_pair(pair, &mut random, &mut self.tally)?;
                }
            }
        }
        Ok(())
    }

    /// Every sample of every space against the very bits that it converts to, against
    /// those beside them, and a zero against minus zero.
    fn every_sample(&mut self) -> Checked {
        let twins = [
            (0, RGB_TAG, 65_535),
            (2, CMYK_TAG, 65_535),
            (8, GRAY_TAG, 10_000),
        ];
        for (space, model, full) in twins {
            for sample in 0..=full {
                let mut samples = [0; 4];
                samples[0] = sample;
                let swatches = swatch(space, samples);
                let exact = to_channel(space, sample).map_or(0, f32::to_bits);
                let zero = to_channel(space, 0).map_or(0, f32::to_bits);
                let beside = [exact, (exact + 1).min(ONE), exact.saturating_sub(1)];
                for bits in beside.into_iter().chain([1 << 31]) {
                    let mut channels = [zero; 4];
                    channels[0] = bits;
                    let blocks = block(model, channels);
                    let pair = [said(kind::ACO, &swatches), said(kind::ASE, &blocks)];
                    let [first, second] = if sample % 2 == 0 {
                        pair
                    } else {
                        [pair[1], pair[0]]
                    };
                    check_briefly([first, second], &mut self.tally)?;
                }
            }
        }
        for (space, _) in generate::SPACES {
            for (model, _) in ase::MODELS {
                let (swatches, blocks) = (swatch(space, [0; 4]), block(model, [0; 4]));
                let pair = [said(kind::ACO, &swatches), said(kind::ASE, &blocks)];
                check_briefly(pair, &mut self.tally)?;
            }
        }
        Ok(())
    }

    /// Small palettes and what they become, with each change made many times.
    fn every_change(&mut self) -> Checked {
        for item in 0..CHANGED {
            let mut random = self.random(Part::Changes, item);
            let first = Season::small(&mut random);
            for second in [first.clone(), first.converted(&mut random)] {
                self.both_ways(&first, &second, &mut random)?;
                for change in Change::ALL {
                    for _ in 0..CHANGED {
                        let mut changed = second.clone();
                        changed.change(change, &mut random);
                        self.both_ways(&first, &changed, &mut random)?;
                    }
                }
            }
        }
        Ok(())
    }

    fn pairs(&mut self, pairs: u64) -> Checked {
        for item in 0..pairs {
            let mut random = self.random(Part::Pairs, item);
            let [first, mut second] = Season::pair(&mut random);
            for _ in 0..random.pick(&[0, 1, 1, 2, 5]) {
                let change = random.pick(&Change::ALL);
                second.change(change, &mut random);
            }
            self.both_ways(&first, &second, &mut random)?;
        }
        Ok(())
    }

    /// One of two palettes damaged, or both.
    fn damaged(&mut self, pairs: u64) -> Checked {
        for item in 0..pairs {
            let mut random = self.random(Part::Damaged, item);
            let pair = Season::pair(&mut random);
            let kinds = pair.each_ref().map(Season::kind);
            let which = random.pick(&[[true, false], [false, true], [true, true]]);
            let files: Vec<Vec<u8>> = pair
                .iter()
                .zip(which)
                .map(|(season, damaged)| file_of(season, damaged, &mut random))
                .collect();
            let pair = [said(kinds[0], &files[0]), said(kinds[1], &files[1])];
            check_pair(pair, &mut random, &mut self.tally)?;
        }
        Ok(())
    }

    /// Palettes of the limit, as long as the other or not, that differ at their last
    /// position, and longer ones.
    fn long(&mut self) -> Checked {
        let mut random = self.random(Part::Long, 0);
        let mut swatches = Palette::of_length(&mut random, MAX_COLOURS, LIMIT).file();
        let blocks = ase::Palette::uniform(&mut random, MANY, 0);
        let mut last = blocks.file();
        // The last channel's last bit; a channel is 1 at the most.
        let place = last.len() - 3;
        last[place] ^= u8::from(last[place - 3..=place] != ONE.to_be_bytes());
        let blocks = blocks.file();
        let few = Palette::small(&mut random).file();
        let long = [
            (kind::ACO, &swatches[..]),
            (kind::ASE, &blocks[..]),
            (kind::ASE, &last[..]),
            (kind::ACO, &few[..]),
        ];
        for (first, second) in [(0, 0), (0, 1), (1, 2), (2, 1), (3, 1), (1, 3), (3, 0)] {
            let [first, second] = [first, second].map(|index| said(long[index].0, long[index].1));
            check_pair([first, second], &mut random, &mut self.tally)?;
        }
        swatches.push(0);
        let too_long = said(kind::ACO, &swatches);
        for other in [said(kind::ACO, &few), said(kind::ACO, &[]), too_long] {
            check_pair([too_long, other], &mut random, &mut self.tally)?;
            check_pair([other, too_long], &mut random, &mut self.tally)?;
        }
        Ok(())
    }
}

fn swatch(space: u16, samples: [u16; 4]) -> Vec<u8> {
    Palette {
        colours: vec![Colour { space, samples }],
        names: None,
    }
    .file()
}

fn block(model: u32, channels: [u32; 4]) -> Vec<u8> {
    let colour = ase::Colour {
        model,
        channels,
        colour_type: 0,
    };
    ase::Palette {
        blocks: vec![ase::Block::Colour(Vec::new(), colour)],
    }
    .file()
}

fn file_of(season: &Season, damaged: bool, random: &mut Random) -> Vec<u8> {
    let mut file = season.file();
    let times = if damaged { damages(random).max(1) } else { 0 };
    for _ in 0..times {
        match season {
            Season::Aco(palette) => damage(&mut file, palette, Damage::any(random), random),
            Season::Ase(_) => ase::damage(&mut file, ase::Damage::any(random), random),
        }
    }
    file
}
