//! The entries and files a run goes through.

use super::building::{check_file, check_lot, check_same};
use super::tally::Tally;
use crate::difference::Checked;
use generate::descriptor::{
    any_number, damage, deep, fixed_files, flat, wide, Array, Damage, Laid, Lot, LotDamage, Object,
    Value, EVERY_TYPE, FORMS, MAX_DEPTH, P11, P12, TYPES, UNITS,
};
use generate::Random;
use reference::descriptor::ENTRY_LEN;
use reference::LIMIT;

const SMALL_LOTS: u64 = 12;
const DEPTHS: usize = MAX_DEPTH + 3;
const MEMBERS: usize = 14;
/// What each number of a small lot is set to, besides its neighbours.
const NUMBERS: [u32; 9] = [
    0,
    1,
    2,
    4,
    255,
    0x0100_0000,
    0x2000_0000,
    0x8000_0000,
    u32::MAX,
];
/// Lengths of raw data with which the output passes the limit, or nearly.
const ABOUT_THE_LIMIT: [isize; 5] = [-2, -1, 0, 1, 2];
/// Where an entry has the length of its first part.
const FIRST_LENGTH: usize = 7;
/// The most doubles of a pair whose every two are made wrong.
const DOUBLES: usize = 4;
const NOT_FINITE: [u64; 3] = [
    0x7FF0_0000_0000_0000,
    0xFFF0_0000_0000_0000,
    0x7FF8_0000_0000_0000,
];
/// What may stand behind raw data, and more bytes than it and what is before has.
const BEHIND: usize = 8;
const ROOM_BEHIND: usize = 500;

/// The parts of a run, each with its own source of numbers.
#[derive(Clone, Copy)]
enum Part {
    Fixed,
    Numbers,
    Kinds,
    Depths,
    Lengths,
    Doubles,
    Limit,
    Lots,
    Files,
    LongFiles,
}

struct Campaign {
    seed: u64,
    tally: Tally,
}

/// Goes through `lots` made-up lots of entries and as many files, and through the
/// fixed, the exhaustive and the long ones besides, up to the first difference.
pub fn run(seed: u64, lots: u64) -> Checked<Tally> {
    let mut campaign = Campaign {
        seed,
        tally: Tally::default(),
    };
    campaign.fixed()?;
    campaign.every_number()?;
    campaign.every_kind()?;
    campaign.every_depth()?;
    campaign.every_length()?;
    campaign.every_double()?;
    campaign.about_the_limit()?;
    campaign.lots(lots)?;
    campaign.files(lots)?;
    campaign.long_files()?;
    Ok(campaign.tally)
}

impl Campaign {
    fn random(&self, part: Part, item: u64) -> Random {
        Random::for_part(self.seed, (part as u64) << 40 | item)
    }

    fn lot(&mut self, lot: &Lot, random: &mut Random) -> Checked {
        check_lot(&lot.entries, &lot.text, random, &mut self.tally).map(|_| ())
    }

    /// The entries of a file; those of an accepted one build it again.
    fn file(&mut self, file: &[u8], random: &mut Random) -> Checked<Option<Lot>> {
        let Some(entries) = check_file(file, random, &mut self.tally)? else {
            return Ok(None);
        };
        let built = check_lot(&entries, file, random, &mut self.tally)?;
        check_same(file, built)?;
        Ok(Some(Lot::from_parts(entries, file.to_vec())))
    }

    fn fixed(&mut self) -> Checked {
        let mut random = self.random(Part::Fixed, 0);
        self.lot(&Lot::from_parts(Vec::new(), Vec::new()), &mut random)?;
        for fixed in fixed_files() {
            self.file(&fixed.file, &mut random)?;
        }
        Ok(())
    }

    /// Small lots, and the entries of a file of every type, each number of which
    /// has several values.
    fn every_number(&mut self) -> Checked {
        for item in 0..SMALL_LOTS {
            let mut random = self.random(Part::Numbers, item);
            let mut lot = small(item, &mut random);
            for at in 0..lot.entries.len() {
                let kept = lot.entries[at];
                let neighbours = [kept.wrapping_add(1), kept.wrapping_sub(1)];
                let any = any_number(kept, &mut random);
                for number in NUMBERS.into_iter().chain(neighbours).chain([any]) {
                    lot.entries[at] = number;
                    self.lot(&lot, &mut random)?;
                }
                lot.entries[at] = kept;
            }
        }
        Ok(())
    }

    /// Every tag there is in the place of every kind, the root's too.
    fn every_kind(&mut self) -> Checked {
        let others = [*b"UnFl", *b"Bool", *b"\0\0\0\0"];
        let tags = [&TYPES[..], &FORMS, &UNITS, &others].concat();
        for item in 0..SMALL_LOTS {
            let mut random = self.random(Part::Kinds, item);
            let mut lot = small(item, &mut random);
            for entry in 0..lot.count() {
                let kept = lot.entries[entry * ENTRY_LEN];
                for tag in &tags {
                    lot.entries[entry * ENTRY_LEN] = u32::from_be_bytes(*tag);
                    self.lot(&lot, &mut random)?;
                }
                lot.entries[entry * ENTRY_LEN] = kept;
            }
        }
        Ok(())
    }

    /// Members inside each other up to the greatest depth and past it, with
    /// containers that want a member more, with no entry left, and damaged.
    fn every_depth(&mut self) -> Checked {
        for depth in MAX_DEPTH - 2..=DEPTHS {
            for tag in TYPES {
                let mut random = self.random(Part::Depths, depth as u64);
                let (_, innermost): (_, Value) = Object::of_type(&mut random, tag).pairs.remove(0);
                let object = Object::nested(&mut random, depth, innermost);
                let mut lot = Lot::of(&mut random, &object);
                self.lot(&lot, &mut random)?;
                let last = lot.entries.len() - ENTRY_LEN;
                for members in [0, 1, u32::MAX] {
                    lot.entries[last + MEMBERS] = members;
                    self.lot(&lot, &mut random)?;
                }
                lot.damage(LotDamage::any(&mut random), &mut random);
                self.lot(&lot, &mut random)?;
            }
        }
        Ok(())
    }

    /// Small lots with so many of their numbers, and so many bytes of their text.
    fn every_length(&mut self) -> Checked {
        for item in 0..SMALL_LOTS {
            let mut random = self.random(Part::Lengths, item);
            let Lot { entries, text, .. } = small(item, &mut random);
            for len in 0..=entries.len() {
                check_lot(&entries[..len], &text, &mut random, &mut self.tally)?;
            }
            for len in 0..=text.len() {
                check_lot(&entries, &text[..len], &mut random, &mut self.tally)?;
            }
        }
        Ok(())
    }

    /// Object arrays of a few doubles, any two of which are not finite, and whose
    /// text ends anywhere in them or behind: the first fault of the two counts.
    fn every_double(&mut self) -> Checked {
        for objects in 0..=DOUBLES {
            let mut random = self.random(Part::Doubles, objects as u64);
            let doubles = vec![0x3FF0_0000_0000_0000; objects];
            let mut object = Object::of_type(&mut random, *b"ObAr");
            let (key, _) = object.pairs.remove(0);
            let class = object.class.clone();
            let array = Array {
                objects: objects as u32,
                class,
                pairs: vec![(key.clone(), *b"#Pxl", doubles)],
            };
            object.pairs = vec![(key, Value::Array(array))];
            let mut lot = Lot::of(&mut random, &object);
            // The doubles lie at the end.
            let last = lot.entries.len() - ENTRY_LEN;
            let place = lot.text.len() as u32;
            lot.entries[last + FIRST_LENGTH + 1] = place;
            lot.text.extend([0; 8].repeat(objects));
            for wrong in 0..=objects {
                for other in wrong..=objects {
                    let mut text = lot.text.clone();
                    for at in [wrong, other] {
                        let bits = random.pick(&NOT_FINITE).to_be_bytes();
                        let at = place as usize + 8 * at;
                        if let Some(double) = text.get_mut(at..at + 8) {
                            double.copy_from_slice(&bits);
                        }
                    }
                    for len in place as usize..=text.len() {
                        check_lot(&lot.entries, &text[..len], &mut random, &mut self.tally)?;
                    }
                }
            }
        }
        Ok(())
    }

    /// Raw data of every length with which the output is about the limit, and then
    /// what counts as less than it says, or not at all. The data lies outside the
    /// text, so that nothing is written.
    fn about_the_limit(&mut self) -> Checked {
        let mut random = self.random(Part::Limit, 0);
        for behind in 0..BEHIND {
            let mut lot = raw_and(behind, &mut random);
            for length in (LIMIT - ROOM_BEHIND) as u32..=LIMIT as u32 {
                lot.entries[ENTRY_LEN + FIRST_LENGTH] = length;
                self.lot(&lot, &mut random)?;
            }
        }
        Ok(())
    }

    fn lots(&mut self, lots: u64) -> Checked {
        for item in 0..lots {
            let mut random = self.random(Part::Lots, item);
            let object = Object::any(&mut random);
            let mut lot = Lot::of(&mut random, &object);
            let built = check_lot(&lot.entries, &lot.text, &mut random, &mut self.tally)?;
            check_same(&Laid::of(&object).file, built)?;
            for _ in 0..random.pick(&[1, 1, 1, 2, 3]) {
                lot.damage(LotDamage::any(&mut random), &mut random);
            }
            self.lot(&lot, &mut random)?;
        }
        Ok(())
    }

    /// Files, sound and damaged, whose entries are altered afterwards.
    fn files(&mut self, files: u64) -> Checked {
        for item in 0..files {
            let mut random = self.random(Part::Files, item);
            let laid = Laid::of(&Object::any(&mut random));
            let mut file = laid.file.clone();
            for _ in 0..random.pick(&[0, 0, 1, 1, 2]) {
                damage(&mut file, &laid, Damage::any(&mut random), &mut random);
            }
            if let Some(mut lot) = self.file(&file, &mut random)? {
                lot.damage(LotDamage::any(&mut random), &mut random);
                self.lot(&lot, &mut random)?;
            }
        }
        Ok(())
    }

    /// Files of the limit and just longer ones, and entries that make them.
    fn long_files(&mut self) -> Checked {
        let mut random = self.random(Part::LongFiles, 0);
        // A quarter, so that its entries are as long as the limit.
        for long in [flat(LIMIT / 4), deep(LIMIT / 4), wide(&mut random, LIMIT)] {
            self.file(&long.file, &mut random)?;
        }
        check_file(&vec![0; LIMIT + 1], &mut random, &mut self.tally)?;
        let raw = Object {
            pairs: vec![Object::of_type(&mut random, *b"tdta").pairs.remove(0)],
            ..Object::small(&mut random)
        };
        let mut lot = Lot::of(&mut random, &raw);
        let last = lot.entries.len() - ENTRY_LEN;
        lot.entries[last + FIRST_LENGTH] = 0;
        lot.entries[last + FIRST_LENGTH + 1] = 0;
        let bare = check_lot(&lot.entries, &lot.text, &mut random, &mut self.tally)?;
        let room = LIMIT - bare.unwrap_or_default().len();
        let short = lot.text.clone();
        for text in [random.bytes(room + 2), short] {
            // What lies in the text stays there.
            let text = [&lot.text[..], &text].concat();
            for more in ABOUT_THE_LIMIT {
                lot.entries[last + FIRST_LENGTH] = (room as isize + more) as u32;
                check_lot(&lot.entries, &text, &mut random, &mut self.tally)?;
            }
        }
        Ok(())
    }
}

/// A root with raw data and a member: sound, of no kind, of a kind of other places,
/// one that wants a member, before entries that are left over, or as deep as members
/// stand with one below it; or a root of another kind. What does not count has lengths
/// far past the limit.
fn raw_and(behind: usize, random: &mut Random) -> Lot {
    let pairs = [*b"tdta", *b"bool"].map(|tag| Object::of_type(random, tag).pairs.remove(0));
    let object = Object {
        pairs: pairs.into(),
        ..Object::small(random)
    };
    let mut lot = Lot::of(random, &object);
    let mut kind = |index: usize, tag: &[u8; 4]| {
        lot.entries[index * ENTRY_LEN] = u32::from_be_bytes(*tag);
    };
    match behind {
        0 => {}
        1 => kind(2, b"Bool"),
        2 => kind(2, b"UnFl"),
        3 => kind(2, b"prop"),
        4 => kind(0, b"GlbO"),
        _ => kind(2, b"VlLs"),
    }
    let last = 2 * ENTRY_LEN;
    if (1..4).contains(&behind) {
        for length in [3, 5, FIRST_LENGTH, 9] {
            lot.entries[last + length] = u32::MAX;
        }
    }
    let mut huge = lot.entries[last..].to_vec();
    huge[0] = u32::from_be_bytes(*b"tdta");
    huge[FIRST_LENGTH] = u32::MAX;
    lot.entries[last + MEMBERS] = u32::from(behind != 6);
    match behind {
        6 => lot.entries.extend(&huge),
        7 => {
            let list = lot.entries[last..].to_vec();
            lot.entries.extend(list.repeat(MAX_DEPTH - 1));
            lot.entries.extend(&huge);
        }
        _ => {}
    }
    Lot::from_parts(lot.entries, lot.text)
}

/// The entries of one of the files of a few bytes, or a small lot that is made up.
fn small(item: u64, random: &mut Random) -> Lot {
    let of_file = |file: &[u8]| {
        let entries = entries_of(file).expect("a sound file has its entries");
        Lot::from_parts(entries, file.to_vec())
    };
    match item {
        0 => of_file(P11),
        1 => of_file(P12),
        2 => of_file(EVERY_TYPE),
        _ => {
            let object = Object::small(random);
            Lot::of(random, &object)
        }
    }
}

/// The entries of an accepted file.
fn entries_of(file: &[u8]) -> Option<Vec<u32>> {
    let rows = reference::descriptor::judge(file).ok()?;
    let mut entries = vec![0; rows * ENTRY_LEN];
    let filled = reference::descriptor::entries(file, &mut entries);
    filled.is_ok().then_some(entries)
}
