//! The files, strings and records a run goes through.

use super::reading::{check_briefly, check_file, check_pages_cut, check_string};
use super::tally::Tally;
use super::writing::check_lot;
use crate::difference::{agree, agree_runs, hex, Checked};
use generate::acb::{
    damage, fixed_files, fixed_strings, Answer, Book, Damage, Header, Lot, LotDamage, ANPA,
    ANPA_FULL_NAME, P10, P10_PAGES, P8, P8_SHOWN, P9, P9_SHOWN,
};
use generate::Random;
use reference::acb::{BARE_HEAD_LEN, COMPONENTS, MAX_COLOURS, ROW_LEN, TAG_LEN};
use reference::{ink, number, LIMIT, UNIT_LEN};

/// One lot of records, and one string, for so many files.
const FILES_A_LOT: u64 = 2;
/// One damaged file in so many is gone through at each of its lengths.
const FILES_A_PREFIX_RUN: u64 = 200;
const SMALL_FILES: u64 = 60;
/// Tails up to twice a tag.
const TAILS: usize = 17;

/// Where the numbers of P9 stand.
const VERSION: usize = 4;
const COUNT: usize = 24;
const PAGE_SIZE: usize = 26;
const PAGE_OFFSET: usize = 28;
const SPACE: usize = 30;

const RGB: u16 = 0;
const CMYK: u16 = 2;
const LAB: u16 = 7;
const SPACES: [u16; 4] = [0, 1, 2, 7];
/// A dummy of an untagged book.
const DUMMY: [u32; ROW_LEN] = [0, 0, 0, 0, 0, 0, 0, 0, 0, 0, 0, 0, ink::NOT_STATED];
/// Positions past the fourth component, too.
const POSITIONS: usize = 5;
/// What a colour has besides its name's units, in CMYK.
const UNNAMED_LEN: usize = 14;

/// The parts of a run, each with its own source of numbers.
#[derive(Clone, Copy)]
enum Part {
    Fixed,
    Bytes,
    Numbers,
    Inks,
    Tails,
    Pages,
    Prefixes,
    Damaged,
    Strings,
    Lots,
    LongFiles,
    LongLots,
}

struct Campaign {
    seed: u64,
    tally: Tally,
}

/// Goes through `files` made-up files, and through the fixed, the exhaustive
/// and the long ones besides, up to the first difference.
pub fn run(seed: u64, files: u64) -> Checked<Tally> {
    let mut campaign = Campaign {
        seed,
        tally: Tally::default(),
    };
    campaign.fixed()?;
    fixed_shown()?;
    every_component()?;
    campaign.every_byte()?;
    campaign.every_number()?;
    campaign.every_ink()?;
    campaign.every_tail()?;
    campaign.every_page()?;
    campaign.every_prefix()?;
    campaign.damaged_files(files)?;
    campaign.strings(files / FILES_A_LOT)?;
    campaign.lots(files / FILES_A_LOT)?;
    campaign.long_files()?;
    campaign.long_lots()?;
    campaign.long_strings()?;
    Ok(campaign.tally)
}

/// What the fixed files show, as it is written down.
fn fixed_shown() -> Checked {
    let mut out = [0; ANPA_FULL_NAME.len()];
    let full = proved::acb::full_name(&ANPA, 0, &mut out);
    agree(
        || "the full name's length".to_string(),
        &out.len(),
        &full.length,
    )?;
    agree_runs(|| "the full name".to_string(), ANPA_FULL_NAME, &out)?;
    for (title, file, values) in [("P8", P8, P8_SHOWN), ("P9", P9, P9_SHOWN)] {
        let shown = proved::acb::shown(file, 0);
        agree(|| format!("what {title} shows"), &values, &shown.values)?;
    }
    for (number, sample) in P10_PAGES.into_iter().enumerate() {
        let page = proved::acb::page(P10, number);
        let wanted = sample.map_or((number::NO_PAGE, 0), |record| (0, record));
        let found = (page.number, page.record);
        agree(|| format!("page {number} of P10"), &wanted, &found)?;
    }
    for fixed in fixed_strings() {
        let found = proved::acb::shown_start(&fixed.string);
        agree(|| "a fixed string".to_string(), &fixed.start, &found)
            .map_err(|difference| difference.given("string", hex(&fixed.string)))?;
    }
    Ok(())
}

/// Each byte at the first positions of a record, and at the largest, in every
/// space. The reference shows those of a book; a position past its components is
/// shown as the last of them, and a space that no book has as RGB.
fn every_component() -> Checked {
    for byte in 0..=u8::MAX {
        let shown = |space| {
            let mut file = p9_with(SPACE, space);
            let components = file.len() - COMPONENTS;
            file[components..].fill(byte);
            let last = if space == CMYK {
                COMPONENTS
            } else {
                COMPONENTS - 1
            };
            file.truncate(components + last);
            reference::acb::shown(&file, 0)
        };
        let known = [RGB, CMYK, LAB].map(|space| (space, shown(space)));
        for space in 0..=u16::MAX {
            let (_, wanted) = known
                .iter()
                .find(|(of, _)| *of == space)
                .unwrap_or(&known[0]);
            let wanted = wanted.as_ref().expect("P9 is accepted in each space");
            for position in (0..=POSITIONS).chain([usize::MAX]) {
                let found = proved::acb::shown_component(space, position, byte);
                agree(
                    || format!("byte {byte} at position {position} in space {space}"),
                    &wanted.values[position.min(wanted.count - 1)],
                    &found,
                )?;
            }
        }
    }
    Ok(())
}

impl Campaign {
    fn random(&self, part: Part, item: u64) -> Random {
        Random::for_part(self.seed, (part as u64) << 40 | item)
    }

    fn fixed(&mut self) -> Checked {
        let mut random = self.random(Part::Fixed, 0);
        for fixed in fixed_files() {
            let found = written_down(&proved::acb::judge(&fixed.file));
            agree(
                || format!("judge of {}", fixed.title),
                &fixed.answer,
                &found,
            )
            .map_err(|difference| difference.given("file", hex(&fixed.file)))?;
            check_file(&fixed.file, &mut random, &mut self.tally)?;
        }
        fixed_strings()
            .iter()
            .try_for_each(|fixed| check_string(&fixed.string, &mut self.tally))
    }

    /// A small file of each space, tagged, with each of its bytes at each of its
    /// values.
    fn every_byte(&mut self) -> Checked {
        let mut random = self.random(Part::Bytes, 0);
        for space in [0, 2, 7] {
            let mut file = p9_with(SPACE, space);
            if space != CMYK {
                file.pop();
            }
            file.extend(b"spflproc");
            for place in 0..file.len() {
                let kept = file[place];
                for byte in 0..=u8::MAX {
                    file[place] = byte;
                    check_file(&file, &mut random, &mut self.tally)?;
                }
                file[place] = kept;
            }
        }
        Ok(())
    }

    /// P9 with each number of 16 bits in its header, and a record with each of its
    /// bytes, and its ink, at each value and past what a byte holds.
    fn every_number(&mut self) -> Checked {
        let mut random = self.random(Part::Numbers, 0);
        for value in 0..=u16::MAX {
            for place in [VERSION, COUNT, PAGE_SIZE, PAGE_OFFSET, SPACE] {
                check_briefly(&p9_with(place, value), &mut self.tally)?;
            }
        }
        for space in SPACES {
            for index in 2..ROW_LEN {
                for value in (0..=0x101).chain([0xFFFF, 0x1_0000, u32::MAX]) {
                    let mut records = DUMMY.to_vec();
                    records[index] = value;
                    let lot = Lot {
                        header: Header::bare(space),
                        records,
                        text: Vec::new(),
                    };
                    check_lot(&lot, &mut random, &mut self.tally)?;
                }
            }
        }
        Ok(())
    }

    /// Every ink of the first and of the last record under each tag, and under
    /// another, alone and with a fault of the other record.
    fn every_ink(&mut self) -> Checked {
        let mut random = self.random(Part::Inks, 0);
        for tag in 0..4 {
            for (wrong, ink) in [false, true].into_iter().flat_map(|wrong| {
                (0..9)
                    .chain([256, 257, 0x1_0003, 0x1_0004, u32::MAX])
                    .map(move |ink| (wrong, ink))
            }) {
                for (record, other) in [(0, 1), (1, 0)] {
                    let mut lot = Lot {
                        header: Header::bare(RGB),
                        records: DUMMY.repeat(2),
                        text: Vec::new(),
                    }
                    .tagged(tag);
                    lot.records[record * ROW_LEN + ROW_LEN - 1] = ink;
                    if wrong {
                        lot.records[other * ROW_LEN + 2] = 256;
                    }
                    check_lot(&lot, &mut random, &mut self.tally)?;
                }
            }
        }
        Ok(())
    }

    /// Tails of every length behind small books: right bytes, any bytes and
    /// zeros.
    fn every_tail(&mut self) -> Checked {
        let mut random = self.random(Part::Tails, 0);
        for item in 0..SMALL_FILES {
            let mut book = Book::small(&mut self.random(Part::Tails, 1 + item));
            book.tag = 0;
            let file = book.file();
            let right = [*b"spflspot", *b"spflproc"].concat();
            let any = random.bytes(TAILS);
            for len in 0..TAILS {
                for tail in [&right, &any, &vec![0; TAILS]] {
                    let file = [&file[..], &tail[..len.min(tail.len())]].concat();
                    check_file(&file, &mut random, &mut self.tally)?;
                }
            }
        }
        Ok(())
    }

    /// Every pattern of dummies in a few colours, with every page size and
    /// offset up to one more than there are colours.
    fn every_page(&mut self) -> Checked {
        let mut random = self.random(Part::Pages, 0);
        let mut book = Book::small(&mut random);
        for colours in 0..5 {
            for pattern in 0..1_u32 << colours {
                book.colours = (0..colours)
                    .map(|index| {
                        let units = usize::from(pattern >> index & 1 == 1);
                        generate::acb::Colour::any(&mut random, book.space, units)
                    })
                    .collect();
                for size in 1..=colours + 1 {
                    for offset in 0..=colours + 1 {
                        (book.page_size, book.page_offset) = (size as u16, offset as u16);
                        let file = book.file();
                        check_file(&file, &mut random, &mut self.tally)?;
                        let mut first = book.clone();
                        while first.colours.pop().is_some() {
                            check_pages_cut(&file, &first.file())?;
                        }
                    }
                }
            }
        }
        Ok(())
    }

    /// Small files, sound and damaged, at each of their lengths.
    fn every_prefix(&mut self) -> Checked {
        let mut random = self.random(Part::Prefixes, 0);
        for file in [&ANPA[..], P8, P9, P10] {
            self.prefixes(file, &mut random)?;
        }
        for item in 1..=SMALL_FILES {
            let mut random = self.random(Part::Prefixes, item);
            let book = Book::small(&mut random);
            let mut file = book.file();
            self.prefixes(&file, &mut random)?;
            damage(&mut file, &book, Damage::any(&mut random), &mut random);
            self.prefixes(&file, &mut random)?;
        }
        Ok(())
    }

    /// A file at each of its lengths. What was cut off still lies behind the
    /// lent part, so that reading past the end gives a wrong answer.
    fn prefixes(&mut self, file: &[u8], random: &mut Random) -> Checked {
        (0..=file.len()).try_for_each(|len| check_file(&file[..len], random, &mut self.tally))
    }

    fn damaged_files(&mut self, files: u64) -> Checked {
        for item in 0..files {
            let mut random = self.random(Part::Damaged, item);
            let in_prefixes = item % FILES_A_PREFIX_RUN == 0;
            let book = if in_prefixes {
                Book::small(&mut random)
            } else {
                Book::any(&mut random)
            };
            let mut file = book.file();
            for _ in 0..damages(&mut random) {
                damage(&mut file, &book, Damage::any(&mut random), &mut random);
            }
            check_file(&file, &mut random, &mut self.tally)?;
            if in_prefixes {
                self.prefixes(&file, &mut random)?;
            }
        }
        Ok(())
    }

    /// Strings of books as bytes by themselves: from an odd byte on, cut
    /// anywhere, and with a bit other than it was.
    fn strings(&mut self, strings: u64) -> Checked {
        for item in 0..strings {
            let mut random = self.random(Part::Strings, item);
            let book = Book::any(&mut random);
            let string = &book.strings[random.below(4)];
            let mut bytes: Vec<u8> = string.iter().flat_map(|unit| unit.to_be_bytes()).collect();
            check_string(&bytes, &mut self.tally)?;
            if let Some(place) = bytes.len().checked_sub(1) {
                bytes[random.below(place + 1)] ^= 1 << random.below(8);
                check_string(&bytes, &mut self.tally)?;
                check_string(&bytes[1..], &mut self.tally)?;
                check_string(&bytes[..random.below(place + 1)], &mut self.tally)?;
            }
        }
        Ok(())
    }

    fn lots(&mut self, lots: u64) -> Checked {
        for item in 0..lots {
            let mut random = self.random(Part::Lots, item);
            let mut lot = Lot::any(&mut random);
            for _ in 0..damages(&mut random) {
                lot.damage(LotDamage::any(&mut random), &mut random);
            }
            check_lot(&lot, &mut random, &mut self.tally)?;
        }
        Ok(())
    }

    /// Files of the limit, sound and damaged near their end, and just longer ones.
    fn long_files(&mut self) -> Checked {
        let mut random = self.random(Part::LongFiles, 0);
        for colours in [1, MAX_COLOURS] {
            let mut file = Book::of_length(&mut random, colours, LIMIT).file();
            check_file(&file, &mut random, &mut self.tally)?;
            check_file(&file[..LIMIT - 1], &mut random, &mut self.tally)?;
            file.push(0);
            check_file(&file, &mut random, &mut self.tally)?;
            file.truncate(LIMIT);
            // As RGB or Lab each colour but the first begins a byte late.
            file[SPACE + 1] = 7;
            check_file(&file, &mut random, &mut self.tally)?;
        }
        let longer = Book::of_length(&mut random, 2, LIMIT + 2).file();
        check_file(&longer, &mut random, &mut self.tally)?;
        let mut left_over = vec![0; LIMIT];
        left_over[..P9.len()].copy_from_slice(P9);
        check_file(&left_over, &mut random, &mut self.tally)?;
        left_over[P9.len()..][..8].copy_from_slice(b"spflspot");
        check_file(&left_over, &mut random, &mut self.tally)
    }

    /// Outputs of the limit and just longer in each space, known or not, and as
    /// many records as there may be and one more.
    fn long_lots(&mut self) -> Checked {
        let mut random = self.random(Part::LongLots, 0);
        for colours in [2, MAX_COLOURS - 1] {
            for space in SPACES {
                // A colour without the fourth component has a byte less.
                let spare = if space == CMYK { 0 } else { colours };
                for len in [LIMIT, LIMIT + 2] {
                    let units = units_for(colours, len + spare);
                    let mut lot = Lot::sharing_text(&mut random, space, &units);
                    check_lot(&lot, &mut random, &mut self.tally)?;
                    for tag in [2, 3] {
                        lot = lot.tagged(tag);
                        check_lot(&lot, &mut random, &mut self.tally)?;
                    }
                }
            }
        }
        for count in [MAX_COLOURS, MAX_COLOURS + 1, MAX_COLOURS + 2, 1 << 17] {
            let mut lot = Lot {
                header: Header::bare(RGB),
                records: DUMMY.repeat(count),
                text: Vec::new(),
            };
            check_lot(&lot, &mut random, &mut self.tally)?;
            lot.header.space = 1;
            check_lot(&lot, &mut random, &mut self.tally)?;
            lot.header.strings[3] = (0, 1);
            check_lot(&lot, &mut random, &mut self.tally)?;
        }
        Ok(())
    }

    /// Strings that no text holds, with which the output is of the limit or just
    /// longer, under each tag and under another, and the longest there are.
    fn long_strings(&mut self) -> Checked {
        let mut random = self.random(Part::LongLots, 1);
        for tag in 0..4 {
            let bare = BARE_HEAD_LEN + if tag > 0 { TAG_LEN } else { 0 };
            let most = ((LIMIT - bare) / UNIT_LEN) as u32;
            for string in 0..4 {
                for units in [most - 1, most, most + 1, u32::MAX] {
                    let mut header = Header::bare(RGB);
                    header.tag = tag;
                    header.strings[string] = (0, units);
                    self.check_header(header, &mut random)?;
                    header.strings = [(usize::MAX, units); 4];
                    self.check_header(header, &mut random)?;
                }
            }
        }
        Ok(())
    }

    /// A header alone, and with a record whose name is of all units.
    fn check_header(&mut self, header: Header, random: &mut Random) -> Checked {
        let mut lot = Lot {
            header,
            records: Vec::new(),
            text: vec![0x41; 40],
        };
        check_lot(&lot, random, &mut self.tally)?;
        lot.records = vec![u32::MAX; ROW_LEN];
        check_lot(&lot, random, &mut self.tally)
    }
}

fn p9_with(place: usize, value: u16) -> Vec<u8> {
    let mut file = P9.to_vec();
    file[place..place + 2].copy_from_slice(&value.to_be_bytes());
    file
}

/// Of an answer what is written down beside the fixed files.
fn written_down(answer: &proved::acb::Answer) -> Answer {
    match *answer {
        proved::acb::Answer {
            number: 0, count, ..
        } => Answer::Accepted { count },
        proved::acb::Answer { number, place, .. } => Answer::Refused { number, place },
    }
}

/// Mostly one damage; some more of them set faults against each other.
fn damages(random: &mut Random) -> usize {
    random.pick(&[0, 1, 1, 1, 2, 2, 3])
}

/// The units of names with which so many CMYK colours are written in `len` bytes.
fn units_for(colours: usize, len: usize) -> Vec<usize> {
    let units = (len - BARE_HEAD_LEN - colours * UNNAMED_LEN) / UNIT_LEN;
    let (each, spare) = (units / colours, units % colours);
    (0..colours)
        .map(|index| each + usize::from(index < spare))
        .collect()
}
