//! The sections, documents and records a run goes through.

use super::reading::{check_briefly, check_document, check_located, check_section};
use super::tally::Tally;
use super::writing::check_lot;
use crate::difference::{agree, agree_runs, hex, Checked};
use generate::resource::{
    damage, fixed_documents, fixed_sections, Answer, Damage, Document, DocumentDamage, Lot,
    LotDamage, Section, DOCUMENT, EVERY_PAD, EVERY_PAD_ROWS, ONE_BLOCK,
};
use generate::Random;
use reference::resource::{BARE_BLOCK_LEN, MAX_NAME, ROW_LEN};
use reference::LIMIT;

/// One document, and one lot of records, for so many sections.
const SECTIONS_A_DOCUMENT: u64 = 4;
const SECTIONS_A_LOT: u64 = 2;
/// One damaged section in so many is gone through at each of its lengths.
const SECTIONS_A_PREFIX_RUN: u64 = 200;
const SMALL_SECTIONS: u64 = 60;

/// A record that is sound with this text, and where its numbers stand.
const RECORD: [u32; ROW_LEN] = [2000, 0, 2, 2, 1];
const TEXT: [u8; 3] = *b"ABz";
const ID: usize = 0;
const NAME_LENGTH: usize = 2;
const DATA_LENGTH: usize = 4;
/// Data up to this length is gone through, sound and damaged.
const DATA_LENGTHS: usize = 12;

/// Few blocks, and more, whose data fill an output of the limit.
const FEW: usize = 3;
const MANY: usize = 40_000;
/// The most blocks within the limit, however short.
const BLOCKS_WITHIN_LIMIT: usize = LIMIT / BARE_BLOCK_LEN;
/// What stands before the section of a document without colour mode data.
const DOCUMENT_HEAD: usize = 34;

/// The parts of a run, each with its own source of numbers.
#[derive(Clone, Copy)]
enum Part {
    Fixed,
    Bytes,
    Ids,
    Lengths,
    Prefixes,
    Damaged,
    Documents,
    Lots,
    LongSections,
    LongDocuments,
    LongLots,
}

struct Campaign {
    seed: u64,
    tally: Tally,
}

/// Goes through `sections` made-up sections, and through the fixed, the
/// exhaustive and the long ones besides, up to the first difference.
pub fn run(seed: u64, sections: u64) -> Checked<Tally> {
    let mut campaign = Campaign {
        seed,
        tally: Tally::default(),
    };
    campaign.fixed()?;
    campaign.every_byte()?;
    campaign.every_id()?;
    campaign.every_length()?;
    campaign.every_prefix()?;
    campaign.damaged_sections(sections)?;
    campaign.damaged_documents(sections / SECTIONS_A_DOCUMENT)?;
    campaign.lots(sections / SECTIONS_A_LOT)?;
    campaign.long_sections()?;
    campaign.long_documents()?;
    campaign.long_lots()?;
    Ok(campaign.tally)
}

impl Campaign {
    fn random(&self, part: Part, item: u64) -> Random {
        Random::for_part(self.seed, (part as u64) << 40 | item)
    }

    fn fixed(&mut self) -> Checked {
        let mut random = self.random(Part::Fixed, 0);
        for fixed in fixed_sections() {
            let found = judged(&fixed.file);
            agree(
                || format!("judge of {}", fixed.title),
                &fixed.answer,
                &found,
            )
            .map_err(|difference| difference.given("section", hex(&fixed.file)))?;
            check_section(&fixed.file, &mut random, &mut self.tally)?;
        }
        for fixed in fixed_documents() {
            let found = located(&fixed.file);
            let call = || format!("the section of {}", fixed.title);
            agree(call, &fixed.answer, &found)
                .map_err(|difference| difference.given("document", hex(&fixed.file)))?;
            check_document(&fixed.file, &mut random, &mut self.tally)?;
        }
        let mut table = [[0; ROW_LEN]; EVERY_PAD_ROWS.len()];
        proved::resource::read(EVERY_PAD, table.as_flattened_mut());
        agree_runs(
            || "the rows of every pad".to_string(),
            &EVERY_PAD_ROWS,
            &table,
        )
    }

    /// A section and a document with each of their bytes at each of its values.
    fn every_byte(&mut self) -> Checked {
        let mut random = self.random(Part::Bytes, 0);
        for (file, check) in [
            (
                EVERY_PAD,
                check_section as fn(&[u8], &mut Random, &mut Tally) -> Checked,
            ),
            (DOCUMENT, check_document),
        ] {
            let mut file = file.to_vec();
            for place in 0..file.len() {
                let kept = file[place];
                for byte in 0..=u8::MAX {
                    file[place] = byte;
                    check(&file, &mut random, &mut self.tally)?;
                }
                file[place] = kept;
            }
        }
        Ok(())
    }

    /// A block with each ID, and a record with each, and with some past it.
    fn every_id(&mut self) -> Checked {
        let mut random = self.random(Part::Ids, 0);
        for id in 0..=u16::MAX {
            let mut section = ONE_BLOCK.to_vec();
            section[4..6].copy_from_slice(&id.to_be_bytes());
            check_section(&section, &mut random, &mut self.tally)?;
            self.check_record(&[(ID, u32::from(id))], &mut random)?;
            self.check_record(&[(ID, u32::from(id) << 16 | 1)], &mut random)?;
        }
        Ok(())
    }

    /// Names of every length with data of some, each sound, with each of its
    /// damages, and cut inside its block; then records with them.
    fn every_length(&mut self) -> Checked {
        for name in 0..=MAX_NAME as usize + 2 {
            for data in 0..DATA_LENGTHS {
                let mut random = self.random(Part::Lengths, (name * DATA_LENGTHS + data) as u64);
                let changes = [(NAME_LENGTH, name as u32), (DATA_LENGTH, data as u32)];
                self.check_record(&changes, &mut random)?;
                let text = random.bytes(name + data);
                let records = vec![1, 0, name as u32, name as u32, data as u32];
                check_lot(&Lot { records, text }, &mut random, &mut self.tally)?;
                if name <= MAX_NAME as usize {
                    self.check_lengths(name, data, &mut random)?;
                }
            }
        }
        Ok(())
    }

    fn check_lengths(&mut self, name: usize, data: usize, random: &mut Random) -> Checked {
        let whole = Section::uniform(random, 2, name, data).bytes();
        check_section(&whole, random, &mut self.tally)?;
        for kind in Damage::ALL {
            let mut section = whole.clone();
            damage(&mut section, kind, random);
            check_section(&section, random, &mut self.tally)?;
        }
        Ok(())
    }

    /// The record with some of its numbers changed.
    fn check_record(&mut self, changes: &[(usize, u32)], random: &mut Random) -> Checked {
        let mut records = RECORD.to_vec();
        for &(index, value) in changes {
            records[index] = value;
        }
        let text = TEXT.to_vec();
        check_lot(&Lot { records, text }, random, &mut self.tally)
    }

    /// Small sections and documents, sound and damaged, at each of their lengths.
    fn every_prefix(&mut self) -> Checked {
        let mut random = self.random(Part::Prefixes, 0);
        for section in [ONE_BLOCK, EVERY_PAD] {
            self.prefixes(section, &mut random)?;
        }
        self.document_prefixes(DOCUMENT, &mut random)?;
        for item in 1..=SMALL_SECTIONS {
            let mut random = self.random(Part::Prefixes, item);
            let mut section = Section::small(&mut random).bytes();
            self.prefixes(&section, &mut random)?;
            damage(&mut section, Damage::any(&mut random), &mut random);
            self.prefixes(&section, &mut random)?;
            let document = Document::small(&mut random);
            self.document_prefixes(&document.file(), &mut random)?;
            let kind = DocumentDamage::any(&mut random);
            let damaged = document.damaged(kind, &mut random);
            self.document_prefixes(&damaged, &mut random)?;
        }
        Ok(())
    }

    /// A section at each of its lengths. What was cut off still lies behind the
    /// lent part, so that reading past the end gives a wrong answer.
    fn prefixes(&mut self, section: &[u8], random: &mut Random) -> Checked {
        (0..=section.len())
            .try_for_each(|len| check_section(&section[..len], random, &mut self.tally))
    }

    fn document_prefixes(&mut self, document: &[u8], random: &mut Random) -> Checked {
        (0..=document.len())
            .try_for_each(|len| check_document(&document[..len], random, &mut self.tally))
    }

    fn damaged_sections(&mut self, sections: u64) -> Checked {
        for item in 0..sections {
            let mut random = self.random(Part::Damaged, item);
            let in_prefixes = item % SECTIONS_A_PREFIX_RUN == 0;
            let section = if in_prefixes {
                Section::small(&mut random)
            } else {
                Section::any(&mut random)
            };
            let mut section = section.bytes();
            for _ in 0..damages(&mut random) {
                damage(&mut section, Damage::any(&mut random), &mut random);
            }
            check_section(&section, &mut random, &mut self.tally)?;
            if in_prefixes {
                self.prefixes(&section, &mut random)?;
            }
        }
        Ok(())
    }

    fn damaged_documents(&mut self, documents: u64) -> Checked {
        for item in 0..documents {
            let mut random = self.random(Part::Documents, item);
            let document = Document::any(&mut random);
            let mut file = document.file();
            for _ in 0..damages(&mut random) {
                document.damage(&mut file, DocumentDamage::any(&mut random), &mut random);
            }
            check_document(&file, &mut random, &mut self.tally)?;
        }
        Ok(())
    }

    fn lots(&mut self, lots: u64) -> Checked {
        for item in 0..lots {
            let mut random = self.random(Part::Lots, item);
            let mut lot = Lot::any(&mut random);
            for _ in 0..damages(&mut random) {
                lot.damage(LotDamage::any(&mut random), &mut random);
            }
            check_lot(&lot, &mut random, &mut self.tally)?;
        }
        Ok(())
    }

    /// Sections of the limit, sound and damaged near their end, and just longer
    /// ones.
    fn long_sections(&mut self) -> Checked {
        let mut random = self.random(Part::LongSections, 0);
        for blocks in [1, FEW, MANY] {
            let mut section = Section::of_length(&mut random, blocks, LIMIT).bytes();
            check_section(&section, &mut random, &mut self.tally)?;
            check_section(&section[..LIMIT - 1], &mut random, &mut self.tally)?;
            section.push(0);
            check_section(&section, &mut random, &mut self.tally)?;
            section.truncate(LIMIT);
            section[0] = 0;
            check_section(&section, &mut random, &mut self.tally)?;
        }
        let longer = Section::of_length(&mut random, FEW, LIMIT + 2).bytes();
        check_section(&longer, &mut random, &mut self.tally)?;
        let mut left_over = vec![0; LIMIT];
        left_over[..ONE_BLOCK.len()].copy_from_slice(ONE_BLOCK);
        check_section(&left_over, &mut random, &mut self.tally)?;
        // The last block's data is odd, and its pad the section's last byte.
        let mut padded = Section::bare(BLOCKS_WITHIN_LIMIT - 1).bytes();
        let size = LIMIT - padded.len() - BARE_BLOCK_LEN;
        padded.extend(b"8BIM\0\0\0\0");
        padded.extend((size as u32 - 1).to_be_bytes());
        padded.resize(LIMIT, 0);
        check_briefly(&padded, &mut self.tally)?;
        padded[LIMIT - 1] = 1;
        check_section(&padded, &mut random, &mut self.tally)?;
        let bare = Section::bare(BLOCKS_WITHIN_LIMIT).bytes();
        check_briefly(&bare, &mut self.tally)
    }

    /// Documents whose section is about the limit, and one that is longer than
    /// any section by what stands around it.
    fn long_documents(&mut self) -> Checked {
        let mut random = self.random(Part::LongDocuments, 0);
        let mut document = Document::holding(vec![0; LIMIT]);
        document.behind = random.bytes(9);
        for length in [LIMIT - 1, LIMIT, LIMIT + 1, LIMIT + 2] {
            document.section.resize(length, 0);
            let file = document.file();
            for len in [
                DOCUMENT_HEAD - 1,
                DOCUMENT_HEAD,
                DOCUMENT_HEAD + length - 1,
                DOCUMENT_HEAD + length,
                file.len(),
            ] {
                check_located(&file[..len], &mut self.tally)
                    .map_err(|difference| difference.given("document", hex(&file[..len])))?;
            }
        }
        document.section = Section::of_length(&mut random, FEW, LIMIT).bytes();
        document.colour_data = vec![0; LIMIT + 1];
        check_document(&document.file(), &mut random, &mut self.tally)
    }

    /// Outputs of the limit and just longer, with and without a fault that comes
    /// after it, and more records than any output has room for.
    fn long_lots(&mut self) -> Checked {
        let mut random = self.random(Part::LongLots, 0);
        for blocks in [1, FEW, MANY] {
            for len in [LIMIT - 2, LIMIT, LIMIT + 2] {
                let mut lot = Lot::sharing_text(&mut random, &lengths_for(blocks, len));
                check_lot(&lot, &mut random, &mut self.tally)?;
                // An even length less one is as long, with its pad.
                lot.records[DATA_LENGTH] -= 1;
                check_lot(&lot, &mut random, &mut self.tally)?;
                lot.records[ID] = u32::MAX;
                check_lot(&lot, &mut random, &mut self.tally)?;
            }
        }
        for name in [LIMIT - 12, LIMIT - 11, LIMIT - 10] {
            self.check_record(&[(NAME_LENGTH, name as u32), (DATA_LENGTH, 0)], &mut random)?;
            self.check_record(&[(DATA_LENGTH, name as u32), (NAME_LENGTH, 0)], &mut random)?;
        }
        for count in [BLOCKS_WITHIN_LIMIT, BLOCKS_WITHIN_LIMIT + 1] {
            let mut lot = Lot {
                records: vec![0; count * ROW_LEN],
                text: Vec::new(),
            };
            check_lot(&lot, &mut random, &mut self.tally)?;
            lot.records[ID] = u32::MAX;
            check_lot(&lot, &mut random, &mut self.tally)?;
        }
        Ok(())
    }
}

fn judged(section: &[u8]) -> Answer {
    let answer = proved::resource::judge(section);
    match answer.number {
        0 => Answer::Blocks(answer.blocks),
        number => Answer::Refused {
            number,
            place: answer.place,
        },
    }
}

fn located(document: &[u8]) -> Answer {
    let section = proved::resource::section_of(document);
    match section.number {
        0 => Answer::Section {
            first: section.first,
            length: section.length,
        },
        number => Answer::Refused {
            number,
            place: section.place,
        },
    }
}

/// Mostly one damage; some more of them set faults against each other.
fn damages(random: &mut Random) -> usize {
    random.pick(&[0, 1, 1, 1, 2, 2, 3])
}

/// The even lengths of data with which so many blocks without a name are written
/// in `len` bytes.
fn lengths_for(blocks: usize, len: usize) -> Vec<usize> {
    let pairs = (len - blocks * BARE_BLOCK_LEN) / 2;
    let (each, spare) = (pairs / blocks, pairs % blocks);
    (0..blocks)
        .map(|index| 2 * (each + usize::from(index < spare)))
        .collect()
}
