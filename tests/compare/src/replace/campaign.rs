//! The files, tables and replacements a run goes through.

use super::replacing::Asked;
use super::tally::Tally;
use crate::difference::{agree_runs, hex, Checked};
use crate::tables::{Runs, RUNS};
use generate::descriptor::{
    any_number, damage, fixed_files, wide, Damage, Laid, Object, EVERY_TYPE, FORMS, P11, P12,
    TYPES, UNITS,
};
use generate::Random;
use reference::descriptor::{judge, typed, Replacement, Typed};
use reference::LIMIT;

const SMALL_FILES: u64 = 40;
/// In a file of more rows only some are asked for.
const FEW_ROWS: usize = 8;
const REPLACEABLE: [[u8; 4]; 5] = [*b"bool", *b"long", *b"comp", *b"doub", *b"UntF"];
/// About the values of every kind: their bounds, and doubles of every class.
const BITS: [u64; 20] = [
    0,
    1,
    2,
    0xFF,
    0x100,
    0x7FFF_FFFF,
    0x8000_0000,
    0xFFFF_FFFF,
    0x1_0000_0000,
    0x1_0000_0001,
    0x000F_FFFF_FFFF_FFFF,
    0x3FF0_0000_0000_0000,
    0x7FEF_FFFF_FFFF_FFFF,
    0x7FF0_0000_0000_0000,
    0x7FF0_0000_0000_0001,
    0x7FF8_0000_0000_0000,
    0x8000_0000_0000_0000,
    0xFFEF_FFFF_FFFF_FFFF,
    0xFFF0_0000_0000_0000,
    u64::MAX,
];
const WRONG_UNITS: [[u8; 4]; 6] = [*b"#mlm", *b"#Pts", *b"bool", [0; 4], [0xFF; 4], *b"#Pnt"];

/// The parts of a run, each with its own source of numbers.
#[derive(Clone, Copy)]
enum Part {
    Fixed,
    Rows,
    Numbers,
    Files,
    LongFiles,
}

struct Campaign {
    seed: u64,
    tally: Tally,
}

/// Goes through `files` made-up files, and through the fixed, the exhaustive and
/// the long ones besides, up to the first difference.
pub fn run(seed: u64, files: u64) -> Checked<Tally> {
    let mut campaign = Campaign {
        seed,
        tally: Tally::default(),
    };
    campaign.fixed()?;
    campaign.every_row()?;
    campaign.every_number()?;
    campaign.files(files)?;
    campaign.long_files()?;
    Ok(campaign.tally)
}

impl Campaign {
    fn random(&self, part: Part, item: u64) -> Random {
        Random::for_part(self.seed, (part as u64) << 40 | item)
    }

    fn check(&mut self, asked: Asked<'_>, room: usize) -> Checked {
        let written = asked.check(room, &mut self.tally)?;
        written.map_or(Ok(()), |out| asked.check_written(&out))
    }

    fn fixed(&mut self) -> Checked {
        let mut random = self.random(Part::Fixed, 0);
        for fixed in fixed_files() {
            let file = &fixed.file;
            let runs = Runs::of(file, &mut random);
            let row = random.below(runs.rows() + 1);
            let with = right_kind(&runs, row, &mut random);
            let asked = Asked {
                file,
                runs: &runs,
                row,
                with,
            };
            self.check(asked, file.len())?;
        }
        Ok(())
    }

    /// A file of every type: every row by each kind and by itself, with each
    /// value about the bounds and each unit.
    fn every_row(&mut self) -> Checked {
        let mut random = self.random(Part::Rows, 0);
        let tags = [&TYPES[..], &FORMS, &UNITS, &[*b"UnFl", [0; 4]]].concat();
        for file in [P11, P12, EVERY_TYPE] {
            let runs = &Runs::of(file, &mut random);
            for row in 0..=runs.rows() {
                for &kind in &tags {
                    self.every_value(file, runs, row, kind)?;
                }
                self.by_itself(file, runs, row)?;
            }
        }
        Ok(())
    }

    fn every_value(&mut self, file: &[u8], runs: &Runs, row: usize, kind: [u8; 4]) -> Checked {
        let units = if &kind == b"UntF" {
            [&UNITS[..], &WRONG_UNITS].concat()
        } else {
            vec![*b"#Pxl"]
        };
        for unit in units {
            for bits in BITS {
                let with = Replacement {
                    kind: u32::from_be_bytes(kind),
                    unit: u32::from_be_bytes(unit),
                    bits,
                };
                let asked = Asked {
                    file,
                    runs,
                    row,
                    with,
                };
                self.check(asked, file.len())?;
                if runs.0[4].get(row) == Some(&with.kind) && REPLACEABLE.contains(&kind) {
                    let number = asked
                        .check(file.len(), &mut self.tally)?
                        .map_or_else(|| if is_known(unit, kind) { 5 } else { 4 }, |_| 0);
                    self.tally.value(with.kind, number);
                }
            }
        }
        Ok(())
    }

    /// A row replaced by what it holds gives the same bytes.
    fn by_itself(&mut self, file: &[u8], runs: &Runs, row: usize) -> Checked {
        let Some(with) = held(file, row) else {
            return Ok(());
        };
        let asked = Asked {
            file,
            runs,
            row,
            with,
        };
        let out = asked.check(file.len(), &mut self.tally)?;
        let out = out.unwrap_or_default();
        agree_runs(|| format!("row {row} replaced by itself"), file, &out)
            .map_err(|difference| difference.given("file", hex(file)))
    }

    /// Small files, every number of whose tables is altered in turn, and every
    /// run of which is shorter.
    fn every_number(&mut self) -> Checked {
        for item in 0..SMALL_FILES {
            let mut random = self.random(Part::Numbers, item);
            let file = Laid::of(&Object::small(&mut random)).file;
            let right = Runs::of(&file, &mut random);
            let row = any_row(&file, right.rows(), &mut random);
            let with = right_kind(&right, row, &mut random);
            let mut tables = Vec::new();
            for run in 0..RUNS {
                for at in 0..right.rows() {
                    let number = any_number(right.0[run][at], &mut random);
                    tables.push(right.with(run, at, number).longer(&mut random));
                    tables.push(right.with_length(run, at, &mut random));
                }
            }
            for runs in &tables {
                let file = &file;
                let asked = Asked {
                    file,
                    runs,
                    row,
                    with,
                };
                self.check(asked, file.len() + 1)?;
            }
        }
        Ok(())
    }

    fn files(&mut self, files: u64) -> Checked {
        for item in 0..files {
            let mut random = self.random(Part::Files, item);
            let laid = Laid::of(&Object::any(&mut random));
            let mut file = laid.file.clone();
            for _ in 0..random.pick(&[0, 0, 0, 1, 2]) {
                damage(&mut file, &laid, Damage::any(&mut random), &mut random);
            }
            let right = Runs::of(&file, &mut random);
            for _ in 0..right.rows().min(FEW_ROWS) {
                let row = any_row(&file, right.rows(), &mut random);
                let with = if random.one_in(8) {
                    any_replacement(&mut random)
                } else {
                    right_kind(&right, row, &mut random)
                };
                let altered;
                let runs = match random.below(8) {
                    0 => {
                        altered = right.altered(&mut random);
                        &altered
                    }
                    1 => {
                        altered = right.longer(&mut random);
                        &altered
                    }
                    _ => &right,
                };
                let asked = Asked {
                    file: &file,
                    runs,
                    row,
                    with,
                };
                let room = match random.below(6) {
                    0 => file.len().saturating_sub(1),
                    1 => random.below(file.len() + 1),
                    2 => file.len() + random.below(9),
                    _ => file.len(),
                };
                self.check(asked, room)?;
            }
            let row = any_row(&file, right.rows(), &mut random);
            if judge(&file).is_ok() {
                self.by_itself(&file, &right, row)?;
            }
        }
        Ok(())
    }

    /// A file of the limit and one just longer.
    fn long_files(&mut self) -> Checked {
        let mut random = self.random(Part::LongFiles, 0);
        let file = wide(&mut random, LIMIT).file;
        let runs = Runs::of(&file, &mut random);
        for kind in REPLACEABLE {
            let kind = u32::from_be_bytes(kind);
            let row = runs.0[4].iter().rposition(|&other| other == kind);
            let row = row.expect("a wide file has every kind");
            let with = right_kind(&runs, row, &mut random);
            let asked = Asked {
                file: &file,
                runs: &runs,
                row,
                with,
            };
            self.check(asked, LIMIT)?;
        }
        let longer = wide(&mut random, LIMIT + 1).file;
        let with = any_replacement(&mut random);
        let asked = Asked {
            file: &longer,
            runs: &runs,
            row: 1,
            with,
        };
        self.check(asked, 9)
    }
}

/// Whether the unit is none that the kind refuses.
fn is_known(unit: [u8; 4], kind: [u8; 4]) -> bool {
    &kind != b"UntF" || UNITS.contains(&unit)
}

/// A row that can be replaced, where there is one, or any, or one past the last.
fn any_row(file: &[u8], rows: usize, random: &mut Random) -> usize {
    match random.below(12) {
        0 => rows,
        1 => random.pick(&[rows + 1, usize::MAX, usize::MAX / 5 + 1]),
        2 => random.below(rows.max(1)),
        _ => {
            let start = random.below(rows.max(1));
            let mut rows = (start..rows).chain(0..start).take(40);
            rows.find(|&row| held(file, row).is_some()).unwrap_or(start)
        }
    }
}

/// What a row holds, as a replacement of its kind.
fn held(file: &[u8], row: usize) -> Option<Replacement> {
    let (kind, unit, bits) = match typed(file, row).ok()? {
        Typed::Bool(value) => (*b"bool", 0, u64::from(value)),
        Typed::Long(value) => (*b"long", 0, u64::from(value as u32)),
        Typed::Large(value) => (*b"comp", 0, value as u64),
        Typed::Double(value) => (*b"doub", 0, value.to_bits()),
        Typed::Unit(unit, value) => (*b"UntF", unit, value.to_bits()),
        Typed::Other => return None,
    };
    Some(Replacement {
        kind: u32::from_be_bytes(kind),
        unit,
        bits,
    })
}

/// Of the row's kind, mostly with a sound value.
fn right_kind(runs: &Runs, row: usize, random: &mut Random) -> Replacement {
    let any = any_replacement(random);
    let kind = runs.0[4].get(row).copied().unwrap_or(any.kind);
    let bits = match &kind.to_be_bytes() {
        b"bool" if !random.one_in(5) => random.u64() & 1,
        b"long" if !random.one_in(5) => u64::from(random.u32()),
        _ => any.bits,
    };
    Replacement { kind, bits, ..any }
}

fn any_replacement(random: &mut Random) -> Replacement {
    let unit = match random.below(5) {
        0 => random.pick(&WRONG_UNITS),
        1 => random.u32().to_be_bytes(),
        _ => random.pick(&UNITS),
    };
    let kind = match random.below(4) {
        0 => random.pick(&TYPES),
        _ => random.pick(&REPLACEABLE),
    };
    Replacement {
        kind: u32::from_be_bytes(kind),
        unit: u32::from_be_bytes(unit),
        bits: if random.one_in(3) {
            random.u64()
        } else {
            random.pick(&BITS)
        },
    }
}
