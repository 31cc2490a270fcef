//! Totals over many files.

use crate::colour::{CMYK, GRAY, HSB, LAB, RGB};
use crate::reader::{judge, Swatches};
use crate::refusal::{number, Refusal};
use crate::{acb, ase, descriptor, kind, model};

pub const TOTALS: usize = 31;

/// Where each total stands. Refused files are counted at their number.
pub mod total {
    pub const ACCEPTED: usize = 0;
    /// RGB, HSB, CMYK, Lab and gray.
    pub const ACO: usize = 15;
    /// RGB, CMYK, LAB and Gray.
    pub const ASE: usize = 20;
    /// RGB, CMYK and Lab.
    pub const ACB: usize = 24;
    pub const NAMED: usize = 27;
    pub const UNNAMED: usize = 28;
    pub const DUMMIES: usize = 29;
    pub const ROWS: usize = 30;
}

pub type Totals = [u32; TOTALS];

/// What reporting a file answers: its own number, what the file is refused with, 0 and
/// 0 where it is accepted, and the totals, as they were where the number is not 0.
#[derive(Clone, Copy, Debug, PartialEq, Eq)]
pub struct Reported {
    pub number: u32,
    pub file_number: u32,
    pub file_place: usize,
    pub totals: Totals,
}

/// The totals with those of one file more.
pub fn add(totals: &Totals, kind: u32, file: &[u8]) -> Reported {
    let unchanged = |number, (file_number, file_place)| Reported {
        number,
        file_number,
        file_place,
        totals: *totals,
    };
    let Some((one, outcome)) = totals_of(kind, file) else {
        return unchanged(number::UNKNOWN_TYPE, (0, 0));
    };
    let said = outcome.map_or_else(|refusal| (refusal.number, refusal.place), |()| (0, 0));
    match merge(totals, &one) {
        Ok(totals) => Reported {
            totals,
            ..unchanged(0, said)
        },
        Err(number) => unchanged(number, said),
    }
}

/// The sum of two reports, where every total is one of 32 bits.
pub fn merge(first: &Totals, second: &Totals) -> Result<Totals, u32> {
    let mut sum = *first;
    for (total, more) in sum.iter_mut().zip(second) {
        *total = total.checked_add(*more).ok_or(number::OUT_OF_RANGE)?;
    }
    Ok(sum)
}

/// The report of one file, with what judging it says; none of an unknown kind. A file
/// has fewer colours and rows than it has bytes, so that no total of it is too large.
fn totals_of(kind: u32, file: &[u8]) -> Option<(Totals, Result<(), Refusal>)> {
    let mut totals = [0; TOTALS];
    let outcome = match kind {
        kind::ACO => count_aco(file, &mut totals),
        kind::ASE => count_ase(file, &mut totals),
        kind::ACB => count_acb(file, &mut totals),
        kind::DESCRIPTOR => descriptor::judge(file).map(|rows| totals[total::ROWS] = rows as u32),
        _ => return None,
    };
    let counted = match outcome {
        Ok(()) => total::ACCEPTED,
        Err(refusal) => refusal.number as usize,
    };
    totals[counted] = 1;
    Some((totals, outcome))
}

fn count_aco(file: &[u8], totals: &mut Totals) -> Result<(), Refusal> {
    let accepted = judge(file)?;
    for swatch in Swatches::new(file, accepted) {
        let nth = match swatch.space {
            RGB => 0,
            HSB => 1,
            CMYK => 2,
            LAB => 3,
            GRAY => 4,
            _ => unreachable!("an accepted file's spaces are known"),
        };
        totals[total::ACO + nth] += 1;
        count_name(swatch.units, totals);
    }
    Ok(())
}

fn count_ase(file: &[u8], totals: &mut Totals) -> Result<(), Refusal> {
    let accepted = ase::judge(file)?;
    let records = ase::Records::new(file, accepted);
    for record in records.filter(|record| record.block == ase::COLOUR) {
        let nth = match record.model {
            model::RGB => 0,
            model::CMYK => 1,
            model::LAB => 2,
            model::GRAY => 3,
            _ => unreachable!("an accepted file's models are known"),
        };
        totals[total::ASE + nth] += 1;
        count_name(record.units, totals);
    }
    Ok(())
}

/// A colour that is shown has a name.
fn count_acb(file: &[u8], totals: &mut Totals) -> Result<(), Refusal> {
    let judged = acb::judge_whole(file)?;
    let nth = match judged.accepted.header.space {
        acb::RGB => 0,
        acb::CMYK => 1,
        _ => 2,
    };
    for record in judged.records(file) {
        if record.is_dummy() {
            totals[total::DUMMIES] += 1;
        } else {
            totals[total::ACB + nth] += 1;
            totals[total::NAMED] += 1;
        }
    }
    Ok(())
}

#[inline(always)]
fn count_name(units: u32, totals: &mut Totals) {
    let counted = if units > 0 {
        total::NAMED
    } else {
        total::UNNAMED
    };
    totals[counted] += 1;
}
