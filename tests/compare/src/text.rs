//! Comparing units and names in UTF-8, and the sentences of refusals.

use crate::difference::{agree, hex, Checked};
use crate::lent::Lent;
use crate::tally::Counts;
use generate::Random;
use proved::text::{name_utf8, name_utf8_length, refusal_sentence, utf8, utf8_length, SENTENCE};
use proved::Written;
use reference::{text, LIMIT, UNIT_LEN};
use std::fmt::{self, Display, Formatter};

/// Where the number of bytes changes, and about each bound of the surrogates.
const BOUNDS: [u16; 22] = [
    0, 1, 0x41, 0x7F, 0x80, 0x7FF, 0x800, 0xD7FF, 0xD800, 0xD801, 0xDBFE, 0xDBFF, 0xDC00, 0xDC01,
    0xDFFE, 0xDFFF, 0xE000, 0xE001, 0xFFFC, 0xFFFD, 0xFFFE, 0xFFFF,
];
const LONGEST: usize = 70;
/// The table of refusals, as the rules have it.
const RULES: &str = include_str!("../../../docs/RULES.md");

#[derive(Default)]
pub struct Tally {
    runs: u64,
    answers: Counts,
    sentences: Counts,
}

impl Tally {
    pub fn all_reached(&self) -> Result<(), String> {
        let missing = self.answers.missing(&[0, 1, 2, 11]);
        let unsaid = self.sentences.missing(&[0, 11, 12]);
        if missing.is_empty() && unsaid.is_empty() {
            return Ok(());
        }
        Err(format!("never reached: {missing:?}, {unsaid:?}"))
    }
}

impl Display for Tally {
    fn fmt(&self, f: &mut Formatter<'_>) -> fmt::Result {
        let (runs, answers, sentences) = (self.runs, &self.answers, &self.sentences);
        write!(f, "{runs} runs of units; {answers}; sentences {sentences}")
    }
}

/// Every unit alone, every two and three of the bounds, `runs` runs of any, and
/// runs and files at the limit.
pub fn run(seed: u64, runs: u64) -> Checked<Tally> {
    let random = &mut Random::new(seed);
    let mut tally = Tally::default();
    sentences(&mut tally)?;
    for unit in 0..=u16::MAX {
        check(&[unit], random, &mut tally)?;
    }
    for a in BOUNDS {
        for b in BOUNDS {
            check(&[a, b], random, &mut tally)?;
            for c in BOUNDS {
                check(&[a, b, c], random, &mut tally)?;
            }
        }
    }
    while tally.runs < runs {
        let units = any_units(random);
        check(&units, random, &mut tally)?;
    }
    at_limit(&mut tally)?;
    Ok(tally)
}

/// Units of one kind or of several.
fn any_units(random: &mut Random) -> Vec<u16> {
    let kind = random.below(5);
    (0..random.below(LONGEST))
        .map(|_| match kind {
            0 => random.below(0x80) as u16,
            1 => random.pick(&BOUNDS),
            2 => 0xD800 + random.below(0x800) as u16,
            3 => 0x4E00 + random.below(0x2000) as u16,
            _ => random.u16() >> random.below(12),
        })
        .collect()
}

fn check(units: &[u16], random: &mut Random, tally: &mut Tally) -> Checked {
    tally.runs += 1;
    let shown = || format!("units {units:04X?}");
    let wanted = text::utf8_length(units);
    agree(
        || format!("the length of {}", shown()),
        &written(wanted),
        &utf8_length(units),
    )?;
    let need = wanted.unwrap_or(0);
    for room in [
        Some(need),
        need.checked_sub(1),
        Some(need + 1),
        Some(3 * units.len()),
    ] {
        let Some(room) = room else { continue };
        lend(
            &format!("{} in {room} bytes", shown()),
            room,
            |out| text::utf8(units, out),
            |out| utf8(units, out),
            tally,
        )?;
    }
    check_name(units, need, random, tally)
}

/// The same units as a name in a file, with bytes before and behind it, and as
/// one that the file does not have.
fn check_name(units: &[u16], need: usize, random: &mut Random, tally: &mut Tally) -> Checked {
    let before = random.below(4);
    let behind = random.below(3);
    let mut file = random.bytes(before);
    file.extend(units.iter().flat_map(|unit| unit.to_be_bytes()));
    file.extend(random.bytes(behind));
    let len = file.len();
    let count = units.len();
    let cut = (len - before) / UNIT_LEN + 1;
    for (place, count) in [
        (before, count),
        (before, cut),
        (before + behind + 1, count),
        (len, random.below(2)),
        (len + 1, 0),
        (len + 1, 1),
        (before, usize::MAX),
        (before, 1 << 63),
        (usize::MAX, count),
        (random.below(len + 1), random.below(count + 2)),
    ] {
        let call = format!("{count} units at {place} of {}", hex(&file));
        let wanted = text::name_utf8_length(&file, place, count);
        agree(
            || format!("the length of {call}"),
            &written(wanted),
            &name_utf8_length(&file, place, count),
        )?;
        let need = wanted.unwrap_or(need);
        for room in [Some(need), need.checked_sub(1), Some(need + 3)]
            .into_iter()
            .flatten()
        {
            lend(
                &format!("{call} in {room} bytes"),
                room,
                |out| text::name_utf8(&file, place, count, out),
                |out| name_utf8(&file, place, count, out),
                tally,
            )?;
        }
    }
    Ok(())
}

/// As many units and as long a file as are taken, and one more.
fn at_limit(tally: &mut Tally) -> Checked {
    let most = LIMIT / UNIT_LEN;
    for count in [most, most + 1] {
        let units = vec![0xFFFF_u16; count];
        agree(
            || format!("the length of {count} units"),
            &written(text::utf8_length(&units)),
            &utf8_length(&units),
        )?;
        lend(
            &format!("{count} units"),
            3 * most,
            |out| text::utf8(&units, out),
            |out| utf8(&units, out),
            tally,
        )?;
    }
    for len in [LIMIT, LIMIT + 1] {
        let file = vec![0xFF_u8; len];
        for (place, count) in [(0, most), (LIMIT - 1, 1), (LIMIT - 2, 1), (0, 0)] {
            let call = format!("{count} units at {place} of {len} bytes");
            agree(
                || call.clone(),
                &written(text::name_utf8_length(&file, place, count)),
                &name_utf8_length(&file, place, count),
            )?;
            lend(
                &call,
                3 * count,
                |out| text::name_utf8(&file, place, count, out),
                |out| name_utf8(&file, place, count, out),
                tally,
            )?;
        }
    }
    Ok(())
}

/// Each number's sentence is that of its row in the rules; numbers without a row
/// have none.
fn sentences(tally: &mut Tally) -> Checked {
    let rows = (0..1_000).chain([u32::MAX - 1, u32::MAX]);
    for number in rows {
        let row = format!("| {number} | ");
        let said = RULES.lines().find_map(|line| line.strip_prefix(&row));
        let said = said.and_then(|line| line.strip_suffix(" |"));
        let need = said.map_or(0, str::len);
        for room in [need, need.saturating_sub(1), need + 2, SENTENCE] {
            lend_counted(
                &format!("the sentence of {number} in {room} bytes"),
                room,
                |out| {
                    let said = said.ok_or(reference::number::NO_RECORD)?;
                    let out = out.get_mut(..said.len());
                    let out = out.ok_or(reference::number::NO_ROOM)?;
                    out.copy_from_slice(said.as_bytes());
                    Ok(said.len())
                },
                |out| refusal_sentence(number, out),
                &mut tally.sentences,
            )?;
        }
    }
    Ok(())
}

fn lend(
    call: &str,
    room: usize,
    reference: impl Fn(&mut [u8]) -> Result<usize, u32>,
    library: impl Fn(&mut [u8]) -> Written,
    tally: &mut Tally,
) -> Checked {
    lend_counted(call, room, reference, library, &mut tally.answers)
}

fn lend_counted(
    call: &str,
    room: usize,
    reference: impl Fn(&mut [u8]) -> Result<usize, u32>,
    library: impl Fn(&mut [u8]) -> Written,
    counts: &mut Counts,
) -> Checked {
    let mut lent = Lent::of(room);
    let wanted = written(reference(lent.for_reference()));
    let found = library(lent.for_library());
    agree(|| call.to_string(), &wanted, &found)?;
    lent.agree(call, wanted.length)?;
    counts.add(wanted.number);
    Ok(())
}

fn written(result: Result<usize, u32>) -> Written {
    match result {
        Ok(length) => Written { number: 0, length },
        Err(number) => Written { number, length: 0 },
    }
}
