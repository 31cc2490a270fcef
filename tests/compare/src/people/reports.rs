//! Files reported, and reports merged.

use super::words::{refused, sentence};
use super::{check, Folder};
use crate::difference::Checked;
use generate::{acb, ase, damage, descriptor, Damage, Palette, Random};
use reference::report::{add, merge, Totals, TOTALS};
use reference::Refusal;
use std::path::Path;

/// Ends of names, kinds and what their colours are counted by.
const ENDS: [&str; 4] = ["aco", "ase", "acb", "desc"];
const KINDS: [&str; 4] = ["ACO", "ASE", "ACB", "descriptor"];
const COLOURS: [(&str, &str); 16] = [
    ("aco_rgb", "ACO colours in RGB"),
    ("aco_hsb", "ACO colours in HSB"),
    ("aco_cmyk", "ACO colours in CMYK"),
    ("aco_lab", "ACO colours in Lab"),
    ("aco_gray", "ACO colours in gray"),
    ("ase_rgb", "ASE colours in RGB"),
    ("ase_cmyk", "ASE colours in CMYK"),
    ("ase_lab", "ASE colours in LAB"),
    ("ase_gray", "ASE colours in Gray"),
    ("acb_rgb", "ACB colours in RGB"),
    ("acb_cmyk", "ACB colours in CMYK"),
    ("acb_lab", "ACB colours in Lab"),
    ("named", "colours with a name"),
    ("unnamed", "colours without a name"),
    ("dummies", "dummies"),
    ("rows", "descriptor rows"),
];
/// Two reports, each in both forms, and their sum.
const CALLS_A_REPORT: usize = 5;
/// The first bytes of a file, which say its kind.
const MARK: usize = 4;

pub fn run(program: &Path, folder: &Folder, seed: u64, calls: u64) -> Checked<usize> {
    let mut called = 0;
    for item in 0..calls {
        let mut random = Random::for_part(seed, 1 << 40 | item);
        let mut totals = [[0; TOTALS]; 2];
        let mut reports = Vec::new();
        for (part, totals) in totals.iter_mut().enumerate() {
            let (names, lines, status) = files(folder, part, totals, &mut random);
            let names: Vec<&str> = names.iter().map(String::as_str).collect();
            let wanted = lines + &shown(totals);
            check(
                program,
                &[&["report"], &names[..]].concat(),
                &wanted,
                status,
            )?;
            let json = json(totals);
            check(
                program,
                &[&["report", "--json"], &names[..]].concat(),
                &json,
                status,
            )?;
            reports.push(folder.put(&format!("{part}.json"), json.as_bytes()));
        }
        let sum = merge(&totals[0], &totals[1]).expect("small reports have a sum");
        let [one, two] = &reports[..] else {
            unreachable!("two reports are made");
        };
        check(program, &["report", "--merge", one, two], &shown(&sum), 0)?;
        called += CALLS_A_REPORT;
    }
    Ok(called)
}

/// A few files of any kinds, whose totals are added: their names, the lines of those
/// that are refused, and the status.
fn files(
    folder: &Folder,
    part: usize,
    totals: &mut Totals,
    random: &mut Random,
) -> (Vec<String>, String, i32) {
    let (mut names, mut lines, mut status) = (Vec::new(), String::new(), 0);
    for index in 0..1 + random.below(12) {
        let kind = random.below(4);
        let file = any_file(kind, random);
        let name = folder.put(&format!("{part}-{index}.{}", ENDS[kind]), &file);
        let reported = add(totals, kind as u32, &file);
        *totals = reported.totals;
        if reported.file_number != 0 {
            let refusal = match kind {
                0 => reference::judge(&file).expect_err("it is refused"),
                _ => Refusal {
                    number: reported.file_number,
                    place: reported.file_place,
                    record: 0,
                    field: 0,
                },
            };
            lines += &refused(&name, KINDS[kind], &refusal);
            status = 1;
        }
        names.push(name);
    }
    (names, lines, status)
}

/// A file, sound or damaged behind its first bytes.
fn any_file(kind: usize, random: &mut Random) -> Vec<u8> {
    let is_damaged = random.one_in(3);
    let mut file = match kind {
        0 => {
            let palette = Palette::any(random);
            let mut file = palette.file();
            if is_damaged {
                damage(&mut file, &palette, Damage::any(random), random);
                let mark = [0, 1, 0, 0];
                file.resize(file.len().max(MARK), 0);
                file[..2].copy_from_slice(&mark[..2]);
            }
            return file;
        }
        1 => ase::Palette::any(random).file(),
        2 => acb::Book::any(random).file(),
        _ => descriptor::Laid::of(&descriptor::Object::any(random)).file,
    };
    if is_damaged && file.len() > MARK {
        let at = MARK + random.below(file.len() - MARK);
        file[at] ^= 1 << random.below(8);
        file.truncate(MARK + random.below(file.len()));
    }
    file
}

fn shown(totals: &Totals) -> String {
    let refusals = (1..15).map(|number| format!("refused by {number}: {}", sentence(number)));
    let names = ["accepted".to_string()].into_iter().chain(refusals);
    let names = names.chain(COLOURS.iter().map(|(_, name)| name.to_string()));
    let lines = totals.iter().zip(names);
    lines
        .map(|(total, name)| format!("{total} {name}\n"))
        .collect()
}

fn json(totals: &Totals) -> String {
    let refusals = (1..15).map(|number| format!("refused_{number}"));
    let names = ["accepted".to_string()].into_iter().chain(refusals);
    let names = names.chain(COLOURS.iter().map(|(name, _)| name.to_string()));
    let lines = totals.iter().zip(names);
    let lines: Vec<String> = lines
        .map(|(total, name)| format!("  \"{name}\": {total}"))
        .collect();
    format!("{{\n{}\n}}\n", lines.join(",\n"))
}
