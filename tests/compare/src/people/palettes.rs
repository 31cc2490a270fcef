//! Palettes compared.

use super::words::{quoted, refused};
use super::{check, Folder};
use crate::difference::Checked;
use generate::{Change, Random, Season, CMYK_TAG, GRAY_TAG, LAB_TAG, RGB_TAG};
use reference::season::{compare, Palette, ROW_LEN};
use reference::{ase, walk, walk_start};
use std::path::Path;

const KINDS: [(&str, &str); 2] = [("aco", "ACO"), ("ase", "ASE")];

pub fn run(program: &Path, folder: &Folder, seed: u64, calls: u64) -> Checked<usize> {
    let mut called = 0;
    for item in 0..calls {
        let mut random = Random::for_part(seed, item);
        let [first, mut second] = Season::pair(&mut random);
        for _ in 0..random.below(4) {
            second.change(random.pick(&Change::ALL), &mut random);
        }
        let mut files = [first, second].map(|season| (season.kind(), season.file()));
        // Damage behind the first bytes, which say the kind.
        if random.one_in(5) {
            let (_, file) = &mut files[random.below(2)];
            let len = 4 + random.below(file.len() - 3);
            file.truncate(len);
            let at = random.below(len);
            if at >= 4 {
                file[at] ^= 1 << random.below(8);
            }
        }
        check_pair(program, folder, &files)?;
        called += 1;
    }
    Ok(called)
}

fn check_pair(program: &Path, folder: &Folder, files: &[(u32, Vec<u8>); 2]) -> Checked {
    let [old, new] = [("old", &files[0]), ("new", &files[1])].map(|(name, (kind, file))| {
        let (end, _) = KINDS[*kind as usize];
        folder.put(&format!("{name}.{end}"), file)
    });
    let (wanted, status) = expected(files, [&old, &new]);
    check(program, &["compare", &old, &new], &wanted, status)
}

fn expected(files: &[(u32, Vec<u8>); 2], names: [&str; 2]) -> (String, i32) {
    let [first, second] = files
        .each_ref()
        .map(|(kind, file)| Palette { kind: *kind, file });
    let mut table = vec![0; files.iter().map(|(_, file)| file.len()).max().unwrap_or(0)];
    let compared = match compare(first, second, &mut table) {
        Ok(compared) => compared,
        Err(error) => {
            let file = error.file as usize - 1;
            let (_, kind) = KINDS[files[file].0 as usize];
            return (refused(names[file], kind, &error.refusal), 1);
        }
    };
    if compared.differences == 0 {
        return ("same\n".to_string(), 0);
    }
    let [old, new] = files.each_ref().map(|(kind, file)| colours(*kind, file));
    let mut wanted = String::new();
    for row in table.chunks(ROW_LEN).take(compared.positions) {
        let at = row[0] as usize;
        let line = match row[1] {
            0 => continue,
            1 => format!("name differs: {} -> {}", old[at], new[at]),
            2 => format!("colour differs: {} -> {}", old[at], new[at]),
            3 => format!("both differ: {} -> {}", old[at], new[at]),
            4 => format!("only in the first: {}", old[at]),
            _ => format!("only in the second: {}", new[at]),
        };
        wanted += &format!("{at} {line}\n");
    }
    let (differ, of) = (compared.differences, compared.positions);
    (wanted + &format!("{differ} of {of} differ\n"), 1)
}

/// Every colour of a sound palette in words.
fn colours(kind: u32, file: &[u8]) -> Vec<String> {
    let mut colours = Vec::new();
    if kind == 0 {
        let mut at = walk_start(file).expect("a sound palette");
        loop {
            let step = walk(file, at);
            let Some(swatch) = step.found.expect("a sound palette") else {
                return colours;
            };
            let [a, b, c, d] = swatch.samples;
            let [sb, sc] = [b, c].map(|sample| sample as i16);
            let colour = match swatch.space {
                0 => format!("RGB {a} {b} {c}"),
                1 => format!("HSB {a} {b} {c}"),
                2 => format!("CMYK {a} {b} {c} {d}"),
                7 => format!("Lab {a} {sb} {sc}"),
                _ => format!("gray {a}"),
            };
            let units = &file[swatch.name..][..2 * swatch.units as usize];
            colours.push(format!("{} {colour}", quoted(units)));
            at = step.next;
        }
    }
    let mut at = ase::walk_start(file).expect("a sound palette");
    loop {
        let step = ase::walk(file, at);
        let Some(record) = step.found.expect("a sound palette") else {
            return colours;
        };
        let [a, b, c, d] = record.channels.map(f32::from_bits);
        let colour = match record.model {
            RGB_TAG => format!("RGB {a:?} {b:?} {c:?}"),
            CMYK_TAG => format!("CMYK {a:?} {b:?} {c:?} {d:?}"),
            LAB_TAG => format!("LAB {a:?} {b:?} {c:?}"),
            GRAY_TAG => format!("Gray {a:?}"),
            model => unreachable!("no model: {model:08X}"),
        };
        let units = &file[record.name..][..2 * record.units as usize];
        colours.push(format!("{} {colour}", quoted(units)));
        at = step.next;
    }
}
