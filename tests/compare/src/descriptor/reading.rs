//! Comparing what becomes of one file.

use super::expected;
use super::tally::Tally;
use crate::difference::{agree, agree_runs, hex, Checked};
use crate::lent::Lent;
use generate::descriptor::Laid;
use generate::Random;
use proved::descriptor::{Answer, Parents};

/// First byte, length, next sibling, depth, kind.
const RUNS: usize = 5;
/// Rows lent with a file that is refused.
const SPARE_ROWS: usize = 6;
/// In a file of more rows only some are asked for, since each call judges the
/// whole file.
const FEW_ROWS: usize = 16;
/// The shortest head of a row: a file has no more rows than these go into it.
const SHORTEST_HEAD: usize = 5;

/// Compares every call on a file.
pub fn check_file(file: &[u8], random: &mut Random, tally: &mut Tally) -> Checked {
    check_calls(file, random, tally).map_err(|difference| difference.given("file", hex(file)))
}

fn check_calls(file: &[u8], random: &mut Random, tally: &mut Tally) -> Checked {
    let judged = check_judge(file)?;
    tally.file(&judged);
    for lens in run_lengths(file, &judged, random) {
        check_read(file, &judged, lens, tally)?;
        check_values(file, &judged, lens[0], tally)?;
    }
    check_any_parents(random)?;
    for row in row_numbers(&judged, random) {
        check_row(file, &judged, row, tally)?;
    }
    Ok(())
}

/// Compares reading a file into runs of which one has every length, from none up
/// to one more than it needs.
pub fn check_tables(file: &[u8], tally: &mut Tally) -> Checked {
    let given = |difference: crate::difference::Difference| difference.given("file", hex(file));
    let judged = check_judge(file).map_err(given)?;
    for run in 0..RUNS {
        for len in 0..=judged.rows + 1 {
            let mut lens = [judged.rows; RUNS];
            lens[run] = len;
            check_read(file, &judged, lens, tally).map_err(given)?;
        }
    }
    Ok(())
}

/// Holds the library to the rows and values that a sound file was laid out with,
/// which no reader has told.
pub fn check_laid(laid: &Laid) -> Checked {
    check_rows_laid(laid).map_err(|difference| difference.given("file", hex(&laid.file)))
}

fn check_rows_laid(laid: &Laid) -> Checked {
    let wanted = Answer {
        rows: laid.rows.len(),
        ..Answer::default()
    };
    let (found, rows) = rows_of(&laid.file, laid.rows.len());
    agree(|| "reading what was laid out".to_string(), &wanted, &found)?;
    agree_runs(|| "the rows laid out".to_string(), &laid.rows, &rows)?;
    let mut values = vec![0; laid.rows.len()];
    let found = proved::descriptor::values(&laid.file, &mut values);
    agree(|| "the values laid out".to_string(), &wanted, &found)?;
    let begins: Vec<u32> = laid.values.iter().map(|&value| value as u32).collect();
    agree_runs(
        || "where values were laid out".to_string(),
        &begins,
        &values,
    )?;
    for row in 0..laid.rows.len().min(FEW_ROWS) {
        let [_, _, first, length, _] = laid.rows[row].map(|number| number as usize);
        let value = proved::descriptor::value(&laid.file, row);
        let wanted = (laid.values[row], first + length);
        let found = (value.first, value.first + value.length);
        agree(
            || format!("the value of row {row} laid out"),
            &wanted,
            &found,
        )?;
    }
    Ok(())
}

/// Holds the library's judgement to the reference's, which is given back.
fn check_judge(file: &[u8]) -> Checked<Answer> {
    let wanted = expected::answer(reference::descriptor::judge(file));
    let found = proved::descriptor::judge(file);
    agree(|| "judge".to_string(), &wanted, &found)?;
    Ok(wanted)
}

/// The rows that the library's columns give: kind, parent, first byte, length and
/// depth of each.
pub fn rows_of(file: &[u8], count: usize) -> (Answer, Vec<[u32; 5]>) {
    let run = vec![0; count];
    let [mut first, mut length, mut next, mut depth, mut kind] = [(); RUNS].map(|()| run.clone());
    let columns = proved::descriptor::Columns {
        first: &mut first,
        length: &mut length,
        next: &mut next,
        depth: &mut depth,
        kind: &mut kind,
    };
    let answer = proved::descriptor::read(file, columns);
    let mut parent = run;
    proved::descriptor::parents(&depth, &mut parent);
    let row = |i: usize| [kind[i], parent[i], first[i], length[i], depth[i]];
    (answer, (0..count).map(row).collect())
}

/// Runs of the exact need; one run of one number less, some less or more, none or
/// any; all of as many numbers as the file could have rows. A refused file has no
/// need, but there has to be room for the rows that must not be filled.
fn run_lengths(file: &[u8], judged: &Answer, random: &mut Random) -> [[usize; RUNS]; 7] {
    let rows = if judged.number == 0 {
        judged.rows
    } else {
        SPARE_ROWS
    };
    let mut one = |len: usize| {
        let mut lens = [rows; RUNS];
        lens[random.below(RUNS)] = len;
        lens
    };
    let exact = [rows; RUNS];
    let lens = [
        exact,
        one(rows - 1),
        one(rows + 1),
        one(0),
        [file.len() / SHORTEST_HEAD; RUNS],
    ];
    let [less, any] = [random.below(rows), random.below(rows + 6)];
    let mut some = exact;
    some[random.below(RUNS)] = less;
    let more = exact.map(|len| len + random.below(6));
    let mut last = more;
    last[random.below(RUNS)] = any;
    let [a, b, c, d, e] = lens;
    [a, b, c, d, e, some, last]
}

fn check_read(file: &[u8], judged: &Answer, lens: [usize; RUNS], tally: &mut Tally) -> Checked {
    let mut runs = lens.map(Lent::<u32>::of);
    let [first, length, next, depth, kind] = &mut runs;
    let columns = reference::descriptor::Columns {
        first: first.for_reference(),
        length: length.for_reference(),
        next: next.for_reference(),
        depth: depth.for_reference(),
        kind: kind.for_reference(),
    };
    let wanted = expected::answer(reference::descriptor::read(file, columns));
    let columns = proved::descriptor::Columns {
        first: first.for_library(),
        length: length.for_library(),
        next: next.for_library(),
        depth: depth.for_library(),
        kind: kind.for_library(),
    };
    let found = proved::descriptor::read(file, columns);
    let call = || format!("read into runs of {lens:?} numbers");
    agree(call, &wanted, &found)?;
    for run in &runs {
        run.agree(&call(), wanted.rows)?;
    }
    if judged.number == 0 {
        tally.call(found.number);
        if found.number == 0 {
            check_parents(runs[3].found(found.rows), found.rows)?;
        }
    }
    Ok(())
}

fn check_values(file: &[u8], judged: &Answer, len: usize, tally: &mut Tally) -> Checked {
    let mut run = Lent::<u32>::of(len);
    let wanted = expected::answer(reference::descriptor::values(file, run.for_reference()));
    let found = proved::descriptor::values(file, run.for_library());
    let call = || format!("values in a run of {len} numbers");
    agree(call, &wanted, &found)?;
    run.agree(&call(), wanted.rows)?;
    if judged.number == 0 {
        tally.call(found.number);
    }
    Ok(())
}

/// The parents of rows of these depths, in a run of so many numbers.
fn check_parents(depth: &[u32], len: usize) -> Checked {
    let mut run = Lent::<u32>::of(len);
    let wanted = match reference::descriptor::parents(depth, run.for_reference()) {
        Ok(rows) => Parents { number: 0, rows },
        Err(refusal) => Parents {
            number: refusal.number,
            rows: 0,
        },
    };
    let found = proved::descriptor::parents(depth, run.for_library());
    let call = || format!("parents of {depth:?} in a run of {len} numbers");
    agree(call, &wanted, &found)?;
    run.agree(&call(), wanted.rows)
}

/// Depths that no file need have, with room for all, for one less and for more.
fn check_any_parents(random: &mut Random) -> Checked {
    let count = random.below(24);
    let most = 1 + random.below(5);
    let depth: Vec<u32> = (0..count)
        .map(|_| match random.below(20) {
            0 => u32::MAX,
            _ => random.below(most) as u32,
        })
        .collect();
    check_parents(&depth, count)?;
    check_parents(&depth, count + 3)?;
    check_parents(&depth, count.saturating_sub(1))
}

/// Every row that is there, or some where they are many, and numbers past the
/// last: the next, any, the largest, and one whose row lies where no place does.
fn row_numbers(judged: &Answer, random: &mut Random) -> Vec<usize> {
    let rows = judged.rows;
    let mut numbers: Vec<usize> = if rows <= FEW_ROWS {
        (0..rows).collect()
    } else {
        vec![0, 1, random.below(rows), random.below(rows), rows - 1]
    };
    numbers.extend([
        rows,
        rows + random.below(usize::MAX - rows),
        usize::MAX / RUNS + 1,
        usize::MAX,
    ]);
    numbers
}

fn check_row(file: &[u8], judged: &Answer, row: usize, tally: &mut Tally) -> Checked {
    let wanted = expected::value(reference::descriptor::value(file, row));
    let found = proved::descriptor::value(file, row);
    agree(|| format!("the value of row {row}"), &wanted, &found)?;
    let wanted = expected::typed(reference::descriptor::typed(file, row));
    let typed = proved::descriptor::typed(file, row);
    agree(|| format!("the typed value of row {row}"), &wanted, &typed)?;
    if judged.number == 0 {
        tally.call(found.number);
        tally.typed(&typed);
    }
    Ok(())
}
