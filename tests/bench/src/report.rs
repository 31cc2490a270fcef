//! The tables of files at several sizes, and what stands out in them.

use crate::timing::Times;

const MIB: usize = 1 << 20;
/// The last one is the limit; a file is as near below as whole records get.
pub const SIZES: [usize; 3] = [MIB, 4 * MIB, 16 * MIB];
const SHOWN_SIZES: [&str; 3] = ["1 MiB", "4 MiB", "16 MiB"];

/// One call on files of one shape, by size.
struct Row {
    format: &'static str,
    call: &'static str,
    shape: &'static str,
    times: [Times; SIZES.len()],
}

/// One conversion.
struct Conversion {
    title: &'static str,
    ratio: f64,
}

/// All that was timed in this run.
#[derive(Default)]
pub struct Report {
    rows: Vec<Row>,
    conversions: Vec<Conversion>,
}

/// A format's table, to which rows are added.
pub struct Table<'a> {
    report: &'a mut Report,
    format: &'static str,
}

impl Report {
    /// Begins a format's table; `items` is what its files are counted in.
    pub fn table(&mut self, format: &'static str, items: &str) -> Table<'_> {
        println!(
            "ratio: library to reference, in time; growth: a byte's time at 16 MiB to that at 1"
        );
        println!(
            "{:6} {:12} {:>9} {items:>8} {:>13} {:>15} {:>6} {:>15} {:>17}",
            "call",
            "shape",
            "bytes",
            "library ns/B",
            "reference ns/B",
            "ratio",
            "library growth",
            "reference growth"
        );
        Table {
            report: self,
            format,
        }
    }

    pub fn add_conversion(&mut self, title: &'static str, ratio: f64) {
        self.conversions.push(Conversion { title, ratio });
    }

    /// For each call of each format the row with the worst ratio, and the one
    /// whose cost grows most.
    pub fn print_summary(&self) {
        println!("\nthe worst of each call");
        println!(
            "{:12} {:6} {:>6}  {:22} {:>7} {:>10}  at",
            "format", "call", "ratio", "at", "growth", "reference"
        );
        let mut done: Vec<(&str, &str)> = Vec::new();
        for row in &self.rows {
            let call = (row.format, row.call);
            if !done.contains(&call) {
                done.push(call);
                self.print_worst(call);
            }
        }
        for Conversion { title, ratio } in &self.conversions {
            println!("{:12} {title}: {ratio:.2}", "conversions");
        }
    }

    fn print_worst(&self, call: (&str, &str)) {
        let rows = || {
            self.rows
                .iter()
                .filter(|row| (row.format, row.call) == call)
        };
        let ratios = rows().flat_map(|row| {
            let sizes = row.times.iter().zip(SHOWN_SIZES);
            sizes.map(|(times, size)| (times.ratio(), format!("{}, {size}", row.shape)))
        });
        let worst_ratio = ratios.max_by(|(a, _), (b, _)| a.total_cmp(b));
        let worst_growth = rows().max_by(|a, b| a.growth().total_cmp(&b.growth()));
        if let (Some((ratio, place)), Some(row)) = (worst_ratio, worst_growth) {
            let (format, call) = call;
            println!(
                "{format:12} {call:6} {ratio:>6.2}  {place:22} {:>7.2} {:>10.2}  {}",
                row.growth(),
                row.reference_growth(),
                row.shape
            );
        }
    }
}

impl Table<'_> {
    /// Adds a call on files of one shape, and prints a line for each size.
    pub fn add(
        &mut self,
        call: &'static str,
        shape: &'static str,
        items: [usize; SIZES.len()],
        times: [Times; SIZES.len()],
    ) {
        let row = Row {
            format: self.format,
            call,
            shape,
            times,
        };
        for (index, (times, items)) in row.times.iter().zip(items).enumerate() {
            print!(
                "{call:6} {shape:12} {:>9} {items:>8} {:>13.4} {:>15.4} {:>6.2}",
                times.bytes,
                times.library_a_byte(),
                times.reference_a_byte(),
                times.ratio()
            );
            if index + 1 == SIZES.len() {
                print!(" {:>15.2} {:>17.2}", row.growth(), row.reference_growth());
            }
            println!();
        }
        self.report.rows.push(row);
    }
}

impl Row {
    fn growth(&self) -> f64 {
        let [first, .., last] = &self.times;
        last.library_a_byte() / first.library_a_byte()
    }

    fn reference_growth(&self) -> f64 {
        let [first, .., last] = &self.times;
        last.reference_a_byte() / first.reference_a_byte()
    }
}
