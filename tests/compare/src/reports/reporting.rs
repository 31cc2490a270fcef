//! Comparing one call.

use super::tally::Tally;
use crate::difference::{agree, hex, Checked};
use proved::report::{Merged, Report, Reported};
use reference::report;
use reference::report::Totals;

/// Adds a file to a report; gives the report that the library then has.
pub fn check_add(totals: Totals, kind: u32, file: &[u8], tally: &mut Tally) -> Checked<Totals> {
    let report::Reported {
        number,
        file_number,
        file_place,
        totals: after,
    } = report::add(&totals, kind, file);
    let wanted = Reported {
        number,
        file_number,
        file_place,
        report: Report { totals: after },
    };
    let found = proved::report::add(Report { totals }, kind, file);
    agree(|| "a file added to a report".into(), &wanted, &found).map_err(|difference| {
        difference
            .given("file", format!("kind {kind}, {}", hex(file)))
            .given("report", format!("{totals:?}"))
    })?;
    tally.added(&found);
    Ok(found.report.totals)
}

/// Merges two reports; gives the library's answer.
pub fn check_merge(first: Totals, second: Totals, tally: &mut Tally) -> Checked<Merged> {
    let merged = report::merge(&first, &second);
    let wanted = Merged {
        number: merged.err().unwrap_or(0),
        report: Report {
            totals: merged.unwrap_or(first),
        },
    };
    let [first, second] = [first, second].map(|totals| Report { totals });
    let found = proved::report::merge(first, second);
    agree(|| "two reports merged".into(), &wanted, &found).map_err(|difference| {
        difference
            .given("first", format!("{first:?}"))
            .given("second", format!("{second:?}"))
    })?;
    tally.merged(found.number);
    Ok(found)
}
