//! Totals over files of every kind.

use crate::{raw, Refusal};

/// The kind of a file.
#[derive(Clone, Copy, Debug, PartialEq, Eq, Hash)]
pub enum Kind {
    /// Swatches.
    Aco,
    /// An exchange palette.
    Ase,
    /// A colour book.
    Acb,
    /// A serialized descriptor.
    Descriptor,
}

/// The names of the totals, in their order.
pub const NAMES: [&str; 31] = [
    "accepted",
    "refused 1",
    "refused 2",
    "refused 3",
    "refused 4",
    "refused 5",
    "refused 6",
    "refused 7",
    "refused 8",
    "refused 9",
    "refused 10",
    "refused 11",
    "refused 12",
    "refused 13",
    "refused 14",
    "ACO RGB",
    "ACO HSB",
    "ACO CMYK",
    "ACO Lab",
    "ACO gray",
    "ASE RGB",
    "ASE CMYK",
    "ASE LAB",
    "ASE Gray",
    "ACB RGB",
    "ACB CMYK",
    "ACB Lab",
    "named",
    "unnamed",
    "dummies",
    "descriptor rows",
];

/// A report, which begins with zeros.
///
/// ```
/// use khuyurek::report::{Kind, Report};
///
/// let gray = [0, 1, 0, 1, 0, 8, 0x27, 0x10, 0, 0, 0, 0, 0, 0];
/// let mut report = Report::default();
/// assert_eq!(report.add(Kind::Aco, &gray).unwrap(), None);
/// assert_eq!(report.add(Kind::Aco, &[]).unwrap().unwrap().number, 2);
/// let totals = report.totals();
/// assert_eq!((totals[0], totals[2], totals[19], totals[28]), (1, 1, 1, 1));
/// ```
#[derive(Clone, Copy, Debug, Default, PartialEq, Eq)]
pub struct Report(raw::report::Report);

impl Kind {
    fn number(self) -> u32 {
        match self {
            Kind::Aco => 0,
            Kind::Ase => 1,
            Kind::Acb => 2,
            Kind::Descriptor => 3,
        }
    }
}

impl Report {
    /// A report with these totals.
    pub fn of(totals: [u32; 31]) -> Report {
        Report(raw::report::Report { totals })
    }

    /// The totals, in the order of [`NAMES`].
    pub fn totals(&self) -> [u32; 31] {
        self.0.totals
    }

    /// Adds a file's report, and tells the file's own refusal, if it is refused.
    /// 5 where a total would pass 4,294,967,295: the report then stays as it was.
    pub fn add(&mut self, kind: Kind, file: &[u8]) -> Result<Option<Refusal>, Refusal> {
        let reported = raw::report::add(self.0, kind.number(), file);
        self.0 = reported.report;
        Refusal::unless(reported.number, 0)?;
        Ok(Refusal::unless(reported.file_number, reported.file_place).err())
    }

    /// Adds another report; 5 where a total would pass the bound, and this report
    /// stays as it was.
    pub fn merge(&mut self, other: &Report) -> Result<(), Refusal> {
        let merged = raw::report::merge(self.0, other.0);
        self.0 = merged.report;
        Refusal::unless(merged.number, 0)
    }
}
