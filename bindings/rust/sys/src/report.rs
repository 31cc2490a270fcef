//! The library's calls for reports.

/// The totals of a report.
#[repr(C)]
#[derive(Clone, Copy, Debug, Default, PartialEq, Eq)]
pub struct Report {
    pub totals: [u32; 31],
}

/// What adding a file answers: the report's own number, the file's number and
/// place, and the report.
#[repr(C)]
#[derive(Clone, Copy, Debug, Default, PartialEq, Eq)]
pub struct Reported {
    pub number: u32,
    pub file_number: u32,
    pub file_place: usize,
    pub report: Report,
}

/// What merging answers: `number` 0 and the sum, or 5 and the first report.
#[repr(C)]
#[derive(Clone, Copy, Debug, Default, PartialEq, Eq)]
pub struct Merged {
    pub number: u32,
    pub report: Report,
}

extern "C" {
    fn khuyurek_report_add(report: Report, kind: u32, file: *const u8, file_len: usize)
        -> Reported;
    fn khuyurek_report_merge(first: Report, second: Report) -> Merged;
}

/// `khuyurek_report_add`: a report with a file's totals added.
pub fn add(report: Report, kind: u32, file: &[u8]) -> Reported {
    // SAFETY: as the crate says.
    unsafe { khuyurek_report_add(report, kind, file.as_ptr(), file.len()) }
}

/// `khuyurek_report_merge`: the sum of two reports.
pub fn merge(first: Report, second: Report) -> Merged {
    // SAFETY: as the crate says; only numbers are passed.
    unsafe { khuyurek_report_merge(first, second) }
}
