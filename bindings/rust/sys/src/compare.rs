//! The library's call for two palettes.

/// What comparing answers: `number` 0 with positions and differences, or the
/// refusal, of file 1, of file 2, or 0 where it is no file's own.
#[repr(C)]
#[derive(Clone, Copy, Debug, Default, PartialEq, Eq)]
pub struct Compared {
    pub number: u32,
    pub file: u32,
    pub place: usize,
    pub record: usize,
    pub field: usize,
    pub positions: usize,
    pub differences: usize,
}

extern "C" {
    fn khuyurek_compare(
        first_kind: u32,
        first: *const u8,
        first_len: usize,
        second_kind: u32,
        second: *const u8,
        second_len: usize,
        table: *mut u32,
        table_len: usize,
    ) -> Compared;
}

/// `khuyurek_compare`: two palettes by position, two numbers of the table a position.
pub fn compare(
    first_kind: u32,
    first: &[u8],
    second_kind: u32,
    second: &[u8],
    table: &mut [u32],
) -> Compared {
    // SAFETY: as the crate says; the table is borrowed for writing.
    unsafe {
        khuyurek_compare(
            first_kind,
            first.as_ptr(),
            first.len(),
            second_kind,
            second.as_ptr(),
            second.len(),
            table.as_mut_ptr(),
            table.len(),
        )
    }
}
