//! The library's calls for descriptors.

use crate::Written;

/// What judging or reading a file answers. `number` 0 is accepted, and then
/// `place` is 0; on a refusal `rows` is.
#[repr(C)]
#[derive(Clone, Copy, Debug, Default, PartialEq, Eq)]
pub struct Answer {
    pub number: u32,
    pub place: usize,
    pub rows: usize,
}

/// Where a row's value lies.
#[repr(C)]
#[derive(Clone, Copy, Debug, Default, PartialEq, Eq)]
pub struct Value {
    pub number: u32,
    pub place: usize,
    pub first: usize,
    pub length: usize,
}

/// What a row holds: its kind by its four characters, or 0 where that is none
/// with a typed value; the unit of a unit double; and the value's bits.
#[repr(C)]
#[derive(Clone, Copy, Debug, Default, PartialEq, Eq)]
pub struct Typed {
    pub number: u32,
    pub kind: u32,
    pub place: usize,
    pub unit: u32,
    pub bits: u64,
}

/// What is answered where parents are asked for. On a refusal `rows` is 0.
#[repr(C)]
#[derive(Clone, Copy, Debug, Default, PartialEq, Eq)]
pub struct Parents {
    pub number: u32,
    pub rows: usize,
}

/// What is answered where keys are looked up: how many were answered. On a refusal
/// `in_keys` is 1 where its place is one of the keys.
#[repr(C)]
#[derive(Clone, Copy, Debug, Default, PartialEq, Eq)]
pub struct Found {
    pub number: u32,
    pub in_keys: u32,
    pub place: usize,
    pub keys: usize,
}

/// Five runs that are only read.
#[derive(Clone, Copy, Debug)]
pub struct Table<'a> {
    pub first: &'a [u32],
    pub length: &'a [u32],
    pub next: &'a [u32],
    pub depth: &'a [u32],
    pub kind: &'a [u32],
}

/// A value in place of a row's: its kind by its four characters, the unit of a unit
/// double, and the value's bits.
#[derive(Clone, Copy, Debug)]
pub struct Replacement {
    pub kind: u32,
    pub unit: u32,
    pub bits: u64,
}

/// Five lent runs, one for each column: first byte, length, next sibling, depth,
/// kind.
pub struct Columns<'a> {
    pub first: &'a mut [u32],
    pub length: &'a mut [u32],
    pub next: &'a mut [u32],
    pub depth: &'a mut [u32],
    pub kind: &'a mut [u32],
}

extern "C" {
    fn khuyurek_descriptor_judge(file: *const u8, file_len: usize) -> Answer;
    fn khuyurek_descriptor_read(
        file: *const u8,
        file_len: usize,
        first: *mut u32,
        first_len: usize,
        length: *mut u32,
        length_len: usize,
        next: *mut u32,
        next_len: usize,
        depth: *mut u32,
        depth_len: usize,
        kind: *mut u32,
        kind_len: usize,
    ) -> Answer;
    fn khuyurek_descriptor_values(
        file: *const u8,
        file_len: usize,
        values: *mut u32,
        values_len: usize,
    ) -> Answer;
    fn khuyurek_descriptor_parents(
        depth: *const u32,
        depth_len: usize,
        parents: *mut u32,
        parents_len: usize,
    ) -> Parents;
    fn khuyurek_descriptor_find(
        file: *const u8,
        file_len: usize,
        first: *const u32,
        first_len: usize,
        length: *const u32,
        length_len: usize,
        next: *const u32,
        next_len: usize,
        depth: *const u32,
        depth_len: usize,
        kind: *const u32,
        kind_len: usize,
        keys: *const u8,
        keys_len: usize,
        answers: *mut u32,
        answers_len: usize,
    ) -> Found;
    fn khuyurek_descriptor_replace(
        file: *const u8,
        file_len: usize,
        first: *const u32,
        first_len: usize,
        length: *const u32,
        length_len: usize,
        next: *const u32,
        next_len: usize,
        depth: *const u32,
        depth_len: usize,
        kind: *const u32,
        kind_len: usize,
        row: usize,
        value_kind: u32,
        unit: u32,
        bits: u64,
        out: *mut u8,
        out_len: usize,
    ) -> Written;
    fn khuyurek_descriptor_build_length(
        entries: *const u32,
        entries_len: usize,
        text: *const u8,
        text_len: usize,
    ) -> Written;
    fn khuyurek_descriptor_build(
        entries: *const u32,
        entries_len: usize,
        text: *const u8,
        text_len: usize,
        out: *mut u8,
        out_len: usize,
    ) -> Written;
    fn khuyurek_descriptor_entries(
        file: *const u8,
        file_len: usize,
        entries: *mut u32,
        entries_len: usize,
    ) -> Answer;
    fn khuyurek_descriptor_value_at(file: *const u8, file_len: usize, row: usize) -> Value;
    fn khuyurek_descriptor_typed_at(file: *const u8, file_len: usize, row: usize) -> Typed;
}

// Each pointer below comes with the length of the slice it was taken from, is
// aligned and not null even for an empty slice, and is not kept by the library.

/// `khuyurek_descriptor_judge`: judges a descriptor, and counts its rows.
pub fn judge(file: &[u8]) -> Answer {
    // SAFETY: see above.
    unsafe { khuyurek_descriptor_judge(file.as_ptr(), file.len()) }
}

/// `khuyurek_descriptor_read`: all rows in five lent runs.
pub fn read(file: &[u8], columns: Columns<'_>) -> Answer {
    // SAFETY: see above; the runs are borrowed for writing, and apart.
    unsafe {
        khuyurek_descriptor_read(
            file.as_ptr(),
            file.len(),
            columns.first.as_mut_ptr(),
            columns.first.len(),
            columns.length.as_mut_ptr(),
            columns.length.len(),
            columns.next.as_mut_ptr(),
            columns.next.len(),
            columns.depth.as_mut_ptr(),
            columns.depth.len(),
            columns.kind.as_mut_ptr(),
            columns.kind.len(),
        )
    }
}

/// `khuyurek_descriptor_values`: where each row's value begins.
pub fn values(file: &[u8], values: &mut [u32]) -> Answer {
    // SAFETY: see above; the run is borrowed for writing.
    unsafe {
        khuyurek_descriptor_values(file.as_ptr(), file.len(), values.as_mut_ptr(), values.len())
    }
}

/// `khuyurek_descriptor_parents`: each row's parent, from any depths.
pub fn parents(depth: &[u32], parents: &mut [u32]) -> Parents {
    // SAFETY: see above; the run is borrowed for writing.
    unsafe {
        khuyurek_descriptor_parents(
            depth.as_ptr(),
            depth.len(),
            parents.as_mut_ptr(),
            parents.len(),
        )
    }
}

/// `khuyurek_descriptor_find`: which row has each of some keys, as a pair of the root.
pub fn find(file: &[u8], table: Table<'_>, keys: &[u8], answers: &mut [u32]) -> Found {
    // SAFETY: see above; the answers are borrowed for writing.
    unsafe {
        khuyurek_descriptor_find(
            file.as_ptr(),
            file.len(),
            table.first.as_ptr(),
            table.first.len(),
            table.length.as_ptr(),
            table.length.len(),
            table.next.as_ptr(),
            table.next.len(),
            table.depth.as_ptr(),
            table.depth.len(),
            table.kind.as_ptr(),
            table.kind.len(),
            keys.as_ptr(),
            keys.len(),
            answers.as_mut_ptr(),
            answers.len(),
        )
    }
}

/// `khuyurek_descriptor_replace`: the file with one value replaced, into lent bytes.
pub fn replace(
    file: &[u8],
    table: Table<'_>,
    row: usize,
    value: Replacement,
    out: &mut [u8],
) -> Written {
    // SAFETY: see above; the buffer is borrowed for writing.
    unsafe {
        khuyurek_descriptor_replace(
            file.as_ptr(),
            file.len(),
            table.first.as_ptr(),
            table.first.len(),
            table.length.as_ptr(),
            table.length.len(),
            table.next.as_ptr(),
            table.next.len(),
            table.depth.as_ptr(),
            table.depth.len(),
            table.kind.as_ptr(),
            table.kind.len(),
            row,
            value.kind,
            value.unit,
            value.bits,
            out.as_mut_ptr(),
            out.len(),
        )
    }
}

/// How many bytes a descriptor built from entries takes, 16 numbers each.
pub fn build_length(entries: &[u32], text: &[u8]) -> Written {
    // SAFETY: see above.
    unsafe {
        khuyurek_descriptor_build_length(entries.as_ptr(), entries.len(), text.as_ptr(), text.len())
    }
}

/// Builds it.
pub fn build(entries: &[u32], text: &[u8], out: &mut [u8]) -> Written {
    // SAFETY: see above; the buffer is borrowed for writing.
    unsafe {
        khuyurek_descriptor_build(
            entries.as_ptr(),
            entries.len(),
            text.as_ptr(),
            text.len(),
            out.as_mut_ptr(),
            out.len(),
        )
    }
}

/// `khuyurek_descriptor_entries`: the entries of a file, 16 numbers a row, its own bytes
/// being their text.
pub fn entries(file: &[u8], entries: &mut [u32]) -> Answer {
    // SAFETY: see above; the run is borrowed for writing.
    unsafe {
        khuyurek_descriptor_entries(
            file.as_ptr(),
            file.len(),
            entries.as_mut_ptr(),
            entries.len(),
        )
    }
}

/// `khuyurek_descriptor_value_at`: where a row's value lies; the whole file is judged first.
pub fn value(file: &[u8], row: usize) -> Value {
    // SAFETY: see above.
    unsafe { khuyurek_descriptor_value_at(file.as_ptr(), file.len(), row) }
}

/// `khuyurek_descriptor_typed_at`: a value by its kind; the whole file is judged first.
pub fn typed(file: &[u8], row: usize) -> Typed {
    // SAFETY: see above.
    unsafe { khuyurek_descriptor_typed_at(file.as_ptr(), file.len(), row) }
}
