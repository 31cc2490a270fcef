//! The library's calls for ACB.

use crate::Written;

/// Where a string lies in a file or text: the place of its first unit, and its
/// units.
#[repr(C)]
#[derive(Clone, Copy, Debug, Default, PartialEq, Eq)]
pub struct Text {
    pub place: usize,
    pub units: u32,
}

/// The tag is 0 for none, 1 for spot, 2 for process.
#[repr(C)]
#[derive(Clone, Copy, Debug, Default, PartialEq, Eq)]
pub struct Header {
    pub identifier: u16,
    pub page_size: u16,
    pub page_offset: u16,
    pub space: u16,
    pub tag: u32,
    pub title: Text,
    pub prefix: Text,
    pub suffix: Text,
    pub description: Text,
}

/// What judging or reading a file answers. `number` 0 is accepted, and then
/// `place` is 0; on a refusal all the rest is.
#[repr(C)]
#[derive(Clone, Copy, Debug, Default, PartialEq, Eq)]
pub struct Answer {
    pub number: u32,
    pub place: usize,
    pub count: usize,
    pub header: Header,
}

/// What asking for a record by its number answers.
#[repr(C)]
#[derive(Clone, Copy, Debug, Default, PartialEq, Eq)]
pub struct Record {
    pub number: u32,
    pub units: u32,
    pub place: usize,
    pub name: usize,
    pub code: [u8; 6],
    pub components: [u8; 4],
    pub ink: u32,
}

/// What a record's components show: three or four of them, the rest 0.
#[repr(C)]
#[derive(Clone, Copy, Debug, Default, PartialEq, Eq)]
pub struct Shown {
    pub number: u32,
    pub count: u32,
    pub place: usize,
    pub values: [i32; 4],
}

/// The length of a full name in bytes.
#[repr(C)]
#[derive(Clone, Copy, Debug, Default, PartialEq, Eq)]
pub struct Full {
    pub number: u32,
    pub length: usize,
    pub place: usize,
}

/// The record that a page shows.
#[repr(C)]
#[derive(Clone, Copy, Debug, Default, PartialEq, Eq)]
pub struct Page {
    pub number: u32,
    pub record: usize,
    pub place: usize,
}

/// What building an index answers: how many entries there are.
#[repr(C)]
#[derive(Clone, Copy, Debug, Default, PartialEq, Eq)]
pub struct Indexed {
    pub number: u32,
    pub place: usize,
    pub shown: usize,
}

/// The record that has a name.
#[repr(C)]
#[derive(Clone, Copy, Debug, Default, PartialEq, Eq)]
pub struct Found {
    pub number: u32,
    pub place: usize,
    pub record: usize,
}

extern "C" {
    fn khuyurek_acb_judge(file: *const u8, file_len: usize) -> Answer;
    fn khuyurek_acb_read(
        file: *const u8,
        file_len: usize,
        table: *mut u32,
        table_len: usize,
    ) -> Answer;
    fn khuyurek_acb_record_at(file: *const u8, file_len: usize, index: usize) -> Record;
    fn khuyurek_acb_shown_at(file: *const u8, file_len: usize, index: usize) -> Shown;
    fn khuyurek_acb_shown_start(string: *const u8, string_len: usize) -> usize;
    fn khuyurek_acb_full_length(file: *const u8, file_len: usize, index: usize) -> Full;
    fn khuyurek_acb_full_name(
        file: *const u8,
        file_len: usize,
        index: usize,
        out: *mut u8,
        out_len: usize,
    ) -> Full;
    fn khuyurek_acb_page_at(file: *const u8, file_len: usize, page: usize) -> Page;
    fn khuyurek_acb_shown_component(space: u16, position: usize, byte: u8) -> i32;
    fn khuyurek_acb_page_in(
        table: *const u32,
        table_len: usize,
        count: usize,
        page_size: u16,
        page_offset: u16,
        page: usize,
    ) -> Page;
    fn khuyurek_acb_index(
        file: *const u8,
        file_len: usize,
        index: *mut u32,
        index_len: usize,
    ) -> Indexed;
    fn khuyurek_acb_find(
        file: *const u8,
        file_len: usize,
        index: *const u32,
        index_len: usize,
        name: *const u16,
        name_len: usize,
    ) -> Found;
    fn khuyurek_acb_length(
        header: Header,
        records: *const u32,
        records_len: usize,
        text: *const u8,
        text_len: usize,
    ) -> Written;
    fn khuyurek_acb_write(
        header: Header,
        records: *const u32,
        records_len: usize,
        text: *const u8,
        text_len: usize,
        out: *mut u8,
        out_len: usize,
    ) -> Written;
}

// Each pointer below comes with the length of the slice it was taken from, is
// aligned and not null even for an empty slice, and is not kept by the library.

/// `khuyurek_acb_judge`: judges a book.
pub fn judge(file: &[u8]) -> Answer {
    // SAFETY: see above.
    unsafe { khuyurek_acb_judge(file.as_ptr(), file.len()) }
}

/// `khuyurek_acb_read`: thirteen numbers of the table a record.
pub fn read(file: &[u8], table: &mut [u32]) -> Answer {
    // SAFETY: see above; the table is borrowed for writing.
    unsafe { khuyurek_acb_read(file.as_ptr(), file.len(), table.as_mut_ptr(), table.len()) }
}

/// `khuyurek_acb_record_at`: a record by its number, from 0; the whole file is judged first.
pub fn record(file: &[u8], index: usize) -> Record {
    // SAFETY: see above.
    unsafe { khuyurek_acb_record_at(file.as_ptr(), file.len(), index) }
}

/// `khuyurek_acb_shown_at`: what the components of a record show; the whole file is judged first.
pub fn shown(file: &[u8], index: usize) -> Shown {
    // SAFETY: see above.
    unsafe { khuyurek_acb_shown_at(file.as_ptr(), file.len(), index) }
}

/// `khuyurek_acb_shown_start`: the byte at which a string's shown text begins.
pub fn shown_start(string: &[u8]) -> usize {
    // SAFETY: see above.
    unsafe { khuyurek_acb_shown_start(string.as_ptr(), string.len()) }
}

/// `khuyurek_acb_full_length`: the bytes of a full name; the whole file is judged first.
pub fn full_length(file: &[u8], index: usize) -> Full {
    // SAFETY: see above.
    unsafe { khuyurek_acb_full_length(file.as_ptr(), file.len(), index) }
}

/// `khuyurek_acb_full_name`: a full name, into lent bytes; the whole file is judged first.
pub fn full_name(file: &[u8], index: usize, out: &mut [u8]) -> Full {
    // SAFETY: see above; the output is borrowed for writing.
    unsafe {
        khuyurek_acb_full_name(
            file.as_ptr(),
            file.len(),
            index,
            out.as_mut_ptr(),
            out.len(),
        )
    }
}

/// `khuyurek_acb_page_at`: the record that a page shows; the whole file is judged first.
pub fn page(file: &[u8], page: usize) -> Page {
    // SAFETY: see above.
    unsafe { khuyurek_acb_page_at(file.as_ptr(), file.len(), page) }
}

/// `khuyurek_acb_shown_component`: what the byte of one component shows.
#[inline]
pub fn shown_component(space: u16, position: usize, byte: u8) -> i32 {
    // SAFETY: numbers are all that is handed over.
    unsafe { khuyurek_acb_shown_component(space, position, byte) }
}

/// A page of `count` records that were read into `table`.
pub fn page_in(table: &[u32], count: usize, page_size: u16, page_offset: u16, page: usize) -> Page {
    // SAFETY: see above.
    unsafe {
        khuyurek_acb_page_in(
            table.as_ptr(),
            table.len(),
            count,
            page_size,
            page_offset,
            page,
        )
    }
}

/// `khuyurek_acb_index`: the numbers of the shown records by their names, in a lent run.
pub fn index(file: &[u8], index: &mut [u32]) -> Indexed {
    // SAFETY: see above; the index is borrowed for writing.
    unsafe { khuyurek_acb_index(file.as_ptr(), file.len(), index.as_mut_ptr(), index.len()) }
}

/// `khuyurek_acb_find`: the lowest shown record of a name, a run of units.
pub fn find(file: &[u8], index: &[u32], name: &[u16]) -> Found {
    // SAFETY: see above.
    unsafe {
        khuyurek_acb_find(
            file.as_ptr(),
            file.len(),
            index.as_ptr(),
            index.len(),
            name.as_ptr(),
            name.len(),
        )
    }
}

/// `khuyurek_acb_length`: how many bytes writing takes.
pub fn length(header: Header, records: &[u32], text: &[u8]) -> Written {
    // SAFETY: see above.
    unsafe {
        khuyurek_acb_length(
            header,
            records.as_ptr(),
            records.len(),
            text.as_ptr(),
            text.len(),
        )
    }
}

/// `khuyurek_acb_write`: the book, into lent bytes.
pub fn write(header: Header, records: &[u32], text: &[u8], out: &mut [u8]) -> Written {
    // SAFETY: see above; the output is borrowed for writing.
    unsafe {
        khuyurek_acb_write(
            header,
            records.as_ptr(),
            records.len(),
            text.as_ptr(),
            text.len(),
            out.as_mut_ptr(),
            out.len(),
        )
    }
}
