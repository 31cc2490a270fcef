//! The library's calls for image resource blocks.

use crate::Written;

/// What judging or reading a section answers. `number` 0 is accepted, and then
/// `place` is 0; on a refusal `blocks` is.
#[repr(C)]
#[derive(Clone, Copy, Debug, Default, PartialEq, Eq)]
pub struct Answer {
    pub number: u32,
    pub place: usize,
    pub blocks: usize,
}

/// A block's ID, and where its name and its data lie.
#[repr(C)]
#[derive(Clone, Copy, Debug, Default, PartialEq, Eq)]
pub struct Record {
    pub number: u32,
    pub id: u32,
    pub place: usize,
    pub name: usize,
    pub name_length: usize,
    pub data: usize,
    pub data_length: usize,
}

/// The number of the first block with an ID.
#[repr(C)]
#[derive(Clone, Copy, Debug, Default, PartialEq, Eq)]
pub struct Found {
    pub number: u32,
    pub place: usize,
    pub index: usize,
}

/// Where a document's resource section lies.
#[repr(C)]
#[derive(Clone, Copy, Debug, Default, PartialEq, Eq)]
pub struct Section {
    pub number: u32,
    pub place: usize,
    pub first: usize,
    pub length: usize,
}

extern "C" {
    fn khuyurek_resource_judge(section: *const u8, section_len: usize) -> Answer;
    fn khuyurek_resource_read(
        section: *const u8,
        section_len: usize,
        table: *mut u32,
        table_len: usize,
    ) -> Answer;
    fn khuyurek_resource_record_at(section: *const u8, section_len: usize, index: usize) -> Record;
    fn khuyurek_resource_find(section: *const u8, section_len: usize, id: u16) -> Found;
    fn khuyurek_resource_length(
        records: *const u32,
        records_len: usize,
        text: *const u8,
        text_len: usize,
    ) -> Written;
    fn khuyurek_resource_write(
        records: *const u32,
        records_len: usize,
        text: *const u8,
        text_len: usize,
        out: *mut u8,
        out_len: usize,
    ) -> Written;
    fn khuyurek_document_resources(document: *const u8, document_len: usize) -> Section;
}

// Each pointer below comes with the length of the slice it was taken from, is
// aligned and not null even for an empty slice, and is not kept by the library.

/// `khuyurek_resource_judge`: judges a section, and counts its blocks.
pub fn judge(section: &[u8]) -> Answer {
    // SAFETY: see above.
    unsafe { khuyurek_resource_judge(section.as_ptr(), section.len()) }
}

/// `khuyurek_resource_read`: five numbers of the table a block.
pub fn read(section: &[u8], table: &mut [u32]) -> Answer {
    // SAFETY: see above; the table is borrowed for writing.
    unsafe {
        khuyurek_resource_read(
            section.as_ptr(),
            section.len(),
            table.as_mut_ptr(),
            table.len(),
        )
    }
}

/// `khuyurek_resource_record_at`: a block by its number, from 0; the whole section is judged first.
pub fn record(section: &[u8], index: usize) -> Record {
    // SAFETY: see above.
    unsafe { khuyurek_resource_record_at(section.as_ptr(), section.len(), index) }
}

/// `khuyurek_resource_find`: the number of the first block with an ID.
pub fn find(section: &[u8], id: u16) -> Found {
    // SAFETY: see above.
    unsafe { khuyurek_resource_find(section.as_ptr(), section.len(), id) }
}

/// `khuyurek_resource_length`: how many bytes writing takes.
pub fn length(records: &[u32], text: &[u8]) -> Written {
    // SAFETY: see above.
    unsafe { khuyurek_resource_length(records.as_ptr(), records.len(), text.as_ptr(), text.len()) }
}

/// `khuyurek_resource_write`: the section, into lent bytes.
pub fn write(records: &[u32], text: &[u8], out: &mut [u8]) -> Written {
    // SAFETY: see above; the output is borrowed for writing.
    unsafe {
        khuyurek_resource_write(
            records.as_ptr(),
            records.len(),
            text.as_ptr(),
            text.len(),
            out.as_mut_ptr(),
            out.len(),
        )
    }
}

/// `khuyurek_document_resources`: where the section of a document lies, from its first bytes.
pub fn section_of(document: &[u8]) -> Section {
    // SAFETY: see above.
    unsafe { khuyurek_document_resources(document.as_ptr(), document.len()) }
}
