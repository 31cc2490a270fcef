//! The library's calls for ASE.

use crate::Written;

/// What judging or reading a file answers. `number` 0 is accepted, and then
/// `place` is 0; on a refusal `blocks` and `colours` are.
#[repr(C)]
#[derive(Clone, Copy, Debug, Default, PartialEq, Eq)]
pub struct Answer {
    pub number: u32,
    pub place: usize,
    pub blocks: usize,
    pub colours: usize,
}

/// What asking for a record by its number answers. On a refusal all but
/// `number` and `place` is 0.
#[repr(C)]
#[derive(Clone, Copy, Debug, Default, PartialEq, Eq)]
pub struct Record {
    pub number: u32,
    pub block: u32,
    pub place: usize,
    pub name: usize,
    pub units: u32,
    pub model: u32,
    pub channels: [u32; 4],
    pub ink: u32,
}

/// What starting a walk answers: the place of its first step, or the refusal
/// and then `at` is 0.
#[repr(C)]
#[derive(Clone, Copy, Debug, Default, PartialEq, Eq)]
pub struct Start {
    pub number: u32,
    pub place: usize,
    pub at: usize,
}

/// What a step of a walk answers: a block, or `done` is 1, or `number` is not 0.
/// What a step does not have is 0, save `next`.
#[repr(C)]
#[derive(Clone, Copy, Debug, Default, PartialEq, Eq)]
pub struct Step {
    pub number: u32,
    pub done: u32,
    pub block: u32,
    pub units: u32,
    pub next: usize,
    pub name: usize,
    pub model: u32,
    pub channels: [u32; 4],
    pub ink: u32,
}

extern "C" {
    fn khuyurek_ase_judge(file: *const u8, file_len: usize) -> Answer;
    fn khuyurek_ase_read(
        file: *const u8,
        file_len: usize,
        table: *mut u32,
        table_len: usize,
    ) -> Answer;
    fn khuyurek_ase_record_at(file: *const u8, file_len: usize, index: usize) -> Record;
    fn khuyurek_ase_length(
        records: *const u32,
        records_len: usize,
        text: *const u8,
        text_len: usize,
    ) -> Written;
    fn khuyurek_ase_write(
        records: *const u32,
        records_len: usize,
        text: *const u8,
        text_len: usize,
        out: *mut u8,
        out_len: usize,
    ) -> Written;
    fn khuyurek_ase_walk_start(file: *const u8, file_len: usize) -> Start;
    fn khuyurek_ase_walk(file: *const u8, file_len: usize, at: usize) -> Step;
    fn khuyurek_ase_walk_block(file: *const u8, file_len: usize, at: usize) -> Step;
}

// Each pointer below comes with the length of the slice it was taken from, is
// aligned and not null even for an empty slice, and is not kept by the library.

/// `khuyurek_ase_judge`: judges an ASE file.
pub fn judge(file: &[u8]) -> Answer {
    // SAFETY: see above.
    unsafe { khuyurek_ase_judge(file.as_ptr(), file.len()) }
}

/// `khuyurek_ase_read`: nine numbers of the table a block.
pub fn read(file: &[u8], table: &mut [u32]) -> Answer {
    // SAFETY: see above; the table is borrowed for writing.
    unsafe { khuyurek_ase_read(file.as_ptr(), file.len(), table.as_mut_ptr(), table.len()) }
}

/// `khuyurek_ase_record_at`: a block by its number, from 0; the whole file is judged first.
pub fn record(file: &[u8], index: usize) -> Record {
    // SAFETY: see above.
    unsafe { khuyurek_ase_record_at(file.as_ptr(), file.len(), index) }
}

/// `khuyurek_ase_length`: how many bytes writing takes.
pub fn length(records: &[u32], text: &[u8]) -> Written {
    // SAFETY: see above.
    unsafe { khuyurek_ase_length(records.as_ptr(), records.len(), text.as_ptr(), text.len()) }
}

/// `khuyurek_ase_write`: the file, into lent bytes.
pub fn write(records: &[u32], text: &[u8], out: &mut [u8]) -> Written {
    // SAFETY: see above; the output is borrowed for writing.
    unsafe {
        khuyurek_ase_write(
            records.as_ptr(),
            records.len(),
            text.as_ptr(),
            text.len(),
            out.as_mut_ptr(),
            out.len(),
        )
    }
}

/// `khuyurek_ase_walk_start`: judges the file, and gives the place of the first step.
pub fn walk_start(file: &[u8]) -> Start {
    // SAFETY: see above.
    unsafe { khuyurek_ase_walk_start(file.as_ptr(), file.len()) }
}

/// `khuyurek_ase_walk`: the first colour from a place on, groups passed over, and the next place.
pub fn walk(file: &[u8], at: usize) -> Step {
    // SAFETY: see above; the place is any number.
    unsafe { khuyurek_ase_walk(file.as_ptr(), file.len(), at) }
}

/// `khuyurek_ase_walk_block`: the block at a place, any place, and the next one.
pub fn walk_block(file: &[u8], at: usize) -> Step {
    // SAFETY: see above; the place is any number.
    unsafe { khuyurek_ase_walk_block(file.as_ptr(), file.len(), at) }
}
