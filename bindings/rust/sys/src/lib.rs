//! The proved library's calls, through its C interface. Those for ACB, ASE,
//! descriptors, resources, runs of samples, ACO files in chunks, text, two
//! palettes and reports are in their own modules.
//!
//! This crate has the only declarations of the C functions in Rust, and all
//! `unsafe` code over them. What makes it sound:
//!
//! - Each pointer is a slice's, with that slice's length: it is aligned, not null
//!   even for no elements, and borrowed, for writing where it is `*mut`, for the
//!   whole call. No two slices of a call overlap where one is written.
//! - The library has no precondition besides. It is proved to return for any
//!   input, to stay inside the slices, to write to none but the lent output, and
//!   to keep no pointer.
//! - The structs have the fields of the library's own, in their order and with
//!   `repr(C)` on both sides; every bit pattern of a field is a value of its type.
//!   A test of the crate `khuyurek` holds the declarations to the library's source.

pub mod acb;
pub mod ase;
pub mod compare;
pub mod descriptor;
pub mod report;
pub mod resource;
pub mod stream;
pub mod text;
pub mod tray;

use std::fmt::{self, Debug, Formatter};

/// What judging or reading a file answers. `number` 0 is accepted, and then
/// `place`, `record` and `field` are 0; on a refusal `colours` and `lists` are.
#[repr(C)]
#[derive(Clone, Copy, Debug, Default, PartialEq, Eq)]
pub struct Answer {
    pub number: u32,
    pub place: usize,
    pub record: usize,
    pub field: usize,
    pub colours: usize,
    pub lists: usize,
}

/// What asking for a record by its number answers.
#[repr(C)]
#[derive(Clone, Copy, Debug, Default, PartialEq, Eq)]
pub struct Record {
    pub number: u32,
    pub units: u32,
    pub place: usize,
    pub record: usize,
    pub field: usize,
    pub name: usize,
    pub space: u16,
    pub samples: [u16; 4],
    pub ink: u32,
}

/// What a writer answers; `length` is 0 on a refusal.
#[repr(C)]
#[derive(Clone, Copy, Debug, Default, PartialEq, Eq)]
pub struct Written {
    pub number: u32,
    pub length: usize,
}

/// What starting a walk answers: the place of its first step, or the refusal
/// and then `at` is 0.
#[repr(C)]
#[derive(Clone, Copy, Debug, Default, PartialEq, Eq)]
pub struct Start {
    pub number: u32,
    pub place: usize,
    pub record: usize,
    pub field: usize,
    pub at: usize,
}

/// What a step of a walk answers: a colour, or `done` is 1, or `number` is not 0.
/// What a step does not have is 0, save `next`.
#[repr(C)]
#[derive(Clone, Copy, Debug, Default, PartialEq, Eq)]
pub struct Step {
    pub number: u32,
    pub done: u32,
    pub next: usize,
    pub name: usize,
    pub units: u32,
    pub space: u16,
    pub samples: [u16; 4],
    pub ink: u32,
}

/// What converting a sample answers: the channel's bits, 0 on a refusal.
#[repr(C)]
#[derive(Clone, Copy, Default, PartialEq, Eq)]
pub struct Channel {
    pub number: u32,
    pub bits: u32,
}

impl Debug for Channel {
    fn fmt(&self, f: &mut Formatter<'_>) -> fmt::Result {
        write!(f, "number {}, bits {:08X}", self.number, self.bits)
    }
}

/// What converting a channel answers; `sample` is 0 on a refusal.
#[repr(C)]
#[derive(Clone, Copy, Debug, Default, PartialEq, Eq)]
pub struct Sample {
    pub number: u32,
    pub sample: u16,
}

extern "C" {
    fn khuyurek_aco_judge(file: *const u8, file_len: usize) -> Answer;
    fn khuyurek_aco_read(
        file: *const u8,
        file_len: usize,
        table: *mut u32,
        table_len: usize,
    ) -> Answer;
    fn khuyurek_aco_record_at(file: *const u8, file_len: usize, index: usize) -> Record;
    fn khuyurek_aco_length(
        records: *const u32,
        records_len: usize,
        text: *const u8,
        text_len: usize,
    ) -> Written;
    fn khuyurek_aco_write(
        records: *const u32,
        records_len: usize,
        text: *const u8,
        text_len: usize,
        out: *mut u8,
        out_len: usize,
    ) -> Written;
    fn khuyurek_aco_walk_start(file: *const u8, file_len: usize) -> Start;
    fn khuyurek_aco_walk(file: *const u8, file_len: usize, at: usize) -> Step;
    fn khuyurek_to_channel(space: u16, sample: u16) -> Channel;
    fn khuyurek_to_sample(model: u32, bits: u32) -> Sample;
}

// Each pointer below comes with the length of the slice it was taken from, is
// aligned and not null even for an empty slice, and is not kept by the library.

/// `khuyurek_aco_judge`: judges an ACO file.
pub fn judge(file: &[u8]) -> Answer {
    // SAFETY: see above.
    unsafe { khuyurek_aco_judge(file.as_ptr(), file.len()) }
}

/// `khuyurek_aco_read`: eight numbers of the table a colour.
pub fn read(file: &[u8], table: &mut [u32]) -> Answer {
    // SAFETY: see above; the table is borrowed for writing.
    unsafe { khuyurek_aco_read(file.as_ptr(), file.len(), table.as_mut_ptr(), table.len()) }
}

/// `khuyurek_aco_record_at`: a record by its number, from 0; the whole file is judged first.
pub fn record(file: &[u8], index: usize) -> Record {
    // SAFETY: see above.
    unsafe { khuyurek_aco_record_at(file.as_ptr(), file.len(), index) }
}

/// `khuyurek_aco_length`: how many bytes writing takes.
pub fn length(records: &[u32], text: &[u8]) -> Written {
    // SAFETY: see above.
    unsafe { khuyurek_aco_length(records.as_ptr(), records.len(), text.as_ptr(), text.len()) }
}

/// `khuyurek_aco_write`: both lists, into lent bytes.
pub fn write(records: &[u32], text: &[u8], out: &mut [u8]) -> Written {
    // SAFETY: see above; the output is borrowed for writing.
    unsafe {
        khuyurek_aco_write(
            records.as_ptr(),
            records.len(),
            text.as_ptr(),
            text.len(),
            out.as_mut_ptr(),
            out.len(),
        )
    }
}

/// `khuyurek_aco_walk_start`: judges the file, and gives the place of the first step.
pub fn walk_start(file: &[u8]) -> Start {
    // SAFETY: see above.
    unsafe { khuyurek_aco_walk_start(file.as_ptr(), file.len()) }
}

/// `khuyurek_aco_walk`: the colour at a place, any place, and the next one.
pub fn walk(file: &[u8], at: usize) -> Step {
    // SAFETY: see above; the place is any number.
    unsafe { khuyurek_aco_walk(file.as_ptr(), file.len(), at) }
}

// Inlined, so that a conversion is one call and is timed as one.

/// `khuyurek_to_channel`: the bits of the channel of a sample.
#[inline]
pub fn to_channel(space: u16, sample: u16) -> Channel {
    // SAFETY: numbers are all that is handed over.
    unsafe { khuyurek_to_channel(space, sample) }
}

/// `khuyurek_to_sample`: the sample nearest to a channel, by its bits.
#[inline]
pub fn to_sample(model: u32, bits: u32) -> Sample {
    // SAFETY: numbers are all that is handed over.
    unsafe { khuyurek_to_sample(model, bits) }
}
