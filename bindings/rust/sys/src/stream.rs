//! The library's calls for an ACO file in chunks.

use crate::Answer;

/// What is kept between two chunks. Any numbers may stand in it.
#[repr(C)]
#[derive(Clone, Copy, Debug, Default, PartialEq, Eq)]
pub struct Stream {
    pub total: usize,
    pub got: usize,
    pub place: usize,
    pub stage: u32,
    pub ended: u32,
    pub number: u32,
    pub at: u32,
    pub left: u32,
    pub zero: u32,
    pub count: u16,
    pub index: u16,
    pub record: u16,
    pub field: u16,
    pub carry: [u8; 16],
}

/// What a start or a chunk answers, and the stream for the next call.
#[repr(C)]
#[derive(Clone, Copy, Debug, Default, PartialEq, Eq)]
pub struct Fed {
    pub number: u32,
    pub stream: Stream,
}

/// What the end answers, and the stream, which has then ended.
#[repr(C)]
#[derive(Clone, Copy, Debug, Default, PartialEq, Eq)]
pub struct Finished {
    pub answer: Answer,
    pub stream: Stream,
}

extern "C" {
    fn khuyurek_aco_stream_start(store: *const u8, store_len: usize) -> Fed;
    fn khuyurek_aco_stream_feed(
        stream: Stream,
        store: *mut u8,
        store_len: usize,
        chunk: *const u8,
        chunk_len: usize,
    ) -> Fed;
    fn khuyurek_aco_stream_finish(stream: Stream, store: *const u8, store_len: usize) -> Finished;
}

// Each pointer below comes with the length of the slice it was taken from, is
// aligned and not null even for an empty slice, and is not kept by the library.

/// `khuyurek_aco_stream_start`: the stream before the first chunk.
pub fn start(store: &[u8]) -> Fed {
    // SAFETY: see above.
    unsafe { khuyurek_aco_stream_start(store.as_ptr(), store.len()) }
}

/// `khuyurek_aco_stream_feed`: the stream behind a chunk, whatever stands in it.
pub fn feed(stream: Stream, store: &mut [u8], chunk: &[u8]) -> Fed {
    // SAFETY: see above; the store is borrowed for writing.
    unsafe {
        khuyurek_aco_stream_feed(
            stream,
            store.as_mut_ptr(),
            store.len(),
            chunk.as_ptr(),
            chunk.len(),
        )
    }
}

/// `khuyurek_aco_stream_finish`: what judging all chunks joined answers, and the stream, ended.
pub fn finish(stream: Stream, store: &[u8]) -> Finished {
    // SAFETY: see above.
    unsafe { khuyurek_aco_stream_finish(stream, store.as_ptr(), store.len()) }
}
