//! The library's calls for text: units and names in UTF-8, and refusals in words.

use crate::Written;

extern "C" {
    fn khuyurek_utf8_length(units: *const u16, units_len: usize) -> Written;
    fn khuyurek_utf8(units: *const u16, units_len: usize, out: *mut u8, out_len: usize) -> Written;
    fn khuyurek_name_utf8_length(
        file: *const u8,
        file_len: usize,
        place: usize,
        units: usize,
    ) -> Written;
    fn khuyurek_name_utf8(
        file: *const u8,
        file_len: usize,
        place: usize,
        units: usize,
        out: *mut u8,
        out_len: usize,
    ) -> Written;
    fn khuyurek_refusal_sentence(number: u32, out: *mut u8, out_len: usize) -> Written;
}

/// The longest sentence, in bytes.
pub const SENTENCE: usize = 68;

/// How many bytes units have in UTF-8.
pub fn utf8_length(units: &[u16]) -> Written {
    // SAFETY: as the crate says.
    unsafe { khuyurek_utf8_length(units.as_ptr(), units.len()) }
}

/// Units in UTF-8 at the front of `out`; a surrogate that is not one of a pair is
/// U+FFFD.
pub fn utf8(units: &[u16], out: &mut [u8]) -> Written {
    // SAFETY: as the crate says; `out` is borrowed for writing.
    unsafe { khuyurek_utf8(units.as_ptr(), units.len(), out.as_mut_ptr(), out.len()) }
}

/// How many bytes the name of so many units at a place of a file has in UTF-8.
pub fn name_utf8_length(file: &[u8], place: usize, units: usize) -> Written {
    // SAFETY: as the crate says.
    unsafe { khuyurek_name_utf8_length(file.as_ptr(), file.len(), place, units) }
}

/// The name in UTF-8 at the front of `out`.
pub fn name_utf8(file: &[u8], place: usize, units: usize, out: &mut [u8]) -> Written {
    // SAFETY: as the crate says; `out` is borrowed for writing.
    unsafe {
        khuyurek_name_utf8(
            file.as_ptr(),
            file.len(),
            place,
            units,
            out.as_mut_ptr(),
            out.len(),
        )
    }
}

/// What the table of refusals says of a number, in ASCII at the front of `out`.
pub fn refusal_sentence(number: u32, out: &mut [u8]) -> Written {
    // SAFETY: as the crate says; `out` is borrowed for writing.
    unsafe { khuyurek_refusal_sentence(number, out.as_mut_ptr(), out.len()) }
}
