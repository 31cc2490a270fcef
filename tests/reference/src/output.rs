//! Filling an output from its start.

/// Puts bytes at the start of what is left of the output, and steps over them.
#[inline(always)]
pub fn put(rest: &mut &mut [u8], bytes: &[u8]) {
    let (here, after) = std::mem::take(rest).split_at_mut(bytes.len());
    here.copy_from_slice(bytes);
    *rest = after;
}
