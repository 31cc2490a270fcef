//! The library's calls for runs of samples and channels.

/// What converting a run answers: `number` 0, or the refusal with the position
/// of the first element that is refused.
#[repr(C)]
#[derive(Clone, Copy, Debug, Default, PartialEq, Eq)]
pub struct Answer {
    pub number: u32,
    pub position: usize,
}

extern "C" {
    fn khuyurek_to_channels(
        space: u16,
        samples: *const u16,
        samples_len: usize,
        bits: *mut u32,
        bits_len: usize,
    ) -> Answer;
    fn khuyurek_to_samples(
        model: u32,
        bits: *const u32,
        bits_len: usize,
        samples: *mut u16,
        samples_len: usize,
    ) -> Answer;
}

/// `khuyurek_to_channels`: the channels of a run of samples, by their bits.
pub fn to_channels(space: u16, samples: &[u16], bits: &mut [u32]) -> Answer {
    // SAFETY: as the crate says; the bits are borrowed for writing.
    unsafe {
        khuyurek_to_channels(
            space,
            samples.as_ptr(),
            samples.len(),
            bits.as_mut_ptr(),
            bits.len(),
        )
    }
}

/// `khuyurek_to_samples`: the samples of a run of channels, by their bits.
pub fn to_samples(model: u32, bits: &[u32], samples: &mut [u16]) -> Answer {
    // SAFETY: as the crate says; the samples are borrowed for writing.
    unsafe {
        khuyurek_to_samples(
            model,
            bits.as_ptr(),
            bits.len(),
            samples.as_mut_ptr(),
            samples.len(),
        )
    }
}
