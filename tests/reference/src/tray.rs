//! A run of samples of one space as channels, and a run of one model's channels
//! as samples: each element as by the call for one, in order.

use crate::convert::{to_channel, to_sample};
use crate::refusal::{number, Refusal};

/// The first refused element with its position, then too little room; else every
/// channel, as its bits, stands at its sample's position.
pub fn to_channels(space: u16, samples: &[u16], bits: &mut [u32]) -> Result<(), Refusal> {
    convert_run(samples, bits, |sample| {
        to_channel(space, sample).map(f32::to_bits)
    })
}

/// The same of channels, by their bits.
pub fn to_samples(model: u32, bits: &[u32], samples: &mut [u16]) -> Result<(), Refusal> {
    convert_run(bits, samples, |bits| to_sample(model, bits))
}

#[inline(always)]
fn convert_run<From: Copy, To>(
    from: &[From],
    to: &mut [To],
    convert: impl Fn(From) -> Result<To, u32>,
) -> Result<(), Refusal> {
    for (position, &element) in from.iter().enumerate() {
        convert(element).map_err(|number| Refusal::at(number, position))?;
    }
    let to = to
        .get_mut(..from.len())
        .ok_or(Refusal::of_call(number::NO_ROOM))?;
    for (to, &element) in to.iter_mut().zip(from) {
        if let Ok(converted) = convert(element) {
            *to = converted;
        }
    }
    Ok(())
}
