//! Samples of ACO and channels of ASE.

use crate::{raw, Model, Refusal, Space};

/// The channel of a sample, from 0 to 1: 5 for gray above 10,000, 14 for HSB and Lab.
pub fn to_channel(space: Space, sample: u16) -> Result<f32, Refusal> {
    let channel = raw::to_channel(space.number(), sample);
    Refusal::unless(channel.number, 0)?;
    Ok(f32::from_bits(channel.bits))
}

/// The sample nearest to a channel: 5 where it is not finite, or outside 0 to 1
/// save in Lab, then 14 for Lab.
pub fn to_sample(model: Model, channel: f32) -> Result<u16, Refusal> {
    let sample = raw::to_sample(model.tag(), channel.to_bits());
    Refusal::unless(sample.number, 0)?;
    Ok(sample.sample)
}

/// The channels of a run of samples of one space, as `to_channel` gives each. A
/// refusal is that of the first sample that is refused, with its position as place.
pub fn to_channels(space: Space, samples: &[u16]) -> Result<Vec<f32>, Refusal> {
    let mut bits = vec![0; samples.len()];
    let answer = raw::tray::to_channels(space.number(), samples, &mut bits);
    Refusal::unless(answer.number, answer.position)?;
    Ok(bits.into_iter().map(f32::from_bits).collect())
}

/// The samples of a run of channels of one model, as `to_sample` gives each. A
/// refusal is that of the first channel that is refused, with its position as place.
pub fn to_samples(model: Model, channels: &[f32]) -> Result<Vec<u16>, Refusal> {
    let bits: Vec<u32> = channels.iter().map(|channel| channel.to_bits()).collect();
    let mut samples = vec![0; bits.len()];
    let answer = raw::tray::to_samples(model.tag(), &bits, &mut samples);
    Refusal::unless(answer.number, answer.position)?;
    Ok(samples)
}
