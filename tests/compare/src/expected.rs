//! The reference's answers in the shape of the library's.

use proved::{Answer, Channel, Record, Sample, Written};
use reference::{Accepted, Refusal, Swatch};

pub fn answer(result: Result<Accepted, Refusal>) -> Answer {
    match result {
        Ok(Accepted { colours, lists }) => Answer {
            colours,
            lists,
            ..Answer::default()
        },
        Err(Refusal {
            number,
            place,
            record,
            field,
        }) => Answer {
            number,
            place,
            record,
            field,
            ..Answer::default()
        },
    }
}

pub fn record(result: Result<Swatch, Refusal>) -> Record {
    match result {
        Ok(Swatch {
            space,
            samples,
            name,
            units,
            ink,
        }) => Record {
            space,
            samples,
            name,
            units,
            ink,
            ..Record::default()
        },
        Err(Refusal {
            number,
            place,
            record,
            field,
        }) => Record {
            number,
            place,
            record,
            field,
            ..Record::default()
        },
    }
}

/// A writer's refusals are all at place 0, so the library does not say it.
pub fn written(result: Result<usize, Refusal>) -> Written {
    match result {
        Ok(length) => Written { number: 0, length },
        Err(refusal) => Written {
            number: refusal.number,
            length: 0,
        },
    }
}

/// A conversion's refusals are all at place 0, too.
pub fn channel(result: Result<f32, u32>) -> Channel {
    match result {
        Ok(channel) => Channel {
            number: 0,
            bits: channel.to_bits(),
        },
        Err(number) => Channel { number, bits: 0 },
    }
}

/// A run's refusal has the element's position in the place's stead.
pub fn tray(result: Result<(), Refusal>) -> proved::tray::Answer {
    match result {
        Ok(()) => proved::tray::Answer::default(),
        Err(refusal) => proved::tray::Answer {
            number: refusal.number,
            position: refusal.place,
        },
    }
}

pub fn sample(result: Result<u16, u32>) -> Sample {
    match result {
        Ok(sample) => Sample { number: 0, sample },
        Err(number) => Sample { number, sample: 0 },
    }
}
