//! The reference's answers in the shape of the library's.

use proved::ase::{Answer, Record};
use reference::ase::{self, Accepted};
use reference::Refusal;

pub fn answer(result: Result<Accepted, Refusal>) -> Answer {
    match result {
        Ok(Accepted { blocks, colours }) => Answer {
            blocks,
            colours,
            ..Answer::default()
        },
        Err(Refusal { number, place, .. }) => Answer {
            number,
            place,
            ..Answer::default()
        },
    }
}

pub fn record(result: Result<ase::Record, Refusal>) -> Record {
    match result {
        Ok(ase::Record {
            block,
            name,
            units,
            model,
            channels,
            ink,
        }) => Record {
            block: u32::from(block),
            name,
            units,
            model,
            channels,
            ink,
            ..Record::default()
        },
        Err(Refusal { number, place, .. }) => Record {
            number,
            place,
            ..Record::default()
        },
    }
}
