//! The reference's answers in the shape of the library's.

use proved::resource::{Answer, Found, Record, Section};
use reference::{resource, Refusal};

pub fn answer(result: Result<usize, Refusal>) -> Answer {
    match result {
        Ok(blocks) => Answer {
            blocks,
            ..Answer::default()
        },
        Err(Refusal { number, place, .. }) => Answer {
            number,
            place,
            ..Answer::default()
        },
    }
}

pub fn record(result: Result<resource::Record, Refusal>) -> Record {
    match result {
        Ok(resource::Record {
            id,
            name,
            name_length,
            data,
            data_length,
        }) => Record {
            id: u32::from(id),
            name,
            name_length,
            data,
            data_length,
            ..Record::default()
        },
        Err(Refusal { number, place, .. }) => Record {
            number,
            place,
            ..Record::default()
        },
    }
}

pub fn found(result: Result<usize, Refusal>) -> Found {
    match result {
        Ok(index) => Found {
            index,
            ..Found::default()
        },
        Err(Refusal { number, place, .. }) => Found {
            number,
            place,
            ..Found::default()
        },
    }
}

pub fn section(result: Result<resource::Section, Refusal>) -> Section {
    match result {
        Ok(resource::Section { first, length }) => Section {
            first,
            length,
            ..Section::default()
        },
        Err(Refusal { number, place, .. }) => Section {
            number,
            place,
            ..Section::default()
        },
    }
}
