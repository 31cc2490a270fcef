//! The reference's answers in the shape of the library's.

use proved::descriptor::{Answer, Typed, Value};
use reference::{descriptor, Refusal};

pub fn answer(result: Result<usize, Refusal>) -> Answer {
    match result {
        Ok(rows) => Answer {
            rows,
            ..Answer::default()
        },
        Err(Refusal { number, place, .. }) => Answer {
            number,
            place,
            ..Answer::default()
        },
    }
}

pub fn value(result: Result<descriptor::Value, Refusal>) -> Value {
    match result {
        Ok(descriptor::Value { first, length }) => Value {
            first,
            length,
            ..Value::default()
        },
        Err(Refusal { number, place, .. }) => Value {
            number,
            place,
            ..Value::default()
        },
    }
}

pub fn typed(result: Result<descriptor::Typed, Refusal>) -> Typed {
    match result {
        Ok(typed) => of_typed(typed),
        Err(Refusal { number, place, .. }) => Typed {
            number,
            place,
            ..Typed::default()
        },
    }
}

/// A number of 32 bits stands in 64 as without a sign.
fn of_typed(typed: descriptor::Typed) -> Typed {
    let (kind, unit, bits) = match typed {
        descriptor::Typed::Bool(value) => (*b"bool", 0, u64::from(value)),
        descriptor::Typed::Long(value) => (*b"long", 0, u64::from(value as u32)),
        descriptor::Typed::Large(value) => (*b"comp", 0, value as u64),
        descriptor::Typed::Double(value) => (*b"doub", 0, value.to_bits()),
        descriptor::Typed::Unit(unit, value) => (*b"UntF", unit, value.to_bits()),
        descriptor::Typed::Other => ([0; 4], 0, 0),
    };
    Typed {
        kind: u32::from_be_bytes(kind),
        unit,
        bits,
        ..Typed::default()
    }
}
