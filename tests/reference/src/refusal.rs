//! Refusals.

/// The numbers that a call can refuse with.
pub mod number {
    pub const TOO_LONG: u32 = 1;
    pub const CUT: u32 = 2;
    pub const WRONG_SIGNATURE: u32 = 3;
    pub const WRONG_VERSION: u32 = 3;
    pub const WRONG_TAG: u32 = 3;
    pub const UNKNOWN_SPACE: u32 = 4;
    pub const UNKNOWN_BLOCK: u32 = 4;
    pub const UNKNOWN_MODEL: u32 = 4;
    pub const UNKNOWN_TYPE: u32 = 4;
    pub const UNKNOWN_FORM: u32 = 4;
    pub const UNKNOWN_UNIT: u32 = 4;
    pub const OUT_OF_RANGE: u32 = 5;
    pub const LEFT_OVER: u32 = 6;
    pub const LISTS_DISAGREE: u32 = 7;
    pub const BADLY_CLOSED: u32 = 8;
    pub const UNBALANCED: u32 = 9;
    pub const TOO_DEEP: u32 = 10;
    pub const NO_ROOM: u32 = 11;
    pub const NO_RECORD: u32 = 12;
    pub const NO_PAGE: u32 = 12;
    pub const NO_ROW: u32 = 12;
    pub const WRONG_LENGTH: u32 = 13;
    pub const NO_COUNTERPART: u32 = 14;
}

/// Why a call gave nothing. `record` and `field` are 0 save where the two
/// lists disagree.
#[derive(Clone, Copy, Debug, PartialEq, Eq)]
pub struct Refusal {
    pub number: u32,
    pub place: usize,
    pub record: usize,
    pub field: usize,
}

impl Refusal {
    /// A refusal of the field whose first byte is at `place`.
    pub(crate) fn at(number: u32, place: usize) -> Self {
        Refusal {
            number,
            place,
            record: 0,
            field: 0,
        }
    }

    /// A refusal that is not about a field of the file: its place is 0.
    pub(crate) fn of_call(number: u32) -> Self {
        Refusal::at(number, 0)
    }

    pub(crate) fn disagreement(place: usize, record: usize, field: usize) -> Self {
        Refusal {
            number: number::LISTS_DISAGREE,
            place,
            record,
            field,
        }
    }
}

/// A refusal of a field on its way up: small enough to be handed on in registers.
#[derive(Clone, Copy)]
pub(crate) struct Fault {
    number: u32,
    place: u32,
}

impl Fault {
    #[inline(always)]
    pub fn at(number: u32, place: usize) -> Self {
        // A file's places fit 32 bits, since its length does.
        Fault {
            number,
            place: place as u32,
        }
    }
}

impl From<Fault> for Refusal {
    fn from(fault: Fault) -> Self {
        Refusal::at(fault.number, fault.place as usize)
    }
}
