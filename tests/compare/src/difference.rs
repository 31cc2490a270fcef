//! The first difference found, as it is reported.

use std::fmt::{self, Debug, Display, Formatter};

/// What was handed over is shown up to this many bytes.
const SHOWN_BYTES: usize = 400;
const SHOWN_RECORDS: usize = 20;

/// A call that did not do what the reference does.
#[derive(Debug)]
pub struct Difference {
    call: String,
    expected: String,
    found: String,
    given: Vec<String>,
}

pub type Checked<T = ()> = Result<T, Difference>;

impl Difference {
    /// Adds what was handed over to the call.
    pub fn given(mut self, what: &str, shown: String) -> Self {
        self.given.push(format!("{what}: {shown}"));
        self
    }
}

impl Display for Difference {
    fn fmt(&self, f: &mut Formatter<'_>) -> fmt::Result {
        writeln!(f, "difference in {}", self.call)?;
        for given in &self.given {
            writeln!(f, "{given}")?;
        }
        writeln!(f, "expected: {}", self.expected)?;
        write!(f, "found:    {}", self.found)
    }
}

/// Holds an answer to the expected one.
pub fn agree<T: PartialEq + Debug>(
    call: impl FnOnce() -> String,
    expected: &T,
    found: &T,
) -> Checked {
    if expected == found {
        return Ok(());
    }
    Err(Difference {
        call: call(),
        expected: format!("{expected:?}"),
        found: format!("{found:?}"),
        given: Vec::new(),
    })
}

/// Holds a run of numbers or bytes to the expected one; of two runs that
/// differ only the first difference is shown.
pub fn agree_runs<T: PartialEq + Debug>(
    call: impl FnOnce() -> String,
    expected: &[T],
    found: &[T],
) -> Checked {
    if expected == found {
        return Ok(());
    }
    let index = expected
        .iter()
        .zip(found)
        .take_while(|(a, b)| a == b)
        .count();
    let shown = |run: &[T]| format!("{} long, {:X?} at {index}", run.len(), run.get(index));
    Err(Difference {
        call: call(),
        expected: shown(expected),
        found: shown(found),
        given: Vec::new(),
    })
}

/// Bytes in hex, cut where they are many.
pub fn hex(bytes: &[u8]) -> String {
    let shown = &bytes[..bytes.len().min(SHOWN_BYTES)];
    let digits: Vec<String> = shown.iter().map(|byte| format!("{byte:02X}")).collect();
    let cut = if shown.len() < bytes.len() {
        " ..."
    } else {
        ""
    };
    format!("{} bytes: {}{cut}", bytes.len(), digits.join(" "))
}

/// Records as rows of so many numbers, cut where they are many.
pub fn rows(records: &[u32], row_len: usize) -> String {
    let shown: Vec<&[u32]> = records.chunks(row_len).take(SHOWN_RECORDS).collect();
    format!("{} numbers: {shown:?}", records.len())
}
