//! Exit statuses.

use std::process::ExitCode;

/// What a call comes to; of several the last in this order counts.
#[derive(Clone, Copy, Debug, PartialEq, Eq, PartialOrd, Ord)]
pub enum Status {
    /// All accepted, the same, found, or converted.
    Fine,
    /// Different, or not found.
    Different,
    /// Some file is refused.
    Refused,
    /// Misuse, or a file that cannot be read, written or told the kind of.
    Failed,
}

impl From<Status> for ExitCode {
    fn from(status: Status) -> Self {
        ExitCode::from(match status {
            Status::Fine => 0,
            Status::Different | Status::Refused => 1,
            Status::Failed => 2,
        })
    }
}
