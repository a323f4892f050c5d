//! The exit statuses, as the README's table has them, and what ends a run without an answer.

use std::process::ExitCode;

#[derive(Clone, Copy, Debug, PartialEq, Eq)]
pub enum Status {
    /// A plan was printed, or the sheet of a typed text.
    Done = 0,
    NoPlan = 1,
    /// A wrong call, or something that is needed is missing.
    Call = 2,
    Refused = 3,
    /// The input was not read to its end, or the answer is not whole or was not written.
    Broken = 4,
}

impl From<Status> for ExitCode {
    fn from(status: Status) -> ExitCode {
        ExitCode::from(status as u8)
    }
}

/// Why a run ends without an answer, in words.
#[derive(Debug, PartialEq, Eq)]
pub struct Failure {
    pub status: Status,
    pub words: String,
}

impl Failure {
    pub fn call(words: String) -> Failure {
        let status = Status::Call;
        Failure { status, words }
    }

    pub fn broken(words: String) -> Failure {
        let status = Status::Broken;
        Failure { status, words }
    }
}
