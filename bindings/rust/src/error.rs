//! Why a call didn't do what it was asked for.

use crate::report::Report;
use crate::sys;
use std::fmt;

/// Why a call didn't do what it was asked for.
#[derive(Debug)]
#[non_exhaustive]
pub enum Error {
    /// A module or its certificate is refused: this phase of 14 is the first that fails (docs/VERIFIER.md).
    Refused(u8),
    /// The bytes aren't a saved ledger's: this reason of 5 is the first against them (docs/FORMATS.md, "Saved ledger").
    LoadRefused(u8),
    /// The search for a certificate of the module reached its limits.
    TooComplex,
    /// The search for a certificate took the steps that it was given.
    TooLong,
    /// There was no memory for an answer. Nothing has changed, but for [`Ledger::apply_into`](crate::Ledger::apply_into).
    Memory,
    /// Memory ran out while records were answered. The ledger is as the records up to
    /// [`Ledger::answered`](crate::Ledger::answered) left it, and the report has all their lines; behind these it may have a beginning of
    /// the lines of a show or an audit that comes next. A [`Block`](crate::Block) that is open takes back what they changed.
    Unfinished(Report),
    /// The library answered what this crate doesn't know.
    Unknown(i32),
}

/// What each reason against a saved ledger says, from 1 on.
const REASONS: [&str; 5] = [
    "no mark, number of runs and list of modules",
    "a module or its certificate is refused",
    "the modules don't link",
    "what follows the modules isn't the ledger's",
    "the counts don't agree with what is stored",
];

impl Error {
    /// What a status other than `DONE` says, with its reason.
    pub(crate) fn of(status: i32, why: u8) -> Error {
        match status {
            sys::REFUSED => Error::Refused(why),
            sys::LOAD_REFUSED => Error::LoadRefused(why),
            sys::TOO_COMPLEX => Error::TooComplex,
            sys::TOO_LONG => Error::TooLong,
            sys::MEMORY => Error::Memory,
            other => Error::Unknown(other),
        }
    }
}

impl fmt::Display for Error {
    fn fmt(&self, f: &mut fmt::Formatter<'_>) -> fmt::Result {
        match self {
            Error::Refused(phase) => write!(f, "the module is refused in phase {phase}"),
            Error::LoadRefused(reason) => {
                let said = REASONS.get(usize::from(*reason).wrapping_sub(1));
                let said = said.unwrap_or(&"for another reason");
                write!(f, "the saved ledger is refused, reason {reason}: {said}")
            }
            Error::TooComplex => write!(f, "the module is too complex for a certificate"),
            Error::TooLong => write!(f, "the search for a certificate took the steps that it was given"),
            Error::Memory => write!(f, "there is no memory left"),
            Error::Unfinished(_) => write!(f, "memory ran out while records were answered"),
            Error::Unknown(status) => write!(f, "the library answered the status {status}"),
        }
    }
}

impl std::error::Error for Error {}
