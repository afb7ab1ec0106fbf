//! What stops a reading.

use crate::raw;
use std::ffi::{c_char, CStr};
use std::{fmt, io};

/// What stops a reading. Nothing is read behind it.
#[derive(Debug)]
#[non_exhaustive]
pub enum Error {
    /// The bytes are no gob stream. All values before that were given.
    Refused(Refused),
    /// There is no memory for an item: [`Limits::item`](crate::Limits) refuses large ones.
    Memory,
    /// A depth of 0 or above 65536, or a stream above 2^63 - 1 bytes.
    BadLimits,
    /// A fault was met before, and nothing is read any more.
    Failed,
    /// The input can't be read.
    Input(io::Error),
}

/// Why bytes are no gob stream. Offsets are those of the stream, in bytes from 0.
#[derive(Clone, Copy, Debug, PartialEq, Eq)]
#[non_exhaustive]
pub struct Refused {
    pub reason: Reason,
    /// The id of the type that the reason speaks of, where it speaks of one.
    pub id: Option<u64>,
    /// The first refused byte.
    pub place: u64,
    /// How many bytes of the stream show it.
    pub seen: u64,
    /// Where the refused item begins: so many bytes are whole items.
    pub begin: u64,
}

/// Why bytes are refused, by its number in FORMAT.md, Refusals.
#[derive(Clone, Copy, Debug, PartialEq, Eq, Hash)]
pub struct Reason(pub u32);

impl Reason {
    /// Its name: `FieldNumber` for 15; empty for a number that no reason has.
    pub fn name(self) -> &'static str {
        // SAFETY: the library answers a text of its own for each number.
        text(unsafe { raw::gob_reason_name(self.0) })
    }

    /// What is wrong, in a sentence; empty for a number that no reason has.
    pub fn what(self) -> &'static str {
        // SAFETY: as above.
        text(unsafe { raw::gob_reason_text(self.0) })
    }

    fn speaks_of_id(self) -> bool {
        matches!(self.0, 7 | 8 | 10 | 11)
    }
}

fn text(words: *const c_char) -> &'static str {
    // SAFETY: it is a text of the library's own, which ends with a 0 and is never freed.
    unsafe { CStr::from_ptr(words) }.to_str().unwrap_or("")
}

/// How a call of the library ended.
pub(crate) fn ended(fault: raw::Fault) -> Result<(), Error> {
    match fault.status {
        raw::OK => Ok(()),
        raw::REFUSED => Err(Error::Refused(refused(fault))),
        raw::NO_MEMORY => Err(Error::Memory),
        raw::BAD_LIMITS => Err(Error::BadLimits),
        _ => Err(Error::Failed),
    }
}

fn refused(fault: raw::Fault) -> Refused {
    let reason = Reason(fault.reason);
    let id = reason.speaks_of_id().then_some(fault.id);
    Refused { reason, id, place: fault.place, seen: fault.seen, begin: fault.begin }
}

/// As the program `gob` says it: `refused 15 FieldNumber at 131 seen 132`.
impl fmt::Display for Refused {
    fn fmt(&self, out: &mut fmt::Formatter<'_>) -> fmt::Result {
        write!(out, "refused {} {}", self.reason.0, self.reason.name())?;
        if let Some(id) = self.id {
            write!(out, "({id})")?;
        }
        write!(out, " at {} seen {}", self.place, self.seen)
    }
}

impl fmt::Display for Error {
    fn fmt(&self, out: &mut fmt::Formatter<'_>) -> fmt::Result {
        match self {
            Error::Refused(refused) => refused.fmt(out),
            Error::Memory => out.write_str("no memory is left for an item"),
            Error::BadLimits => out.write_str("a stream has no such limits"),
            Error::Failed => out.write_str("the reading failed before"),
            Error::Input(error) => error.fmt(out),
        }
    }
}

impl std::error::Error for Refused {}

impl std::error::Error for Error {
    fn source(&self) -> Option<&(dyn std::error::Error + 'static)> {
        match self {
            Error::Input(error) => Some(error),
            _ => None,
        }
    }
}

impl From<io::Error> for Error {
    fn from(error: io::Error) -> Error {
        Error::Input(error)
    }
}
