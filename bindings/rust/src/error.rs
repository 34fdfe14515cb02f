//! What a [`Store`](crate::Store) answers when it doesn't do what it was asked.

use std::fmt;
use std::io;

use crate::refusal::Refusal;

pub(crate) const WRONG_LIBRARY: &str =
    "the library that is linked is of another version than this crate: build both from one";

/// Why the store did not do it.
#[derive(Debug)]
#[non_exhaustive]
pub enum Error {
    /// A call was refused. The store is as it was, but that a step that was refused is aborted as a whole.
    Refused(Refusal),
    /// The device failed while the store brought bytes to it. All that was reported as flushed is kept; which of the other bookings are, the
    /// next [`Store::open`](crate::Store::open) tells, in the same run of the machine too: it stores again what it trusts.
    Device(io::Error),
    /// The device failed earlier, and the store answers nothing more: open it again, as after [`Error::Device`].
    Poisoned,
    /// The booking is of another opening of the store. Commit numbers of lost bookings are given out again, so its own says nothing here.
    Stale,
    /// The device to carry the pattern over to has bookings already.
    NotFresh,
    /// The library that is linked is of another version than this crate.
    WrongLibrary,
    /// Input or output that is not the store's: opening a file, or what a step does by itself.
    Io(io::Error),
    /// The step gave up by itself ([`Error::step`]) and is aborted.
    Step(Box<dyn std::error::Error + Send + Sync>),
}

impl Error {
    /// For a step that finds it must not be booked: return this and all its writes are taken back.
    pub fn step(reason: impl Into<Box<dyn std::error::Error + Send + Sync>>) -> Error {
        Error::Step(reason.into())
    }
}

impl fmt::Display for Error {
    fn fmt(&self, f: &mut fmt::Formatter<'_>) -> fmt::Result {
        match self {
            Error::Refused(refusal) => refusal.fmt(f),
            Error::Device(error) => write!(
                f,
                "the device failed: {error}; what was reported as flushed is kept, open the store again to learn which other bookings are"
            ),
            Error::Poisoned => f.write_str(
                "the device failed before; what was reported as flushed is kept, open the store again to learn which other bookings are",
            ),
            Error::Stale => f.write_str(
                "the booking is of another opening of the store; ask how many bookings the store has",
            ),
            Error::NotFresh => f.write_str(
                "the device has bookings already; carry the pattern over to a fresh one, all zeros",
            ),
            Error::WrongLibrary => f.write_str(WRONG_LIBRARY),
            Error::Io(error) => error.fmt(f),
            Error::Step(reason) => write!(f, "the step gave up: {reason}"),
        }
    }
}

impl std::error::Error for Error {
    fn source(&self) -> Option<&(dyn std::error::Error + 'static)> {
        match self {
            Error::Refused(refusal) => Some(refusal),
            Error::Device(error) => Some(error),
            Error::Io(error) => error.source(),
            Error::Step(reason) => Some(reason.as_ref()),
            Error::Poisoned | Error::Stale | Error::NotFresh | Error::WrongLibrary => None,
        }
    }
}

impl From<Refusal> for Error {
    fn from(refusal: Refusal) -> Error {
        Error::Refused(refusal)
    }
}

impl From<io::Error> for Error {
    fn from(error: io::Error) -> Error {
        Error::Io(error)
    }
}
