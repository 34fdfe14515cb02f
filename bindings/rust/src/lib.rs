//! Luppaneth for Rust: a main-memory transaction store that survives a power cut, over the proved library.
//!
//! A program keeps a pattern of 4,096 bytes in memory and books several writes together or none. Whenever the current fails, the next
//! [`Store::open`] has exactly the bookings whose last byte got to the device, whole and in commit order, each flushed one among them.
//!
//! ```
//! use luppaneth::{Error, MemoryDevice, Store};
//!
//! # fn main() -> Result<(), Error> {
//! let mut store = Store::open(MemoryDevice::new())?;
//! let booking = store.book(|step| {
//!     step.write(0, b"pane 7")?;
//!     step.write(64, b"strip 12")?;
//!     step.write(128, b"ruby")
//! })?;
//! store.flush()?; // from here on it is durable
//! assert!(store.settled(&booking)?);
//!
//! let again = Store::open(store.into_device())?;
//! assert_eq!(again.read(128, 4)?, b"ruby");
//! # Ok(())
//! # }
//! ```
//!
//! - [`Store`] on a [`Device`] ([`FileDevice`], [`MemoryDevice`] or one of your own) is what most programs want. It owns its buffers and brings
//!   the new bytes to the device in the order that the theorem speaks of.
//! - [`calls`] has the proved calls themselves, for a host that owns the buffers; [`inspect`] those that look at a disk without a state.
//!
//! A store is used by one thread at a time (it is `Send`; share it in a `Mutex`), and stores do not know of each other.
//!
//! docs/EMBEDDING.md says what a host owes for the theorem to hold, and what a file adds to that. The crate needs the proved library of its own
//! version: run `tools/build luppaneth` at the repository's root first.

#![warn(missing_docs)]

mod abi;
pub mod calls;
mod device;
mod error;
#[cfg(unix)]
mod file;
pub mod inspect;
mod refusal;
mod store;

pub use calls::{Csn, Stop, TxId};
pub use device::{Device, MemoryDevice};
pub use error::Error;
#[cfg(unix)]
pub use file::{FileDevice, Torn};
pub use refusal::Refusal;
pub use store::{Booking, Found, Store, Tx};

/// The stack that a thread needs to use a [`Store`], in debug builds too. A main thread has more, and so has one of `std::thread` (2 MiB); say it
/// where a smaller one is made.
pub const STACK: usize = 256 * 1024;
