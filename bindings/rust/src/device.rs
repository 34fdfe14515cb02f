//! Where the disk's 33,691 bytes last.

use std::fmt;
use std::io;

use crate::calls::{Disk, DISK_LEN};

/// A device that keeps a disk.
///
/// The store works on a copy in memory and brings each new byte here, in the order that the theorem speaks of. A device owes:
/// - a byte is stored whole or not at all, and no store harms another byte;
/// - the stores get there in the order made, or, where only `sync` keeps an order, what docs/EMBEDDING.md says of sectors holds;
/// - it keeps its bytes, and nobody else writes them.
///
/// After an error the store makes no further store. How many were made until then is left open: the next opening finds out.
pub trait Device {
    /// Reads the whole disk.
    fn load(&mut self, disk: &mut Disk) -> io::Result<()>;

    /// Stores one byte.
    fn store(&mut self, at: usize, byte: u8) -> io::Result<()>;

    /// Returns once all that was stored lasts.
    fn sync(&mut self) -> io::Result<()>;

    /// Whether `load` reads what lasts, and not a cache above it. Where it does not, an opening stores again all that it trusts, and syncs it:
    /// after a store that failed a cache may go on showing bytes that are nowhere else, and no sync brings them to the drive any more.
    fn reads_what_lasts(&self) -> bool {
        false
    }

    /// Keeps a copy of a disk of which bytes that aren't zero are about to be cleared, those behind the log's end; on return the copy lasts. A
    /// device that can't tells its host in a way of its own: an opening must not stand in the way after a power failure.
    fn set_aside(&mut self, _disk: &Disk) {}

    /// Stores bytes from an offset on, the lowest first.
    fn store_rising(&mut self, at: usize, bytes: &[u8]) -> io::Result<()> {
        for (offset, &byte) in bytes.iter().enumerate() {
            self.store(at + offset, byte)?;
        }
        Ok(())
    }

    /// Stores bytes from an offset on, the highest first.
    fn store_falling(&mut self, at: usize, bytes: &[u8]) -> io::Result<()> {
        for (offset, &byte) in bytes.iter().enumerate().rev() {
            self.store(at + offset, byte)?;
        }
        Ok(())
    }
}

impl<D: Device + ?Sized> Device for &mut D {
    fn load(&mut self, disk: &mut Disk) -> io::Result<()> {
        (**self).load(disk)
    }

    fn store(&mut self, at: usize, byte: u8) -> io::Result<()> {
        (**self).store(at, byte)
    }

    fn sync(&mut self) -> io::Result<()> {
        (**self).sync()
    }

    fn reads_what_lasts(&self) -> bool {
        (**self).reads_what_lasts()
    }

    fn set_aside(&mut self, disk: &Disk) {
        (**self).set_aside(disk);
    }

    fn store_rising(&mut self, at: usize, bytes: &[u8]) -> io::Result<()> {
        (**self).store_rising(at, bytes)
    }

    fn store_falling(&mut self, at: usize, bytes: &[u8]) -> io::Result<()> {
        (**self).store_falling(at, bytes)
    }
}

/// A disk in memory: for tests, or for a host that brings it to a device of its own.
#[derive(Clone)]
pub struct MemoryDevice {
    disk: Box<Disk>,
}

impl MemoryDevice {
    /// A fresh disk.
    pub fn new() -> MemoryDevice {
        MemoryDevice { disk: zeros() }
    }

    /// The bytes as they are now.
    pub fn disk(&self) -> &Disk {
        &self.disk
    }

    /// The same, to change them.
    pub fn disk_mut(&mut self) -> &mut Disk {
        &mut self.disk
    }
}

impl Default for MemoryDevice {
    fn default() -> MemoryDevice {
        MemoryDevice::new()
    }
}

impl Device for MemoryDevice {
    fn load(&mut self, disk: &mut Disk) -> io::Result<()> {
        disk.copy_from_slice(&*self.disk);
        Ok(())
    }

    fn store(&mut self, at: usize, byte: u8) -> io::Result<()> {
        debug_assert!(at < DISK_LEN);
        self.disk[at] = byte;
        Ok(())
    }

    fn sync(&mut self) -> io::Result<()> {
        Ok(())
    }

    fn reads_what_lasts(&self) -> bool {
        true
    }
}

impl fmt::Debug for MemoryDevice {
    fn fmt(&self, f: &mut fmt::Formatter<'_>) -> fmt::Result {
        f.debug_struct("MemoryDevice").finish_non_exhaustive()
    }
}

/// Zeros on the heap, without a way over the stack.
pub(crate) fn zeros<const N: usize>() -> Box<[u8; N]> {
    match vec![0; N].into_boxed_slice().try_into() {
        Ok(array) => array,
        Err(_) => unreachable!("the slice has N bytes"),
    }
}
