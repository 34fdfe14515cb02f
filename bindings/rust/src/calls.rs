//! The proved calls, made safe: lengths by type, buffers that cannot overlap, refusals by name.
//!
//! A buffer of another length is no argument, and one that a call may change can't be lent a second time:
//!
//! ```compile_fail,E0308
//! # use luppaneth::calls::*;
//! let (memory, tail) = ([0; 4_095], [0; TAIL_LEN]);
//! State::unrecovered().begin(&memory, &tail);
//! ```
//! ```compile_fail,E0502
//! # use luppaneth::calls::*;
//! let (mut memory, tail) = ([0; MEMORY_LEN], [0; TAIL_LEN]);
//! State::unrecovered().write(&mut memory, &tail, TxId(1), 0, &memory[8..16]);
//! ```
//!
//! Whoever uses these calls owns the buffers and brings the disk's new bytes to the device; [`Store`](crate::Store) does both. The calls
//! are those of document 01, and the contract of each, for every input, is in crates/luppaneth.

use std::fmt;

use crate::abi;
use crate::refusal::Refusal;

/// Bytes of a disk.
pub const DISK_LEN: usize = 33_691;
/// Bytes of the pattern.
pub const MEMORY_LEN: usize = 4_096;
/// Bytes of the tail.
pub const TAIL_LEN: usize = 16_384;
/// The pointer byte's offset on the disk.
pub const POINTER: usize = 0;
/// Image A's offset.
pub const IMAGE_A: usize = 1;
/// Image B's offset.
pub const IMAGE_B: usize = 8_654;
/// The log's offset; it goes up to the disk's end.
pub const LOG_START: usize = 17_307;
/// Bytes of the log.
pub const LOG_LEN: usize = DISK_LEN - LOG_START;
/// Bytes of the place of an image.
pub const IMAGE_LEN: usize = LOG_START - IMAGE_B;

pub(crate) const TEXT_LEN: usize = 80;

/// What lasts: pointer byte, two images, the log. All zeros: a fresh one.
pub type Disk = [u8; DISK_LEN];
/// The pattern.
pub type Memory = [u8; MEMORY_LEN];
/// Log groups that are not yet on the disk, then zeros.
pub type Tail = [u8; TAIL_LEN];

/// A transaction's id, 1 to 65,535.
#[derive(Clone, Copy, Debug, PartialEq, Eq, PartialOrd, Ord, Hash)]
#[repr(transparent)]
pub struct TxId(pub u16);

/// A commit number: bookings are numbered 1, 2, 3 and on, and 0 stands for none. Numbers of lost bookings are given out again.
#[derive(Clone, Copy, Debug, PartialEq, Eq, PartialOrd, Ord, Hash)]
pub struct Csn(pub u32);

/// How a call that stores on the disk went.
#[derive(Clone, Copy, Debug, PartialEq, Eq)]
pub struct Stored {
    /// The stores allowed ran out. Memory and tail are zero then, and the state is unrecovered.
    pub cut: bool,
    /// The stores made.
    pub stores: usize,
}

/// Why a log ended where it did.
#[derive(Clone, Copy, Debug, PartialEq, Eq)]
pub enum Stop {
    /// It has no byte left.
    Full,
    /// A zero byte: nothing was stored there.
    Zero,
    /// A record or group that is broken or unfinished.
    Torn,
}

impl Stop {
    fn from_number(number: u8) -> Option<Stop> {
        match number {
            1 => Some(Stop::Full),
            2 => Some(Stop::Zero),
            3 => Some(Stop::Torn),
            _ => None,
        }
    }
}

/// How a restart went.
#[derive(Clone, Copy, Debug, PartialEq, Eq)]
pub struct Restarted {
    /// As of any call that stores.
    pub stored: Stored,
    /// The transactions undone in step 4; 0 where cut.
    pub undone: u32,
    /// Why the log ended where it did, before it was cleared; none where cut.
    pub stop: Option<Stop>,
}

/// The state between calls.
///
/// Each call takes it and leaves the new one in its place. It cannot be copied, so an older one can't be handed in by mistake.
pub struct State(abi::State);

fn answer(reply: &abi::Reply) -> Result<(), Refusal> {
    Refusal::answer(reply.number)
}

fn stored(reply: &abi::Reply) -> Result<Stored, Refusal> {
    answer(reply)?;
    Ok(Stored {
        cut: reply.answer == abi::CUT,
        stores: reply.stores,
    })
}

// SAFETY, of every call below: the library's functions are proved total and touch nothing but the buffers lent, each of which is a reference
// with its length; what is lent for writing is borrowed alone; and a state comes from the library.
impl State {
    /// The state that nothing but a restart goes on from: every other call refuses it by 2.
    ///
    /// # Panics
    /// If the library that is linked is of another version than this crate, or has a state of another length.
    pub fn unrecovered() -> State {
        assert!(abi::library_fits(), "{}", crate::error::WRONG_LIBRARY);
        State(unsafe { abi::luppaneth_unrecovered() })
    }

    /// Begins a transaction.
    pub fn begin(&mut self, memory: &Memory, tail: &Tail) -> Result<TxId, Refusal> {
        let reply = unsafe {
            abi::luppaneth_begin(self.0, memory.as_ptr(), MEMORY_LEN, tail.as_ptr(), TAIL_LEN)
        };
        self.0 = reply.state;
        answer(&reply)?;
        Ok(TxId(reply.value as u16))
    }

    /// Puts 1 to 32 bytes into memory from an address on, all in one page of 256 bytes.
    pub fn write(
        &mut self,
        memory: &mut Memory,
        tail: &Tail,
        id: TxId,
        at: usize,
        bytes: &[u8],
    ) -> Result<(), Refusal> {
        let reply = unsafe {
            abi::luppaneth_write(
                self.0,
                memory.as_mut_ptr(),
                MEMORY_LEN,
                tail.as_ptr(),
                TAIL_LEN,
                id.0,
                at,
                bytes.as_ptr(),
                bytes.len(),
            )
        };
        self.0 = reply.state;
        answer(&reply)
    }

    /// Takes a hold on a range: others may read it and not write it until the transaction precommits or is aborted. Each hold is one of a
    /// transaction's 16 read ranges, also where it has the bytes already.
    pub fn hold(
        &mut self,
        memory: &Memory,
        tail: &Tail,
        id: TxId,
        at: usize,
        len: usize,
    ) -> Result<(), Refusal> {
        let (m, t) = (memory.as_ptr(), tail.as_ptr());
        let reply = unsafe {
            abi::luppaneth_read_answer(self.0, m, MEMORY_LEN, t, TAIL_LEN, id.0, at, len)
        };
        self.0 = reply.state;
        answer(&reply)
    }

    /// The part of memory itself, or none: where a number up to 9 refuses it, or the transaction has neither held nor written one of the
    /// bytes. It takes no hold.
    pub fn held<'a>(
        &self,
        memory: &'a Memory,
        tail: &Tail,
        id: TxId,
        at: usize,
        len: usize,
    ) -> Option<&'a [u8]> {
        let (m, t) = (memory.as_ptr(), tail.as_ptr());
        let read =
            unsafe { abi::luppaneth_read(self.0, m, MEMORY_LEN, t, TAIL_LEN, id.0, at, len) };
        // A part that is handed back has at least one byte.
        (read != 0).then(|| &memory[at..at + read])
    }

    /// The part of memory itself, held: where the transaction has neither held nor written all of it, the hold is taken first.
    pub fn read<'a>(
        &mut self,
        memory: &'a Memory,
        tail: &Tail,
        id: TxId,
        at: usize,
        len: usize,
    ) -> Result<&'a [u8], Refusal> {
        if let Some(part) = self.held(memory, tail, id, at, len) {
            return Ok(part);
        }
        self.hold(memory, tail, id, at, len)?;
        Ok(&memory[at..at + len])
    }

    /// Notes how many writes of a running transaction stand, under a name from 1 to 255; a name that is set moves.
    pub fn savepoint(
        &mut self,
        memory: &Memory,
        tail: &Tail,
        id: TxId,
        name: u8,
    ) -> Result<(), Refusal> {
        let reply = unsafe {
            abi::luppaneth_savepoint(
                self.0,
                memory.as_ptr(),
                MEMORY_LEN,
                tail.as_ptr(),
                TAIL_LEN,
                id.0,
                name,
            )
        };
        self.0 = reply.state;
        answer(&reply)
    }

    /// Writes the old bytes of every write since a savepoint, newest first, all or none.
    pub fn go_back(
        &mut self,
        memory: &mut Memory,
        tail: &Tail,
        id: TxId,
        name: u8,
    ) -> Result<(), Refusal> {
        let reply = unsafe {
            abi::luppaneth_go_back(
                self.0,
                memory.as_mut_ptr(),
                MEMORY_LEN,
                tail.as_ptr(),
                TAIL_LEN,
                id.0,
                name,
            )
        };
        self.0 = reply.state;
        answer(&reply)
    }

    /// Gives the transaction the next commit number and puts its group into the tail: from here on its writes can't be taken back, and
    /// nothing of it is on the disk yet.
    pub fn precommit(
        &mut self,
        memory: &Memory,
        tail: &mut Tail,
        id: TxId,
    ) -> Result<Csn, Refusal> {
        let (m, t) = (memory.as_ptr(), tail.as_mut_ptr());
        let reply = unsafe { abi::luppaneth_precommit(self.0, m, MEMORY_LEN, t, TAIL_LEN, id.0) };
        self.0 = reply.state;
        answer(&reply)?;
        Ok(Csn(reply.value))
    }

    /// Takes a running transaction's writes back and drops it. Its abort record takes 4 bytes of the log.
    pub fn abort(&mut self, memory: &mut Memory, tail: &mut Tail, id: TxId) -> Result<(), Refusal> {
        let (m, t) = (memory.as_mut_ptr(), tail.as_mut_ptr());
        let reply = unsafe { abi::luppaneth_abort(self.0, m, MEMORY_LEN, t, TAIL_LEN, id.0) };
        self.0 = reply.state;
        answer(&reply)
    }

    /// Stores the first groups of the tail, or all if there are fewer, at the log's end. The new bytes are owed to the device in rising order.
    pub fn flush(
        &mut self,
        disk: &mut Disk,
        memory: &mut Memory,
        tail: &mut Tail,
        groups: usize,
        allowed: usize,
    ) -> Result<Stored, Refusal> {
        let reply = unsafe {
            abi::luppaneth_flush(
                self.0,
                disk.as_mut_ptr(),
                DISK_LEN,
                memory.as_mut_ptr(),
                MEMORY_LEN,
                tail.as_mut_ptr(),
                TAIL_LEN,
                groups,
                allowed,
            )
        };
        self.0 = reply.state;
        stored(&reply)
    }

    /// Drops a precommitted transaction whose commit number is on disk.
    pub fn settle(&mut self, memory: &Memory, tail: &Tail, id: TxId) -> Result<(), Refusal> {
        let (m, t) = (memory.as_ptr(), tail.as_ptr());
        let reply = unsafe { abi::luppaneth_settle(self.0, m, MEMORY_LEN, t, TAIL_LEN, id.0) };
        self.0 = reply.state;
        answer(&reply)
    }

    /// Stores an image into the place that isn't in use, then the pointer byte. The image's bytes are owed to the device first, rising.
    pub fn checkpoint(
        &mut self,
        disk: &mut Disk,
        memory: &mut Memory,
        tail: &mut Tail,
        allowed: usize,
    ) -> Result<Stored, Refusal> {
        let reply = unsafe {
            abi::luppaneth_checkpoint(
                self.0,
                disk.as_mut_ptr(),
                DISK_LEN,
                memory.as_mut_ptr(),
                MEMORY_LEN,
                tail.as_mut_ptr(),
                TAIL_LEN,
                allowed,
            )
        };
        self.0 = reply.state;
        stored(&reply)
    }

    /// Makes memory, tail and this state anew from a disk, and clears what stands behind the log's end. The zeros are owed to the device in
    /// falling order, from offset 33,690 on. Refused or cut, the state is the unrecovered one.
    pub fn restart(
        &mut self,
        disk: &mut Disk,
        memory: &mut Memory,
        tail: &mut Tail,
        allowed: usize,
    ) -> Result<Restarted, Refusal> {
        let reply = unsafe {
            abi::luppaneth_restart(
                disk.as_mut_ptr(),
                DISK_LEN,
                memory.as_mut_ptr(),
                MEMORY_LEN,
                tail.as_mut_ptr(),
                TAIL_LEN,
                allowed,
            )
        };
        self.0 = reply.state;
        Ok(Restarted {
            stored: stored(&reply)?,
            undone: reply.value,
            stop: Stop::from_number(reply.stop),
        })
    }

    /// False before a restart is done, and after a call that was cut.
    pub fn recovered(&self) -> bool {
        self.0.recovered != 0
    }

    /// Where the log ends, counted from its first byte.
    pub fn log_end(&self) -> usize {
        self.0.logend.into()
    }

    /// The last commit number on disk: bookings up to it are durable.
    pub fn on_disk(&self) -> Csn {
        Csn(self.0.ondisk)
    }

    /// The last commit number assigned.
    pub fn assigned(&self) -> Csn {
        Csn(self.0.assigned)
    }

    /// The last id given.
    pub fn last_id(&self) -> TxId {
        TxId(self.0.lastid)
    }

    /// How many transactions are running or not yet settled.
    pub fn transactions(&self) -> usize {
        self.0.count.into()
    }
}

impl fmt::Debug for State {
    fn fmt(&self, f: &mut fmt::Formatter<'_>) -> fmt::Result {
        f.debug_struct("State")
            .field("recovered", &self.recovered())
            .field("log_end", &self.log_end())
            .field("on_disk", &self.on_disk())
            .field("assigned", &self.assigned())
            .field("last_id", &self.last_id())
            .field("transactions", &self.transactions())
            .finish()
    }
}

/// Whether a restart accepts both disks and leaves the same memory.
pub fn equal_in_meaning(one: &Disk, other: &Disk) -> bool {
    // SAFETY: as of the calls of `State`.
    unsafe { abi::luppaneth_equal(one.as_ptr(), DISK_LEN, other.as_ptr(), DISK_LEN) }
}

/// What a restart finds on a disk, as the program disklist prints it.
pub fn disklist(disk: &Disk) -> String {
    let mut copy = disk.to_vec();
    let mut text = [0; TEXT_LEN];
    // SAFETY: as of the calls of `State`; the text's length is in the function's type.
    let len = unsafe { abi::luppaneth_list(copy.as_mut_ptr(), DISK_LEN, text.as_mut_ptr()) };
    String::from_utf8_lossy(&text[..len]).into_owned()
}
