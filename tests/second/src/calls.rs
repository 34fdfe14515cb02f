//! The calls that store nothing on disk: document 01, "The nine calls" and
//! "Numbers in checking order"; reads that hold and writes within a page:
//! document 02, A.2 and A.5. A refusal leaves everything untouched.

use crate::layout::{range_ok, Range, LOG_LEN, MAX_READS, MAX_TXS, MAX_UNDOS};
use crate::log::{undo, Csn, Group, Log, Record, TxId, Write, COMMIT_SIZE};
use crate::state::{Refusal, State, Status, Tx};

const HIGHEST_ID: TxId = TxId(u16::MAX);

impl State {
    /// Begin: gives the last id plus 1.
    pub fn begin(&mut self, memory: &[u8], tail: &[u8]) -> Result<TxId, Refusal> {
        let groups = self.admit(memory, tail)?;
        if self.txs.len() == MAX_TXS {
            return Err(11);
        }
        if self.last_id == HIGHEST_ID {
            return Err(12);
        }
        if self.room_used(groups.end) + COMMIT_SIZE > LOG_LEN {
            return Err(13);
        }
        self.last_id = TxId(self.last_id.0 + 1);
        self.txs.push(Tx::begun(self.last_id));
        Ok(self.last_id)
    }

    /// Write: an undo record with the old bytes, a redo record, then memory.
    pub fn write(
        &mut self,
        memory: &mut [u8],
        tail: &[u8],
        id: TxId,
        address: usize,
        bytes: &[u8],
    ) -> Result<(), Refusal> {
        let length = bytes.len();
        let range = Range { address, length };
        let (groups, index) = self.find_range(memory, tail, id, range)?;
        if range.crosses_pages() {
            return Err(16);
        }
        let hinders = |tx: &Tx| tx.has_written_any_of(range) || tx.has_read_any_of(range);
        if self.others(id).any(hinders) {
            return Err(9);
        }
        if self.txs[index].undo.len() == MAX_UNDOS {
            return Err(10);
        }
        let new = Write {
            address,
            bytes: bytes.to_vec(),
        };
        if self.room_used(groups.end) + new.redo_size() > LOG_LEN {
            return Err(13);
        }
        self.txs[index].write(memory, new);
        Ok(())
    }

    /// Read: the part of memory itself; empty when refused, and where a byte is
    /// not covered by what the transaction has read or written.
    pub fn read<'a>(
        &self,
        memory: &'a [u8],
        tail: &[u8],
        id: TxId,
        address: usize,
        length: usize,
    ) -> &'a [u8] {
        let range = Range { address, length };
        match self.find_readable(memory, tail, id, range) {
            Ok(index) if self.txs[index].covers(range) => &memory[range.places()],
            _ => &memory[0..0],
        }
    }

    /// Read's sister: takes the hold, or tells why not.
    pub fn check_read(
        &mut self,
        memory: &[u8],
        tail: &[u8],
        id: TxId,
        address: usize,
        length: usize,
    ) -> Result<(), Refusal> {
        let range = Range { address, length };
        let index = self.find_readable(memory, tail, id, range)?;
        let reads = &mut self.txs[index].reads;
        if reads.len() == MAX_READS {
            return Err(15);
        }
        reads.push(range);
        Ok(())
    }

    /// Precommit: assigns the next csn, appends the group to the tail.
    pub fn precommit(&mut self, memory: &[u8], tail: &mut [u8], id: TxId) -> Result<Csn, Refusal> {
        let (groups, index) = self.find_running(memory, tail, id)?;
        let csn = self.csn_assigned.next().ok_or(12)?;
        let tx = &mut self.txs[index];
        tx.status = Status::Committing;
        tx.csn = csn;
        tx.reads.clear();
        tx.savepoints.clear();
        let writes = std::mem::take(&mut tx.redo);
        let group = Group::Commit { id, csn, writes };
        append(tail, groups.end, &group.encode());
        self.csn_assigned = csn;
        Ok(csn)
    }

    /// Abort: undoes newest first, appends the abort record, drops the
    /// transaction.
    pub fn abort(&mut self, memory: &mut [u8], tail: &mut [u8], id: TxId) -> Result<(), Refusal> {
        let (groups, index) = self.find_running(memory, tail, id)?;
        let tx = self.txs.remove(index);
        undo(&tx.undo, memory);
        append(tail, groups.end, &Record::Abort(id).encode());
        Ok(())
    }

    /// Settle: drops a committing transaction whose csn is on disk.
    pub fn settle(&mut self, memory: &[u8], tail: &[u8], id: TxId) -> Result<(), Refusal> {
        self.admit(memory, tail)?;
        let index = self.find(id).ok_or(6)?;
        let tx = &self.txs[index];
        if tx.is_running() || tx.csn > self.csn_on_disk {
            return Err(14);
        }
        self.txs.remove(index);
        Ok(())
    }

    /// Numbers 1, 2, 6 and 7: the place of a running transaction in the list.
    pub fn find_running(
        &self,
        memory: &[u8],
        tail: &[u8],
        id: TxId,
    ) -> Result<(Log, usize), Refusal> {
        let groups = self.admit(memory, tail)?;
        let index = self.find(id).ok_or(6)?;
        if !self.txs[index].is_running() {
            return Err(7);
        }
        Ok((groups, index))
    }

    /// Numbers 1, 2 and 6 to 8, as write and read share them.
    fn find_range(
        &self,
        memory: &[u8],
        tail: &[u8],
        id: TxId,
        range: Range,
    ) -> Result<(Log, usize), Refusal> {
        let (groups, index) = self.find_running(memory, tail, id)?;
        if !range_ok(range.address, range.length) {
            return Err(8);
        }
        Ok((groups, index))
    }

    /// Numbers 1, 2 and 6 to 9 of read and its sister: readers don't hinder
    /// readers.
    fn find_readable(
        &self,
        memory: &[u8],
        tail: &[u8],
        id: TxId,
        range: Range,
    ) -> Result<usize, Refusal> {
        let (_, index) = self.find_range(memory, tail, id, range)?;
        if self.others(id).any(|tx| tx.has_written_any_of(range)) {
            return Err(9);
        }
        Ok(index)
    }

    fn others(&self, id: TxId) -> impl Iterator<Item = &Tx> {
        self.txs.iter().filter(move |tx| tx.id != id)
    }
}

/// Puts the bytes at the tail's end; the log room of a running transaction
/// has kept place for them.
fn append(tail: &mut [u8], end: usize, bytes: &[u8]) {
    tail[end..end + bytes.len()].copy_from_slice(bytes);
}
