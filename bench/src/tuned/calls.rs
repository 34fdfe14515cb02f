//! The calls that store nothing on disk.

use super::admit::Admitted;
use super::log::{put_abort, put_commit, put_redo};
use super::state::{Records, State, Tx, COMMITTING, RUNNING};
use super::Refusal;
use second::layout::{range_ok, LOG_LEN, MAX_LENGTH, MAX_SAVEPOINTS, MAX_TXS, MAX_UNDOS, PAGE_LEN};

impl State {
    pub fn begin(&mut self, memory: &[u8], tail: &[u8]) -> Result<u16, Refusal> {
        let admitted = self.admit(memory, tail)?;
        if self.count as usize == MAX_TXS {
            return Err(11);
        }
        let id = self.lastid.checked_add(1).ok_or(12)?;
        if admitted.room + 8 > LOG_LEN {
            return Err(13);
        }
        self.lastid = id;
        let tx = &mut self.txs[self.count as usize];
        tx.id = id;
        tx.status = RUNNING;
        tx.csn = 0;
        tx.undo.clear();
        tx.redo.clear();
        tx.reads.count = 0;
        tx.savepoints.count = 0;
        self.count += 1;
        Ok(id)
    }

    pub fn write(
        &mut self,
        memory: &mut [u8],
        tail: &[u8],
        id: u16,
        addr: usize,
        bytes: &[u8],
    ) -> Result<(), Refusal> {
        let (admitted, slot) = self.find_range(memory, tail, id, addr, bytes.len(), true)?;
        let tx = &mut self.txs[slot];
        if tx.undo.count as usize == MAX_UNDOS {
            return Err(10);
        }
        if admitted.room + 7 + bytes.len() > LOG_LEN {
            return Err(13);
        }
        tx.write(memory, addr, bytes);
        Ok(())
    }

    /// The part of memory itself, empty when refused or not covered.
    pub fn read<'a>(
        &self,
        memory: &'a [u8],
        tail: &[u8],
        id: u16,
        addr: usize,
        len: usize,
    ) -> &'a [u8] {
        match self.find_range(memory, tail, id, addr, len, false) {
            Ok((_, slot)) if self.txs[slot].covers(addr, len) => &memory[addr..addr + len],
            _ => &memory[0..0],
        }
    }

    /// Read's sister: takes the hold.
    pub fn check_read(
        &mut self,
        memory: &[u8],
        tail: &[u8],
        id: u16,
        addr: usize,
        len: usize,
    ) -> Result<(), Refusal> {
        let (_, slot) = self.find_range(memory, tail, id, addr, len, false)?;
        let reads = &mut self.txs[slot].reads;
        if reads.count as usize == MAX_UNDOS {
            return Err(15);
        }
        reads.push(addr, len);
        Ok(())
    }

    pub fn set_savepoint(
        &mut self,
        memory: &[u8],
        tail: &[u8],
        id: u16,
        name: u8,
    ) -> Result<(), Refusal> {
        let (_, slot) = self.find_running(memory, tail, id)?;
        let tx = &mut self.txs[slot];
        if let Some(place) = tx.savepoints.find(name) {
            tx.savepoints.writes[place] = tx.undo.count;
            return Ok(());
        }
        if name == 0 || tx.savepoints.count as usize == MAX_SAVEPOINTS {
            return Err(19);
        }
        tx.savepoints.push(name, tx.undo.count);
        Ok(())
    }

    /// The old bytes of every later write, newest first, all or none.
    pub fn go_back(
        &mut self,
        memory: &mut [u8],
        tail: &[u8],
        id: u16,
        name: u8,
    ) -> Result<(), Refusal> {
        let (admitted, slot) = self.find_running(memory, tail, id)?;
        let tx = &mut self.txs[slot];
        let place = tx.savepoints.find(name).ok_or(18)?;
        let stood = tx.savepoints.writes[place] as usize;
        let writes = tx.undo.count as usize;
        if writes + (writes - stood) > MAX_UNDOS {
            return Err(10);
        }
        let later = tx.undo.ranges().skip(stood);
        if admitted.room + later.map(|(_, len)| 7 + len).sum::<usize>() > LOG_LEN {
            return Err(13);
        }
        for i in (stood..writes).rev() {
            let mut old = [0; MAX_LENGTH];
            let len = tx.undo.bytes_of(i).len();
            old[..len].copy_from_slice(tx.undo.bytes_of(i));
            tx.write(memory, tx.undo.addr[i] as usize, &old[..len]);
        }
        Ok(())
    }

    pub fn precommit(&mut self, memory: &[u8], tail: &mut [u8], id: u16) -> Result<u32, Refusal> {
        let (admitted, slot) = self.find_running(memory, tail, id)?;
        let csn = self.assigned.checked_add(1).ok_or(12)?;
        let tx = &mut self.txs[slot];
        let end = admitted.end + put_redos(&mut tail[admitted.end..], id, &tx.redo);
        put_commit(&mut tail[end..], id, csn);
        tx.redo.clear();
        tx.reads.count = 0;
        tx.savepoints.count = 0;
        tx.status = COMMITTING;
        tx.csn = csn;
        self.assigned = csn;
        Ok(csn)
    }

    pub fn abort(&mut self, memory: &mut [u8], tail: &mut [u8], id: u16) -> Result<(), Refusal> {
        let (admitted, slot) = self.find_running(memory, tail, id)?;
        self.txs[slot].undo.undo(memory);
        put_abort(&mut tail[admitted.end..], id);
        self.drop_slot(slot);
        Ok(())
    }

    pub fn settle(&mut self, memory: &[u8], tail: &[u8], id: u16) -> Result<(), Refusal> {
        self.admit(memory, tail)?;
        let slot = self.find(id).ok_or(6)?;
        let tx = &self.txs[slot];
        if tx.is_running() || tx.csn > self.ondisk {
            return Err(14);
        }
        self.drop_slot(slot);
        Ok(())
    }

    fn find(&self, id: u16) -> Option<usize> {
        self.listed().iter().position(|tx| tx.id == id)
    }

    /// Numbers 1, 2, 6 and 7.
    fn find_running(
        &self,
        memory: &[u8],
        tail: &[u8],
        id: u16,
    ) -> Result<(Admitted, usize), Refusal> {
        let admitted = self.admit(memory, tail)?;
        let slot = self.find(id).ok_or(6)?;
        if !self.txs[slot].is_running() {
            return Err(7);
        }
        Ok((admitted, slot))
    }

    /// Numbers 1, 2 and 6 to 9, to read or to write; to write also 16.
    fn find_range(
        &self,
        memory: &[u8],
        tail: &[u8],
        id: u16,
        addr: usize,
        len: usize,
        writing: bool,
    ) -> Result<(Admitted, usize), Refusal> {
        let found = self.find_running(memory, tail, id)?;
        if !range_ok(addr, len) {
            return Err(8);
        }
        if writing && addr / PAGE_LEN != (addr + len - 1) / PAGE_LEN {
            return Err(16);
        }
        let holds = |tx: &Tx| tx.undo.meets(addr, len) || writing && tx.reads.meets(addr, len);
        let held = |tx: &Tx| tx.id != id && tx.is_running() && holds(tx);
        if self.listed().iter().any(held) {
            return Err(9);
        }
        Ok(found)
    }
}

/// The redo records one after the other; their size.
fn put_redos(out: &mut [u8], id: u16, redo: &Records) -> usize {
    let mut at = 0;
    for i in 0..redo.count as usize {
        let bytes = redo.bytes_of(i);
        put_redo(&mut out[at..], id, redo.addr[i], bytes);
        at += 7 + bytes.len();
    }
    at
}
