//! Flush and checkpoint: document 01, "The nine calls".

use crate::image;
use crate::layout::{DISK_LEN, IMAGE_A, IMAGE_B, LOG, POINTER};
use crate::log::{Group, Log};
use crate::state::{Refusal, State};
use crate::stores::{cut_off, make_stores, Store, Stored};

impl State {
    /// Flush: the first `count` groups of the tail go to the log's end.
    pub fn flush(
        &mut self,
        disk: &mut [u8],
        memory: &mut [u8],
        tail: &mut [u8],
        count: usize,
        allowed: usize,
    ) -> Result<Stored, Refusal> {
        let groups = self.admit_with_disk(disk, memory, tail)?;
        let first = &groups.groups[..count.min(groups.groups.len())];
        let size = first.iter().map(Group::size).sum::<usize>();
        let stored = make_stores(disk, &flush_stores(self.log_end, &tail[..size]), allowed);
        if stored.cut {
            cut_off(self, memory, tail);
            return Ok(stored);
        }
        tail.copy_within(size..groups.end, 0);
        tail[groups.end - size..].fill(0);
        self.log_end += size;
        for group in first {
            if let Group::Commit { csn, .. } = group {
                self.csn_on_disk = *csn;
            }
        }
        Ok(stored)
    }

    /// Checkpoint: the image's used bytes in order, then the pointer byte.
    pub fn checkpoint(
        &mut self,
        disk: &mut [u8],
        memory: &mut [u8],
        tail: &mut [u8],
        allowed: usize,
    ) -> Result<Stored, Refusal> {
        self.admit_with_disk(disk, memory, tail)?;
        let stores = checkpoint_stores(disk[POINTER], &image::encode(self, memory));
        let stored = make_stores(disk, &stores, allowed);
        if stored.cut {
            cut_off(self, memory, tail);
        }
        Ok(stored)
    }

    /// Numbers 1 and 2 of the calls that are also lent the disk.
    fn admit_with_disk(&self, disk: &[u8], memory: &[u8], tail: &[u8]) -> Result<Log, Refusal> {
        if disk.len() != DISK_LEN {
            return Err(1);
        }
        self.admit(memory, tail)
    }
}

/// A flush's stores: byte after byte at the log's end.
pub fn flush_stores(log_end: usize, bytes: &[u8]) -> Vec<Store> {
    let offsets = LOG + log_end..;
    offsets.zip(bytes.iter().copied()).collect()
}

/// A checkpoint's stores: into A if the pointer byte is 0 or 2, else into B.
pub fn checkpoint_stores(pointer: u8, image: &[u8]) -> Vec<Store> {
    let (slot, named) = match pointer {
        0 | 2 => (IMAGE_A, 1),
        _ => (IMAGE_B, 2),
    };
    let mut stores: Vec<Store> = (slot..).zip(image.iter().copied()).collect();
    stores.push((POINTER, named));
    stores
}
