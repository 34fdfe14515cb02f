//! Two databases that make the same step: three updates of 32 bytes booked
//! together, in a file on a memory file system. Their libraries are looked for
//! when the bench runs; one that is not installed is left out.

mod library;
mod lmdb;
mod sqlite;

use crate::programs::StepWrite;
use std::path::Path;

/// A database that can make steps.
pub trait Peer {
    /// What it is, and how it was told to treat the disk.
    fn name(&self) -> String;
    fn step(&mut self, writes: &[StepWrite; 3]);
}

/// The peers at hand, and a word for each that is not.
pub fn all(folder: &Path) -> (Vec<Box<dyn Peer>>, Vec<String>) {
    let mut peers = Vec::new();
    let mut missing = Vec::new();
    let opened = [
        sqlite::open(folder, "OFF"),
        sqlite::open(folder, "NORMAL"),
        lmdb::open(folder, "MDB_NOSYNC", lmdb::NOSYNC),
        lmdb::open(folder, "the default, each commit synced", 0),
    ];
    for peer in opened {
        match peer {
            Ok(peer) => peers.push(peer),
            Err(word) => missing.push(word),
        }
    }
    missing.dedup();
    (peers, missing)
}
