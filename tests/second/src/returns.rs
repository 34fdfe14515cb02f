//! What document 02, A.7, claims of a store on demand 3's lists, by the ledger:
//! what a running transaction has, and what a return leaves.

use std::collections::BTreeMap;

use crate::layout::MEMORY_LEN;
use crate::ledger::Ledger;
use crate::log::{TxId, Write};
use crate::state::Tx;
use crate::trace::{Answer, Call, Outcome, World};

/// What the ledger has open is what runs: each running transaction has its
/// writes there as redo records, its savepoints, and an undo record for each
/// write. `durable` is the memory with the durable ones.
pub fn check_undos(world: &World, ledger: &Ledger, durable: &[u8]) -> Result<(), String> {
    let mut all = durable.to_vec();
    for write in ledger.queued().flat_map(|committed| &committed.writes) {
        write.lay(&mut all);
    }
    for tx in world.state.txs.iter().filter(|tx| tx.is_running()) {
        check_running(tx, ledger, &all).map_err(|what| format!("id {} {what}", tx.id.0))?;
    }
    Ok(())
}

fn check_running(tx: &Tx, ledger: &Ledger, all: &[u8]) -> Result<(), String> {
    let open = ledger.open_of(tx.id).ok_or("runs and is not open")?;
    if tx.redo != open.writes {
        return Err("has other redo records than writes".to_string());
    }
    let mut set: Vec<(u8, usize)> = tx.savepoints.iter().map(|s| (s.name, s.writes)).collect();
    set.sort();
    if !set
        .iter()
        .map(|(name, writes)| (name, writes))
        .eq(&open.savepoints)
    {
        return Err("has other savepoints than were set".to_string());
    }
    check_records(&tx.undo, &open.writes, all.to_vec())
}

/// Each undo record has what starting memory, durable ones and queue (all of
/// these in `memory`) and the writes before its own leave there.
fn check_records(undo: &[Write], writes: &[Write], mut memory: Vec<u8>) -> Result<(), String> {
    if undo.len() != writes.len() {
        return Err("has other undo records than writes".to_string());
    }
    for (place, (record, write)) in undo.iter().zip(writes).enumerate() {
        let before = &memory[record.range().places()];
        if record.range() != write.range() || before != record.bytes {
            return Err(format!("has a wrong undo record {place}"));
        }
        write.lay(&mut memory);
    }
    Ok(())
}

/// What the store's memory had, for each write of an open transaction in its
/// range just before the call that made the write.
#[derive(Clone, Default)]
pub struct Found(BTreeMap<TxId, Vec<Vec<u8>>>);

impl Found {
    /// Told after every call, with the memory before it. The ledger tells which
    /// writes are new, and which transactions have ended.
    pub fn note(&mut self, before: &[u8], ledger: &Ledger) {
        self.0.retain(|id, _| ledger.open_of(*id).is_some());
        for open in &ledger.open {
            let found = self.0.entry(open.id).or_default();
            let new = open.writes[found.len()..].iter();
            found.extend(new.map(|write| before[write.range().places()].to_vec()));
        }
    }

    /// After a return each byte written since the savepoint reads as just
    /// before the first such write: as before the call that made it, since no
    /// earlier write of that call was over the byte.
    pub fn check_return(
        &self,
        world: &World,
        ledger: &Ledger,
        call: &Call,
        outcome: &Outcome,
    ) -> Result<(), String> {
        match call {
            Call::GoBack { id, name } if outcome.answer == Answer::Done => {
                self.check_back(&world.memory, ledger, *id, *name)
            }
            _ => Ok(()),
        }
    }

    fn check_back(&self, memory: &[u8], ledger: &Ledger, id: TxId, name: u8) -> Result<(), String> {
        let stood = ledger.writes_at(id, name);
        let mut seen = [false; MEMORY_LEN];
        for (write, found) in ledger.writes_of(id).iter().zip(&self.0[&id]).skip(stood) {
            for (place, byte) in write.range().places().zip(found) {
                if !seen[place] && memory[place] != *byte {
                    return Err(format!("at {place} is not what was found there"));
                }
                seen[place] = true;
            }
        }
        Ok(())
    }
}
