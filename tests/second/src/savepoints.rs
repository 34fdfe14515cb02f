//! Savepoints (document 02, A.7: marks): setting one, and going back to it.

use crate::layout::{LOG_LEN, MAX_SAVEPOINTS, MAX_UNDOS};
use crate::log::{TxId, Write};
use crate::state::{Refusal, Savepoint, State};

impl State {
    /// Notes how many writes stand; a name that is set moves.
    pub fn set_savepoint(
        &mut self,
        memory: &[u8],
        tail: &[u8],
        id: TxId,
        name: u8,
    ) -> Result<(), Refusal> {
        let (_, index) = self.find_running(memory, tail, id)?;
        let tx = &mut self.txs[index];
        let writes = tx.undo.len();
        if let Some(set) = tx.savepoints.iter_mut().find(|s| s.name == name) {
            set.writes = writes;
            return Ok(());
        }
        if name == 0 || tx.savepoints.len() == MAX_SAVEPOINTS {
            return Err(19);
        }
        tx.savepoints.push(Savepoint { name, writes });
        Ok(())
    }

    /// Writes the old bytes of every later write, newest first, as ordinary
    /// writes: all or none.
    pub fn go_back(
        &mut self,
        memory: &mut [u8],
        tail: &[u8],
        id: TxId,
        name: u8,
    ) -> Result<(), Refusal> {
        let (groups, index) = self.find_running(memory, tail, id)?;
        let tx = &self.txs[index];
        let set = tx.savepoints.iter().find(|s| s.name == name).ok_or(18)?;
        let later: Vec<Write> = tx.undo[set.writes..].iter().rev().cloned().collect();
        if tx.undo.len() + later.len() > MAX_UNDOS {
            return Err(10);
        }
        let size = later.iter().map(Write::redo_size).sum::<usize>();
        if self.room_used(groups.end) + size > LOG_LEN {
            return Err(13);
        }
        for old in later {
            self.txs[index].write(memory, old);
        }
        Ok(())
    }
}
