//! Demand 3 (document 01, "The bench book") of a disk and a ledger, and what
//! document 02, A.1, says of where the log stopped.

use crate::layout::{LOG, LOG_LEN, MEMORY_LEN, TAIL_LEN};
use crate::ledger::{Committed, Ledger};
use crate::log::{read_log, Csn, Group, Stop};
use crate::restart::{recover, restart, Restarted};
use crate::state::State;

/// Zeros with the writes of the durable transactions laid over them. The
/// durable ones only ever grow, so each is laid once.
#[derive(Clone)]
pub struct Expected {
    pub memory: Vec<u8>,
    /// How many are laid.
    pub laid: usize,
}

impl Default for Expected {
    fn default() -> Expected {
        Expected {
            memory: vec![0; MEMORY_LEN],
            laid: 0,
        }
    }
}

impl Expected {
    pub fn lay_up_to(&mut self, durable: &[Committed]) {
        for committed in &durable[self.laid..] {
            for write in &committed.writes {
                write.lay(&mut self.memory);
            }
        }
        self.laid = durable.len();
    }
}

/// The durable are the first so many assigned; each settled one is durable.
pub fn check_ledger(ledger: &Ledger) -> Result<(), String> {
    let serials: Vec<usize> = ledger.durable.iter().map(|c| c.serial).collect();
    if !ledger.assigned.starts_with(&serials) {
        return Err("the durable transactions are no leading run of the assigned".to_string());
    }
    match ledger
        .settled
        .iter()
        .find(|&s| serials.binary_search(s).is_err())
    {
        Some(serial) => Err(format!("settled transaction {serial} is not durable")),
        None => Ok(()),
    }
}

/// The disk, memory and state that one more restart leaves.
struct Again {
    disk: Vec<u8>,
    memory: Vec<u8>,
    state: State,
    done: Restarted,
}

/// One more restart on a copy, with stores enough.
fn once_more(disk: &[u8]) -> Result<Again, String> {
    let mut disk = disk.to_vec();
    let mut memory = vec![0xA5; MEMORY_LEN];
    let mut tail = vec![0xA5; TAIL_LEN];
    let (state, result) = restart(&mut disk, &mut memory, &mut tail, LOG_LEN);
    let done = result.map_err(|number| format!("the restart is refused by {number}"))?;
    if done.stored.cut {
        return Err("the restart is cut".to_string());
    }
    Ok(Again {
        disk,
        memory,
        state,
        done,
    })
}

/// What one more restart leaves, and the log before and after it.
pub fn check_disk(disk: &[u8], ledger: &Ledger, expected: &Expected) -> Result<(), String> {
    let durable = &ledger.durable;
    check_log(disk, durable).map_err(|fault| format!("before the restart: {fault}"))?;
    let again = once_more(disk)?;
    let (found, wanted) = (&again.memory, &expected.memory);
    if let Some(address) = (0..MEMORY_LEN).find(|&a| found[a] != wanted[a]) {
        let (found, wanted) = (found[address], wanted[address]);
        return Err(format!("memory at {address} is {found} and not {wanted}"));
    }
    check_log(&again.disk, durable).map_err(|fault| format!("after the restart: {fault}"))
}

/// The byte at the log's end decides why it ends there; behind a restart that
/// was done there is none or a zero.
pub fn check_stop(disk: &[u8]) -> Result<(), String> {
    let again = once_more(disk)?;
    let stop = match disk.get(LOG + again.state.log_end) {
        None => Stop::Full,
        Some(0) => Stop::Zero,
        Some(_) => Stop::Torn,
    };
    let told = again.done.stop;
    if told != Some(stop) {
        return Err(format!("the log stopped {stop:?}, and {told:?} is told"));
    }
    match recover(&again.disk) {
        Ok(again) if again.stop == Stop::Torn => Err("torn after a restart".to_string()),
        _ => Ok(()),
    }
}

/// The log, read from its first byte, has as its commits exactly the durable
/// ones in order, numbered 1, 2, 3 and on.
fn check_log(disk: &[u8], durable: &[Committed]) -> Result<(), String> {
    let log = read_log(&disk[LOG..], Csn(0));
    let mut rest = durable.iter();
    let mut number = 0;
    for group in &log.groups {
        let Group::Commit { id, csn, writes } = group else {
            continue;
        };
        number += 1;
        let same = rest.next().is_some_and(|committed| {
            committed.id == *id
                && committed.csn == *csn
                && csn.0 == number
                && committed.writes == *writes
        });
        if !same {
            return Err(format!(
                "commit {number} of the log is not durable number {number}"
            ));
        }
    }
    match rest.next() {
        Some(lost) => Err(format!("csn {} of id {} is lost", lost.csn.0, lost.id.0)),
        None => Ok(()),
    }
}
