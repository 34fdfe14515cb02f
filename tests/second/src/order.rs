//! What document 02, A.4, claims: each durable transaction saw what the order
//! of commits says.

use crate::demand::Expected;
use crate::ledger::{Committed, Seen};

/// Checks those durable that are not laid yet, each over the memory that the
/// ones before it leave.
pub fn check_reads(durable: &[Committed], expected: &Expected) -> Result<(), String> {
    let mut before = expected.clone();
    for (place, committed) in durable.iter().enumerate().skip(expected.laid) {
        check_one(committed, &before.memory, durable)?;
        before.lay_up_to(&durable[..=place]);
    }
    Ok(())
}

/// Each read, over the memory before and as many own writes as then stood.
fn check_one(committed: &Committed, before: &[u8], durable: &[Committed]) -> Result<(), String> {
    let mut memory = before.to_vec();
    let mut laid = 0;
    for read in &committed.reads {
        for write in &committed.writes[laid..read.writes] {
            write.lay(&mut memory);
        }
        laid = read.writes;
        check_bytes(read, &memory)
            .and_then(|()| check_assigned(read, durable))
            .map_err(|fault| format!("a read of csn {}: {fault}", committed.csn.0))?;
    }
    Ok(())
}

fn check_bytes(read: &Seen, memory: &[u8]) -> Result<(), String> {
    let (address, bytes) = (read.address, &read.bytes);
    let ordered = &memory[address..address + bytes.len()];
    if ordered == bytes {
        return Ok(());
    }
    Err(format!(
        "at {address} it saw {bytes:?}, and the order says {ordered:?}"
    ))
}

/// All that were assigned when the read was made are the first durable ones.
fn check_assigned(read: &Seen, durable: &[Committed]) -> Result<(), String> {
    let serials = durable.iter().map(|committed| committed.serial);
    let first = serials.take(read.assigned.len());
    if first.eq(read.assigned.iter().copied()) {
        return Ok(());
    }
    Err("one that was assigned before it is lost".to_string())
}
