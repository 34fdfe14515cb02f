//! Counted stores: document 01, "take a number of stores allowed, and report
//! the stores made".

use crate::state::State;

/// One store of a byte on disk.
pub type Store = (usize, u8);

/// How a call that stores on disk went, when it was not refused.
#[derive(Clone, Copy, Debug, PartialEq, Eq)]
pub struct Stored {
    pub cut: bool,
    /// The stores made.
    pub stores: usize,
}

/// Makes the first `allowed` stores of the list, or all if it has fewer.
pub fn make_stores(disk: &mut [u8], stores: &[Store], allowed: usize) -> Stored {
    let made = stores.len().min(allowed);
    for &(offset, byte) in &stores[..made] {
        disk[offset] = byte;
    }
    Stored {
        cut: allowed < stores.len(),
        stores: made,
    }
}

/// What a cut leaves: memory and tail zero, the state unrecovered.
pub fn cut_off(state: &mut State, memory: &mut [u8], tail: &mut [u8]) {
    memory.fill(0);
    tail.fill(0);
    *state = State::default();
}
