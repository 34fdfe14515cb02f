//! Scenes at the edges of pages: document 02, A.5.

use super::Generator;
use crate::layout::{MAX_LENGTH, MAX_UNDOS, MEMORY_LEN, PAGE_LEN};
use crate::log::TxId;

impl Generator {
    /// Ranges that end at a page's last byte and such as go over it.
    pub fn pages(&mut self) {
        self.recover_if_needed();
        self.tidy();
        let (Some(one), Some(other)) = (self.begin(), self.begin()) else {
            return;
        };
        let edge = PAGE_LEN * self.rng.between(1, MEMORY_LEN / PAGE_LEN - 1);
        let (short, long) = (self.rng.between(2, 6), MAX_LENGTH);
        self.write_range(one, edge - short, short);
        self.write_range(one, edge - 1, 2);
        self.write_range(one, edge - long + 1, long);
        self.write_range(one, edge - long, long);
        self.write_range(one, edge, long);
        self.try_over_the_edge(one, other, edge);
        if self.rng.percent(50) {
            self.sixteen_writes_at(one, other, edge);
        }
    }

    fn write_range(&mut self, id: TxId, address: usize, length: usize) {
        let bytes = self.rng.bytes(length);
        self.write(id, address, bytes);
    }

    /// Over the edge there are more grounds than one: a hold, a range outside
    /// memory or too long. Reads may go over it.
    fn try_over_the_edge(&mut self, holder: TxId, other: TxId, edge: usize) {
        for (address, length) in [
            (edge - 1, 2),
            (edge - 2, 2),
            (edge - 1, 1 + MAX_LENGTH),
            (edge - 1, 0),
            (MEMORY_LEN - 1, 2),
            (MEMORY_LEN - MAX_LENGTH + 1, MAX_LENGTH),
            // Within a page, were the address cut to two bytes.
            (65_536 + edge + 2 * MAX_LENGTH, 1),
        ] {
            self.write_range(other, address, length);
        }
        self.check_read(holder, edge - 2, 4);
        self.read(holder, edge - 2, 4);
        self.check_read(other, edge - 2, 4);
    }

    /// Sixteen writes, then one over the edge, one that another holds, and one
    /// that is neither.
    fn sixteen_writes_at(&mut self, id: TxId, other: TxId, edge: usize) {
        let held = edge + 2 * MAX_LENGTH;
        self.write_range(other, held, 1);
        for _ in 0..MAX_UNDOS {
            self.write_range(id, edge - 1, 1);
        }
        self.write_range(id, edge - 1, 2);
        self.write_range(id, held, 1);
        self.write_range(id, edge, 2);
    }
}
