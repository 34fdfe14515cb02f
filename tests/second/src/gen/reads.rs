//! Scenes of readers and what they hold: document 02, A.2.

use super::live::READERS;
use super::Generator;
use crate::layout::{LOG_LEN, MAX_LENGTH, MAX_READS, MEMORY_LEN};
use crate::log::TxId;
use crate::trace::{Call, Outcome};

impl Generator {
    pub fn read(&mut self, id: TxId, address: usize, length: usize) -> Outcome {
        self.emit(Call::Read {
            id,
            address,
            length,
        })
    }

    /// Read's sister, which takes the hold.
    pub fn check_read(&mut self, id: TxId, address: usize, length: usize) -> Outcome {
        self.emit(Call::CheckRead {
            id,
            address,
            length,
        })
    }

    /// With the given chance, holds a range and reads it.
    pub fn maybe_reads(&mut self, id: TxId, chance: usize) {
        if self.rng.percent(chance) {
            let (address, length) = (self.rng.below(64), self.rng.between(1, 8));
            self.check_read(id, address, length);
            self.read(id, address, length);
        }
    }

    /// Small transactions that read, and now and then a scene of readers.
    pub fn reading(&mut self) {
        if self.rng.percent(4) {
            self.readers();
        } else {
            self.live_call(&READERS);
        }
    }

    /// Readers at every limit, by turns.
    pub fn readers(&mut self) {
        self.recover_if_needed();
        self.tidy();
        self.readers_turn += 1;
        match self.readers_turn % 4 {
            0 => self.two_readers(),
            1 => self.covered_parts(),
            2 => self.sixteen_ranges(),
            _ => self.late_reader(),
        }
    }

    /// Two readers of one range: neither may write there until the other ends.
    fn two_readers(&mut self) {
        let (Some(one), Some(other)) = (self.begin(), self.begin()) else {
            return;
        };
        let length = self.rng.between(1, 6);
        let address = self.rng.between(1, MEMORY_LEN - 2 * MAX_LENGTH);
        for id in [one, other] {
            self.check_read(id, address, length);
            self.read(id, address, length);
        }
        for (id, place) in [(one, address), (other, address + length - 1)] {
            self.write(id, place, vec![7]);
        }
        // Just beside what is read, and over its edge.
        for (place, count) in [(address - 1, 1), (address + length, 1), (address - 1, 2)] {
            let bytes = self.rng.bytes(count);
            self.write(one, place, bytes);
        }
        self.end(other);
        let bytes = self.rng.bytes(length);
        self.write(one, address, bytes);
        self.read(one, address, length);
        if let Some(third) = self.begin() {
            self.check_read(third, address, 1);
            self.read(third, address, 1);
            self.end(one);
            self.check_read(third, address, 1);
        }
    }

    /// One reads, another writes there and commits first: had the read handed
    /// back what is not held, or the write passed a hold, the order of commits
    /// would tell it otherwise.
    fn late_reader(&mut self) {
        let (Some(reader), Some(writer)) = (self.begin(), self.begin()) else {
            return;
        };
        let at = self.rng.below(MEMORY_LEN - MAX_LENGTH);
        self.check_read(reader, at, 1);
        self.check_read(reader, at + 2, 1);
        for (place, length) in [(at, 1), (at, 3), (at + 5, 2)] {
            self.read(reader, place, length);
        }
        for place in [at, at + 1, at + 2, at + 5] {
            let bytes = self.rng.bytes(1);
            self.write(writer, place, bytes);
        }
        for id in [writer, reader] {
            self.emit(Call::Precommit { id });
        }
        let (groups, allowed) = (LOG_LEN, 2 * LOG_LEN);
        self.emit(Call::Flush { groups, allowed });
        self.tidy();
    }

    /// Commits the transaction or aborts it.
    pub fn end(&mut self, id: TxId) {
        let call = self.rng.pick(&[Call::Precommit { id }, Call::Abort { id }]);
        self.emit(call);
    }

    /// A part is covered by ranges side by side, read or written; or one byte
    /// is not.
    fn covered_parts(&mut self) {
        let Some(id) = self.begin() else {
            return;
        };
        let at = self.rng.between(1, MEMORY_LEN - 2 * MAX_LENGTH);
        self.check_read(id, at, 2);
        self.check_read(id, at + 2, 1);
        let bytes = self.rng.bytes(2);
        self.write(id, at + 3, bytes);
        self.check_read(id, at + 6, 2);
        for (from, to) in [
            (0, 2),
            (0, 3),
            (1, 5),
            (0, 5),
            (3, 5),
            (0, 6),
            (4, 7),
            (6, 8),
            (0, 8),
        ] {
            self.read(id, at + from, to - from);
        }
        self.read(id, at - 1, 2);
        self.check_read(id, at + 5, 1);
        self.read(id, at, 8);
        self.read(id, at, 9);
        self.end(id);
        self.read(id, at, 2);
    }

    /// Sixteen ranges, a seventeenth, and what may still be read then.
    fn sixteen_ranges(&mut self) {
        let (Some(id), Some(other)) = (self.begin(), self.begin()) else {
            return;
        };
        let at = self.rng.between(1, MEMORY_LEN - 8 * MAX_LENGTH);
        let held = at + 4 * MAX_LENGTH;
        self.write(other, held, vec![1, 2]);
        for turn in 0..=MAX_READS {
            let length = self.rng.pick(&[1, 2, MAX_LENGTH]);
            self.check_read(id, at + turn % 9, length);
        }
        for (address, length) in [(at, 1), (held, 1), (at, 0), (MEMORY_LEN, 1)] {
            self.check_read(id, address, length);
            self.read(id, address, length);
        }
        self.check_read(other, at, MAX_LENGTH);
        self.write(id, at, vec![3]);
        self.read(id, at, 9);
        if self.rng.percent(30) {
            self.checkpoint(0);
            self.read(id, at, 2);
        }
        self.end(id);
        self.check_read(other, at, 1);
    }
}
