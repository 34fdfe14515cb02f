//! Scenes of savepoints and returns: document 02, A.7.

use super::live::Habits;
use super::scenes::{in_one_page, redo_lengths};
use super::Generator;
use crate::layout::{MAX_LENGTH, MAX_SAVEPOINTS, MAX_UNDOS, MEMORY_LEN};
use crate::log::TxId;
use crate::state::Status;
use crate::trace::{Answer, Call, Outcome};

impl Generator {
    pub fn set_savepoint(&mut self, id: TxId, name: u8) -> Outcome {
        self.emit(Call::SetSavepoint { id, name })
    }

    pub fn go_back(&mut self, id: TxId, name: u8) -> Outcome {
        self.emit(Call::GoBack { id, name })
    }

    /// A savepoint, often with a write or two after it, and some of these taken
    /// back.
    pub fn try_a_line(&mut self, id: TxId, habits: &Habits) {
        let name = self.some_name(id);
        let set = self.set_savepoint(id, name);
        if set.answer != Answer::Done || self.rng.percent(40) {
            return;
        }
        let at = self.rng.below(habits.span);
        let count = self.rng.between(1, 2);
        self.some_writes(id, at, count);
        if self.rng.percent(50) {
            self.go_back(id, name);
        }
    }

    /// Mostly a return of a transaction that has a savepoint.
    pub fn go_back_somewhere(&mut self, wild: usize) {
        let txs = self.world.state.txs.iter();
        let with = txs.filter(|tx| !tx.savepoints.is_empty()).map(|tx| tx.id);
        let with: Vec<TxId> = with.collect();
        let id = if with.is_empty() || self.rng.percent(10 + wild) {
            self.some_id(Some(Status::Running), wild)
        } else {
            self.rng.pick(&with)
        };
        let name = self.some_name(id);
        if with.is_empty() && self.rng.percent(70) {
            self.set_savepoint(id, name);
        } else {
            self.go_back(id, name);
        }
    }

    /// With the given chance, a savepoint, a write, and a return.
    pub fn maybe_returns(&mut self, id: TxId, chance: usize) {
        if self.rng.percent(chance) {
            self.set_savepoint(id, 3);
            let at = self.rng.below(64);
            self.some_writes(id, at, 1);
            self.go_back(id, 3);
        }
    }

    /// A name: often one that the transaction has set.
    pub fn some_name(&mut self, id: TxId) -> u8 {
        let state = &self.world.state;
        let index = state.find(id);
        let set = index.map_or(Vec::new(), |index| state.txs[index].savepoints.clone());
        if !set.is_empty() && self.rng.percent(75) {
            return self.rng.pick(&set).name;
        }
        let any = self.rng.byte();
        self.rng.pick(&[0, 1, 1, 2, 2, 3, 4, 5, 255, any])
    }

    /// Savepoints at every limit, by turns.
    pub fn savepoints(&mut self) {
        self.recover_if_needed();
        self.tidy();
        self.savepoints_turn += 1;
        match self.savepoints_turn % 6 {
            0 => self.go_back_over_some(),
            1 => self.names_at_their_limit(),
            2 => self.return_after_return(),
            3 => self.checkpoint_before_return(),
            4 => self.return_after_another(),
            _ => self.return_over_overlaps(),
        }
    }

    /// So many writes of one or two bytes, some over others.
    fn some_writes(&mut self, id: TxId, at: usize, count: usize) {
        for _ in 0..count {
            let address = at + self.rng.below(6);
            let length = self.rng.between(1, 2);
            let bytes = self.rng.bytes(length);
            self.write(id, in_one_page(address, length), bytes);
        }
    }

    fn some_place(&mut self) -> usize {
        self.rng.below(MEMORY_LEN - MAX_LENGTH)
    }

    /// Earlier and later writes, so many that a return just makes sixteen
    /// records, or one or two too many; also none later.
    fn go_back_over_some(&mut self) {
        let Some(id) = self.begin() else {
            return;
        };
        let earlier = self.rng.pick(&[0, 0, 0, 1, 2, 3, 14, 15, 16]);
        let most = (MAX_UNDOS - earlier) / 2;
        let later = most + self.rng.below(2).min(MAX_UNDOS - earlier - most);
        let at = self.some_place();
        self.some_writes(id, at, earlier);
        self.set_savepoint(id, 7);
        self.go_back(id, 7);
        self.some_writes(id, at, later);
        self.check_read(id, at, 8);
        self.go_back(id, 7);
        self.read(id, at, 8);
        self.end(id);
    }

    /// Four names, a fifth, the name 0, and one that moves.
    fn names_at_their_limit(&mut self) {
        let Some(id) = self.begin() else {
            return;
        };
        let at = self.some_place();
        self.set_savepoint(id, 0);
        for name in [1, 255, 2, 128, 3] {
            self.set_savepoint(id, name);
            self.some_writes(id, at, 1);
        }
        for name in [255, 0, 4] {
            self.set_savepoint(id, name);
        }
        let moved = self.rng.pick(&[1, 2, 255]);
        self.set_savepoint(id, moved);
        self.some_writes(id, at, 1);
        for name in [moved, 0, 3, 4, 128, 2] {
            self.go_back(id, name);
        }
        self.end(id);
        for name in [0, moved] {
            self.go_back(id, name);
            self.set_savepoint(id, name);
        }
    }

    /// The writes of a return are later writes too: 1, 2, 4, 8, 16.
    fn return_after_return(&mut self) {
        let Some(id) = self.begin() else {
            return;
        };
        let at = self.some_place();
        self.set_savepoint(id, 9);
        self.some_writes(id, at, 1);
        for _ in 0..MAX_SAVEPOINTS + 1 {
            self.go_back(id, 9);
        }
        self.set_savepoint(id, 9);
        self.go_back(id, 9);
        self.check_read(id, at, 6);
        self.read(id, at, 6);
        self.end(id);
    }

    /// A checkpoint between savepoint and return; what was tried must not
    /// outlive a restart, be the return on disk or not.
    fn checkpoint_before_return(&mut self) {
        let Some(id) = self.begin() else {
            return;
        };
        let at = self.some_place();
        self.some_writes(id, at, 1);
        self.set_savepoint(id, 1);
        self.some_writes(id, at, 3);
        self.checkpoint(0);
        self.go_back(id, 1);
        match self.rng.below(4) {
            0 => {}
            1 => {
                self.emit(Call::Precommit { id });
            }
            2 => {
                self.emit(Call::Precommit { id });
                self.flush(1, 30);
            }
            _ => {
                self.checkpoint(20);
            }
        }
        self.emit(Call::PowerFails);
        self.recover(10);
    }

    /// Another transaction writes and commits where one that has set a
    /// savepoint writes afterwards: going back leaves what the other wrote.
    fn return_after_another(&mut self) {
        let (Some(one), Some(other)) = (self.begin(), self.begin()) else {
            return;
        };
        let at = self.some_place();
        self.set_savepoint(one, 2);
        self.some_writes(other, at, 2);
        self.emit(Call::Precommit { id: other });
        if self.rng.percent(50) {
            self.flush(1, 0);
        }
        self.some_writes(one, at, 3);
        self.go_back(one, 2);
        self.check_read(one, at, 7);
        self.read(one, at, 7);
        self.end(one);
    }

    /// Two savepoints and writes over one another; a return to the later one,
    /// then to the earlier.
    fn return_over_overlaps(&mut self) {
        let Some(id) = self.begin() else {
            return;
        };
        let at = self.some_place();
        self.some_writes(id, at, 1);
        self.set_savepoint(id, 1);
        self.some_writes(id, at, 2);
        self.set_savepoint(id, 2);
        self.some_writes(id, at, 1);
        for name in [2, 1] {
            self.go_back(id, name);
            self.read(id, at, 1);
        }
        if self.rng.percent(60) {
            self.emit(Call::Abort { id });
        }
        self.end(id);
        self.go_back(id, 1);
    }

    /// Near a full log: writes whose return just fits, and such as are a byte or
    /// two too large; or nine writes, of which number 10 tells before 13 does.
    pub fn return_to_fit(&mut self) {
        if (80..152).contains(&self.room_left()) {
            return self.try_to_return(&[1; 9]);
        }
        for over in [0, 2] {
            let size = (self.room_left() + over).saturating_sub(8) / 2;
            if (8..=14 * 39).contains(&size) {
                self.try_to_return(&redo_lengths(size));
            }
        }
    }

    /// One transaction that writes so many bytes each and goes back.
    fn try_to_return(&mut self, lengths: &[usize]) {
        let Some(id) = self.begin() else {
            return;
        };
        self.set_savepoint(id, 5);
        for &length in lengths {
            let address = in_one_page(self.some_place(), length);
            let bytes = self.rng.bytes(length);
            self.write(id, address, bytes);
        }
        self.go_back(id, 5);
        self.emit(Call::Abort { id });
    }
}
