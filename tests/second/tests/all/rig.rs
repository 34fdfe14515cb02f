//! A store with its buffers, for tests that read like document 01's cases.

use second::log::{Csn, TxId};
use second::trace::{Answer, Call, Outcome, World};

pub const ENOUGH: usize = 100_000;

pub struct Rig {
    pub world: World,
}

impl Rig {
    /// A fresh disk, nothing run yet.
    pub fn fresh() -> Rig {
        Rig {
            world: World::fresh(),
        }
    }

    /// Opened by an uncut restart of a fresh disk.
    pub fn open() -> Rig {
        let mut rig = Rig::fresh();
        assert_eq!(rig.restart(ENOUGH).answer, Answer::Done);
        rig
    }

    pub fn run(&mut self, call: Call) -> Outcome {
        self.world.run(&call)
    }

    pub fn restart(&mut self, allowed: usize) -> Outcome {
        self.run(Call::Restart { allowed })
    }

    pub fn begin(&mut self) -> Result<TxId, u8> {
        let outcome = self.run(Call::Begin);
        let id = TxId(outcome.value as u16);
        number(outcome).map(|()| id)
    }

    pub fn write(&mut self, id: u16, address: usize, bytes: &[u8]) -> Result<(), u8> {
        let (id, bytes) = (TxId(id), bytes.to_vec());
        number(self.run(Call::Write { id, address, bytes }))
    }

    pub fn check_read(&mut self, id: u16, address: usize, length: usize) -> Result<(), u8> {
        let id = TxId(id);
        number(self.run(Call::CheckRead {
            id,
            address,
            length,
        }))
    }

    /// The part that a read hands back.
    pub fn read(&self, id: u16, address: usize, length: usize) -> Vec<u8> {
        let world = &self.world;
        let part = world
            .state
            .read(&world.memory, &world.tail, TxId(id), address, length);
        part.to_vec()
    }

    pub fn commits(&mut self, id: u16) {
        self.precommit(id).unwrap();
    }

    pub fn aborts(&mut self, id: u16) {
        self.abort(id).unwrap();
    }

    pub fn line_of_begin(&mut self) -> String {
        let outcome = self.run(Call::Begin);
        self.world.line(&Call::Begin, &outcome)
    }

    pub fn precommit(&mut self, id: u16) -> Result<Csn, u8> {
        let outcome = self.run(Call::Precommit { id: TxId(id) });
        let csn = Csn(outcome.value);
        number(outcome).map(|()| csn)
    }

    pub fn abort(&mut self, id: u16) -> Result<(), u8> {
        number(self.run(Call::Abort { id: TxId(id) }))
    }

    pub fn settle(&mut self, id: u16) -> Result<(), u8> {
        number(self.run(Call::Settle { id: TxId(id) }))
    }

    pub fn flush(&mut self, groups: usize, allowed: usize) -> Outcome {
        self.run(Call::Flush { groups, allowed })
    }

    pub fn checkpoint(&mut self, allowed: usize) -> Outcome {
        self.run(Call::Checkpoint { allowed })
    }

    /// Begins a transaction that writes the bytes at the address.
    pub fn begin_with(&mut self, address: usize, bytes: &[u8]) -> u16 {
        let id = self.begin().unwrap().0;
        self.write(id, address, bytes).unwrap();
        id
    }

    /// The byte of memory after one more restart.
    pub fn restarted_byte(&mut self, address: usize) -> u8 {
        assert_eq!(self.restart(ENOUGH).answer, Answer::Done);
        self.world.memory[address]
    }
}

pub fn number(outcome: Outcome) -> Result<(), u8> {
    match outcome.answer {
        Answer::Done => Ok(()),
        Answer::Refused(number) => Err(number),
        other => panic!("neither done nor refused: {other:?}"),
    }
}
