//! What the tests share: random numbers from a seed, random steps, and a ledger of what was booked. What a store should have comes from the
//! ledger alone.

// Each test program uses its own part of this.
#![allow(dead_code)]

use std::env;

use luppaneth::calls::{Memory, MEMORY_LEN};
use luppaneth::{Device, Error, Store};

/// SplitMix64.
#[derive(Clone)]
pub struct Rng(pub u64);

impl Rng {
    pub fn draw(&mut self) -> u64 {
        self.0 = self.0.wrapping_add(0x9E37_79B9_7F4A_7C15);
        let mut z = self.0;
        z = (z ^ (z >> 30)).wrapping_mul(0xBF58_476D_1CE4_E5B9);
        z = (z ^ (z >> 27)).wrapping_mul(0x94D0_49BB_1331_11EB);
        z ^ (z >> 31)
    }

    /// A number below `bound`, which is not 0.
    pub fn below(&mut self, bound: usize) -> usize {
        (self.draw() % bound as u64) as usize
    }

    pub fn between(&mut self, low: usize, high: usize) -> usize {
        low + self.below(high - low + 1)
    }

    pub fn one_in(&mut self, n: usize) -> bool {
        self.below(n) == 0
    }
}

/// How much of a test is asked for by a variable; else so much, for the gate.
pub fn asked(variable: &str, gate: u64) -> u64 {
    env::var(variable).map_or(gate, |number| number.parse().expect("a number"))
}

/// A write lies in one page.
const PAGE_LEN: usize = 256;

/// A step's writes.
pub type Step = Vec<(usize, Vec<u8>)>;

/// Lengths of a step's writes; the first has room for a serial number.
pub fn any_lengths(rng: &mut Rng) -> Vec<usize> {
    let mut lengths = vec![rng.between(4, 12)];
    for _ in 0..rng.below(4) {
        lengths.push(rng.between(1, 32));
    }
    lengths
}

/// The same, and the step's group has a multiple of 8 bytes: then a lost step's forged records stand just where the log ends after another.
pub fn lengths_by_eight(rng: &mut Rng) -> Vec<usize> {
    let mut lengths = vec![9];
    for _ in 0..rng.below(4) {
        lengths.push(1 + 8 * rng.below(4));
    }
    lengths
}

/// A step of writes of these lengths, to be booked with a commit number. The first write goes to address 0 and starts with the serial number, so
/// that no two steps of a test leave the same; the others go anywhere within a page, and some look like log records.
pub fn step_of(rng: &mut Rng, serial: u32, csn: u32, lengths: &[usize]) -> Step {
    let mut step = Step::new();
    let mut offset = 0;
    for &len in lengths {
        let mut bytes: Vec<u8> = (0..len).map(|_| rng.draw() as u8).collect();
        let anywhere = rng.below(MEMORY_LEN - len + 1);
        let mut at = anywhere - (anywhere % PAGE_LEN + len).saturating_sub(PAGE_LEN);
        if step.is_empty() {
            at = 0;
            bytes[..4].copy_from_slice(&serial.to_be_bytes());
        } else if rng.one_in(2) {
            forge(&mut bytes, offset + 6, csn + rng.between(1, 2) as u32);
        }
        step.push((at, bytes));
        offset += 7 + len;
    }
    step
}

/// Commit records one after the other, each at a multiple of 8 in the step's group, where these bytes have an offset: what must not be read at
/// the log's end, if the step is lost.
fn forge(bytes: &mut [u8], offset: usize, csn: u32) {
    let csn = csn.to_be_bytes();
    let record = [2, 0, 1, csn[0], csn[1], csn[2], csn[3], 2];
    for (index, byte) in bytes.iter_mut().enumerate() {
        *byte = record[(offset + index) % 8];
    }
}

/// Books a step.
pub fn book<D: Device>(store: &mut Store<D>, step: &Step) -> Result<(), Error> {
    store.book(|tx| step.iter().try_for_each(|(at, bytes)| tx.write(*at, bytes)))?;
    Ok(())
}

/// What was booked, in order, and how much of it was answered to be durable.
#[derive(Clone)]
pub struct Ledger {
    /// What the disk started from: a fresh one from nothing, a renewed one from the pattern, in so many bookings.
    start: Box<Memory>,
    carried: usize,
    booked: Vec<Step>,
    flushed: usize,
}

impl Default for Ledger {
    fn default() -> Ledger {
        Ledger {
            start: Box::new([0; MEMORY_LEN]),
            carried: 0,
            booked: Vec::new(),
            flushed: 0,
        }
    }
}

/// The bookings that carry a pattern over.
const CARRIED: usize = 8;

impl Ledger {
    pub fn booked(&mut self, step: Step) {
        self.booked.push(step);
    }

    pub fn flushed(&mut self) {
        self.flushed = self.booked.len();
    }

    /// The pattern went over to a fresh disk with all that was booked.
    pub fn renewed(&mut self) {
        *self = Ledger {
            start: Box::new(self.pattern(self.booked.len())),
            carried: CARRIED,
            ..Ledger::default()
        };
    }

    /// The commit number of the next booking.
    pub fn next_csn(&self) -> u32 {
        (self.carried + self.booked.len()) as u32 + 1
    }

    /// Bookings that wait for a flush.
    pub fn waiting(&self) -> usize {
        self.booked.len() - self.flushed
    }

    /// What the disk started from with the first bookings laid over it.
    fn pattern(&self, count: usize) -> Memory {
        let mut memory = *self.start;
        for (at, bytes) in self.booked[..count].iter().flatten() {
            memory[*at..at + bytes.len()].copy_from_slice(bytes);
        }
        memory
    }

    /// Holds a store that was opened after a failure against the ledger: it has exactly a leading run of what was booked, everything flushed in
    /// it. The rest is lost for good. Answers how many it has that weren't flushed, or what is wrong.
    pub fn reopened<D: Device>(&mut self, store: &Store<D>) -> Result<usize, String> {
        let kept = store.durable().unwrap().0 as usize;
        let (flushed, booked) = (
            self.carried + self.flushed,
            self.carried + self.booked.len(),
        );
        if kept < flushed {
            return Err(format!(
                "{kept} bookings are left of {flushed} that were flushed"
            ));
        }
        if kept > booked {
            return Err(format!("{kept} bookings are there, and {booked} were made"));
        }
        if store.pattern().unwrap() != &self.pattern(kept - self.carried) {
            return Err(format!(
                "the pattern isn't that of the first {kept} bookings"
            ));
        }
        self.booked.truncate(kept - self.carried);
        self.flushed = self.booked.len();
        Ok(kept - flushed)
    }

    /// The store of a running program has all that was booked.
    pub fn running<D: Device>(&self, store: &Store<D>) {
        assert!(store.pattern().unwrap() == &self.pattern(self.booked.len()));
        let durable = store.durable().unwrap().0 as usize;
        assert_eq!(durable, self.carried + self.flushed);
    }
}
