//! Looking at a disk without a state, over the proved library.

use luppaneth::calls::*;
use luppaneth::inspect::{first_groups, outcomes, read_page, FirstGroups, Outcome, PAGES};
use luppaneth::Refusal;

const ALL: usize = usize::MAX;

struct Buffers {
    state: State,
    disk: Disk,
    memory: Memory,
    tail: Tail,
}

impl Buffers {
    /// After an uncut restart of a fresh disk.
    fn fresh() -> Buffers {
        let mut b = Buffers {
            state: State::unrecovered(),
            disk: [0; DISK_LEN],
            memory: [0; MEMORY_LEN],
            tail: [0; TAIL_LEN],
        };
        b.restart();
        b
    }

    fn restart(&mut self) {
        let restarted = self
            .state
            .restart(&mut self.disk, &mut self.memory, &mut self.tail, ALL);
        restarted.unwrap();
    }

    /// A running transaction with one write.
    fn writing(&mut self, at: usize, bytes: &[u8]) -> TxId {
        let id = self.state.begin(&self.memory, &self.tail).unwrap();
        self.state
            .write(&mut self.memory, &self.tail, id, at, bytes)
            .unwrap();
        id
    }

    fn flush(&mut self) {
        let (d, m, t) = (&mut self.disk, &mut self.memory, &mut self.tail);
        self.state.flush(d, m, t, ALL, ALL).unwrap();
    }

    fn precommit(&mut self, id: TxId) {
        self.state
            .precommit(&self.memory, &mut self.tail, id)
            .unwrap();
    }

    fn abort(&mut self, id: TxId) {
        self.state
            .abort(&mut self.memory, &mut self.tail, id)
            .unwrap();
    }

    fn checkpoint(&mut self) {
        let (d, m, t) = (&mut self.disk, &mut self.memory, &mut self.tail);
        self.state.checkpoint(d, m, t, ALL).unwrap();
    }

    /// What the first groups reach, and memory then.
    fn first(&self, groups: usize) -> (FirstGroups, Memory) {
        let mut memory = [165; MEMORY_LEN];
        let reached = first_groups(&self.disk, &mut memory, groups).unwrap();
        (reached, memory)
    }
}

fn reached(end: usize, csn: u32) -> FirstGroups {
    FirstGroups { end, csn: Csn(csn) }
}

/// Three bookings of one byte each at address 10, of 16 bytes of log each.
#[test]
fn groups_are_applied_one_after_the_other() {
    let mut b = Buffers::fresh();
    for byte in 1..=3 {
        let id = b.writing(10, &[byte]);
        b.precommit(id);
    }
    b.flush();
    for groups in 0..=3 {
        let (found, memory) = b.first(groups);
        assert_eq!(found, reached(16 * groups, groups as u32));
        assert_eq!(memory[10], groups as u8);
    }
    assert_eq!(b.first(4), b.first(3));
    assert_eq!(b.first(ALL), b.first(3));
    let (_, memory) = b.first(ALL);
    b.restart();
    assert_eq!(memory, b.memory);
}

/// M3: an abort in the log undoes what the image has; what is left running there is undone by a restart, not before.
#[test]
fn an_abort_counts_and_step_4_does_not() {
    let mut b = Buffers::fresh();
    let one = b.writing(10, &[5]);
    let two = b.writing(20, &[6]);
    b.checkpoint();
    b.abort(one);
    b.flush();
    let (found, memory) = b.first(0);
    assert_eq!((found, memory[10], memory[20]), (reached(0, 0), 5, 6));
    let (found, memory) = b.first(1);
    assert_eq!((found, memory[10], memory[20]), (reached(4, 0), 0, 6));
    assert_eq!(b.state.transactions(), 1);
    assert_eq!(two, TxId(2));
    b.restart();
    assert_eq!(b.memory[20], 0);
}

/// The log is read from the image's place on, after its number.
#[test]
fn an_image_stands_for_the_groups_before_it() {
    let mut b = Buffers::fresh();
    let one = b.writing(10, &[5]);
    b.precommit(one);
    b.flush();
    b.checkpoint();
    let two = b.writing(10, &[6]);
    b.precommit(two);
    b.flush();
    let (found, memory) = b.first(0);
    assert_eq!((found, memory[10]), (reached(16, 1), 5));
    let (found, memory) = b.first(1);
    assert_eq!((found, memory[10]), (reached(32, 2), 6));
}

#[test]
fn refused_as_a_restart_is() {
    let mut disk = [0; DISK_LEN];
    let mut memory = [165; MEMORY_LEN];
    disk[0] = 3;
    let refused = first_groups(&disk, &mut memory, 1);
    assert_eq!(refused, Err(Refusal::BadPointer));
    assert_eq!(memory, [0; MEMORY_LEN]);
    memory = [165; MEMORY_LEN];
    disk[0] = 1;
    disk[IMAGE_A] = 255;
    let refused = first_groups(&disk, &mut memory, 1);
    assert_eq!(refused, Err(Refusal::BadImage));
    assert_eq!(memory, [0; MEMORY_LEN]);
}

/// The sixteen pages of a disk are the memory that a restart of it leaves.
fn pages(disk: &Disk) -> Result<Vec<u8>, Refusal> {
    let mut memory = Vec::new();
    for page in 0..PAGES {
        memory.extend(read_page(disk, page)?);
    }
    Ok(memory)
}

#[test]
fn sixteen_pages_are_the_memory_of_a_restart() {
    let mut b = Buffers::fresh();
    b.writing(504, &[8; 8]);
    b.checkpoint();
    let last = b.writing(4_064, &[9; 32]);
    b.precommit(last);
    b.flush();
    let disk = b.disk;
    let found = pages(&disk).unwrap();
    assert_eq!(found[504..512], [0; 8]);
    assert_eq!(found[4_064..], [9; 32]);
    assert_eq!(b.disk, disk);
    b.restart();
    assert_eq!(found, b.memory);
}

/// A record over two pages, which older disks may have in their log and image, falls into both. Made of one that ends with its page.
#[test]
fn a_record_over_two_pages_falls_into_both() {
    let mut b = Buffers::fresh();
    b.writing(504, &[8; 8]);
    b.checkpoint();
    // the undo record in the image: the memory's bytes and 21 others stand before its address
    let undo = IMAGE_A + MEMORY_LEN + 21;
    assert_eq!(b.disk[undo..undo + 3], [1, 248, 8]);
    b.disk[undo + 1] = 252;
    b.disk[undo + 3..undo + 11].copy_from_slice(&[6; 8]);
    let booked = b.writing(244, &[7; 12]);
    b.precommit(booked);
    b.flush();
    assert_eq!(b.disk[LOG_START..LOG_START + 6], [1, 0, 2, 0, 244, 12]);
    b.disk[LOG_START + 4] = 250;
    let found = pages(&b.disk).unwrap();
    assert_eq!(found[250..262], [7; 12]);
    assert_eq!(found[504..516], [8, 8, 8, 8, 6, 6, 6, 6, 6, 6, 6, 6]);
    b.restart();
    assert_eq!(found, b.memory);
}

#[test]
fn pages_are_refused_as_a_restart_is() {
    let mut disk = [0; DISK_LEN];
    assert_eq!(read_page(&disk, PAGES), Err(Refusal::BadPage));
    assert_eq!(read_page(&disk, usize::MAX), Err(Refusal::BadPage));
    disk[0] = 3;
    assert_eq!(pages(&disk), Err(Refusal::BadPointer));
    // 17 comes before 3
    assert_eq!(read_page(&disk, PAGES), Err(Refusal::BadPage));
    disk[0] = 1;
    disk[IMAGE_A] = 255;
    assert_eq!(pages(&disk), Err(Refusal::BadImage));
}

/// A log that is full behind an image with a running transaction has no room for its abort record.
#[test]
fn a_page_is_refused_by_5_too() {
    let mut b = Buffers::fresh();
    b.writing(10, &[5]);
    b.checkpoint();
    let mut disk = b.disk;
    for place in (LOG_START..DISK_LEN).step_by(4) {
        disk[place..place + 4].copy_from_slice(&[3, 0, 9, 3]);
    }
    assert_eq!(read_page(&disk, 0), Err(Refusal::NoRoomToUndo));
    let mut memory = [0; MEMORY_LEN];
    let all = first_groups(&disk, &mut memory, ALL).unwrap();
    assert_eq!((all, memory[10]), (reached(LOG_LEN, 0), 5));
}

/// A log of these groups, on a disk whose images are junk.
fn logged(groups: &[&[u8]]) -> Disk {
    let mut disk = [255; DISK_LEN];
    disk[LOG_START..].fill(0);
    let bytes = groups.concat();
    disk[LOG_START..LOG_START + bytes.len()].copy_from_slice(&bytes);
    disk
}

fn commit(id: u8, csn: u8) -> Vec<u8> {
    vec![2, 0, id, 0, 0, 0, csn, 2]
}

fn abort(id: u8) -> Vec<u8> {
    vec![3, 0, id, 3]
}

#[test]
fn the_last_group_of_an_id_counts() {
    use Outcome::{Aborted, Committed, Neither};
    let disk = logged(&[
        &commit(7, 1),
        &abort(3),
        &abort(7),
        &commit(9, 2),
        &abort(5),
        &commit(5, 3),
    ]);
    let found = outcomes(&disk, &[0, 3, 5, 7, 8, 9, 65_535].map(TxId)).unwrap();
    assert_eq!(found.groups, 6);
    assert_eq!(
        found.outcomes,
        [Neither, Aborted, Committed, Aborted, Neither, Committed, Neither]
    );
    let none = outcomes(&disk, &[]).unwrap();
    assert_eq!((none.groups, none.outcomes), (6, vec![]));
}

#[test]
fn ids_have_to_rise() {
    let disk = logged(&[]);
    assert_eq!(outcomes(&disk, &[4, 4].map(TxId)), Err(Refusal::BadList));
    assert_eq!(outcomes(&disk, &[4, 3].map(TxId)), Err(Refusal::BadList));
    assert_eq!(
        outcomes(&disk, &[3, 4, 9, 5].map(TxId)),
        Err(Refusal::BadList)
    );
    let all: Vec<TxId> = (0..=65_535).map(TxId).collect();
    assert_eq!(
        outcomes(&disk, &all).unwrap().outcomes,
        [Outcome::Neither; 65_536]
    );
}

/// What the office is told is what a restart keeps: the booking that got to the disk, not the one that did not.
#[test]
fn a_booking_that_was_cut_off_is_neither() {
    let mut b = Buffers::fresh();
    let one = b.writing(10, &[5]);
    b.precommit(one);
    let two = b.writing(10, &[6]);
    b.precommit(two);
    let (d, m, t) = (&mut b.disk, &mut b.memory, &mut b.tail);
    assert!(b.state.flush(d, m, t, ALL, 31).unwrap().cut);
    let found = outcomes(&b.disk, &[one, two]).unwrap();
    assert_eq!(
        (found.groups, found.outcomes),
        (1, vec![Outcome::Committed, Outcome::Neither])
    );
    b.restart();
    assert_eq!(b.memory[10], 5);
}
