//! The safe calls over the proved library: document 01's cases M1 to M10, every number that the types leave, disklist and equal in meaning.

use luppaneth::calls::*;
use luppaneth::Refusal;

const ALL: usize = usize::MAX;

struct Buffers {
    state: State,
    disk: Disk,
    memory: Memory,
    tail: Tail,
}

impl Buffers {
    fn on(disk: Disk) -> Buffers {
        Buffers {
            state: State::unrecovered(),
            disk,
            memory: [0; MEMORY_LEN],
            tail: [0; TAIL_LEN],
        }
    }

    /// After an uncut restart of a fresh disk.
    fn fresh() -> Buffers {
        let mut b = Buffers::on([0; DISK_LEN]);
        b.restart(ALL).unwrap();
        b
    }

    fn restart(&mut self, allowed: usize) -> Result<Restarted, Refusal> {
        self.state
            .restart(&mut self.disk, &mut self.memory, &mut self.tail, allowed)
    }
    fn begin(&mut self) -> Result<TxId, Refusal> {
        self.state.begin(&self.memory, &self.tail)
    }
    fn write(&mut self, id: TxId, at: usize, bytes: &[u8]) -> Result<(), Refusal> {
        self.state
            .write(&mut self.memory, &self.tail, id, at, bytes)
    }
    fn read(&mut self, id: TxId, at: usize, len: usize) -> Result<&[u8], Refusal> {
        self.state.read(&self.memory, &self.tail, id, at, len)
    }
    fn hold(&mut self, id: TxId, at: usize, len: usize) -> Result<(), Refusal> {
        self.state.hold(&self.memory, &self.tail, id, at, len)
    }
    fn held(&self, id: TxId, at: usize, len: usize) -> Option<&[u8]> {
        self.state.held(&self.memory, &self.tail, id, at, len)
    }
    fn savepoint(&mut self, id: TxId, name: u8) -> Result<(), Refusal> {
        self.state.savepoint(&self.memory, &self.tail, id, name)
    }
    fn go_back(&mut self, id: TxId, name: u8) -> Result<(), Refusal> {
        self.state.go_back(&mut self.memory, &self.tail, id, name)
    }
    fn precommit(&mut self, id: TxId) -> Result<Csn, Refusal> {
        self.state.precommit(&self.memory, &mut self.tail, id)
    }
    fn abort(&mut self, id: TxId) -> Result<(), Refusal> {
        self.state.abort(&mut self.memory, &mut self.tail, id)
    }
    fn flush(&mut self, groups: usize, allowed: usize) -> Result<Stored, Refusal> {
        let (d, m, t) = (&mut self.disk, &mut self.memory, &mut self.tail);
        self.state.flush(d, m, t, groups, allowed)
    }
    fn settle(&mut self, id: TxId) -> Result<(), Refusal> {
        self.state.settle(&self.memory, &self.tail, id)
    }
    fn checkpoint(&mut self, allowed: usize) -> Result<Stored, Refusal> {
        let (d, m, t) = (&mut self.disk, &mut self.memory, &mut self.tail);
        self.state.checkpoint(d, m, t, allowed)
    }

    /// A transaction with one write.
    fn writing(&mut self, at: usize, bytes: &[u8]) -> TxId {
        let id = self.begin().unwrap();
        self.write(id, at, bytes).unwrap();
        id
    }
}

fn done(stores: usize) -> Result<Stored, Refusal> {
    Ok(Stored { cut: false, stores })
}

fn cut(stores: usize) -> Result<Stored, Refusal> {
    Ok(Stored { cut: true, stores })
}

fn m1() -> Buffers {
    let mut b = Buffers::fresh();
    let id = b.writing(10, &[0x41, 0x42]);
    assert_eq!((id, b.precommit(id)), (TxId(1), Ok(Csn(1))));
    b
}

#[test]
fn m1_a_group_of_seventeen_bytes() {
    let mut b = m1();
    assert_eq!(b.flush(1, ALL), done(17));
    let group = [1, 0, 1, 0, 10, 2, 0x41, 0x42, 1, 2, 0, 1, 0, 0, 0, 1, 2];
    assert_eq!(b.disk[LOG_START..LOG_START + 17], group);
    assert_eq!(
        disklist(&b.disk),
        "pointer=0\nend=17\ncsn=1\nid=1\nundone=0\nstop=zero\n"
    );
    assert_eq!(b.settle(TxId(1)), Ok(()));

    let mut b = m1();
    assert_eq!(b.flush(1, 16), cut(16));
    assert!(!b.state.recovered());
    assert_eq!((b.memory, b.tail), ([0; MEMORY_LEN], [0; TAIL_LEN]));
    let found = b.restart(ALL).unwrap();
    assert_eq!(
        found.stored,
        Stored {
            cut: false,
            stores: 16_384
        }
    );
    assert_eq!(found.stop, Some(Stop::Torn));
    assert_eq!(b.restart(ALL).unwrap().stop, Some(Stop::Zero));
    assert_eq!((b.state.log_end(), b.state.on_disk()), (0, Csn(0)));
}

#[test]
fn m2_restart_of_a_fresh_disk() {
    let mut b = Buffers::on([0; DISK_LEN]);
    let short = b.restart(16_383).unwrap();
    assert_eq!((Ok(short.stored), short.stop), (cut(16_383), None));
    assert!(!b.state.recovered());
    assert_eq!(b.restart(16_384).map(|r| r.stored), done(16_384));
    assert!(b.state.recovered());
}

#[test]
fn m3_an_abort_in_the_log_is_not_undone_again() {
    let mut b = Buffers::fresh();
    let first = b.writing(10, &[5]);
    b.checkpoint(ALL).unwrap();
    b.abort(first).unwrap();
    let second = b.writing(10, &[7]);
    b.precommit(second).unwrap();
    assert_eq!(b.flush(2, ALL), done(4 + 16));
    b.restart(ALL).unwrap();
    assert_eq!(b.memory[10], 7);
}

#[test]
fn m4_a_precommit_in_the_image_alone_is_lost() {
    let mut b = Buffers::fresh();
    let id = b.writing(10, &[5]);
    b.precommit(id).unwrap();
    b.checkpoint(ALL).unwrap();
    assert_eq!(b.restart(ALL).unwrap().undone, 1);
    assert_eq!(b.memory[10], 0);
}

#[test]
fn m5_the_highest_number_is_undone_first() {
    let mut b = Buffers::fresh();
    for byte in [5, 6] {
        let id = b.writing(10, &[byte]);
        b.precommit(id).unwrap();
    }
    b.checkpoint(ALL).unwrap();
    assert_eq!(b.restart(ALL).unwrap().undone, 2);
    assert_eq!(b.memory[10], 0);
}

#[test]
fn m6_ranges() {
    let mut b = Buffers::fresh();
    let id = b.begin().unwrap();
    assert_eq!(b.write(id, 4_064, &[9; 32]), Ok(()));
    assert_eq!(b.write(id, 4_065, &[9; 32]), Err(Refusal::BadRange));
    assert_eq!(b.read(id, 4_064, 32), Ok(&[9; 32][..]));
    assert_eq!(b.read(id, 4_065, 32), Err(Refusal::BadRange));
    assert_eq!(b.read(id, usize::MAX, 2), Err(Refusal::BadRange));
    assert_eq!(b.write(id, 0, &[]), Err(Refusal::BadRange));
    assert_eq!(b.write(id, 0, &[0; 33]), Err(Refusal::BadRange));
}

#[test]
fn m7_eight_transactions_and_sixteen_writes() {
    let mut b = Buffers::fresh();
    for _ in 0..8 {
        b.begin().unwrap();
    }
    assert_eq!(b.begin(), Err(Refusal::TooManyTransactions));
    for at in 0..16 {
        b.write(TxId(3), at, &[1]).unwrap();
    }
    assert_eq!(b.write(TxId(3), 16, &[1]), Err(Refusal::TooManyWrites));
    assert_eq!(b.state.transactions(), 8);
}

#[test]
fn m8_a_full_log() {
    let mut b = Buffers::fresh();
    for _ in 0..2_048 {
        let id = b.begin().unwrap();
        b.precommit(id).unwrap();
        b.flush(1, ALL).unwrap();
        b.settle(id).unwrap();
    }
    assert_eq!(b.state.log_end(), LOG_LEN);
    assert_eq!(b.begin(), Err(Refusal::LogFull));
}

#[test]
fn m9_settling_what_is_not_on_disk() {
    let mut b = Buffers::fresh();
    for _ in 0..2 {
        let id = b.begin().unwrap();
        b.precommit(id).unwrap();
    }
    b.flush(1, ALL).unwrap();
    assert_eq!(b.settle(TxId(2)), Err(Refusal::NotDurable));
    assert_eq!(b.settle(TxId(1)), Ok(()));
}

#[test]
fn m10_a_checkpoint_with_no_transaction() {
    let mut b = Buffers::fresh();
    assert_eq!(b.checkpoint(4_109), cut(4_109));
    assert_eq!(b.disk[POINTER], 0);
    b.restart(ALL).unwrap();
    assert_eq!(b.checkpoint(ALL), done(4_110));
    assert_eq!(b.disk[POINTER], 1);
    b.restart(ALL).unwrap();
    assert_eq!(b.checkpoint(ALL), done(4_110));
    assert_eq!(b.disk[POINTER], 2);
}

#[test]
fn a_state_that_is_not_recovered_or_another_tail() {
    let mut b = Buffers::on([0; DISK_LEN]);
    assert_eq!(b.begin(), Err(Refusal::Unfit));
    let mut b = m1();
    b.tail[0] = 9;
    assert_eq!(b.flush(1, ALL), Err(Refusal::Unfit));
}

#[test]
fn disks_that_restart_refuses() {
    let mut disk = [0; DISK_LEN];
    disk[POINTER] = 3;
    assert_eq!(Buffers::on(disk).restart(ALL), Err(Refusal::BadPointer));
    assert_eq!(disklist(&disk), "refused=3\n");

    // Image A with nine transactions.
    disk[POINTER] = 1;
    disk[IMAGE_A + 12] = 9;
    let mut b = Buffers::on(disk);
    assert_eq!(b.restart(ALL), Err(Refusal::BadImage));
    assert!(!b.state.recovered());

    // Image A with a full log and one running transaction, id 1.
    let mut disk = [0; DISK_LEN];
    disk[POINTER] = 1;
    disk[IMAGE_A..IMAGE_A + 2].copy_from_slice(&16_384_u16.to_be_bytes());
    disk[IMAGE_A + 11..IMAGE_A + 13].copy_from_slice(&[1, 1]);
    disk[IMAGE_A + 13 + MEMORY_LEN..][..3].copy_from_slice(&[0, 1, 1]);
    assert_eq!(Buffers::on(disk).restart(ALL), Err(Refusal::NoRoomToUndo));
}

#[test]
fn counters_at_their_end() {
    let mut disk = [0; DISK_LEN];
    disk[POINTER] = 1;
    disk[IMAGE_A + 10..IMAGE_A + 12].fill(0xFF);
    let mut b = Buffers::on(disk);
    b.restart(ALL).unwrap();
    assert_eq!(b.state.last_id(), TxId(65_535));
    assert_eq!(b.begin(), Err(Refusal::CounterAtEnd));
}

#[test]
fn transactions_of_others() {
    let mut b = Buffers::fresh();
    let first = b.writing(10, &[5, 5]);
    let second = b.begin().unwrap();
    assert_eq!(b.write(second, 11, &[6]), Err(Refusal::Held));
    assert_eq!(b.read(second, 8, 3), Err(Refusal::Held));
    assert_eq!(b.read(second, 8, 2), Ok(&[0, 0][..]));
    assert_eq!(b.write(first, 9, &[6]), Err(Refusal::Held));
    b.precommit(first).unwrap();
    assert_eq!(b.write(first, 11, &[6]), Err(Refusal::Committing));
    assert_eq!(b.write(second, 11, &[6]), Ok(()));
    assert_eq!(b.abort(TxId(3)), Err(Refusal::NotListed));
    assert_eq!(b.abort(second), Ok(()));
    assert_eq!(b.memory[10..12], [5, 5]);
    assert_eq!((b.state.assigned(), b.state.on_disk()), (Csn(1), Csn(0)));
}

/// Document 02, A.2: readers hold against writers until they end, and not against readers.
#[test]
fn readers_hold() {
    let mut b = Buffers::fresh();
    let one = b.begin().unwrap();
    let other = b.begin().unwrap();
    assert_eq!(b.held(one, 10, 1), None);
    assert_eq!(b.hold(one, 10, 1), Ok(()));
    assert_eq!(b.hold(other, 10, 1), Ok(()));
    assert_eq!(b.write(one, 10, &[5]), Err(Refusal::Held));
    assert_eq!(b.write(other, 10, &[6]), Err(Refusal::Held));
    b.precommit(one).unwrap();
    assert_eq!(b.write(other, 10, &[6]), Ok(()));
    assert_eq!(b.held(other, 10, 1), Some(&[6][..]));
}

/// A part is handed back where each byte was read or written; a read of such bytes takes no further range.
#[test]
fn cover_is_byte_by_byte() {
    let mut b = Buffers::fresh();
    let id = b.writing(12, &[7, 7]);
    assert_eq!(b.hold(id, 10, 2), Ok(()));
    assert_eq!(b.held(id, 10, 4), Some(&[0, 0, 7, 7][..]));
    assert_eq!(b.held(id, 10, 5), None);
    for _ in 0..20 {
        assert_eq!(b.read(id, 10, 5), Ok(&[0, 0, 7, 7, 0][..]));
    }
    for _ in 0..14 {
        assert_eq!(b.hold(id, 10, 1), Ok(()));
    }
    assert_eq!(b.hold(id, 10, 1), Err(Refusal::TooManyReads));
    assert_eq!(b.read(id, 10, 5), Ok(&[0, 0, 7, 7, 0][..]));
    assert_eq!(b.read(id, 10, 6), Err(Refusal::TooManyReads));
}

/// Document 02, A.7: a return writes what stood, and the tried write does not survive a checkpoint before it.
#[test]
fn a_tried_write_is_taken_back() {
    let mut b = Buffers::fresh();
    let id = b.begin().unwrap();
    b.savepoint(id, 7).unwrap();
    b.write(id, 10, &[5, 6]).unwrap();
    b.checkpoint(ALL).unwrap();
    b.go_back(id, 7).unwrap();
    assert_eq!(b.memory[10..12], [0, 0]);
    b.precommit(id).unwrap();
    let mut before = Buffers::on(b.disk);
    assert_eq!(before.restart(ALL).unwrap().undone, 1);
    assert_eq!(b.flush(1, ALL), done(9 + 9 + 8));
    let mut after = Buffers::on(b.disk);
    assert_eq!(after.restart(ALL).unwrap().undone, 0);
    assert_eq!((before.memory[10], after.memory[10]), (0, 0));
}

/// Names: at most four, none of them 0; one that is set moves. Returns take back the writes of returns before them.
#[test]
fn savepoints_by_name() {
    let mut b = Buffers::fresh();
    let id = b.begin().unwrap();
    assert_eq!(b.savepoint(id, 0), Err(Refusal::TooManySavepoints));
    for name in [1, 2, 3, 255] {
        assert_eq!(b.savepoint(id, name), Ok(()));
    }
    assert_eq!(b.savepoint(id, 4), Err(Refusal::TooManySavepoints));
    assert_eq!(b.go_back(id, 4), Err(Refusal::NoSavepoint));
    assert_eq!(b.go_back(id, 0), Err(Refusal::NoSavepoint));
    b.write(id, 10, &[5]).unwrap();
    b.savepoint(id, 1).unwrap();
    b.write(id, 10, &[6]).unwrap();
    assert_eq!(b.go_back(id, 1), Ok(()));
    assert_eq!(b.memory[10], 5);
    // 3 writes, then 3 more, then 6 more
    assert_eq!(b.go_back(id, 2), Ok(()));
    assert_eq!(b.go_back(id, 2), Ok(()));
    assert_eq!(b.memory[10], 0);
    assert_eq!(b.go_back(id, 2), Err(Refusal::TooManyWrites));
    b.precommit(id).unwrap();
    assert_eq!(b.savepoint(id, 1), Err(Refusal::Committing));
    assert_eq!(b.go_back(id, 1), Err(Refusal::Committing));
    assert_eq!(b.go_back(TxId(2), 1), Err(Refusal::NotListed));
}

/// Document 02, A.5: a write lies in one page; a read may lie in two.
#[test]
fn one_page_a_write() {
    let mut b = Buffers::fresh();
    let id = b.begin().unwrap();
    assert_eq!(b.write(id, 255, &[5, 6]), Err(Refusal::TwoPages));
    assert_eq!(b.write(id, 255, &[5]), Ok(()));
    assert_eq!(b.write(id, 256, &[6]), Ok(()));
    assert_eq!(b.read(id, 255, 2), Ok(&[5, 6][..]));
    assert_eq!(b.write(id, 3_808, &[7; 32]), Ok(()));
    assert_eq!(b.write(id, 3_809, &[7; 32]), Err(Refusal::TwoPages));
    // 8 comes first, and 9 after it.
    assert_eq!(b.write(id, 255, &[5; 33]), Err(Refusal::BadRange));
    let other = b.begin().unwrap();
    assert_eq!(b.write(other, 255, &[5, 6]), Err(Refusal::TwoPages));
    assert_eq!(b.write(other, 255, &[5]), Err(Refusal::Held));
}

#[test]
fn equal_says_yes_and_no() {
    let mut one = m1();
    one.flush(1, ALL).unwrap();
    let mut other = m1();
    other.flush(1, ALL).unwrap();
    other.checkpoint(ALL).unwrap();
    assert!(one.disk != other.disk && equal_in_meaning(&one.disk, &other.disk));
    assert!(!equal_in_meaning(&one.disk, &[0; DISK_LEN]));
    other.disk[POINTER] = 3;
    assert!(!equal_in_meaning(&other.disk, &other.disk));
}

#[test]
fn refusals_by_name_and_number() {
    for (number, refusal) in (1..).zip(Refusal::ALL) {
        assert_eq!(refusal.number(), number);
        assert_eq!(Refusal::from_number(number), Some(refusal));
        let text = refusal.to_string();
        assert!(
            text.contains(&format!("(number {number})")) && text.contains(';'),
            "{text}"
        );
    }
    // 0 refuses nothing; any other number is an error, known or not.
    assert_eq!(Refusal::from_number(0), None);
    for number in 21..=u8::MAX {
        let refusal = Refusal::from_number(number).unwrap();
        assert_eq!(
            (refusal, refusal.number()),
            (Refusal::Unknown(number), number)
        );
    }
}
