//! What a bench saw is what the order says: document 02, A.4.

use second::checker::{check, Claim, Failures, Faults};
use second::demand::Expected;
use second::gen::{stream, Kind, KINDS};
use second::ledger::Ledger;
use second::log::TxId;
use second::order::check_reads;
use second::trace::{Answer, Call, Outcome};

/// The ledger, fed as if a store had answered.
struct Book(Ledger);

impl Book {
    /// After an uncut restart of a fresh disk.
    fn open() -> Book {
        let mut book = Book(Ledger::default());
        book.done(Call::Restart { allowed: 16_384 }, 0);
        book
    }

    fn done(&mut self, call: Call, value: u32) {
        self.0.feed(&call, &Outcome::told(Answer::Done, value));
    }

    fn begin(&mut self, id: u16) {
        self.done(Call::Begin, id as u32);
    }

    fn write(&mut self, id: u16, address: usize, bytes: &[u8]) {
        let (id, bytes) = (TxId(id), bytes.to_vec());
        self.done(Call::Write { id, address, bytes }, 0);
    }

    /// A read that handed back these bytes.
    fn saw(&mut self, id: u16, address: usize, bytes: &[u8]) {
        let length = bytes.len();
        let call = Call::Read {
            id: TxId(id),
            address,
            length,
        };
        let outcome = Outcome {
            part: bytes.to_vec(),
            ..Outcome::told(Answer::Part(length), 0)
        };
        self.0.feed(&call, &outcome);
    }

    fn commit(&mut self, id: u16, csn: u32) {
        self.done(Call::Precommit { id: TxId(id) }, csn);
    }

    fn flush(&mut self) {
        let (groups, allowed) = (99, 16_384);
        self.done(Call::Flush { groups, allowed }, 0);
    }

    /// Whether A.4's claim holds of all that are durable.
    fn ordered(&self) -> bool {
        check_reads(&self.0.durable, &Expected::default()).is_ok()
    }
}

/// Id 1 writes 5 at 10 and commits; id 2 then reads `seen` there, having
/// written 7 at 11 before, and commits.
fn reader(seen: &[u8]) -> Book {
    let mut book = Book::open();
    book.begin(1);
    book.write(1, 10, &[5]);
    book.commit(1, 1);
    book.begin(2);
    book.write(2, 11, &[7]);
    book.saw(2, 10, seen);
    book.write(2, 11, &[8]);
    book.commit(2, 2);
    book
}

#[test]
fn what_was_committed_before_and_own_writes_that_stood() {
    for (seen, ordered) in [
        (vec![5, 7], true),
        (vec![5, 8], false),
        (vec![0, 7], false),
        (vec![5, 0], false),
        (vec![5, 7, 0], true),
        (vec![], true),
    ] {
        let mut book = reader(&seen);
        book.flush();
        assert_eq!(book.ordered(), ordered, "{seen:?}");
    }
}

#[test]
fn the_order_is_that_of_commits() {
    // Id 2 reads before id 1 writes, and commits after it.
    let mut book = Book::open();
    book.begin(1);
    book.begin(2);
    book.saw(2, 10, &[0]);
    book.write(1, 10, &[5]);
    let mut other = Book(book.0.clone());
    book.commit(1, 1);
    book.commit(2, 2);
    book.flush();
    assert!(!book.ordered());
    other.commit(2, 1);
    other.commit(1, 2);
    other.flush();
    assert!(other.ordered());
}

#[test]
fn what_recurs_after_a_loss_has_its_own_reads() {
    // Id 1, number 1 and its write recur after a restart that loses both.
    let mut book = reader(&[5, 7]);
    book.done(Call::Restart { allowed: 16_384 }, 0);
    book.begin(1);
    book.write(1, 10, &[5]);
    book.commit(1, 1);
    book.flush();
    assert!(book.ordered());
    assert!(book.0.durable[0].reads.is_empty());
}

#[test]
fn a_reader_of_a_lost_commit_is_not_durable() {
    // It read none of the other's bytes: what it saw is right either way.
    let mut book = Book::open();
    book.begin(1);
    book.write(1, 10, &[5]);
    book.commit(1, 1);
    book.begin(2);
    book.saw(2, 20, &[0]);
    book.commit(2, 2);
    book.flush();
    assert!(book.ordered());
    // The other being lost, it may not be durable.
    let reader_alone = &book.0.durable[1..];
    assert!(check_reads(reader_alone, &Expected::default()).is_err());
}

#[test]
fn those_open_or_queued_are_not_spoken_of() {
    let book = reader(&[9, 9]);
    assert!(book.ordered());
    assert!(book.0.durable.is_empty());
}

#[test]
fn streams_of_every_undamaged_kind_have_durable_readers() {
    for (kind, name) in KINDS {
        if kind.group() != "undamaged" {
            continue;
        }
        let checked = check(&stream(31, 4_000, kind), Failures::Given);
        assert!(checked.is_ok_and(|checked| checked.reads > 0), "{name}");
    }
    let checked = check(&stream(32, 250, Kind::Cuts), Failures::EveryStore);
    assert!(checked.is_ok_and(|checked| checked.inside > 100));
}

#[test]
fn faults_are_listed_by_claim() {
    let mut faults = Faults::new();
    faults.insert(Claim::Reads, String::new());
    faults.insert(Claim::Demand3, String::new());
    let names: Vec<&str> = faults.keys().map(|claim| claim.name()).collect();
    assert_eq!(names, ["demand 3", "A.4"]);
}
