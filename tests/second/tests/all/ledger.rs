//! The ledger's rules: document 01, "The bench book".

use second::ledger::Ledger;
use second::log::TxId;
use second::trace::{Answer, Call, Outcome};

fn feed(ledger: &mut Ledger, call: Call, answer: Answer, value: u32) {
    ledger.feed(&call, &Outcome::told(answer, value));
}

fn done(ledger: &mut Ledger, call: Call, value: u32) {
    feed(ledger, call, Answer::Done, value);
}

/// A transaction with one write of one byte: 16 bytes in the log.
fn commit(ledger: &mut Ledger, id: u16, csn: u32) {
    done(ledger, Call::Begin, id as u32);
    let (id, address, bytes) = (TxId(id), 0, vec![1]);
    done(ledger, Call::Write { id, address, bytes }, 0);
    done(ledger, Call::Precommit { id }, csn);
}

fn restarted(undone: u32) -> Ledger {
    let mut ledger = Ledger::default();
    let allowed = 16_384;
    done(&mut ledger, Call::Restart { allowed }, undone);
    ledger
}

fn durable(ledger: &Ledger) -> Vec<u16> {
    ledger.durable.iter().map(|c| c.id.0).collect()
}

#[test]
fn a_flush_takes_entries_that_fit_whole() {
    for (allowed, ids) in [(15, vec![]), (16, vec![1]), (31, vec![1]), (32, vec![1, 2])] {
        let mut ledger = restarted(0);
        commit(&mut ledger, 1, 1);
        commit(&mut ledger, 2, 2);
        let groups = 2;
        let answer = if allowed < 32 {
            Answer::Cut
        } else {
            Answer::Done
        };
        feed(&mut ledger, Call::Flush { groups, allowed }, answer, 0);
        assert_eq!(durable(&ledger), ids);
    }
}

#[test]
fn undone_transactions_and_aborts_take_four_bytes_each() {
    let mut ledger = restarted(2);
    done(&mut ledger, Call::Begin, 3);
    done(&mut ledger, Call::Abort { id: TxId(3) }, 0);
    commit(&mut ledger, 4, 1);
    let groups = 9;
    let allowed = 3 * 4 + 16;
    done(&mut ledger, Call::Flush { groups, allowed }, 0);
    assert_eq!(durable(&ledger), [4]);
}

#[test]
fn a_refused_call_changes_nothing() {
    let mut ledger = restarted(0);
    commit(&mut ledger, 1, 1);
    let (groups, allowed) = (1, 99);
    let refused = Answer::Refused(2);
    feed(&mut ledger, Call::Flush { groups, allowed }, refused, 0);
    feed(
        &mut ledger,
        Call::Restart { allowed },
        Answer::Refused(3),
        0,
    );
    done(&mut ledger, Call::Flush { groups, allowed }, 0);
    assert_eq!(durable(&ledger), [1]);
}

#[test]
fn a_cut_empties_the_queue_whatever_the_call() {
    let mut ledger = restarted(0);
    commit(&mut ledger, 1, 1);
    let (groups, allowed) = (9, 99);
    feed(&mut ledger, Call::Checkpoint { allowed }, Answer::Cut, 0);
    done(&mut ledger, Call::Restart { allowed }, 0);
    // The lost id and csn are given out again; the latest of the id settles.
    commit(&mut ledger, 1, 1);
    done(&mut ledger, Call::Flush { groups, allowed }, 0);
    done(&mut ledger, Call::Settle { id: TxId(1) }, 0);
    assert_eq!(durable(&ledger), [1]);
    assert_eq!(ledger.settled, [ledger.durable[0].serial]);
    assert_eq!(*ledger.assigned, [ledger.durable[0].serial]);
}

#[test]
fn assigned_ones_begin_with_an_uncut_restart() {
    let mut ledger = Ledger::default();
    feed(&mut ledger, Call::Restart { allowed: 1 }, Answer::Cut, 0);
    assert!(ledger.assigned.is_empty());
    done(&mut ledger, Call::Restart { allowed: 16_384 }, 0);
    commit(&mut ledger, 1, 1);
    commit(&mut ledger, 2, 2);
    assert_eq!(ledger.assigned.len(), 2);
    let (groups, allowed) = (1, 16);
    done(&mut ledger, Call::Flush { groups, allowed }, 0);
    done(&mut ledger, Call::Restart { allowed: 16_384 }, 0);
    assert_eq!(*ledger.assigned, [ledger.durable[0].serial]);
}
