//! M1 to M10 of document 01, "Worked at the bench".

use crate::rig::{Rig, ENOUGH};
use second::layout::LOG;
use second::log::{Stop, TxId};
use second::restart::disklist;
use second::trace::Answer;

/// M1's calls with the stores allowed to the flush.
fn m1(allowed: usize) -> (Rig, Answer, usize) {
    let mut rig = Rig::open();
    let id = rig.begin_with(10, &[0x41, 0x42]);
    rig.precommit(id).unwrap();
    let flushed = rig.flush(1, allowed);
    (rig, flushed.answer, flushed.stores)
}

#[test]
fn m1_log_bytes_and_17_stores() {
    let (rig, answer, stores) = m1(ENOUGH);
    assert_eq!((answer, stores), (Answer::Done, 17));
    let log = [
        0x01, 0x00, 0x01, 0x00, 0x0A, 0x02, 0x41, 0x42, 0x01, 0x02, 0x00, 0x01, 0x00, 0x00, 0x00,
        0x01, 0x02,
    ];
    assert_eq!(&rig.world.disk[LOG..LOG + 17], &log);
    assert!(rig.world.disk[LOG + 17..].iter().all(|&b| b == 0));
}

#[test]
fn m1_with_16_stores_ends_at_0() {
    let (mut rig, answer, stores) = m1(16);
    assert_eq!((answer, stores), (Answer::Cut, 16));
    let done = rig.restart(ENOUGH);
    assert_eq!((done.answer, done.stop), (Answer::Done, Some(Stop::Torn)));
    assert_eq!(rig.world.state.log_end, 0);
    assert_eq!(rig.world.memory[10], 0);
    assert_eq!(rig.restart(ENOUGH).stop, Some(Stop::Zero));
}

#[test]
fn m1_disklist() {
    let (rig, _, _) = m1(17);
    let text = "pointer=0\nend=17\ncsn=1\nid=1\nundone=0\nstop=zero\n";
    assert_eq!(disklist(&rig.world.disk), text);
}

#[test]
fn m2_fresh_restart_needs_16384_stores() {
    let done = Rig::fresh().restart(16_384);
    assert_eq!((done.answer, done.stores), (Answer::Done, 16_384));
    let cut = Rig::fresh().restart(16_383);
    assert_eq!((cut.answer, cut.stores), (Answer::Cut, 16_383));
}

#[test]
fn m3_an_abort_record_undoes_once() {
    let mut rig = Rig::open();
    let first = rig.begin_with(10, &[5]);
    assert_eq!(rig.checkpoint(ENOUGH).answer, Answer::Done);
    rig.abort(first).unwrap();
    let second = rig.begin_with(10, &[7]);
    rig.precommit(second).unwrap();
    rig.flush(2, ENOUGH);
    assert_eq!(rig.restarted_byte(10), 7);
}

#[test]
fn m4_a_lost_commit_is_undone() {
    let mut rig = Rig::open();
    let id = rig.begin_with(10, &[5]);
    rig.precommit(id).unwrap();
    rig.checkpoint(ENOUGH);
    assert_eq!(rig.restarted_byte(10), 0);
}

#[test]
fn m5_lost_commits_are_undone_highest_first() {
    let mut rig = Rig::open();
    let first = rig.begin_with(10, &[5]);
    rig.precommit(first).unwrap();
    let second = rig.begin_with(10, &[6]);
    rig.precommit(second).unwrap();
    rig.checkpoint(ENOUGH);
    assert_eq!(rig.restarted_byte(10), 0);
}

#[test]
fn m6_the_last_range_that_fits() {
    let mut rig = Rig::open();
    let id = rig.begin().unwrap().0;
    assert_eq!(rig.write(id, 4_064, &[9; 32]), Ok(()));
    assert_eq!(rig.write(id, 4_065, &[9; 32]), Err(8));
    assert_eq!(rig.check_read(id, 4_064, 32), Ok(()));
    assert_eq!(rig.check_read(id, 4_065, 32), Err(8));
}

#[test]
fn m7_eight_transactions_and_sixteen_writes() {
    let mut rig = Rig::open();
    for id in 1..=8 {
        assert_eq!(rig.begin(), Ok(TxId(id)));
    }
    assert_eq!(rig.begin(), Err(11));
    for address in 0..16 {
        assert_eq!(rig.write(1, address, &[1]), Ok(()));
    }
    assert_eq!(rig.write(1, 16, &[1]), Err(10));
}

#[test]
fn m8_transactions_without_writes_fill_the_log() {
    let mut rig = Rig::open();
    for _ in 0..2_048 {
        let id = rig.begin().unwrap().0;
        rig.precommit(id).unwrap();
        assert_eq!(rig.flush(1, 8).answer, Answer::Done);
        rig.settle(id).unwrap();
    }
    assert_eq!(rig.world.state.log_end, 16_384);
    assert_eq!(rig.begin(), Err(13));
    assert_eq!(rig.restart(0).stop, Some(Stop::Full));
    let text = "pointer=0\nend=16384\ncsn=2048\nid=2048\nundone=0\nstop=full\n";
    assert_eq!(disklist(&rig.world.disk), text);
}

#[test]
fn m9_settle_needs_the_commit_on_disk() {
    let mut rig = Rig::open();
    for id in 1..=2 {
        rig.begin().unwrap();
        rig.precommit(id).unwrap();
    }
    rig.flush(1, ENOUGH);
    assert_eq!(rig.settle(2), Err(14));
    assert_eq!(rig.settle(1), Ok(()));
}

#[test]
fn m10_a_checkpoint_without_transactions() {
    let mut rig = Rig::open();
    let done = rig.checkpoint(4_110);
    assert_eq!((done.answer, done.stores), (Answer::Done, 4_110));
    let mut rig = Rig::open();
    assert_eq!(rig.checkpoint(4_109).answer, Answer::Cut);
}
