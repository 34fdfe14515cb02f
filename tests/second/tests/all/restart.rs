//! Restart's refusals, steps and stores; disklist and equal in meaning.

use crate::rig::{Rig, ENOUGH};
use second::layout::{DISK_LEN, IMAGE_A, IMAGE_B, LOG, LOG_LEN, MEMORY_LEN, POINTER, TAIL_LEN};
use second::log::{Csn, Record, TxId};
use second::restart::{disklist, equal_in_meaning, restart};
use second::state::State;
use second::trace::Answer;

/// A refused restart: its number, and whether memory and tail were zeroed.
fn refused(mut disk: Vec<u8>) -> (u8, bool) {
    let before = disk.clone();
    let (mut memory, mut tail) = (vec![9; MEMORY_LEN], vec![9; TAIL_LEN]);
    let (state, result) = restart(&mut disk, &mut memory, &mut tail, ENOUGH);
    assert_eq!(state, State::default());
    assert_eq!(disk, before);
    let all = |value: u8| memory.iter().chain(&tail).all(|&b| b == value);
    assert!(all(0) || all(9));
    (result.unwrap_err(), all(0))
}

fn disk_with(places: &[(usize, u8)]) -> Vec<u8> {
    let mut disk = vec![0; DISK_LEN];
    for &(offset, byte) in places {
        disk[offset] = byte;
    }
    disk
}

#[test]
fn numbers_1_3_and_4() {
    assert_eq!(refused(vec![0; DISK_LEN - 1]), (1, false));
    assert_eq!(refused(disk_with(&[(POINTER, 3)])), (3, true));
    assert_eq!(refused(disk_with(&[(POINTER, 255)])), (3, true));
    let nine = [(POINTER, 1), (IMAGE_A + 12, 9)];
    assert_eq!(refused(disk_with(&nine)), (4, true));
    let on_disk_above = [(POINTER, 2), (IMAGE_B + 5, 1)];
    assert_eq!(refused(disk_with(&on_disk_above)), (4, true));
}

/// An image B with the log's end, and id 1 running without writes.
fn one_running(log_end: usize) -> Vec<u8> {
    let end = (log_end as u16).to_be_bytes();
    let tx = IMAGE_B + 13 + MEMORY_LEN;
    let header = [(POINTER, 2), (IMAGE_B, end[0]), (IMAGE_B + 1, end[1])];
    let counts = [(IMAGE_B + 11, 1), (IMAGE_B + 12, 1)];
    disk_with(&[&header[..], &counts, &[(tx + 1, 1), (tx + 2, 1)]].concat())
}

#[test]
fn number_5_is_about_the_abort_records() {
    assert_eq!(refused(one_running(LOG_LEN - 3)), (5, true));
    let text = "pointer=2\nend=16380\ncsn=0\nid=1\nundone=1\nstop=zero\n";
    assert_eq!(disklist(&one_running(LOG_LEN - 4)), text);
}

#[test]
fn disklist_refusals() {
    assert_eq!(disklist(&[]), "refused=1\n");
    assert_eq!(disklist(&vec![0; DISK_LEN + 1]), "refused=1\n");
    assert_eq!(disklist(&disk_with(&[(POINTER, 3)])), "refused=3\n");
    assert_eq!(disklist(&one_running(LOG_LEN + 1)), "refused=4\n");
    assert_eq!(disklist(&one_running(LOG_LEN)), "refused=5\n");
}

#[test]
fn fresh_disk() {
    let text = "pointer=0\nend=0\ncsn=0\nid=0\nundone=0\nstop=zero\n";
    assert_eq!(disklist(&vec![0; DISK_LEN]), text);
    let mut rig = Rig::fresh();
    rig.world.memory.fill(1);
    rig.world.tail.fill(1);
    let done = rig.restart(LOG_LEN);
    assert_eq!((done.answer, done.value), (Answer::Done, 0));
    let recovered = State {
        recovered: true,
        ..State::default()
    };
    assert_eq!(rig.world.state, recovered);
    let mut lent = rig.world.memory.iter().chain(&rig.world.tail);
    assert!(lent.all(|&b| b == 0));
}

#[test]
fn a_full_log_needs_no_store() {
    let end = (LOG_LEN as u16).to_be_bytes();
    let disk = disk_with(&[(POINTER, 1), (IMAGE_A, end[0]), (IMAGE_A + 1, end[1])]);
    let mut rig = Rig::fresh();
    rig.world.disk = disk;
    let done = rig.restart(0);
    assert_eq!((done.answer, done.stores), (Answer::Done, 0));
    assert_eq!(rig.world.state.log_end, LOG_LEN);
    assert_eq!(rig.begin(), Err(13));
}

#[test]
fn clearing_goes_down_and_a_cut_leaves_zero_buffers() {
    let mut rig = Rig::fresh();
    rig.world.disk[LOG..].fill(7);
    rig.world.memory.fill(7);
    let cut = rig.restart(10);
    assert_eq!((cut.answer, cut.stores), (Answer::Cut, 10));
    let split = DISK_LEN - 10;
    assert!(rig.world.disk[LOG..split].iter().all(|&b| b == 7));
    assert!(rig.world.disk[split..].iter().all(|&b| b == 0));
    assert!(rig.world.memory.iter().all(|&b| b == 0));
    assert_eq!(rig.world.state, State::default());
    assert_eq!(rig.begin(), Err(2));
}

#[test]
fn undone_ones_leave_aborts_in_the_order_of_undoing() {
    let mut rig = Rig::open();
    for id in 1..=4 {
        rig.begin_with(10 * id as usize, &[id as u8]);
    }
    rig.precommit(1).unwrap();
    rig.precommit(3).unwrap();
    rig.checkpoint(ENOUGH);
    let done = rig.restart(ENOUGH);
    assert_eq!((done.answer, done.value), (Answer::Done, 4));
    let aborts: Vec<u8> = [2, 4, 3, 1]
        .iter()
        .flat_map(|&id| Record::Abort(TxId(id)).encode())
        .collect();
    assert_eq!(&rig.world.tail[..16], &aborts);
    assert!(rig.world.memory.iter().all(|&b| b == 0));
    assert_eq!(rig.world.state.last_id, TxId(4));
    assert_eq!(rig.world.state.csn_assigned, Csn(0));
}

#[test]
fn ids_of_the_log_are_not_given_out_again() {
    let mut rig = Rig::open();
    rig.begin().unwrap();
    rig.abort(1).unwrap();
    rig.flush(1, ENOUGH);
    rig.restart(ENOUGH);
    assert_eq!(rig.begin(), Ok(TxId(2)));
}

#[test]
fn the_slot_that_the_pointer_does_not_name() {
    let mut rig = Rig::open();
    for (pointer, next) in [(0, 1), (1, 2), (2, 1), (3, 2), (255, 2)] {
        rig.world.disk[POINTER] = pointer;
        rig.checkpoint(ENOUGH);
        assert_eq!(rig.world.disk[POINTER], next);
    }
}

#[test]
fn equal_says_yes_and_no() {
    let fresh = vec![0; DISK_LEN];
    let mut rig = Rig::open();
    let id = rig.begin_with(10, &[5]);
    rig.checkpoint(ENOUGH);
    assert!(equal_in_meaning(&fresh, &rig.world.disk));
    rig.precommit(id).unwrap();
    rig.flush(1, ENOUGH);
    assert!(!equal_in_meaning(&fresh, &rig.world.disk));
    assert!(equal_in_meaning(&rig.world.disk, &rig.world.disk));
    let refused = disk_with(&[(POINTER, 3)]);
    assert!(!equal_in_meaning(&refused, &refused));
    assert!(!equal_in_meaning(&fresh, &fresh[1..]));
}
