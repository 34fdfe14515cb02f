//! One page a write: document 02, A.5.

use crate::rig::{Rig, ENOUGH};
use second::image;
use second::layout::{IMAGE_A, LOG, LOG_LEN, MEMORY_LEN, PAGE_LEN, POINTER};
use second::log::{Csn, Group, TxId, Write};
use second::state::{State, Tx};
use second::trace::Answer;

fn running(count: u16) -> Rig {
    let mut rig = Rig::open();
    for _ in 0..count {
        rig.begin().unwrap();
    }
    rig
}

#[test]
fn a_write_ends_within_its_page() {
    for page in 0..MEMORY_LEN / PAGE_LEN {
        let (first, last) = (page * PAGE_LEN, (page + 1) * PAGE_LEN - 1);
        let mut rig = running(1);
        assert_eq!(rig.write(1, first, &[1; 32]), Ok(()));
        assert_eq!(rig.write(1, last - 31, &[1; 32]), Ok(()));
        assert_eq!(rig.write(1, last, &[1]), Ok(()));
        // Behind the last page there is nothing: number 8.
        let number = if last + 1 == MEMORY_LEN { 8 } else { 16 };
        assert_eq!(rig.write(1, last, &[1, 2]), Err(number));
        assert_eq!(rig.write(1, last - 30, &[1; 32]), Err(number));
        assert_eq!(rig.world.state.txs[0].undo.len(), 3);
    }
}

#[test]
fn sixteen_comes_after_8_and_before_9_and_10() {
    let mut rig = running(2);
    rig.write(1, 254, &[1, 1]).unwrap();
    assert_eq!(rig.write(2, 255, &[1; 33]), Err(8));
    assert_eq!(rig.write(2, 4_095, &[1, 1]), Err(8));
    assert_eq!(rig.write(2, 255, &[1, 1]), Err(16));
    assert_eq!(rig.write(2, 254, &[1, 1]), Err(9));
    for _ in 1..16 {
        rig.write(1, 254, &[1]).unwrap();
    }
    assert_eq!(rig.write(1, 255, &[1, 1]), Err(16));
    assert_eq!(rig.write(1, 254, &[1, 1]), Err(10));
}

#[test]
fn sixteen_comes_after_6_and_7_and_before_13() {
    let mut rig = running(2);
    assert_eq!(rig.write(3, 255, &[1, 1]), Err(6));
    rig.precommit(1).unwrap();
    assert_eq!(rig.write(1, 255, &[1, 1]), Err(7));
    // Room for the commits of both, and for no redo record.
    rig.world.state.log_end = LOG_LEN - 16;
    assert_eq!(rig.write(2, 255, &[1, 1]), Err(16));
    assert_eq!(rig.write(2, 255, &[1]), Err(13));
}

#[test]
fn reads_may_cross() {
    let mut rig = running(1);
    assert_eq!(rig.check_read(1, 250, 12), Ok(()));
    assert_eq!(rig.read(1, 250, 12), [0; 12]);
}

fn crossing(address: usize, byte: u8) -> Write {
    let bytes = vec![byte; 4];
    Write { address, bytes }
}

/// A disk whose image lists id 1, running, with an undo record over two pages,
/// and whose log has these groups.
fn older(groups: &[Group]) -> Rig {
    let state = State {
        recovered: true,
        last_id: TxId(1),
        txs: vec![Tx {
            undo: vec![crossing(254, 7)],
            ..Tx::begun(TxId(1))
        }],
        ..State::default()
    };
    let image = image::encode(&state, &[5; MEMORY_LEN]);
    let log: Vec<u8> = groups.iter().flat_map(Group::encode).collect();
    let mut rig = Rig::fresh();
    rig.world.disk[POINTER] = 1;
    rig.world.disk[IMAGE_A..][..image.len()].copy_from_slice(&image);
    rig.world.disk[LOG..][..log.len()].copy_from_slice(&log);
    rig
}

fn restarted(groups: &[Group]) -> Vec<u8> {
    let mut rig = older(groups);
    assert_eq!(rig.restart(ENOUGH).answer, Answer::Done);
    rig.world.memory[252..260].to_vec()
}

#[test]
fn older_disks_are_carried_out_in_full() {
    let undone = [5, 5, 7, 7, 7, 7, 5, 5];
    assert_eq!(restarted(&[]), undone);
    assert_eq!(restarted(&[Group::Abort { id: TxId(1) }]), undone);
    let commit = |id: u16, address: usize| Group::Commit {
        id: TxId(id),
        csn: Csn(1),
        writes: vec![crossing(address, 9)],
    };
    assert_eq!(restarted(&[commit(1, 253)]), [5, 9, 9, 9, 9, 5, 5, 5]);
    // Id 1 is undone in step 4, over what id 2 wrote.
    assert_eq!(restarted(&[commit(2, 255)]), [5, 5, 7, 7, 7, 7, 9, 5]);
}

/// Number 2 goes by the range rule, which knows no pages.
#[test]
fn a_state_may_hold_what_crosses() {
    let mut rig = running(1);
    let tx = &mut rig.world.state.txs[0];
    tx.undo.push(crossing(254, 0));
    tx.redo.push(crossing(254, 1));
    assert_eq!(rig.precommit(1), Ok(Csn(1)));
    assert_eq!(rig.flush(1, ENOUGH).answer, Answer::Done);
    assert_eq!(rig.restart(ENOUGH).answer, Answer::Done);
    assert_eq!(rig.world.memory[253..259], [0, 1, 1, 1, 1, 0]);
}

/// A checkpoint takes it along, an abort undoes it whole, and so does the
/// restart of the checkpoint's disk.
#[test]
fn an_abort_undoes_what_crosses() {
    let mut rig = running(1);
    let tx = &mut rig.world.state.txs[0];
    tx.undo.push(crossing(254, 7));
    tx.redo.push(crossing(254, 1));
    rig.world.memory[254..258].fill(1);
    assert_eq!(rig.checkpoint(ENOUGH).answer, Answer::Done);
    assert_eq!(rig.abort(1), Ok(()));
    assert_eq!(rig.world.memory[253..259], [0, 7, 7, 7, 7, 0]);
    assert_eq!(rig.restart(ENOUGH).answer, Answer::Done);
    assert_eq!(rig.world.memory[253..259], [0, 7, 7, 7, 7, 0]);
}
