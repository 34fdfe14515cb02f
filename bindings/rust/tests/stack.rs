//! Every call of a store on a thread with the stack that the crate asks for, in debug builds too: a call that took more would end the process.

use std::thread;

use luppaneth::inspect::{first_groups, read_page};
use luppaneth::{calls, Error, MemoryDevice, Store, TxId, STACK};

fn every_call() -> Result<(), Error> {
    let mut store = Store::open(MemoryDevice::new())?;
    for round in 0..3_u8 {
        store.book(|tx| {
            tx.savepoint(1)?;
            for part in 0..8 {
                tx.write(part * 32, &[round; 32])?;
            }
            tx.read(0, 32)?;
            tx.go_back(1)
        })?;
        assert!(store
            .book(|tx| {
                tx.write(0, &[9])?;
                Err::<(), _>(Error::step("of no use"))
            })
            .is_err());
        store.flush()?;
        store.checkpoint()?;
    }
    store.outcomes(&[TxId(1)])?;
    let store = store.renew(MemoryDevice::new())?;
    let mut device = store.into_device();
    Store::check(&mut device)?;
    calls::disklist(device.disk());
    assert!(calls::equal_in_meaning(device.disk(), device.disk()));
    first_groups(device.disk(), &mut [0; calls::MEMORY_LEN], usize::MAX)?;
    read_page(device.disk(), 0)?;
    Store::open(device)?;
    Ok(())
}

#[test]
fn the_stack_is_enough() {
    let thread = thread::Builder::new().stack_size(STACK).spawn(every_call);
    thread.unwrap().join().unwrap().unwrap();
}
