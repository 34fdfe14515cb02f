//! What a store on a device answers: all or none, durable after a flush, poisoned after a failure, a full log carried over.

use std::io;
use std::panic::{catch_unwind, AssertUnwindSafe};

use luppaneth::calls::{Disk, DISK_LEN, IMAGE_A, IMAGE_B, IMAGE_LEN, LOG_START, POINTER};
use luppaneth::inspect::Outcome;
use luppaneth::{Csn, Device, Error, MemoryDevice, Refusal, Stop, Store, TxId};

fn fresh() -> Store<MemoryDevice> {
    Store::open(MemoryDevice::new()).unwrap()
}

fn refusal<T>(result: Result<T, Error>) -> Refusal {
    match result {
        Err(Error::Refused(refusal)) => refusal,
        Err(error) => panic!("{error}"),
        Ok(_) => panic!("not refused"),
    }
}

#[test]
fn a_booking_is_durable_after_a_flush() {
    let mut store = fresh();
    let booking = store.book(|tx| tx.write(10, b"ab")).unwrap();
    assert_eq!(
        (booking.csn(), store.settled(&booking).unwrap()),
        (Csn(1), false)
    );
    assert_eq!(store.read(10, 2).unwrap(), b"ab");
    assert_eq!(store.durable().unwrap(), Csn(0));
    assert_eq!(store.flush().unwrap(), Csn(1));
    assert!(store.settled(&booking).unwrap());

    let again = Store::open(store.into_device()).unwrap();
    assert_eq!(again.read(10, 2).unwrap(), b"ab");
    assert!(matches!(again.settled(&booking), Err(Error::Stale)));
}

#[test]
fn what_was_not_flushed_is_lost_whole() {
    let mut store = fresh();
    store.book(|tx| tx.write(0, &[1])).unwrap();
    store.flush().unwrap();
    store.book(|tx| tx.write(0, &[2])).unwrap();
    store.checkpoint().unwrap();
    let again = Store::open(store.into_device()).unwrap();
    assert_eq!(
        (again.durable().unwrap(), again.read(0, 1).unwrap()),
        (Csn(1), &[1][..])
    );
}

#[test]
fn the_office_learns_which_steps_went_through() {
    use Outcome::{Aborted, Committed, Neither};
    let mut store = fresh();
    let mut ids = Vec::new();
    for byte in [1, 2, 3] {
        let booked = store.book(|tx| {
            ids.push(tx.id());
            tx.write(0, &[byte])?;
            // The second step is given up.
            if byte == 2 {
                return Err(Error::Stale);
            }
            Ok(())
        });
        assert_eq!(booked.is_ok(), byte != 2);
        if byte == 2 {
            store.flush().unwrap();
        }
    }
    let told = |store: &Store<MemoryDevice>| store.outcomes(&ids).unwrap();
    // The third is booked and not flushed.
    assert_eq!(told(&store).outcomes, [Committed, Aborted, Neither]);
    let mut again = Store::open(store.into_device()).unwrap();
    assert_eq!(told(&again).outcomes, [Committed, Aborted, Neither]);
    assert_eq!(
        (told(&again).groups, again.read(0, 1).unwrap()),
        (2, &[1][..])
    );
    // Its id is given out again.
    again.book(|tx| tx.write(0, &[4])).unwrap();
    again.flush().unwrap();
    assert_eq!(told(&again).outcomes, [Committed, Aborted, Committed]);
    assert_eq!(
        refusal(again.outcomes(&[TxId(2), TxId(2)])),
        Refusal::BadList
    );
}

#[test]
fn a_step_that_fails_leaves_nothing() {
    let mut store = fresh();
    let too_long = store.book(|tx| {
        tx.write(0, &[1])?;
        assert_eq!(tx.read(0, 1)?, [1]);
        tx.write(1, &[1; 33])
    });
    assert_eq!(refusal(too_long), Refusal::BadRange);
    let gave_up = store.book(|tx| {
        tx.write(0, &[1])?;
        Err::<(), _>(Error::step("no such pane"))
    });
    assert_eq!(
        gave_up.unwrap_err().to_string(),
        "the step gave up: no such pane"
    );
    let panicked = catch_unwind(AssertUnwindSafe(|| {
        store.book(|tx| -> Result<(), Error> {
            tx.write(0, &[1]).unwrap();
            panic!("in the midst of a step")
        })
    }));
    assert!(panicked.is_err());
    assert_eq!(store.pattern().unwrap(), &[0; 4_096]);
    // Three abort records.
    assert_eq!(store.log_left().unwrap(), 16_384 - 12);
    store.book(|tx| tx.write(0, &[7])).unwrap();
    store.flush().unwrap();
    assert_eq!(store.log_left().unwrap(), 16_384 - 12 - 16);
    assert_eq!(
        Store::open(store.into_device())
            .unwrap()
            .read(0, 1)
            .unwrap(),
        [7]
    );
}

#[test]
fn a_step_goes_back_to_a_savepoint() {
    let mut store = fresh();
    store
        .book(|tx| {
            tx.write(10, b"ab")?;
            tx.savepoint(1)?;
            tx.write(10, b"xy")?;
            tx.write(20, b"z")?;
            tx.go_back(1)?;
            assert_eq!(tx.read(10, 2)?, b"ab");
            tx.write(21, b"c")
        })
        .unwrap();
    assert_eq!(
        refusal(store.book(|tx| tx.go_back(1))),
        Refusal::NoSavepoint
    );
    store.flush().unwrap();
    let again = Store::open(store.into_device()).unwrap();
    assert_eq!(again.read(10, 2).unwrap(), b"ab");
    assert_eq!(again.read(20, 2).unwrap(), b"\0c");
}

#[test]
fn eight_bookings_wait_for_a_flush() {
    let mut store = fresh();
    for n in 0..8 {
        store.book(|tx| tx.write(0, &[n])).unwrap();
    }
    assert_eq!(
        refusal(store.book(|_| Ok(()))),
        Refusal::TooManyTransactions
    );
    assert_eq!(store.flush().unwrap(), Csn(8));
    store.book(|_| Ok(())).unwrap();
    assert_eq!(refusal(store.read(4_090, 7)), Refusal::BadRange);
    assert_eq!(refusal(store.read(usize::MAX, 2)), Refusal::BadRange);
    assert_eq!(store.read(4_090, 6).unwrap(), [0; 6]);
}

#[test]
fn a_full_log_is_carried_over() {
    let mut store = fresh();
    let mut booked = 0_u32;
    let full = loop {
        let text = (booked + 1).to_be_bytes();
        // A multiple of 4: no part lies in two pages.
        let at = booked as usize * 37 % 1_000 * 4;
        match store.book(|tx| (0..4).try_for_each(|part| tx.write(at + 20 * part, &text))) {
            Ok(_) => booked += 1,
            Err(error) => break error,
        }
        store.flush().unwrap();
    };
    assert!(full.to_string().contains("the log is full"), "{full}");
    assert!(
        full.to_string().contains("fresh disk (`Store::renew`)"),
        "{full}"
    );
    assert_eq!(refusal::<()>(Err(full)), Refusal::LogFull);
    assert_eq!(store.durable().unwrap(), Csn(booked));

    let mut over = store.renew(MemoryDevice::new()).unwrap();
    assert_eq!(over.pattern().unwrap(), store.pattern().unwrap());
    assert!(over.log_left().unwrap() >= 16_384 - 5_056);
    over.book(|tx| tx.write(0, b"and on")).unwrap();
    over.flush().unwrap();
    let again = Store::open(over.into_device()).unwrap();
    assert_eq!(again.read(6, 4_090).unwrap(), store.read(6, 4_090).unwrap());
    assert!(matches!(
        store.renew(again.into_device()),
        Err(Error::NotFresh)
    ));
}

/// Fails once so many stores or syncs were made.
struct Failing {
    disk: MemoryDevice,
    stores: usize,
    syncs: usize,
}

impl Failing {
    fn after(stores: usize, syncs: usize) -> Failing {
        Failing {
            disk: MemoryDevice::new(),
            stores,
            syncs,
        }
    }
}

fn one_of(left: &mut usize) -> io::Result<()> {
    let next = left.checked_sub(1);
    *left = next.ok_or(io::Error::other("no current"))?;
    Ok(())
}

impl Device for Failing {
    fn load(&mut self, disk: &mut Disk) -> io::Result<()> {
        self.disk.load(disk)
    }
    fn store(&mut self, at: usize, byte: u8) -> io::Result<()> {
        one_of(&mut self.stores)?;
        self.disk.store(at, byte)
    }
    fn sync(&mut self) -> io::Result<()> {
        one_of(&mut self.syncs)
    }
    fn reads_what_lasts(&self) -> bool {
        true
    }
}

fn all_poisoned(store: &mut Store<&mut Failing>) {
    assert!(matches!(store.book(|_| Ok(())), Err(Error::Poisoned)));
    assert!(matches!(store.flush(), Err(Error::Poisoned)));
    assert!(matches!(store.checkpoint(), Err(Error::Poisoned)));
    assert!(matches!(store.durable(), Err(Error::Poisoned)));
    assert!(matches!(store.pattern(), Err(Error::Poisoned)));
    assert!(matches!(store.read(0, 1), Err(Error::Poisoned)));
    assert!(matches!(store.log_left(), Err(Error::Poisoned)));
    assert!(matches!(
        store.renew(MemoryDevice::new()),
        Err(Error::Poisoned)
    ));
}

#[test]
fn a_failed_device_poisons_the_store() {
    let mut device = Failing::after(15, usize::MAX);
    let mut store = Store::open(&mut device).unwrap();
    let booking = store.book(|tx| tx.write(0, &[1])).unwrap();
    assert!(matches!(store.flush(), Err(Error::Device(_))));
    all_poisoned(&mut store);
    assert!(matches!(store.settled(&booking), Err(Error::Poisoned)));
    drop(store);
    // 15 of 16 stores were made. The clearing of these fails too, at first.
    assert_eq!(device.disk.disk()[LOG_START], 1);
    assert!(matches!(Store::open(&mut device), Err(Error::Device(_))));
    device.stores = usize::MAX;
    let mut store = Store::open(&mut device).unwrap();
    assert_eq!(store.durable().unwrap(), Csn(0));
    store.book(|tx| tx.write(0, &[2])).unwrap();
    assert_eq!(store.flush().unwrap(), Csn(1));
}

#[test]
fn an_opening_tells_why_the_log_ended() {
    // A booking of one byte takes 16 stores.
    let mut device = Failing::after(16 + 15, usize::MAX);
    let mut store = Store::open(&mut device).unwrap();
    assert_eq!(store.found().stop, Stop::Zero);
    store.book(|tx| tx.write(0, &[1])).unwrap();
    store.flush().unwrap();
    store.book(|tx| tx.write(0, &[2])).unwrap();
    assert!(matches!(store.flush(), Err(Error::Device(_))));
    drop(store);
    device.stores = usize::MAX;
    assert_eq!(Store::open(&mut device).unwrap().found().stop, Stop::Torn);
    // What was torn is cleared by then.
    let again = Store::open(&mut device).unwrap();
    assert_eq!(
        (again.found().stop, again.durable().unwrap()),
        (Stop::Zero, Csn(1))
    );

    let mut store = fresh();
    for _ in 0..2_048 {
        store.book(|_| Ok(())).unwrap();
        store.flush().unwrap();
    }
    assert_eq!(store.log_left().unwrap(), 0);
    assert_eq!(
        Store::open(store.into_device()).unwrap().found().stop,
        Stop::Full
    );
}

#[test]
fn a_failed_sync_poisons_the_store() {
    let mut device = Failing::after(usize::MAX, 0);
    assert!(matches!(Store::open(&mut device), Err(Error::Device(_))));

    let mut device = Failing::after(usize::MAX, 1);
    let mut store = Store::open(&mut device).unwrap();
    store.book(|tx| tx.write(0, &[1])).unwrap();
    assert!(matches!(store.flush(), Err(Error::Device(_))));
    all_poisoned(&mut store);
}

#[test]
fn the_pointer_byte_waits_for_the_image() {
    // Syncs: the opening's, the image's, the pointer byte's.
    for (syncs, pointer) in [(1, 0), (2, 1)] {
        let mut device = Failing::after(usize::MAX, syncs);
        let mut store = Store::open(&mut device).unwrap();
        assert!(matches!(store.checkpoint(), Err(Error::Device(_))));
        all_poisoned(&mut store);
        assert_eq!(device.disk.disk()[POINTER], pointer);
    }
}

#[derive(Clone, Copy, Debug, PartialEq)]
enum Event {
    Store(usize, u8),
    Sync,
}

/// Keeps what is done to it, in order.
struct Recording {
    disk: MemoryDevice,
    cached: bool,
    events: Vec<Event>,
    aside: Option<Box<Disk>>,
}

impl Device for Recording {
    fn load(&mut self, disk: &mut Disk) -> io::Result<()> {
        self.disk.load(disk)
    }
    fn store(&mut self, at: usize, byte: u8) -> io::Result<()> {
        self.events.push(Event::Store(at, byte));
        self.disk.store(at, byte)
    }
    fn sync(&mut self) -> io::Result<()> {
        self.events.push(Event::Sync);
        Ok(())
    }
    fn reads_what_lasts(&self) -> bool {
        !self.cached
    }
    fn set_aside(&mut self, disk: &Disk) {
        assert!(self.events.is_empty(), "before anything is cleared");
        self.aside = Some(Box::new(*disk));
    }
}

impl Recording {
    fn of(disk: &MemoryDevice, cached: bool) -> Recording {
        Recording {
            disk: disk.clone(),
            cached,
            events: Vec::new(),
            aside: None,
        }
    }
}

/// What a store does to a device from its opening on, up to some calls.
fn events(
    disk: &MemoryDevice,
    calls: impl FnOnce(&mut Store<&mut Recording>) -> Result<(), Error>,
) -> Recording {
    let mut device = Recording::of(disk, false);
    let mut store = Store::open(&mut device).unwrap();
    calls(&mut store).unwrap();
    device
}

fn offsets(events: &[Event]) -> Vec<usize> {
    let offset = |event: &Event| match event {
        Event::Store(at, _) => *at,
        Event::Sync => panic!("a sync in the midst of a run"),
    };
    events.iter().map(offset).collect()
}

#[test]
fn a_flush_stores_upward_from_the_logs_end() {
    let flushed = events(&MemoryDevice::new(), |store| {
        store.book(|tx| tx.write(10, &[0x41, 0x42]))?;
        store.flush()?;
        store.flush()?;
        Ok(())
    });
    let group = [1, 0, 1, 0, 10, 2, 0x41, 0x42, 1, 2, 0, 1, 0, 0, 0, 1, 2];
    let mut expected = vec![Event::Sync];
    expected.extend(
        (LOG_START..)
            .zip(group)
            .map(|(at, byte)| Event::Store(at, byte)),
    );
    expected.push(Event::Sync);
    assert_eq!(flushed.events, expected);
}

#[test]
fn a_checkpoint_stores_the_image_upward_then_the_pointer_byte() {
    let mut disk = MemoryDevice::new();
    for (slot, name) in [(IMAGE_A, 1), (IMAGE_B, 2), (IMAGE_A, 1)] {
        let stored = events(&disk, |store| store.checkpoint());
        let (image, rest) = stored.events[1..].split_at(4_109);
        assert_eq!(offsets(image), (slot..slot + 4_109).collect::<Vec<_>>());
        assert_eq!(
            rest,
            [Event::Sync, Event::Store(POINTER, name), Event::Sync]
        );
        disk = stored.disk;
    }
}

#[test]
fn an_opening_clears_downward_to_the_logs_end() {
    let mut disk = MemoryDevice::new();
    disk.disk_mut()[LOG_START + 3..LOG_START + 700].fill(9);
    let cleared = events(&disk, |_| Ok(()));
    let (last, stores) = cleared.events.split_last().unwrap();
    assert_eq!(
        offsets(stores),
        (LOG_START..LOG_START + 700).rev().collect::<Vec<_>>()
    );
    assert!(stores
        .iter()
        .all(|event| matches!(event, Event::Store(_, 0))));
    assert_eq!(*last, Event::Sync);
    assert_eq!(cleared.disk.disk(), &[0; DISK_LEN]);
}

/// A run of stores, or a sync.
#[derive(Debug, PartialEq)]
enum Run {
    Rising(usize, usize),
    Falling(usize, usize),
    Sync,
}

/// The events as runs from one offset up to another.
fn runs(events: &[Event]) -> Vec<Run> {
    let mut runs = Vec::new();
    for event in events {
        let Event::Store(at, _) = *event else {
            runs.push(Run::Sync);
            continue;
        };
        match runs.last_mut() {
            Some(Run::Rising(_, end)) if *end == at => *end = at + 1,
            Some(Run::Falling(start, _)) if *start == at + 1 => *start = at,
            Some(Run::Rising(start, end)) if *start == at + 1 && *end == *start + 1 => {
                *runs.last_mut().unwrap() = Run::Falling(at, at + 2);
            }
            _ => runs.push(Run::Rising(at, at + 1)),
        }
    }
    runs
}

/// What a cache shows may be nowhere else, so an opening stores it again, each thing before what refers to it.
#[test]
fn an_opening_stores_again_what_it_trusts() {
    let mut store = fresh();
    store.book(|tx| tx.write(0, &[7])).unwrap();
    store.flush().unwrap();
    let flushed = LOG_START + 16;
    let log = [
        Run::Rising(LOG_START, flushed),
        Run::Falling(flushed, DISK_LEN),
        Run::Sync,
    ];
    let pointer = [Run::Rising(POINTER, POINTER + 1), Run::Sync];
    for image in [None, Some(IMAGE_A), Some(IMAGE_B)] {
        if image.is_some() {
            store.checkpoint().unwrap();
        }
        let mut device = Recording::of(store.device(), true);
        let before = Box::new(*device.disk.disk());
        drop(Store::open(&mut device).unwrap());
        let mut expected: Vec<&Run> = log.iter().collect();
        let again = image.map(|slot| [Run::Rising(slot, slot + IMAGE_LEN), Run::Sync]);
        expected.extend(again.iter().flatten());
        expected.extend(&pointer);
        assert_eq!(runs(&device.events).iter().collect::<Vec<_>>(), expected);
        // What is stored again is what was there.
        assert_eq!(device.disk.disk(), &*before);
        assert!(device.aside.is_none());
    }
}

#[test]
fn an_opening_tells_what_it_clears_and_sets_it_aside() {
    let mut store = fresh();
    store.book(|tx| tx.write(0, &[7])).unwrap();
    store.flush().unwrap();
    let mut disk = store.into_device();
    disk.disk_mut()[LOG_START + 20..LOG_START + 50].fill(9);
    let before = Box::new(*disk.disk());
    let found = Store::check(&mut disk).unwrap();
    // Looking stores nothing.
    assert_eq!(disk.disk(), &*before);
    assert_eq!((found.durable, found.last_id), (Csn(1), TxId(1)));
    assert_eq!((found.log_end, found.stop), (16, Stop::Zero));
    assert_eq!((found.undone, found.cleared), (0, 30));
    for cached in [false, true] {
        let mut device = Recording::of(&disk, cached);
        let store = Store::open(&mut device).unwrap();
        assert_eq!(store.found(), &found);
        drop(store);
        assert_eq!(device.aside.as_deref(), Some(&*before));
        assert_eq!(Store::check(&mut device).unwrap().cleared, 0);
    }
}

#[test]
fn a_step_returns_a_value() {
    let mut store = fresh();
    let booking = store
        .book(|tx| {
            tx.write(0, b"ab")?;
            Ok(tx.read(0, 2)?.to_vec())
        })
        .unwrap();
    assert_eq!(
        (booking.csn(), booking.id(), &*booking.value),
        (Csn(1), TxId(1), &b"ab"[..])
    );
    // Its own input and output may fail in it too.
    let failed = store.book(|_| -> Result<(), Error> {
        Err(io::Error::new(io::ErrorKind::NotFound, "no drawing"))?
    });
    assert_eq!(failed.unwrap_err().to_string(), "no drawing");
    assert!(format!("{store:?}").contains("on_disk"));
}

/// A store may go to another thread, and be shared in a mutex.
#[test]
fn a_store_can_be_sent() {
    fn sendable<T: Send + Sync + std::fmt::Debug>(_: &T) {}
    sendable(&fresh());
}

#[test]
fn a_damaged_disk_is_refused() {
    let mut device = MemoryDevice::new();
    device.disk_mut()[POINTER] = 3;
    assert_eq!(
        refusal(Store::open(device).map(|_| ())),
        Refusal::BadPointer
    );
}
