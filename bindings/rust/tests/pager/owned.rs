//! Guards that own their pager, and what guards tell of their page.
use crate::device::{Asked, Device, SIZE, config, pager, put};
use hojzmated::{Error, OwnedMut, OwnedPin, OwnedRef, Pager};
use std::sync::{Arc, mpsc};
use std::thread;

fn shared(frames: usize) -> Arc<Pager<Device>> {
    Arc::new(pager(frames))
}

/// Something that has a cursor in it, and borrows nothing.
struct Cursor {
    root: OwnedPin<Device>,
    leaf: Option<OwnedRef<Device>>,
}

// The guards outlive what they were made by, and the pager goes with the last of them.
#[test]
fn guards_keep_their_pager() {
    let pager = shared(3);
    let weak = Arc::downgrade(&pager);
    put(&pager, 2, 22, 0);
    let mut cursor = Cursor {
        root: pager.pin_owned(1).unwrap(),
        leaf: Some(pager.read_owned(2).unwrap()),
    };
    let mut page = pager.write_owned(3).unwrap();
    drop(pager);
    page.put(0, &[3], 5).unwrap();
    page.put_each(&[(1, &[4]), (2, &[5])], 6).unwrap();
    assert_eq!(page.edit(3..5, 7, |bytes| bytes.fill(6)), Ok(()));
    let (offset, len) = (SIZE, 1);
    assert_eq!(
        page.put(SIZE, &[1], 7),
        Err(Error::OutOfPage { offset, len })
    );
    assert_eq!(page.bytes()[..6], [3, 4, 5, 6, 6, 0]);
    assert_eq!((page.page(), page.lsn()), (3, 7));
    drop(page);
    let leaf = cursor.leaf.take().unwrap();
    assert_eq!(
        (leaf.page(), leaf[0], leaf.as_ref().len(), leaf.lsn()),
        (2, 22, SIZE, 0)
    );
    drop(leaf);
    assert_eq!(cursor.root.page(), 1);
    cursor.root.write().put(0, &[1], 8).unwrap();
    assert_eq!((cursor.root.read()[0], cursor.root.read().lsn()), (1, 8));
    let read = cursor.root.try_read().unwrap();
    assert!(cursor.root.try_write().is_none());
    drop(read);
    assert!(cursor.root.try_write().is_some());
    assert!(weak.upgrade().is_some());
    drop(cursor);
    assert!(weak.upgrade().is_none());
}

// While one is there the page stays in its frame.
#[test]
fn owned_guards_pin_their_page() {
    let pager = shared(2);
    let pin = pager.pin_owned(1).unwrap();
    (2..9).for_each(|page| drop(pager.read(page).unwrap()));
    assert!(pager.is_resident(1));
    assert_eq!(pager.stats().pinned, 1);
    let (page, other) = (pager.write_owned(2).unwrap(), pager.try_read(3));
    assert_eq!(other.unwrap_err().refusal(), Error::NoVictim);
    drop((pin, page));
    assert_eq!(pager.stats().pinned, 0);
    assert!(pager.read_owned(99).is_err() && pager.pin_owned(99).is_err());
    assert!(pager.write_owned(99).is_err());
}

// A pin goes to another thread, and is dropped there as the last that has the pager.
#[test]
fn pin_of_another_thread() {
    let pager = shared(2);
    let (send, receive) = mpsc::channel::<OwnedPin<Device>>();
    let other = thread::spawn(move || {
        let pin = receive.recv().unwrap();
        pin.write().put(0, &[7], 0).unwrap();
        pin.read()[0]
    });
    send.send(pager.pin_owned(1).unwrap()).unwrap();
    drop(pager);
    assert_eq!(other.join().unwrap(), 7);
}

#[test]
fn guards_are_shown() {
    let pager = shared(3);
    let (pin, read) = (pager.pin_owned(1).unwrap(), pager.read_owned(2).unwrap());
    let write: OwnedMut<Device> = pager.write_owned(0).unwrap();
    assert_eq!(format!("{pin:?}"), "OwnedPin { page: 1, .. }");
    assert_eq!(format!("{read:?}"), "OwnedRef { page: 2, .. }");
    assert_eq!(format!("{write:?}"), "OwnedMut { page: 0, .. }");
}

// The greatest LSN of the writes since the page was read, also after it went out.
#[test]
fn page_lsn() {
    let pager = Pager::new(&config(1), Device::default()).unwrap();
    assert_eq!(pager.read(1).unwrap().lsn(), 0);
    let mut page = pager.write(1).unwrap();
    for (lsn, told) in [(5, 5), (9, 9), (7, 9), (0, 9)] {
        page.put(0, &[1], lsn).unwrap();
        assert_eq!(page.lsn(), told);
    }
    drop(page);
    pager.flush(1).unwrap();
    assert_eq!(pager.read(1).unwrap().lsn(), 9);
    drop(pager.read(2).unwrap());
    assert_eq!(pager.read(1).unwrap().lsn(), 0);
    assert_eq!(
        pager.io().asked()[1..3],
        [Asked::Log(9), Asked::Write(1, 1, 9)]
    );
}
