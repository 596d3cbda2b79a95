//! What a disk keeps, and what it loses.
use hojzmated::{Pager, PagerConfig, PagerError};
use hojzmated_disk::{Disk, DiskFile, Fault, SECTOR};
use std::collections::BTreeSet;
use std::io::ErrorKind;
use std::os::unix::fs::FileExt;
use std::time::Duration;

const SIZE: usize = 4 * SECTOR;

fn bytes(file: &DiskFile) -> Vec<u8> {
    let mut all = vec![0; file.len() as usize];
    file.read_exact_at(&mut all, 0).unwrap();
    all
}

/// A disk with a file of four sectors of zeros, which are kept.
fn disk(seed: u64) -> (Disk, DiskFile) {
    let disk = Disk::new(seed);
    let file = disk.file("one");
    file.write_all_at(&[0; SIZE], 0).unwrap();
    file.sync_data().unwrap();
    (disk, file)
}

/// What each sector has.
fn sectors(file: &DiskFile) -> Vec<u8> {
    let all = bytes(file);
    assert!(
        all.chunks(SECTOR)
            .all(|it| it.iter().all(|byte| *byte == it[0]))
    );
    all.chunks(SECTOR).map(|it| it[0]).collect()
}

#[test]
fn what_was_synced_stays_and_is_seen_by_all() {
    for seed in 0..200 {
        let (disk, file) = disk(seed);
        file.write_all_at(&[7; 700], 100).unwrap();
        assert_eq!(bytes(&disk.file("one")), bytes(&file));
        file.sync_data().unwrap();
        let before = bytes(&file);
        disk.file("two").write_all_at(b"other", 0).unwrap();
        disk.lose_power();
        assert_eq!(bytes(&file), before);
    }
}

#[test]
fn of_what_was_not_synced_each_set_of_sectors_may_stay() {
    let mut found = BTreeSet::new();
    for seed in 0..2_000 {
        let (disk, file) = disk(seed);
        file.write_all_at(&[1; SIZE], 0).unwrap();
        assert_eq!(sectors(&file), [1; 4]);
        disk.lose_power();
        found.insert(sectors(&file));
    }
    assert_eq!(found.len(), 16, "{found:?}");
}

// The next process sees what the one before it wrote, and its power may take what no sync has kept.
#[test]
fn what_was_saved_waits_as_before() {
    let (mut found, mut lengths) = (BTreeSet::new(), BTreeSet::new());
    for seed in 0..1_000 {
        let before = disk(seed).1;
        before.write_all_at(&[1; SIZE], 0).unwrap();
        let (next, file) = disk(seed);
        file.restore(&before.save()).unwrap();
        assert_eq!(bytes(&file), [1; SIZE]);
        next.lose_power();
        found.insert(sectors(&file));
        file.set_len(SECTOR as u64).unwrap();
        let last = Disk::new(seed);
        last.file("one").restore(&file.save()).unwrap();
        assert_eq!(last.file("one").len(), SECTOR as u64);
        last.lose_power();
        lengths.insert(last.file("one").len());
        let saved = bytes(&file);
        assert!(file.restore(&before.save()[1..]).is_err());
        assert_eq!(bytes(&file), saved);
    }
    assert_eq!(found.len(), 16, "{found:?}");
    assert_eq!(lengths, [SECTOR as u64, SIZE as u64].into());
}

// A disk of larger sectors keeps or loses both of two, also of a write at which the power fails.
#[test]
fn what_is_kept_whole_may_be_more() {
    let mut found = BTreeSet::new();
    for seed in 0..400 {
        let (disk, file) = disk(seed);
        disk.keep_whole(2 * SECTOR);
        if seed % 2 == 0 {
            disk.set_fault(Some(Fault::Cut(1)));
        }
        assert_eq!(file.write_all_at(&[1; SIZE], 0).is_err(), disk.is_off());
        disk.lose_power();
        found.insert(sectors(&file));
    }
    let wanted = [[0, 0, 0, 0], [0, 0, 1, 1], [1, 1, 0, 0], [1; 4]];
    assert_eq!(found, wanted.map(Vec::from).into());
}

#[test]
fn writes_to_one_place_may_come_in_any_order() {
    let mut found = BTreeSet::new();
    for seed in 0..2_000 {
        let (disk, file) = disk(seed);
        for number in 1..4 {
            file.write_all_at(&[number; SECTOR], 0).unwrap();
        }
        disk.lose_power();
        found.insert(sectors(&file)[0]);
    }
    assert_eq!(found, BTreeSet::from([0, 1, 2, 3]));
}

#[test]
fn a_write_is_torn_where_sectors_of_the_disk_meet() {
    let mut found = BTreeSet::new();
    for seed in 0..500 {
        let (disk, file) = disk(seed);
        file.write_all_at(&[1; 600], 500).unwrap();
        disk.lose_power();
        let all = bytes(&file);
        let parts = [&all[500..512], &all[512..1024], &all[1024..1100]];
        assert!(parts.iter().all(|it| it.iter().all(|byte| *byte == it[0])));
        found.insert(parts.map(|it| it[0]));
        assert!(all[..500].iter().chain(&all[1100..]).all(|byte| *byte == 0));
    }
    assert_eq!(found.len(), 8, "{found:?}");
}

#[test]
fn a_length_stays_by_a_sync() {
    let mut found = BTreeSet::new();
    for seed in 0..100 {
        let (disk, file) = disk(seed);
        file.set_len(100).unwrap();
        file.set_len(5_000).unwrap();
        assert_eq!((file.len(), file.is_empty()), (5_000, false));
        disk.lose_power();
        found.insert(file.len());
        file.set_len(10).unwrap();
        file.sync_data().unwrap();
        disk.lose_power();
        assert_eq!(file.len(), 10);
    }
    assert!(
        found.contains(&(SIZE as u64)) && found.contains(&5_000),
        "{found:?}"
    );
}

#[test]
fn a_read_past_the_end_is_short() {
    let (_, file) = disk(1);
    let mut room = [9; 20];
    assert_eq!(file.read_at(&mut room, SIZE as u64 - 5).unwrap(), 5);
    assert_eq!(room[..6], [0, 0, 0, 0, 0, 9]);
    let read = file.read_exact_at(&mut room, SIZE as u64 - 5);
    assert_eq!(read.unwrap_err().kind(), ErrorKind::UnexpectedEof);
}

#[test]
fn a_failed_sync_has_lost_what_is_seen_and_no_later_one_keeps_it() {
    let mut lost = 0;
    for seed in 0..200 {
        let (disk, file) = disk(seed);
        disk.set_fault(Some(Fault::Sync(1)));
        file.write_all_at(&[1; SECTOR], 0).unwrap();
        assert_eq!(
            file.sync_data().unwrap_err().to_string(),
            "the device has failed"
        );
        assert_eq!(sectors(&file), [1, 0, 0, 0]);
        file.sync_data().unwrap();
        disk.lose_power();
        lost += u32::from(sectors(&file)[0] == 0);
    }
    assert!((50..150).contains(&lost), "{lost}");
}

#[test]
fn from_a_cut_on_each_request_fails_until_the_power_is_back() {
    let (disk, file) = disk(5);
    disk.set_fault(Some(Fault::Cut(2)));
    file.write_all_at(&[1; SECTOR], 0).unwrap();
    file.sync_data().unwrap_err();
    assert!(disk.is_off());
    let mut room = [0; 1];
    for failed in [
        file.write_all_at(&[2; SECTOR], 0),
        file.sync_data(),
        file.set_len(1),
        file.read_exact_at(&mut room, 0),
    ] {
        assert_eq!(failed.unwrap_err().to_string(), "the power is off");
    }
    let counts = disk.counts();
    assert_eq!(
        (counts.all, counts.reads, counts.writes, counts.syncs),
        (6, 1, 3, 2)
    );
    assert_eq!(disk.failures(), 1);
    disk.lose_power();
    assert!(!disk.is_off());
    assert_ne!(sectors(&file)[0], 2);
}

#[test]
fn a_fault_is_of_its_kind_and_comes_once() {
    let (disk, file) = disk(6);
    disk.set_fault(Some(Fault::Write(2)));
    file.write_all_at(&[1; SECTOR], 0).unwrap();
    file.sync_data().unwrap();
    let failed = file.write_all_at(&[2; SECTOR], 0).unwrap_err();
    assert_eq!(failed.kind(), ErrorKind::StorageFull);
    file.write_all_at(&[3; SECTOR], 0).unwrap();
    disk.set_fault(Some(Fault::Read(1)));
    let mut room = [0; 1];
    let failed = file.read_exact_at(&mut room, 0).unwrap_err();
    assert_eq!(failed.to_string(), "the device has failed");
    file.read_exact_at(&mut room, 0).unwrap();
    assert_eq!((room, disk.failures(), disk.is_off()), ([3], 1, false));
}

#[test]
fn the_power_fails_at_a_sync_once() {
    let (disk, file) = disk(7);
    disk.set_fault(Some(Fault::CutAtSync(2)));
    file.write_all_at(&[1; SIZE], 0).unwrap();
    file.sync_data().unwrap();
    file.write_all_at(&[2; SIZE], 0).unwrap();
    file.sync_data().unwrap_err();
    file.write_all_at(&[3; SIZE], 0).unwrap_err();
    assert_eq!((disk.is_off(), disk.failures()), (true, 1));
    disk.lose_power();
    assert!(sectors(&file).iter().all(|it| [1, 2].contains(it)));
    file.write_all_at(&[4; SIZE], 0).unwrap();
    file.sync_data().unwrap();
    disk.lose_power();
    assert_eq!(sectors(&file), [4; 4]);
}

#[test]
fn after_a_kill_the_power_fails_soon_after_the_next_start() {
    let (disk, file) = disk(7);
    disk.set_fault(Some(Fault::Kill(2)));
    file.write_all_at(&[1; SECTOR], 0).unwrap();
    file.write_all_at(&[1; SECTOR], 0).unwrap_err();
    assert!(disk.is_off());
    disk.come_back();
    // What the process wrote is seen, and not kept.
    assert_eq!(sectors(&file)[0], 1);
    let count = (0..)
        .take_while(|_| file.write_all_at(&[2; SECTOR], 0).is_ok())
        .count();
    assert!(count < 60 && disk.is_off(), "{count}");
    disk.come_back();
    assert!(!disk.is_off());
}

#[test]
fn the_same_seed_and_requests_have_the_same_outcome() {
    let lost = |seed| {
        let (disk, file) = disk(seed);
        disk.set_fault(Some(Fault::Cut(9)));
        (1..20).for_each(|number| drop(file.write_all_at(&[number; 900], 77 * u64::from(number))));
        disk.lose_power();
        disk.set_fault(None);
        bytes(&file)
    };
    assert!((0..50).all(|seed| lost(seed) == lost(seed)));
    assert!((0..50).map(lost).collect::<BTreeSet<_>>().len() > 20);
}

#[test]
fn while_a_sync_is_slow_others_write_and_are_not_kept() {
    let mut lost = 0;
    for seed in 0..30 {
        let (disk, file) = disk(seed);
        disk.slow_syncs(Duration::from_millis(3));
        file.write_all_at(&[1; SECTOR], 0).unwrap();
        let before = disk.counts().syncs;
        std::thread::scope(|scope| {
            let syncs = scope.spawn(|| file.sync_data());
            while disk.counts().syncs == before {
                std::thread::yield_now();
            }
            file.write_all_at(&[2; SECTOR], SECTOR as u64).unwrap();
            syncs.join().unwrap().unwrap();
        });
        disk.lose_power();
        assert_eq!(sectors(&file)[0], 1);
        lost += u32::from(sectors(&file)[1] == 0);
    }
    assert!((1..30).contains(&lost));
}

#[test]
fn a_pager_over_it_keeps_what_a_checkpoint_wrote() {
    let mut kept = BTreeSet::new();
    for seed in 0..50 {
        let disk = Disk::new(seed);
        let files = disk.pages("pages", "log");
        files.pages.set_len(16 * 512).unwrap();
        let pager = Pager::new(&PagerConfig::new(16, 512, 4), files).unwrap();
        for page in 0..16 {
            pager.write(page).unwrap().put(0, &[1], 1 + page).unwrap();
        }
        pager.checkpoint().unwrap();
        pager.write(3).unwrap().put(0, &[2], 20).unwrap();
        pager.flush(3).unwrap();
        disk.lose_power();
        let all = bytes(&disk.file("pages"));
        assert!((0..16).all(|page| page == 3 || all[512 * page] == 1));
        kept.insert(all[512 * 3]);
        disk.set_fault(Some(Fault::Cut(1)));
        let read = (0..16).find_map(|page| pager.read(page).err());
        assert!(matches!(read, Some(PagerError::Read { .. })), "{read:?}");
    }
    assert_eq!(kept, BTreeSet::from([1, 2]));
}

// The next sync of the log goes well, and the pager knows: no page goes out under a record that a sync has lost.
#[test]
fn a_log_whose_sync_failed_is_never_durable() {
    let disk = Disk::new(3);
    let config = PagerConfig::new(16, 512, 4);
    let files = disk.pages("pages", "log");
    files.pages.set_len(16 * 512).unwrap();
    files.log.write_all_at(&[5; 8], 0).unwrap();
    let pager = Pager::new(&config, files).unwrap();
    pager.write(3).unwrap().put(0, &[1], 5).unwrap();
    disk.set_fault(Some(Fault::Sync(1)));
    let flushed = pager.flush(3);
    assert!(
        matches!(flushed, Err(PagerError::Log { lsn: 5, .. })),
        "{flushed:?}"
    );
    pager.io().log.sync_data().unwrap();
    for _ in 0..3 {
        let flushed = pager.flush(3);
        assert!(matches!(flushed, Err(PagerError::LogLost)), "{flushed:?}");
        assert_eq!(pager.stats().unsaved, 1);
    }
    assert_eq!(bytes(&disk.file("pages"))[3 * 512], 0);
    // The next process has a pager of its own, and finds out by itself what the log has.
    disk.restart();
    let pager = Pager::new(&config, pager.into_io()).unwrap();
    pager.write(3).unwrap().put(0, &[1], 5).unwrap();
    pager.flush(3).unwrap();
}
