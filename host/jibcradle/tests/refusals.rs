//! Each refusal once, through the safe calls where they can meet it, else through the raw ones.

use jibcradle::{Catalogue, Change, Moved, Refusal, Reply, Store, JOURNAL};

/// A catalogue with these snapshots, all of them gossiped.
fn with_snapshots(count: u64) -> Catalogue {
    let mut catalogue = Catalogue::fresh();
    for stamp in 1..=count {
        assert!(catalogue.gossip(stamp - 1, stamp, &[stamp]).is_ok());
    }
    catalogue
}

/// Commits 16 writes, to the objects from `first` on.
fn commit_sixteen(catalogue: &mut Catalogue, stamp: u64, first: u16) -> Result<Change, Refusal> {
    let writes: Vec<(u16, u64)> = (first..first + 16).map(|object| (object, stamp)).collect();
    catalogue.commit(stamp, &writes)
}

#[test]
fn shape_of_the_lists() {
    let mut catalogue = Catalogue::fresh();
    assert_eq!(catalogue.commit(1, &[]), Err(Refusal::Shape));
    assert_eq!(catalogue.commit(1, &[(512, 0)]), Err(Refusal::Shape));
    assert_eq!(catalogue.commit(1, &[(0, 0); 17]), Err(Refusal::Shape));
    assert_eq!(catalogue.commit(1, &[(0, 0); 300]), Err(Refusal::Shape));
    assert_eq!(catalogue.commit(1, &[(0, 0); 16]), Err(Refusal::Twice));
    assert_eq!(catalogue.gossip(2, 1, &[]), Err(Refusal::Shape));
    assert_eq!(catalogue.gossip(0, 1, &[2]), Err(Refusal::Shape));
    assert_eq!(catalogue.flush(32), Err(Refusal::Shape));
    assert_eq!(catalogue.read(0, 32), Err(Refusal::Shape));
    assert_eq!(catalogue.clock(1 << 56, 0), Err(Refusal::Shape));
    assert_eq!(catalogue.now(255), Err(Refusal::Shape));
    assert_eq!(catalogue, Catalogue::fresh());
}

#[test]
fn a_clock_read_takes_the_tick_s_first_stamp() {
    let mut catalogue = Catalogue::fresh();
    catalogue.gossip(0, 2 * 256, &[255, 256, 257]).unwrap();
    assert_eq!(catalogue.clock(0, 0), Err(Refusal::NoSnapshot));
    assert_eq!(catalogue.clock(1, 0).unwrap().stamp, 256);
    assert_eq!(catalogue.clock(2, 31).unwrap().stamp, 257);
    assert_eq!(catalogue.clock(3, 0), Err(Refusal::Ahead { horizon: 512 }));
    assert_eq!(catalogue.standing().unwrap().lag, -2);
}

#[test]
fn full_tables() {
    let mut catalogue = Catalogue::fresh();
    for page in 0..8 {
        commit_sixteen(&mut catalogue, u64::from(page) + 2, page * 16).unwrap();
    }
    assert_eq!(catalogue.commit(10, &[(128, 0)]), Err(Refusal::PendingFull));
    for stamp in 10..26 {
        commit_sixteen(&mut catalogue, stamp, 0).unwrap();
    }
    assert_eq!(catalogue.commit(26, &[(0, 0)]), Err(Refusal::PastFull));
    assert_eq!(catalogue.flush(0), Err(Refusal::PastFull));
    assert_eq!(with_snapshots(64).gossip(64, 65, &[65]), Err(Refusal::SnapshotsFull));
}

#[test]
fn a_full_archive() {
    let mut catalogue = Catalogue::fresh();
    for round in 1..=4 {
        let snapshot = 100 * round;
        catalogue.gossip(snapshot - 100, snapshot, &[snapshot]).unwrap();
        for page in 0..32 {
            let stamp = snapshot + 1 + u64::from(page);
            catalogue.commit(stamp, &[(u16::from(page) * 16, stamp)]).unwrap();
            catalogue.flush(page).unwrap();
        }
    }
    assert_eq!(catalogue.standing().unwrap().copies, 128);
    catalogue.gossip(400, 500, &[500]).unwrap();
    catalogue.commit(501, &[(0, 5)]).unwrap();
    assert_eq!(catalogue.flush(0), Err(Refusal::ArchiveFull));
}

#[test]
fn no_journal_room() {
    assert_eq!(Catalogue::with_room(JOURNAL + 1), Err(Refusal::Shape));
    let mut catalogue = Catalogue::with_room(22).unwrap();
    assert_eq!(catalogue.commit(1, &[(0, 0)]), Err(Refusal::NoJournalRoom { needed: 23 }));
    assert_eq!(catalogue.journal(), []);
    let mut catalogue = Catalogue::with_room(23).unwrap();
    assert_eq!(catalogue.commit(1, &[(0, 0)]), Ok(Change::Written(23)));
    assert_eq!(catalogue.flush(0), Err(Refusal::NoJournalRoom { needed: 27 }));
    assert_eq!(catalogue.gossip(0, 1, &[]), Err(Refusal::NoJournalRoom { needed: 43 }));
}

#[test]
fn refused_restarts() {
    assert_eq!(Catalogue::restart(&[2]), Err(Refusal::Version { found: 2 }));
    assert_eq!(Catalogue::restart(&[1, 0, 1]), Err(Refusal::Malformed { offset: 1 }));
    assert_eq!(Catalogue::restart(&[1, 0, 2, 3, 32]), Err(Refusal::Malformed { offset: 1 }));
    assert_eq!(Catalogue::restart(&[1, 0, 2, 3, 0]), Err(Refusal::Contradiction { offset: 1 }));
    assert_eq!(Catalogue::restart(&vec![1; JOURNAL + 1]), Err(Refusal::Shape));
}

#[test]
fn a_damaged_store_refuses_all_but_starts() {
    let mut store = Store::fresh();
    store.heads.past = usize::MAX;
    let before = store.clone();
    let mut journal = [7; 64];
    let mut buffer = [7; 16];
    let damaged = Moved { code: 2, number: 0, place: 5 };
    assert_eq!(store.commit(&mut journal, 5, 1, &[0], &[0]), damaged);
    assert_eq!(store.gossip(&mut journal, 5, 0, 1, &[1]), damaged);
    assert_eq!(store.flush(&mut journal, 5, 0), damaged);
    let damaged = Reply { code: 2, number: 0 };
    assert_eq!(store.snapshot_read(0, 0, &mut buffer), damaged);
    assert_eq!(store.clock_read(0, 0, &mut buffer), damaged);
    assert_eq!(store.current_read(0, &mut buffer), damaged);
    assert_eq!(store.standing().outcome(), Err(Refusal::Damaged));
    assert_eq!((&store, journal, buffer), (&before, [7; 64], [7; 16]));
    assert_eq!(store.restart(&[]), Moved::default());
    assert_eq!(store, Store::fresh());
}

#[test]
fn raw_calls_take_a_used_length_beyond_the_journal() {
    let mut store = Store::fresh();
    let moved = store.flush(&mut [0; 8], 9, 0);
    assert_eq!(moved, Moved { code: 3, number: 0, place: 9 });
    assert_eq!(store.current_read(0, &mut [0; 15]), Reply { code: 3, number: 0 });
}
