//! What the store knows: the horizon, the last commit and all known snapshots.

use jibcradle::{Catalogue, Knowledge, Known, Refusal, Store, SNAPSHOTS};

#[test]
fn a_fresh_store_knows_nothing() {
    assert_eq!(Catalogue::fresh().known(), Ok(Known::default()));
    let stamps = [0; SNAPSHOTS];
    let nothing = Knowledge { code: 0, number: 0, horizon: 0, last: 0, count: 0, stamps };
    assert_eq!(Store::fresh().known(), nothing);
}

#[test]
fn the_night_is_known() {
    let mut night = Catalogue::fresh();
    night.commit(100, &[(0, 7)]).unwrap();
    assert_eq!(night.known().unwrap(), Known { horizon: 0, last: 100, snapshots: vec![] });
    night.commit(120, &[(0, 9)]).unwrap();
    night.gossip(0, 110, &[105]).unwrap();
    assert_eq!(night.known().unwrap(), Known { horizon: 110, last: 120, snapshots: vec![105] });
    night.gossip(110, 200, &[]).unwrap();
    assert_eq!(night.known().unwrap(), Known { horizon: 200, last: 120, snapshots: vec![105] });
    let again = Catalogue::restart(night.journal()).unwrap();
    assert_eq!(again.known(), night.known());
}

#[test]
fn all_of_a_full_table_is_told() {
    let mut catalogue = Catalogue::fresh();
    for stamp in 1..=SNAPSHOTS as u64 {
        catalogue.gossip(10 * stamp - 10, 10 * stamp, &[10 * stamp - 3]).unwrap();
        let snapshots: Vec<u64> = (1..=stamp).map(|stamp| 10 * stamp - 3).collect();
        let known = Known { horizon: 10 * stamp, last: 0, snapshots };
        assert_eq!(catalogue.known(), Ok(known));
        let raw = catalogue.store().known();
        assert_eq!((raw.code, raw.number, raw.count), (0, 0, stamp));
        assert!(raw.stamps[stamp as usize..].iter().all(|&zero| zero == 0));
    }
}

#[test]
fn a_damaged_store_tells_nothing() {
    let mut store = Catalogue::fresh().store().clone();
    store.heads.horizon = 9;
    store.heads.last = 7;
    store.heads.past = usize::MAX;
    let stamps = [0; SNAPSHOTS];
    let damaged = Knowledge { code: 2, number: 0, horizon: 0, last: 0, count: 0, stamps };
    assert_eq!(store.known(), damaged);
    assert_eq!(store.known().outcome(), Err(Refusal::Damaged));
}

#[test]
fn a_catalogue_in_a_file_knows_the_same() {
    let name = format!("known-{}", std::process::id());
    let path = std::path::Path::new(env!("CARGO_TARGET_TMPDIR")).join(name);
    let mut opened = Catalogue::open(&path).unwrap();
    opened.gossip(0, 20, &[5, 17]).unwrap();
    opened.commit(30, &[(3, 3)]).unwrap();
    let known = Known { horizon: 20, last: 30, snapshots: vec![5, 17] };
    assert_eq!(opened.known(), Ok(known.clone()));
    drop(opened);
    assert_eq!(Catalogue::open(&path).unwrap().known(), Ok(known));
    std::fs::remove_file(path).unwrap();
}
