//! The scope document's worked night, item by item, through the safe calls.

use jibcradle::{Catalogue, Change, Copied, Past, Pending, Refusal, Standing, Store, SLOTS};

/// Item 1's journal.
const FIRST: [u8; 23] =
    [0x01, 0x00, 0x14, 0x01, 0, 0, 0, 0, 0, 0, 0, 0x64, 0x01, 0, 0, 0, 0, 0, 0, 0, 0, 0, 0x07];

/// A page that is 0 but for its first slot.
fn page(value: u64) -> [u64; SLOTS] {
    let mut page = [0; SLOTS];
    page[0] = value;
    page
}

/// The catalogue after the items up to `last`, which is 1, 3, 4, 7 or 9.
fn after_item(last: u32) -> Catalogue {
    let mut night = Catalogue::with_room(4096).unwrap();
    assert_eq!(night.commit(100, &[(0, 7)]), Ok(Change::Written(23)));
    if last >= 3 {
        assert_eq!(night.commit(120, &[(0, 9)]), Ok(Change::Written(45)));
    }
    if last >= 4 {
        assert_eq!(night.gossip(0, 110, &[105]), Ok(Change::Written(73)));
    }
    if last >= 7 {
        assert_eq!(night.flush(0), Ok(Change::Written(77)));
    }
    if last >= 9 {
        assert_eq!(night.gossip(110, 200, &[]), Ok(Change::Written(97)));
    }
    night
}

#[test]
fn items_1_and_2_a_commit_and_the_same_again() {
    let mut night = after_item(1);
    assert_eq!(night.journal(), FIRST);
    let entry = Pending { object: 0, first: 100, latest: 100, value: 7 };
    assert_eq!(night.store().pending_rows(), [entry]);
    let before = night.clone();
    assert_eq!(night.commit(100, &[(0, 7)]), Err(Refusal::Late { latest: 100 }));
    assert_eq!(night, before);
}

#[test]
fn item_3_a_past_value() {
    let night = after_item(3);
    let row = Past { object: 0, from: 100, until: 120, value: 7 };
    assert_eq!(night.store().past_rows(), [row]);
}

#[test]
fn items_4_to_6_gossip_and_reads() {
    let night = after_item(4);
    let seen = night.read(107, 0).unwrap();
    assert_eq!((seen.stamp, seen.values), (105, page(7)));
    assert_eq!(night.read(104, 0), Err(Refusal::NoSnapshot));
    assert_eq!(night.read(111, 0), Err(Refusal::Ahead { horizon: 110 }));
    assert_eq!(night.now(0), Ok(page(9)));
}

#[test]
fn items_7_and_8_a_flush_and_nothing_left_to_flush() {
    let mut night = after_item(7);
    assert_eq!(night.store().copy_rows(), [Copied { page: 0, stamp: 105 }]);
    assert_eq!(night.store().copied_values(), page(7));
    assert_eq!(night.store().past_rows().len(), 1);
    assert_eq!(night.store().pending_rows(), []);
    let before = night.clone();
    assert_eq!(night.flush(0), Ok(Change::Nothing));
    assert_eq!(night, before);
}

#[test]
fn items_9_to_11_the_horizon_moves_on() {
    let mut night = after_item(9);
    let standing = Standing { pending: 0, past: 0, snapshots: 1, copies: 1, lag: 0 };
    assert_eq!(night.standing(), Ok(standing));
    let before = night.clone();
    assert_eq!(night.commit(200, &[(0, 1)]), Err(Refusal::Late { latest: 200 }));
    assert_eq!(night.gossip(201, 300, &[]), Err(Refusal::Gap { horizon: 200 }));
    assert_eq!(night.gossip(100, 300, &[106]), Err(Refusal::Conflict { stamp: 105 }));
    assert_eq!(night.gossip(100, 150, &[105]), Ok(Change::Nothing));
    assert_eq!(night, before);
}

#[test]
fn item_12_a_snapshot_at_a_commit() {
    let mut night = Catalogue::fresh();
    assert_eq!(night.commit(120, &[(0, 9)]), Ok(Change::Written(23)));
    assert_eq!(night.gossip(0, 120, &[120]), Ok(Change::Written(51)));
    let seen = night.read(120, 0).unwrap();
    assert_eq!((seen.stamp, seen.values), (120, page(9)));
}

#[test]
fn item_13_restarts() {
    let night = Catalogue::restart(&FIRST[..22]).unwrap();
    assert_eq!((night.journal(), night.store()), (&[1][..], &Store::fresh()));
    let night = Catalogue::restart(&[]).unwrap();
    assert_eq!((night.journal(), night.store()), (&[][..], &Store::fresh()));
    assert_eq!(night, Catalogue::fresh());
}

#[test]
fn every_cut_restarts_and_goes_on() {
    let night = after_item(9);
    for cut in 0..=night.journal().len() {
        let mut again = Catalogue::restart(&night.journal()[..cut]).unwrap();
        assert!(night.journal().starts_with(again.journal()));
        assert_eq!(again.commit(1 << 20, &[(511, 3)]).map(|_| ()), Ok(()));
        assert_eq!(Catalogue::restart(again.journal()), Ok(again));
    }
    assert_eq!(Catalogue::restart(night.journal()), Ok(night));
}
