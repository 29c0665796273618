//! The document's worked night, item by item.

mod common;
use common::*;
use independent::*;

#[test]
fn worked_night() {
    let mut store = Store::fresh();
    let mut journal = [0xEE; 4096];
    let mut page = [99; 16];

    // 1
    assert_eq!(store.commit(&mut journal, 0, 100, &[0], &[7]), reply(0, 23, 0));
    let first =
        [0x01, 0x00, 0x14, 0x01, 0, 0, 0, 0, 0, 0, 0, 0x64, 0x01, 0, 0, 0, 0, 0, 0, 0, 0, 0, 0x07];
    assert_eq!(journal[..23], first);
    assert!(journal[23..].iter().all(|&byte| byte == 0xEE));
    assert_eq!(pending_of(&store), [pending(0, 100, 100, 7)]);
    assert_eq!(store.last, 100);

    // 2
    let before = store.clone();
    assert_eq!(store.commit(&mut journal, 23, 100, &[0], &[7]), reply(5, 100, 23));
    assert!(identical(&store, &before));
    assert!(journal[23..].iter().all(|&byte| byte == 0xEE));

    // 3
    assert_eq!(store.commit(&mut journal, 23, 120, &[0], &[9]), reply(0, 45, 23));
    assert_eq!(past_of(&store), [past(0, 100, 120, 7)]);
    assert_eq!(pending_of(&store), [pending(0, 100, 120, 9)]);

    // 4
    assert_eq!(store.gossip(&mut journal, 45, 0, 110, &[105]), reply(0, 73, 45));
    let message =
        [0, 26, 2, 0, 0, 0, 0, 0, 0, 0, 0, 0, 0, 0, 0, 0, 0, 0, 110, 1, 0, 0, 0, 0, 0, 0, 0, 105];
    assert_eq!(journal[45..73], message);
    assert_eq!(snapshots_of(&store), [105]);
    assert_eq!(store.horizon, 110);

    // 5
    assert_eq!(store.snapshot_read(107, 0, &mut page), (0, 105));
    assert_eq!(page, page_with(&[(0, 7)]));

    // 6
    page = [99; 16];
    assert_eq!(store.snapshot_read(104, 0, &mut page), (14, 0));
    assert_eq!(store.snapshot_read(111, 0, &mut page), (13, 110));
    assert_eq!(page, [99; 16]);

    // 7
    assert_eq!(store.flush(&mut journal, 73, 0), reply(0, 77, 73));
    assert_eq!(journal[73..77], [0, 2, 3, 0]);
    assert_eq!(copies_of(&store), [copy(0, 105, page_with(&[(0, 7)]))]);
    assert_eq!(past_of(&store), [past(0, 100, 120, 7)]);
    assert_eq!(pending_of(&store), []);
    assert_eq!((store.disk_values[0], store.disk_stamps[0]), (9, 120));

    // 8
    let before = store.clone();
    assert_eq!(store.flush(&mut journal, 77, 0), reply(1, 77, 77));
    assert!(identical(&store, &before));
    assert!(journal[77..].iter().all(|&byte| byte == 0xEE));

    // 9
    assert_eq!(store.gossip(&mut journal, 77, 110, 200, &[]), reply(0, 97, 77));
    assert_eq!(past_of(&store), []);
    let figures = Figures { pending: 0, past: 0, snapshots: 1, copies: 1, lag: 0 };
    assert_eq!(store.standing(), (0, 0, figures));

    // 10
    let before = store.clone();
    assert_eq!(store.commit(&mut journal, 97, 200, &[0], &[1]), reply(5, 200, 97));
    assert_eq!(store.gossip(&mut journal, 97, 201, 300, &[]), reply(6, 200, 97));

    // 11
    assert_eq!(store.gossip(&mut journal, 97, 100, 300, &[106]), reply(7, 105, 97));
    assert_eq!(store.gossip(&mut journal, 97, 100, 150, &[105]), reply(1, 97, 97));
    assert!(identical(&store, &before));
    assert!(journal[97..].iter().all(|&byte| byte == 0xEE));

    // The reads of item 5 still hold, now from the archive, and the page now is the disk.
    assert_eq!(store.snapshot_read(200, 0, &mut page), (0, 105));
    assert_eq!(page, page_with(&[(0, 7)]));
    assert_eq!(store.current_read(0, &mut page), (0, 0));
    assert_eq!(page, page_with(&[(0, 9)]));

    // 12
    let mut store = Store::fresh();
    assert_eq!(store.commit(&mut journal, 0, 120, &[0], &[9]).code, 0);
    assert_eq!(store.gossip(&mut journal, 23, 0, 120, &[120]), reply(0, 51, 23));
    assert_eq!(store.snapshot_read(120, 0, &mut page), (0, 120));
    assert_eq!(page, page_with(&[(0, 9)]));

    // 13
    assert_eq!(store.restart(&first[..22]), Reply { code: 0, number: 1, place: 1 });
    assert_eq!(store, Store::fresh());
    assert_eq!(store.restart(&[]), Reply { code: 0, number: 0, place: 0 });
    assert_eq!(store, Store::fresh());
    assert_eq!(store.restart(&first), Reply { code: 0, number: 23, place: 23 });
    assert_eq!(pending_of(&store), [pending(0, 100, 100, 7)]);
}

#[test]
fn fresh_and_reset() {
    let mut store = Store::fresh();
    let mut journal = [0; 64];
    assert_eq!(store.commit(&mut journal, 0, 5, &[3], &[4]).code, 0);
    assert_ne!(store, Store::fresh());
    store.disk_values[511] = 1;
    store.past_count = usize::MAX;
    assert_eq!(store.reset(), Reply { code: 0, number: 0, place: 0 });
    assert_eq!(store, Store::fresh());
    assert_eq!(store, Store::default());
    assert_eq!(store.standing(), (0, 0, Figures::default()));
    // From place 0 the journal counts as empty: the version byte is written again.
    journal[0] = 77;
    assert_eq!(store.commit(&mut journal, 0, 5, &[3], &[4]), reply(0, 23, 0));
    assert_eq!(journal[0], 1);
}
