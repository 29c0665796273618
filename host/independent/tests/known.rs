//! What `known` tells; its answers to damage are in `damage.rs`.

mod common;
use common::*;
use independent::*;

#[test]
fn fresh() {
    assert_eq!(Store::fresh().known(), (0, 0, known(0, 0, &[])));
    assert_eq!(Known::default(), known(0, 0, &[]));
}

/// Items 1 to 9 of the worked night.
#[test]
fn night() {
    let mut store = Store::fresh();
    let mut journal = [0; 4096];
    let mut page = [0; 16];
    let ask = |store: &Store, horizon, last, snapshots: &[u64]| {
        let before = store.clone();
        assert_eq!(store.known(), (0, 0, known(horizon, last, snapshots)));
        assert!(identical(store, &before));
    };
    assert_eq!(store.commit(&mut journal, 0, 100, &[0], &[7]), reply(0, 23, 0));
    ask(&store, 0, 100, &[]);
    assert_eq!(store.commit(&mut journal, 23, 100, &[0], &[7]), reply(5, 100, 23));
    ask(&store, 0, 100, &[]);
    assert_eq!(store.commit(&mut journal, 23, 120, &[0], &[9]), reply(0, 45, 23));
    ask(&store, 0, 120, &[]);
    assert_eq!(store.gossip(&mut journal, 45, 0, 110, &[105]), reply(0, 73, 45));
    ask(&store, 110, 120, &[105]);
    assert_eq!(store.snapshot_read(107, 0, &mut page), (0, 105));
    assert_eq!(store.snapshot_read(104, 0, &mut page), (14, 0));
    assert_eq!(store.snapshot_read(111, 0, &mut page), (13, 110));
    ask(&store, 110, 120, &[105]);
    assert_eq!(store.flush(&mut journal, 73, 0), reply(0, 77, 73));
    ask(&store, 110, 120, &[105]);
    assert_eq!(store.flush(&mut journal, 77, 0), reply(1, 77, 77));
    ask(&store, 110, 120, &[105]);
    assert_eq!(store.gossip(&mut journal, 77, 110, 200, &[]), reply(0, 97, 77));
    ask(&store, 200, 120, &[105]);

    // A restart from the journal tells the same.
    let mut again = Store::fresh();
    assert_eq!(again.restart(&journal[..97]).code, 0);
    ask(&again, 200, 120, &[105]);
}

/// All 64 snapshots are told, the last at the top; and none of them after a reset.
#[test]
fn sixty_four() {
    let mut store = Store::fresh();
    let mut journal = [0; 1000];
    let mut used = 0;
    let mut all: Vec<u64> = (1..=64).map(|number| 1000 * number).collect();
    all[63] = u64::MAX - 1;
    for stamps in all.chunks(16) {
        let answer = store.gossip(&mut journal, used, store.horizon, stamps[15], stamps);
        assert_eq!(answer.code, 0);
        used = answer.place;
    }
    assert_eq!(store.known(), (0, 0, known(u64::MAX - 1, 0, &all)));
    let answer = store.gossip(&mut journal, used, u64::MAX - 1, u64::MAX, &[u64::MAX]);
    assert_eq!(answer, reply(10, 0, used));
    assert_eq!(store.known(), (0, 0, known(u64::MAX - 1, 0, &all)));
    assert_eq!(store.gossip(&mut journal, used, u64::MAX - 1, u64::MAX, &[]).code, 0);
    assert_eq!(store.known(), (0, 0, known(u64::MAX, 0, &all)));
    store.reset();
    assert_eq!(store.known(), (0, 0, known(0, 0, &[])));
}
