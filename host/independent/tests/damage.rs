//! Each kind of damage alone, for every call; and what isn't damage.

mod common;
use common::*;
use independent::*;

/// A store with something in every table.
fn sample() -> Box<Store> {
    store(
        &[pending(0, 30, 40, 5), pending(17, 35, 35, 6), pending(511, 36, 36, 7)],
        &[past(0, 30, 40, 1), past(511, 0, 36, 0)],
        &[10, 20, 30],
        &[copy(0, 10, [1; 16]), copy(31, 10, [2; 16])],
        33,
        40,
    )
}

/// All calls answer Damaged before anything else, and change nothing.
fn refused(store: &Store, what: &str) {
    let mut journal = [7u8; 300];
    // Also with arguments that are out of shape, and a used length beyond the journal.
    for (used, page, objects, buffer) in
        [(0, 0, &[3][..], 16), (50, 1, &[0, 17], 16), (301, 32, &[512], 15), (5, u64::MAX, &[], 0)]
    {
        let mut after = store.clone();
        let values = vec![1; objects.len()];
        let expected = Reply { code: 2, number: 0, place: used };
        assert_eq!(after.commit(&mut journal, used, 50, objects, &values), expected, "{what}");
        assert_eq!(after.commit(&mut journal, used, 0, &[1, 1], &values), expected, "{what}");
        assert_eq!(after.gossip(&mut journal, used, 33, 50, &[44]), expected, "{what}");
        assert_eq!(after.gossip(&mut journal, used, 9, 5, &[44, 3]), expected, "{what}");
        assert_eq!(after.flush(&mut journal, used, page), expected, "{what}");
        let mut page_buffer = vec![9; buffer];
        for time in [0, 33, u64::MAX] {
            assert_eq!(after.snapshot_read(time, page, &mut page_buffer), (2, 0), "{what}");
            assert_eq!(after.clock_read(time, page, &mut page_buffer), (2, 0), "{what}");
        }
        assert_eq!(after.current_read(page, &mut page_buffer), (2, 0), "{what}");
        assert_eq!(after.standing(), (2, 0, Figures::default()), "{what}");
        assert_eq!(after.known(), (2, 0, known(0, 0, &[])), "{what}");
        assert!(page_buffer.iter().all(|&value| value == 9), "{what}");
        assert!(identical(&after, store), "{what}");
    }
    assert_eq!(journal, [7; 300], "{what}");

    // Fresh and Restart don't look.
    let mut after = store.clone();
    assert_eq!(after.reset(), Reply { code: 0, number: 0, place: 0 }, "{what}");
    assert_eq!(after, Store::fresh(), "{what}");
    let mut after = store.clone();
    assert_eq!(after.restart(&[1]), Reply { code: 0, number: 1, place: 1 }, "{what}");
    assert_eq!(after, Store::fresh(), "{what}");
    let mut after = store.clone();
    assert_eq!(after.restart(&[9]), Reply { code: 15, number: 9, place: 0 }, "{what}");
    assert_eq!(after, Store::fresh(), "{what}");
}

#[test]
fn the_sample_is_sound() {
    let figures = Figures { pending: 3, past: 2, snapshots: 3, copies: 2, lag: 0 };
    assert_eq!(sample().standing(), (0, 0, figures));
    assert_eq!(sample().known(), (0, 0, known(33, 40, &[10, 20, 30])));
}

#[test]
fn counts_over_their_limits() {
    for over in [1, 2, 1000, usize::MAX / 2, usize::MAX] {
        let set = |limit: usize| limit.saturating_add(over);
        let mut store = sample();
        // Rows that would otherwise be sound.
        for (row, object) in store.pending.iter_mut().zip(0..) {
            *row = pending(object, 40, 40, 1);
        }
        store.pending_count = set(PENDING);
        refused(&store, "pending count");
        let mut store = sample();
        store.past_count = set(PAST);
        refused(&store, "past count");
        let mut store = sample();
        store.snapshots = std::array::from_fn(|number| 1 + number as u64);
        store.horizon = 100;
        store.snapshot_count = set(SNAPSHOTS);
        refused(&store, "snapshot count");
        let mut store = sample();
        store.copy_count = set(COPIES);
        refused(&store, "copy count");
    }
}

#[test]
fn counts_at_their_limits() {
    let mut store = sample();
    for (row, object) in store.pending.iter_mut().zip(0..) {
        *row = pending(4 * object, 40, 40, 1);
    }
    store.pending_count = PENDING;
    store.past_count = PAST;
    store.snapshots = std::array::from_fn(|number| 1 + number as u64);
    store.snapshot_count = SNAPSHOTS;
    store.horizon = 64;
    store.copy_count = COPIES;
    let figures = Figures { pending: 128, past: 256, snapshots: 64, copies: 128, lag: 0 };
    assert_eq!(store.standing(), (0, 0, figures));
}

#[test]
fn numbers_out_of_range() {
    for object in [512, 513, 65_536, 1 << 32, 1 << 63, u64::MAX] {
        for row in 0..3 {
            let mut store = sample();
            store.pending[row].object = object;
            refused(&store, "pending object");
        }
        for row in 0..2 {
            let mut store = sample();
            store.past[row].object = object;
            refused(&store, "past object");
        }
    }
    for page in [32, 33, 256, 1 << 32, 1 << 63, u64::MAX] {
        for row in 0..2 {
            let mut store = sample();
            store.copies[row].page = page;
            refused(&store, "copy page");
        }
    }
}

#[test]
fn two_pending_entries_for_one_object() {
    for (one, two) in [(0, 1), (1, 2), (0, 2)] {
        let mut store = sample();
        store.pending[two].object = store.pending[one].object;
        refused(&store, "two entries");
    }
    // In the first and last row of a full table.
    let mut store = sample();
    for (row, object) in store.pending.iter_mut().zip(100..) {
        *row = pending(object, 40, 40, 1);
    }
    store.pending_count = PENDING;
    assert_eq!(store.standing().0, 0);
    store.pending[PENDING - 1].object = 100;
    refused(&store, "first and last");
}

#[test]
fn wrong_snapshots() {
    for (what, snapshots) in [
        ("first is 0", [0, 20, 30]),
        ("all 0", [0, 0, 0]),
        ("0 in the middle", [10, 0, 30]),
        ("0 last", [10, 20, 0]),
        ("equal at the start", [10, 10, 30]),
        ("equal at the end", [10, 20, 20]),
        ("descending at the start", [20, 10, 30]),
        ("descending at the end", [10, 30, 20]),
        ("last beyond the horizon", [10, 20, 34]),
        ("far beyond", [10, 20, u64::MAX]),
        ("middle beyond", [10, 34, 30]),
    ] {
        let mut store = sample();
        store.snapshots[..3].copy_from_slice(&snapshots);
        refused(&store, what);
    }
    let mut one = store(&[], &[], &[0], &[], 0, 0);
    refused(&one, "only 0");
    one.snapshots[0] = 1;
    refused(&one, "beyond horizon 0");
    one.horizon = 1;
    assert_eq!(one.standing().0, 0);
}

/// Damage is given for nothing else.
#[test]
fn what_is_not_damage() {
    let odd = store(
        // Latest before first, and both far beyond the last commit.
        &[pending(5, 90, 8, 1), pending(6, 0, 0, 1), pending(7, u64::MAX, u64::MAX, 1)],
        // Spans empty, turned round, dead, overlapping and twice the same.
        &[past(5, 9, 9, 1), past(5, 9, 8, 1), past(5, 0, 1, 1), past(5, 0, 1, 1), past(5, 0, 9, 2)],
        &[33],
        // Copies at 0, at no known snapshot, beyond the horizon, and twice the same.
        &[
            copy(0, 0, [1; 16]),
            copy(0, 5, [1; 16]),
            copy(0, u64::MAX, [1; 16]),
            copy(0, 5, [2; 16]),
        ],
        33,
        u64::MAX,
    );
    let mut odd = odd;
    odd.disk_stamps = [u64::MAX; 512];
    // Rows past a count aren't contents.
    odd.pending[3].object = 5;
    odd.pending[4].object = u64::MAX;
    odd.past[5].object = 512;
    odd.snapshots[1] = 3;
    odd.copies[4].page = 32;
    let figures =
        Figures { pending: 3, past: 5, snapshots: 1, copies: 4, lag: (u64::MAX / 256) as i64 };
    assert_eq!(odd.standing(), (0, 0, figures));
    assert_eq!(odd.known(), (0, 0, known(33, u64::MAX, &[33])));
}
