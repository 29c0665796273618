//! Stamps at both ends, tables exactly full and one over, equal copies, spans that touch, and the
//! document's easy ways to get the past wrong.

mod common;
use common::*;
use independent::*;

const TOP: u64 = u64::MAX;

fn read(store: &Store, time: u64, page: u64) -> (u64, [u64; 16]) {
    let mut buffer = [99; 16];
    let (code, number) = store.snapshot_read(time, page, &mut buffer);
    assert_eq!(code, 0);
    (number, buffer)
}

#[test]
fn stamp_zero() {
    let mut store = Store::fresh();
    let mut journal = [0; 200];
    assert_eq!(store.commit(&mut journal, 0, 0, &[1], &[2]), reply(5, 0, 0));
    assert_eq!(store.gossip(&mut journal, 0, 0, 0, &[]), reply(1, 0, 0));
    assert_eq!(store.commit(&mut journal, 0, 1, &[1], &[2]), reply(0, 23, 0));
    assert_eq!(store.snapshot_read(0, 0, &mut [0; 16]), (14, 0));
    assert_eq!(store, {
        let mut other = Store::fresh();
        other.pending[0] = pending(1, 1, 1, 2);
        other.pending_count = 1;
        other.last = 1;
        other
    });
}

#[test]
fn stamp_at_the_top() {
    let mut store = Store::fresh();
    let mut journal = [0; 400];
    let mut used = 0;
    let mut go = |answer: Reply| {
        assert_eq!(answer.code, 0);
        used = answer.place;
        used
    };
    let at = go(store.commit(&mut journal, 0, TOP - 1, &[1], &[2]));
    let at = go(store.commit(&mut journal, at, TOP, &[1, 2], &[3, 4]));
    // The span TOP - 1 to TOP holds one stamp, beyond the horizon.
    assert_eq!(past_of(&store), [past(1, TOP - 1, TOP, 2)]);
    assert_eq!(store.commit(&mut journal, at, TOP, &[1], &[5]), reply(5, TOP, at));
    assert_eq!(store.standing().2.lag, (1 << 56) - 1);
    let at = go(store.gossip(&mut journal, at, 0, TOP - 1, &[TOP - 1]));
    assert_eq!(past_of(&store), [past(1, TOP - 1, TOP, 2)]);
    assert_eq!(read(&store, TOP - 1, 0), (TOP - 1, page_with(&[(1, 2)])));
    assert_eq!(store.snapshot_read(TOP, 0, &mut [0; 16]), (13, TOP - 1));
    let at = go(store.gossip(&mut journal, at, TOP - 1, TOP, &[TOP]));
    assert_eq!(past_of(&store), [past(1, TOP - 1, TOP, 2)]);
    assert_eq!(read(&store, TOP, 0), (TOP, page_with(&[(1, 3), (2, 4)])));
    assert_eq!(store.gossip(&mut journal, at, TOP, TOP, &[]), reply(1, at as u64, at));
    assert_eq!(store.commit(&mut journal, at, TOP, &[1], &[5]), reply(5, TOP, at));
    let at = go(store.flush(&mut journal, at, 0));
    assert_eq!(copies_of(&store), [copy(0, TOP - 1, page_with(&[(1, 2)]))]);
    assert_eq!(past_of(&store), []);
    assert_eq!(read(&store, TOP - 1, 0), (TOP - 1, page_with(&[(1, 2)])));
    assert_eq!(read(&store, TOP, 0), (TOP, page_with(&[(1, 3), (2, 4)])));
    assert_eq!(store.flush(&mut journal, at, 0), reply(1, at as u64, at));
    let mut again = Store::fresh();
    assert_eq!(again.restart(&journal[..at]), reply(0, at as u64, 0));
    assert_eq!(again, store);
}

#[test]
fn lag() {
    let ask = |last, horizon, lag| {
        assert_eq!(store(&[], &[], &[], &[], horizon, last).standing().2.lag, lag);
    };
    ask(0, 0, 0);
    ask(255, 0, 0);
    ask(256, 255, 1);
    ask(255, 256, -1);
    ask(511, 256, 0);
    ask(TOP, 0, (1 << 56) - 1);
    ask(0, TOP, 1 - (1 << 56));
    ask(TOP, TOP, 0);
}

/// One stamp after the horizon a past value has no stamp beyond it; two after, it has.
#[test]
fn commit_just_after_the_horizon() {
    let start = |snapshots: &[u64], copies: &[Copy]| {
        store(&[pending(3, 10, 10, 7)], &[], snapshots, copies, 20, 10)
    };
    let after = |mut store: Box<Store>, t| {
        assert_eq!(store.commit(&mut [0; 99], 0, t, &[3], &[8]).code, 0);
        assert_eq!(pending_of(&store), [pending(3, 10, t, 8)]);
        past_of(&store).to_vec()
    };
    assert_eq!(after(start(&[], &[]), 21), []);
    assert_eq!(after(start(&[], &[]), 22), [past(3, 10, 22, 7)]);
    // A known snapshot in the span keeps it, unless the page's mark has reached it.
    assert_eq!(after(start(&[9], &[]), 21), []);
    assert_eq!(after(start(&[10], &[]), 21), [past(3, 10, 21, 7)]);
    assert_eq!(after(start(&[20], &[]), 21), [past(3, 10, 21, 7)]);
    assert_eq!(after(start(&[20], &[copy(0, 19, [0; 16])]), 21), [past(3, 10, 21, 7)]);
    assert_eq!(after(start(&[20], &[copy(0, 20, [0; 16])]), 21), []);
    assert_eq!(after(start(&[20], &[copy(1, 20, [0; 16])]), 21), [past(3, 10, 21, 7)]);
    let copies = [copy(0, 20, [0; 16]), copy(0, 3, [0; 16])];
    assert_eq!(after(start(&[20], &copies), 21), []);
    // A pending entry from the future (not a store that calls reach) leaves an empty span.
    let mut odd = start(&[20], &[]);
    odd.pending[0].latest = 30;
    assert_eq!(after(odd.clone(), 29), []);
    assert_eq!(after(odd.clone(), 30), []);
    assert_eq!(after(odd, 31), [past(3, 30, 31, 7)]);
}

#[test]
fn pending_exactly_full_and_one_over() {
    let rows: Vec<_> = (0..112).map(|object| pending(object, 5, 5, 0)).collect();
    let start = store(&rows, &[], &[], &[], 0, 5);
    let ask = |objects: Vec<u64>, code| {
        let mut store = start.clone();
        let answer = store.commit(&mut [0; 200], 0, 6, &objects, &vec![1; objects.len()]);
        assert_eq!(answer.code, code);
        store
    };
    let full = ask((200..216).collect(), 0);
    assert_eq!(full.pending_count, 128);
    // Its own objects it can still write, another one it can't.
    let mut more = full.clone();
    assert_eq!(more.commit(&mut [0; 99], 0, 7, &[0, 215], &[1, 1]).code, 0);
    assert_eq!(more.commit(&mut [0; 99], 0, 8, &[0, 216], &[1, 1]), reply(8, 0, 0));
    let mut rows = start;
    rows.pending[112] = pending(400, 5, 5, 0);
    rows.pending_count = 113;
    let objects: Vec<u64> = (200..216).collect();
    assert_eq!(rows.commit(&mut [0; 200], 0, 6, &objects, &[1; 16]), reply(8, 0, 0));
    assert_eq!(rows.commit(&mut [0; 200], 0, 6, &objects[1..], &[1; 15]).code, 0);
    assert_eq!(rows.pending_count, 128);
}

#[test]
fn past_exactly_full_and_one_over_by_commit() {
    let rows: Vec<_> = (0..16).map(|object| pending(object, 5, 5, object)).collect();
    // Dead past values take room too: a commit drops none.
    let dead = vec![past(300, 3, 3, 0); 256];
    let objects: Vec<u64> = (0..16).collect();
    let ask = |rows_of_past: usize, writes: usize, t, code| {
        let mut store = store(&rows, &dead[..rows_of_past], &[], &[], 6, 5);
        let answer = store.commit(&mut [0; 200], 0, t, &objects[..writes], &vec![9; writes]);
        assert_eq!(answer.code, code);
        store
    };
    assert_eq!(ask(240, 16, 8, 0).past_count, 256);
    assert_eq!(ask(241, 16, 8, 9).past_count, 241);
    assert_eq!(ask(255, 1, 8, 0).past[255], past(0, 5, 8, 0));
    ask(256, 1, 8, 9);
    // One stamp after the horizon nothing is added, so a full table is no hindrance.
    assert_eq!(ask(256, 16, 7, 0).past_count, 256);
}

#[test]
fn snapshots_exactly_full_and_one_over() {
    let known: Vec<u64> = (1..=60).collect();
    let ask = |stamps: &[u64], code| {
        let mut store = store(&[], &[], &known, &[], 60, 0);
        let answer = store.gossip(&mut [0; 300], 0, 58, 100, stamps);
        assert_eq!(answer.code, code);
        store
    };
    let full = ask(&[59, 60, 61, 62, 63, 64], 0);
    assert_eq!(snapshots_of(&full), (1..=64).collect::<Vec<u64>>());
    assert_eq!(full.horizon, 100);
    ask(&[59, 60, 61, 62, 63, 64, 65], 10);
    let mut store = full;
    assert_eq!(store.gossip(&mut [0; 300], 0, 100, 101, &[101]), reply(10, 0, 0));
    assert_eq!(store.gossip(&mut [0; 300], 0, 100, 101, &[]).code, 0);
}

/// A page written between all of 64 snapshots: its flush makes 64 copies at once.
#[test]
fn archive_exactly_full_and_one_over() {
    let mut store = Box::new(Store::fresh());
    let mut journal = vec![0; 20_000];
    let mut used = 0;
    for round in 1..=64 {
        for (object, value) in [(0, round), (20, 1000 + round)] {
            let t = store.last.max(store.horizon) + 1;
            let answer = store.commit(&mut journal, used, t, &[object], &[value]);
            assert_eq!(answer.code, 0);
            used = answer.place;
        }
        let (prev, curr) = (store.horizon, store.last);
        let answer = store.gossip(&mut journal, used, prev, curr, &[curr]);
        assert_eq!(answer.code, 0);
        used = answer.place;
    }
    assert_eq!((store.snapshot_count, store.copy_count), (64, 0));
    let before = store.clone();
    used = store.flush(&mut journal, used, 0).place;
    // The last snapshot isn't due: nothing has been written since.
    assert_eq!(store.copy_count, 63);
    for (row, round) in store.copies[..63].iter().zip(1..) {
        assert_eq!(
            *row,
            copy(0, snapshots_of(&before)[round as usize - 1], page_with(&[(0, round)]))
        );
    }
    used = store.flush(&mut journal, used, 1).place;
    assert_eq!(store.copy_count, 126);
    assert_eq!(past_of(&store), []);
    for (page, slot, offset) in [(0, 0, 0), (1, 4, 1000)] {
        for round in 1..=64 {
            let s = store.snapshots[round as usize - 1];
            assert_eq!(read(&store, s, page), (s, page_with(&[(slot, offset + round)])));
            assert_eq!(read(&before, s, page), (s, page_with(&[(slot, offset + round)])));
        }
    }
    // The last snapshot of three pages: two more copies fit, a third doesn't.
    let t = store.last + 1;
    let answer = store.commit(&mut journal, used, t, &[1, 21, 40], &[1, 1, 1]);
    used = answer.place;
    let mut full = store.clone();
    for (page, count) in [(2, 127), (0, 128)] {
        used = full.flush(&mut journal, used, page).place;
        assert_eq!(full.copy_count, count);
    }
    let before = full.clone();
    assert_eq!(full.flush(&mut journal, used, 1), reply(11, 0, used));
    assert!(identical(&full, &before));
    // Reads of the last snapshot come from a copy, or still from the disk.
    assert_eq!(read(&full, full.horizon, 0).1, page_with(&[(0, 64)]));
    assert_eq!(read(&full, full.horizon, 1).1, page_with(&[(4, 1064)]));
    let mut again = Box::new(Store::fresh());
    assert_eq!(again.restart(&journal[..used]), reply(0, used as u64, 0));
    assert_eq!(again, full);
}

/// Fullness is judged after the dropping: a flush may drop and add in a full table.
#[test]
fn past_full_by_flush() {
    let ask = |dead_here: usize, dead_elsewhere: usize, added: usize| {
        let live = 256 - dead_here - dead_elsewhere;
        let mut pasts = vec![past(0, 90, 100, 1); live];
        pasts.extend(vec![past(1, 0, 50, 2); dead_here]);
        pasts.extend(vec![past(16, 0, 50, 2); dead_elsewhere]);
        let pendings: Vec<_> = (0..added as u64).map(|k| pending(k, 95, 96, k)).collect();
        let mut store = store(&pendings, &pasts, &[], &[], 60, 96);
        let answer = store.flush(&mut [0; 9], 0, 0);
        (answer.code, store.past_count)
    };
    assert_eq!(ask(0, 0, 1), (9, 256));
    assert_eq!(ask(1, 0, 1), (0, 256));
    assert_eq!(ask(1, 0, 2), (9, 256));
    assert_eq!(ask(16, 0, 16), (0, 256));
    assert_eq!(ask(15, 0, 16), (9, 256));
    assert_eq!(ask(16, 5, 3), (0, 243));
    // Those of other pages stay, dead or not.
    assert_eq!(ask(0, 1, 1), (9, 256));
    assert_eq!(ask(0, 256, 1), (9, 256));

    // The new mark counts: a copy made by this very flush lets go of what it replaces.
    let pasts = vec![past(0, 20, 40, 1); 256];
    let mut sample = store(&[pending(0, 40, 40, 2)], &pasts, &[30], &[], 39, 40);
    assert_eq!(sample.flush(&mut [0; 9], 0, 0).code, 0);
    assert_eq!(sample.past_count, 0);
    assert_eq!(copies_of(&sample), [copy(0, 30, page_with(&[(0, 1)]))]);
    // Without room for the copy it's the archive that is full.
    let mut sample = store(&[pending(0, 40, 40, 2)], &pasts, &[30], &[], 39, 40);
    sample.copies = [copy(7, 1, [0; 16]); 128];
    sample.copy_count = 128;
    assert_eq!(sample.flush(&mut [0; 9], 0, 0), reply(11, 0, 0));
}

/// The oldest copy at or after the snapshot serves it, the first row among equals.
#[test]
fn equal_and_later_copies() {
    let copies = [
        copy(0, 50, [1; 16]),
        copy(1, 20, [2; 16]),
        copy(0, 30, [3; 16]),
        copy(0, 30, [4; 16]),
        copy(0, 10, [5; 16]),
        copy(0, 50, [6; 16]),
    ];
    let sample = store(
        &[pending(0, 1, 1, 77)],
        &[past(1, 0, TOP, 88)],
        &[10, 11, 30, 31, 50, 51],
        &copies,
        60,
        1,
    );
    assert_eq!(read(&sample, 10, 0), (10, [5; 16]));
    assert_eq!(read(&sample, 29, 0), (11, [3; 16]));
    assert_eq!(read(&sample, 30, 0), (30, [3; 16]));
    assert_eq!(read(&sample, 49, 0), (31, [1; 16]));
    assert_eq!(read(&sample, 50, 0), (50, [1; 16]));
    assert_eq!(read(&sample, 60, 0), (51, page_with(&[(0, 77), (1, 88)])));
    assert_eq!(read(&sample, 20, 1), (11, [2; 16]));
    assert_eq!(read(&sample, 30, 1), (30, [0; 16]));
    // A copy beyond the horizon or at the top counts as well; one at 0 serves nothing.
    let sample = store(&[], &[], &[10], &[copy(3, 0, [1; 16]), copy(3, TOP, [2; 16])], 60, 1);
    assert_eq!(read(&sample, 10, 3), (10, [2; 16]));
    let sample = store(&[], &[], &[10], &[copy(3, 0, [1; 16])], 60, 1);
    assert_eq!(read(&sample, 10, 3), (10, [0; 16]));
}

/// Spans that touch share no stamp, and of spans that overlap the first row counts.
#[test]
fn touching_spans() {
    let pasts =
        [past(2, 20, 30, 23), past(2, 10, 20, 12), past(2, 30, 40, 34), past(2, 15, 25, 99)];
    let mut sample =
        store(&[pending(2, 5, 40, 45)], &pasts, &[9, 10, 19, 20, 29, 30, 39, 40, 41], &[], 41, 40);
    sample.disk_values[2] = 1;
    for (time, value) in
        [(9, 1), (10, 12), (19, 12), (20, 23), (29, 23), (30, 34), (39, 34), (40, 45), (41, 45)]
    {
        assert_eq!(read(&sample, time, 0), (time, page_with(&[(2, value)])), "{time}");
    }
    // The pending value comes before any past value, also one whose span holds the stamp.
    sample.past[0] = past(2, 0, TOP, 7);
    assert_eq!(read(&sample, 40, 0).1[2], 45);
    assert_eq!(read(&sample, 39, 0).1[2], 7);
}

/// A commit whose stamp is the snapshot's belongs to it.
#[test]
fn commit_at_the_snapshot() {
    let mut sample = Store::fresh();
    let mut journal = [0; 300];
    let used = sample.commit(&mut journal, 0, 50, &[0], &[1]).place;
    let used = sample.commit(&mut journal, used, 60, &[0], &[2]).place;
    let used = sample.commit(&mut journal, used, 70, &[0], &[3]).place;
    let used = sample.gossip(&mut journal, used, 0, 70, &[49, 50, 59, 60, 70]).place;
    let check = |sample: &Store| {
        for (time, value) in [(49, 0), (50, 1), (59, 1), (60, 2), (69, 2), (70, 3)] {
            assert_eq!(read(sample, time, 0).1, page_with(&[(0, value)]), "{time}");
        }
    };
    check(&sample);
    assert_eq!(sample.flush(&mut journal, used, 0).code, 0);
    // 50 is not due, as nothing is written between it and 59; nor is 70.
    let stamps: Vec<u64> = copies_of(&sample).iter().map(|row| row.stamp).collect();
    assert_eq!(stamps, [49, 59, 60]);
    assert_eq!(past_of(&sample), []);
    check(&sample);
}

/// A flush takes what is due of its page only, and a page without pending entries can be due.
#[test]
fn due_without_pending() {
    let mut sample = Store::fresh();
    let mut journal = [0; 300];
    let used = sample.commit(&mut journal, 0, 50, &[0, 16], &[1, 2]).place;
    let used = sample.flush(&mut journal, used, 0).place;
    assert_eq!(sample.copy_count, 0);
    // The old disk value lives until the horizon has passed it.
    assert_eq!(past_of(&sample), [past(0, 0, 50, 0)]);
    assert_eq!(pending_of(&sample), [pending(16, 50, 50, 2)]);
    let used = sample.gossip(&mut journal, used, 0, 60, &[40, 45, 55]).place;
    assert_eq!(past_of(&sample), [past(0, 0, 50, 0)]);
    assert_eq!(sample.flush(&mut journal, used, 0), reply(0, used as u64 + 4, used));
    let used = used + 4;
    // Of 40 and 45 only the latter is due; it serves 40 too.
    assert_eq!(copies_of(&sample), [copy(0, 45, [0; 16])]);
    assert_eq!(past_of(&sample), []);
    assert_eq!(read(&sample, 40, 0), (40, [0; 16]));
    assert_eq!(read(&sample, 55, 0), (55, page_with(&[(0, 1)])));
    assert_eq!(sample.flush(&mut journal, used, 0), reply(1, used as u64, used));
    // Another page, never written: nothing due.
    assert_eq!(sample.flush(&mut journal, used, 2), reply(1, used as u64, used));
    assert_eq!(sample.flush(&mut journal, used, 1).code, 0);
    assert_eq!(copies_of(&sample)[1..], [copy(1, 45, [0; 16])]);
    assert_eq!((sample.disk_values[16], sample.disk_stamps[16]), (2, 50));
}

/// What Nothing leaves alone: dead past values of the page.
#[test]
fn nothing_drops_nothing() {
    let mut sample = store(&[], &[past(0, 5, 5, 1)], &[3], &[], 60, 1);
    let before = sample.clone();
    assert_eq!(sample.flush(&mut [0; 9], 7, 0), reply(1, 7, 7));
    assert_eq!(sample.gossip(&mut [0; 99], 7, 3, 60, &[]), reply(1, 7, 7));
    assert!(identical(&sample, &before));
}

/// New rows go to the end, others keep their order; a flush's past values come in pending order.
#[test]
fn order_of_rows() {
    let pendings = [
        pending(9, 70, 71, 1),
        pending(30, 70, 72, 2),
        pending(3, 73, 74, 3),
        pending(31, 75, 75, 4),
        pending(5, 76, 76, 5),
    ];
    let pasts = [
        past(3, 0, 70, 10),  // lives
        past(4, 0, 50, 11),  // dead, on the page
        past(20, 0, 50, 12), // dead, elsewhere
        past(0, 60, 99, 13), // lives
        past(0, 0, 61, 14),  // dead by one stamp
        past(0, 0, 62, 15),  // lives by one stamp
    ];
    let mut sample = store(&pendings, &pasts, &[], &[], 60, 76);
    sample.disk_values[3] = 33;
    sample.disk_stamps[3] = 7;
    sample.disk_stamps[9] = 70;
    let mut journal = [0; 99];
    assert_eq!(sample.flush(&mut journal, 0, 0), reply(0, 5, 0));
    assert_eq!(journal[..6], [1, 0, 2, 3, 0, 0]);
    assert_eq!(pending_of(&sample), [pendings[1], pendings[3]]);
    // The disk value of object 9 had an empty span.
    assert_eq!(
        past_of(&sample),
        [pasts[0], pasts[2], pasts[3], pasts[5], past(3, 7, 73, 33), past(5, 0, 76, 0)]
    );
    assert_eq!(
        (
            sample.disk_values[3],
            sample.disk_stamps[3],
            sample.disk_values[9],
            sample.disk_stamps[9]
        ),
        (3, 74, 1, 71)
    );
    // A commit's rows come in the order of its writes.
    let answer = sample.commit(&mut journal, 5, 80, &[40, 31, 2, 30], &[6, 7, 8, 9]);
    assert_eq!(answer, reply(0, 57, 5));
    assert_eq!(
        pending_of(&sample),
        [
            pending(30, 70, 80, 9),
            pending(31, 75, 80, 7),
            pending(40, 80, 80, 6),
            pending(2, 80, 80, 8)
        ]
    );
    assert_eq!(past_of(&sample)[6..], [past(31, 75, 80, 4), past(30, 72, 80, 2)]);
    // Gossip drops the dead of all pages.
    let answer = sample.gossip(&mut journal, 57, 60, 76, &[61]);
    assert_eq!(answer, reply(0, 85, 57));
    assert_eq!(
        past_of(&sample),
        [
            past(3, 0, 70, 10),
            past(0, 60, 99, 13),
            past(0, 0, 62, 15),
            past(3, 7, 73, 33),
            past(5, 0, 76, 0),
            past(31, 75, 80, 4),
            past(30, 72, 80, 2)
        ]
    );
}

/// Gossip keeps what a known snapshot still needs, by each page's own mark.
#[test]
fn gossip_drops_by_mark() {
    let pasts = [past(0, 10, 30, 1), past(16, 10, 30, 1), past(32, 10, 30, 1), past(48, 21, 30, 1)];
    let copies = [copy(0, 20, [0; 16]), copy(1, 19, [0; 16])];
    let mut sample = store(&[], &pasts, &[20], &copies, 25, 40);
    assert_eq!(sample.gossip(&mut [0; 99], 0, 25, 28, &[]).code, 0);
    assert_eq!(past_of(&sample), pasts);
    assert_eq!(sample.gossip(&mut [0; 99], 0, 28, 29, &[]).code, 0);
    assert_eq!(past_of(&sample), &pasts[1..3]);
    // A new snapshot in the message itself keeps a value.
    let mut sample = store(&[], &pasts, &[20], &copies, 25, 40);
    assert_eq!(sample.gossip(&mut [0; 99], 0, 25, 40, &[29]).code, 0);
    assert_eq!(past_of(&sample), pasts);
    let mut sample = store(&[], &pasts, &[20], &copies, 25, 40);
    assert_eq!(sample.gossip(&mut [0; 99], 0, 25, 40, &[30]).code, 0);
    assert_eq!(past_of(&sample), &pasts[1..3]);
}

/// Only the record's bytes are written, and the version byte only at place 0.
#[test]
fn bytes_written() {
    let mut sample = Store::fresh();
    let mut journal = [0xEE; 100];
    assert_eq!(
        sample.commit(&mut journal, 1, 0x0102_0304_0506_0708, &[0x1FF, 2], &[TOP, 5]).code,
        0
    );
    let mut expected = vec![0xEE, 0, 30, 1, 1, 2, 3, 4, 5, 6, 7, 8, 2, 1, 0xFF];
    expected.extend([0xFF; 8]);
    expected.extend([0, 2, 0, 0, 0, 0, 0, 0, 0, 5]);
    assert_eq!(journal[..33], expected);
    assert!(journal[33..].iter().all(|&byte| byte == 0xEE));
    assert_eq!(sample.gossip(&mut journal, 50, 0, 0x0A, &[]), reply(0, 70, 50));
    assert_eq!(
        journal[50..71],
        [0, 18, 2, 0, 0, 0, 0, 0, 0, 0, 0, 0, 0, 0, 0, 0, 0, 0, 0x0A, 0, 0xEE]
    );
    assert!(journal[33..50].iter().all(|&byte| byte == 0xEE));
    assert_eq!(sample.flush(&mut journal, 96, 31), reply(0, 100, 96));
    assert_eq!(journal[95..], [0xEE, 0, 2, 3, 31]);
}

#[test]
fn current_and_past_reads() {
    let mut sample = store(
        &[pending(16, 30, 50, 5), pending(20, 60, 60, 6)],
        &[past(16, 30, 50, 4)],
        &[20, 40, 70],
        &[],
        70,
        60,
    );
    sample.disk_values[16..32].fill(1);
    sample.disk_stamps[16..32].fill(25);
    let now = |mut page: [u64; 16], slots: &[(usize, u64)]| {
        for &(slot, value) in slots {
            page[slot] = value;
        }
        page
    };
    let mut buffer = [0; 16];
    assert_eq!(sample.current_read(1, &mut buffer), (0, 0));
    assert_eq!(buffer, now([1; 16], &[(0, 5), (4, 6)]));
    assert_eq!(read(&sample, 69, 1), (40, now([1; 16], &[(0, 4)])));
    assert_eq!(read(&sample, 70, 1), (70, buffer));
    // The disk serves also where it was written after the snapshot and no past value is left.
    assert_eq!(read(&sample, 20, 1), (20, [1; 16]));
    // 256 x tick: tick 0 is before every snapshot.
    assert_eq!(sample.clock_read(0, 1, &mut buffer), (14, 0));
    assert_eq!(sample.clock_read(1, 1, &mut buffer), (13, 70));
    sample.horizon = 256;
    assert_eq!(sample.clock_read(1, 1, &mut buffer), (0, 70));
}
