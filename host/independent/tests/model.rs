//! The store against the slow reading, by chance: over any store, and over long runs of calls.

mod common;
use common::*;
use independent::*;

const ENDS: [u64; 6] = [0, 1, 2, u64::MAX, u64::MAX - 1, u64::MAX - 2];

fn stamp(chance: &mut Chance, top: u64) -> u64 {
    if chance.one_in(40) {
        chance.pick(&ENDS)
    } else {
        chance.below(top)
    }
}

/// A number of rows, often at or near the limit.
fn count(chance: &mut Chance, limit: u64) -> usize {
    let count = match chance.below(8) {
        0 => limit,
        1 => limit - 1,
        2 => limit - chance.below(17),
        3 => 0,
        4 => chance.below(4),
        _ => chance.below(limit + 1),
    };
    count as usize
}

/// Any store, on few pages and few stamps so that much of it meets.
fn any_store(chance: &mut Chance) -> Box<Store> {
    let mut store = Box::new(Store::fresh());
    let pages = chance.pick(&[1, 1, 2, 9, 32]);
    let top = chance.pick(&[6, 20, 90, 2000]);
    for object in 0..OBJECTS {
        store.disk_values[object] = chance.next();
        store.disk_stamps[object] = if chance.one_in(2) { 0 } else { stamp(chance, top) };
    }
    let mut objects: Vec<u64> = (0..512).collect();
    for i in 0..512 {
        let k = i + chance.below(512 - i as u64) as usize;
        objects.swap(i, k);
    }
    if chance.one_in(2) {
        objects.retain(|object| object / 16 < pages);
    }
    store.pending_count = count(chance, 128).min(objects.len());
    for (row, &object) in store.pending.iter_mut().zip(&objects) {
        let (one, two) = (stamp(chance, top), stamp(chance, top));
        let tidy = !chance.one_in(10);
        let (first, latest) = if tidy { (one.min(two), one.max(two)) } else { (one, two) };
        *row = pending(object, first, latest, chance.next());
    }
    store.past_count = count(chance, 256);
    for row in store.past.iter_mut() {
        let (one, two) = (stamp(chance, top), stamp(chance, top));
        let tidy = !chance.one_in(10);
        let (from, until) = if tidy { (one.min(two), one.max(two)) } else { (one, two) };
        *row = past(16 * chance.below(pages) + chance.below(16), from, until, chance.next());
    }
    let wanted = count(chance, 64);
    let mut snapshots: Vec<u64> = (0..wanted).map(|_| stamp(chance, top).max(1)).collect();
    snapshots.sort();
    snapshots.dedup();
    store.snapshots[..snapshots.len()].copy_from_slice(&snapshots);
    store.snapshot_count = snapshots.len();
    let newest = snapshots.last().copied().unwrap_or(0);
    store.horizon = newest.saturating_add(chance.pick(&[0, 0, 1, 2, 30]));
    store.last = chance.pick(&[0, newest, store.horizon]).saturating_add(chance.below(9));
    store.copy_count = count(chance, 128);
    if chance.one_in(3) {
        store.copy_count = store.copy_count.min(3);
    }
    for row in store.copies.iter_mut() {
        let at = match snapshots.len() {
            n if n > 0 && !chance.one_in(4) => {
                // Mostly old ones, so that some snapshots lie beyond the mark.
                let upper = 1 + chance.below(n as u64);
                snapshots[chance.below(upper) as usize / 2]
            }
            _ => stamp(chance, top),
        };
        *row = copy(chance.below(pages), at, [0; 16].map(|_| chance.next()));
    }
    if chance.one_in(25) {
        damage(chance, &mut store);
    }
    store
}

fn damage(chance: &mut Chance, store: &mut Store) {
    let over = chance.pick(&[1, 2, usize::MAX / 2]);
    match chance.below(9) {
        0 => store.pending_count = 128 + over,
        1 => store.past_count = 256 + over,
        2 => store.snapshot_count = 64 + over,
        3 => store.copy_count = 128 + over,
        4 => store.pending[chance.below(128) as usize].object = chance.pick(&[512, u64::MAX]),
        5 => store.past[chance.below(256) as usize].object = chance.pick(&[512, u64::MAX]),
        6 => store.copies[chance.below(128) as usize].page = chance.pick(&[32, u64::MAX]),
        7 => store.pending[chance.below(128) as usize].object = store.pending[0].object,
        _ => store.snapshots[chance.below(64) as usize] = chance.below(9),
    }
}

#[derive(Debug)]
enum Call {
    Commit(u64, Vec<u64>, Vec<u64>),
    Gossip(u64, u64, Vec<u64>),
    Flush(u64),
}

fn any_call(chance: &mut Chance, store: &Store) -> Call {
    let now = store.last.max(store.horizon);
    let pages = chance.pick(&[1, 2, 32]);
    match chance.below(10) {
        0..=3 => {
            let t = match chance.below(12) {
                0 => 0,
                1 => now,
                2 => u64::MAX,
                _ => now.saturating_add(chance.pick(&[1, 1, 2, 5])),
            };
            let writes = if chance.one_in(30) { chance.below(19) } else { 1 + chance.below(16) };
            let mut objects = Vec::new();
            for _ in 0..writes {
                let object = 16 * chance.below(pages) + chance.below(16);
                if chance.one_in(60) || !objects.contains(&object) {
                    objects.push(object);
                }
            }
            if chance.one_in(40) {
                objects.push(chance.pick(&[511, 512, 65536, u64::MAX]));
            }
            let mut values: Vec<u64> = objects.iter().map(|_| chance.next()).collect();
            if chance.one_in(40) {
                values.pop();
            }
            Call::Commit(t, objects, values)
        }
        4..=6 => {
            let snapshots = &store.snapshots[..store.snapshot_count.min(64)];
            let prev = match chance.below(6) {
                0 if !snapshots.is_empty() => chance.pick(snapshots),
                1 => 0,
                2 => store.horizon.saturating_add(chance.below(2)),
                3 => store.horizon.saturating_sub(chance.below(9)),
                _ => store.horizon,
            };
            let reach = chance.pick(&[0, 1, 3, 10, 40]);
            let curr = match chance.below(8) {
                0 => prev,
                1 => prev.saturating_sub(1),
                2 => u64::MAX,
                3 => prev.saturating_add(reach),
                _ => store.horizon.saturating_add(reach),
            };
            // The known ones, some more, and perhaps one spoilt.
            let mut stamps: Vec<u64> =
                snapshots.iter().copied().filter(|&s| s > prev && s <= curr).collect();
            for _ in 0..chance.below(6) {
                let s = store.horizon.saturating_add(1 + chance.below(reach + 1));
                if s <= curr || chance.one_in(20) {
                    stamps.push(s);
                }
            }
            if chance.one_in(8) && !stamps.is_empty() {
                let at = chance.below(stamps.len() as u64) as usize;
                match chance.below(3) {
                    0 => drop(stamps.remove(at)),
                    1 => stamps[at] = stamps[at].saturating_add(1),
                    _ => stamps.push(prev.saturating_add(chance.below(5))),
                }
            }
            stamps.sort();
            if !chance.one_in(20) {
                stamps.dedup();
            }
            Call::Gossip(prev, curr, stamps)
        }
        _ => Call::Flush(if chance.one_in(40) {
            chance.pick(&[31, 32, 256, u64::MAX])
        } else {
            chance.below(pages)
        }),
    }
}

/// Makes one call of both and compares everything; gives the code.
fn both(
    store: &mut Store,
    model: &mut Model,
    journal: &mut [u8],
    used: usize,
    call: &Call,
) -> Reply {
    let before = store.clone();
    let bytes = journal.to_vec();
    let room = journal.len();
    let (answer, told) = match call {
        Call::Commit(t, objects, values) => (
            store.commit(journal, used, *t, objects, values),
            model.commit(room, used, *t, objects, values),
        ),
        Call::Gossip(prev, curr, stamps) => (
            store.gossip(journal, used, *prev, *curr, stamps),
            model.gossip(room, used, *prev, *curr, stamps),
        ),
        Call::Flush(page) => (store.flush(journal, used, *page), model.flush(room, used, *page)),
    };
    assert_eq!(answer, reply(told.code, told.number, used), "{call:?}");
    if answer.code == 0 {
        assert_eq!(&Model::of(store), model, "{call:?}");
        assert_eq!(answer.place, used + told.record.len());
        assert_eq!(journal[used..answer.place], told.record);
        assert_eq!(journal[..used], bytes[..used]);
        assert_eq!(journal[answer.place..], bytes[answer.place..]);
    } else {
        assert!(identical(store, &before), "{call:?}");
        assert_eq!(journal, bytes, "{call:?}");
    }
    answer
}

fn reads(chance: &mut Chance, store: &Store, model: &Model) {
    assert_eq!(store.standing(), model.standing());
    assert_eq!(store.known(), model.known());
    for _ in 0..4 {
        let page = if chance.one_in(20) { chance.pick(&[32, u64::MAX]) } else { chance.below(3) };
        let length = if chance.one_in(20) { chance.pick(&[0, 15, 17]) } else { 16 };
        let snapshots = &store.snapshots[..store.snapshot_count.min(64)];
        let time = match chance.below(6) {
            0 => store.horizon,
            1 => store.horizon.saturating_add(1),
            2 => chance.below(store.horizon.saturating_add(1).max(1)),
            3 => stamp(chance, 20),
            _ if !snapshots.is_empty() => chance.pick(snapshots),
            _ => 0,
        };
        let tick = if chance.one_in(9) {
            chance.pick(&[0, (1 << 56) - 1, 1 << 56, u64::MAX])
        } else {
            time / 256 + chance.below(2)
        };
        let mut one = vec![3; length];
        let mut two = one.clone();
        assert_eq!(
            store.snapshot_read(time, page, &mut one),
            model.snapshot_read(time, page, &mut two)
        );
        assert_eq!(one, two);
        assert_eq!(store.clock_read(tick, page, &mut one), model.clock_read(tick, page, &mut two));
        assert_eq!(one, two);
        assert_eq!(store.current_read(page, &mut one), model.current_read(page, &mut two));
        assert_eq!(one, two);
    }
}

#[test]
fn any_store_one_call() {
    let mut chance = Chance(0x5EED_0001);
    let mut seen = [0u32; 18];
    let mut journal = vec![0; 400];
    for _ in 0..10_000 {
        let mut store = any_store(&mut chance);
        let mut model = Model::of(&store);
        reads(&mut chance, &store, &model);
        for _ in 0..4 {
            let call = any_call(&mut chance, &store);
            let room = if chance.one_in(8) { chance.below(200) as usize } else { 400 };
            let used = match chance.below(9) {
                0 => 0,
                1 => chance.below(room as u64 + 2) as usize,
                _ => chance.below(room as u64 / 2 + 1) as usize,
            };
            let answer = both(&mut store, &mut model, &mut journal[..room], used, &call);
            seen[answer.code as usize] += 1;
        }
        reads(&mut chance, &store, &model);
    }
    // Every code that a change can answer has been met.
    for (code, &times) in seen.iter().enumerate().take(13) {
        assert!(times > 20, "code {code}: {seen:?}");
    }
}

#[test]
fn runs_of_calls_and_their_restarts() {
    let mut chance = Chance(0x5EED_0002);
    for run in 0..60 {
        let mut store = Box::new(Store::fresh());
        let mut model = Model::of(&store);
        let room = if run % 3 == 0 { 900 } else { 65_535 };
        let mut journal = vec![0xA5; room];
        let mut used = 0;
        let mut restarted = Box::new(Store::fresh());
        for step in 0..300 {
            let call = any_call(&mut chance, &store);
            // Keep time from running out at once.
            let soon = 1 << 60;
            match call {
                Call::Commit(t, ..) if t > soon => continue,
                Call::Gossip(_, curr, _) if curr > soon => continue,
                _ => {}
            }
            used = both(&mut store, &mut model, &mut journal, used, &call).place;
            reads(&mut chance, &store, &model);
            if step % 10 == 0 {
                let answer = restarted.restart(&journal[..used]);
                assert_eq!(answer, reply(0, used as u64, 0));
                assert_eq!(restarted, store);
            }
        }
    }
}

#[test]
fn spoilt_journals() {
    let mut chance = Chance(0x5EED_0003);
    let mut seen = [0u32; 18];
    for _ in 0..1500 {
        let mut store = Box::new(Store::fresh());
        let mut journal = vec![0; 4000];
        let mut used = 0;
        let mut starts = vec![1];
        for _ in 0..12 {
            let answer = match any_call(&mut chance, &store) {
                Call::Commit(t, o, v) => store.commit(&mut journal, used, t, &o, &v),
                Call::Gossip(prev, curr, s) => store.gossip(&mut journal, used, prev, curr, &s),
                Call::Flush(page) => store.flush(&mut journal, used, page),
            };
            used = answer.place;
            starts.push(used.max(1));
        }
        for _ in 0..40 {
            let mut spoilt = journal[..used].to_vec();
            for _ in 0..chance.below(3) {
                if spoilt.is_empty() {
                    break;
                }
                let at = match chance.below(4) {
                    0 => 0,
                    1 => chance.pick(&starts) + chance.below(12) as usize,
                    _ => chance.below(spoilt.len() as u64) as usize,
                };
                let Some(byte) = spoilt.get_mut(at) else { continue };
                match chance.below(3) {
                    0 => *byte = chance.next() as u8,
                    1 => *byte = byte.wrapping_add(1),
                    _ => *byte ^= 1 << chance.below(8),
                }
            }
            if chance.one_in(3) {
                // Say a record twice, or leave one out.
                let from = chance.pick(&starts).min(spoilt.len());
                let to = chance.pick(&starts).min(spoilt.len());
                if from < to {
                    if chance.one_in(2) {
                        let again = spoilt[from..to].to_vec();
                        spoilt.splice(to..to, again);
                    } else {
                        spoilt.drain(from..to);
                    }
                }
            }
            if chance.one_in(3) {
                spoilt.truncate(chance.below(spoilt.len() as u64 + 1) as usize);
            }
            let mut model = Model::of(&store);
            let mut again = store.clone();
            let (code, number) = model.restart(&spoilt);
            assert_eq!(again.restart(&spoilt), reply(code, number, 0));
            assert_eq!(Model::of(&again), model);
            seen[code as usize] += 1;
        }
    }
    for code in [0, 15, 16, 17] {
        assert!(seen[code] > 100, "{seen:?}");
    }
}
