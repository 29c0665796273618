//! Stores by chance: ones that are sound but that no calls may reach, and damaged ones.

use crate::chance::Chance;
use independent::{Copy, Past, Pending, Store};
use independent::{COPIES, OBJECTS, PAGES, PAST, PENDING, SNAPSHOTS};

/// Where a made store's numbers come from.
struct Source {
    /// Stamps lie from here on,
    low: u64,
    /// up to here.
    high: u64,
    /// Objects lie in these pages, from `page` on.
    page: u64,
    pages: u64,
}

impl Source {
    /// Few stamps and pages, so that rows meet often, or all of them.
    fn by_chance(chance: &mut Chance) -> Source {
        let span = chance.pick(&[10, 90, 90, 400, 100_000, u64::MAX]);
        let low = chance.pick(&[0, 0, 1, 256 * 9, u64::MAX - span]).min(u64::MAX - span);
        let pages = chance.pick(&[1, 2, 5, 32]);
        let page = chance.within(0, PAGES as u64 - pages);
        Source { low, high: low + span, page, pages }
    }

    fn stamp(&self, chance: &mut Chance) -> u64 {
        match chance.below(40) {
            0 => self.low,
            1 => self.high,
            _ => chance.within(self.low, self.high),
        }
    }

    fn object(&self, chance: &mut Chance) -> u64 {
        16 * self.page + chance.below(16 * self.pages)
    }

    fn page(&self, chance: &mut Chance) -> u64 {
        self.page + chance.below(self.pages)
    }
}

/// How many rows of a table count: none, few, nearly all or all, or any number.
fn count(chance: &mut Chance, limit: usize) -> usize {
    match chance.below(10) {
        0 => 0,
        1..=3 => chance.index(limit.min(12)),
        4..=5 => limit - chance.index(limit.min(18)),
        6..=7 => limit,
        _ => chance.index(limit + 1),
    }
}

/// A store that passes the test for damage, its rows by chance, also those past a count.
pub fn made(chance: &mut Chance) -> Box<Store> {
    let source = Source::by_chance(chance);
    let mut store = Box::new(Store::fresh());
    store.horizon = source.stamp(chance);
    store.last = source.stamp(chance);
    make_disk(&mut store, &source, chance);
    make_pending(&mut store, &source, chance);
    make_past(&mut store, &source, chance);
    make_snapshots(&mut store, chance);
    make_copies(&mut store, &source, chance);
    store
}

fn make_disk(store: &mut Store, source: &Source, chance: &mut Chance) {
    for object in 16 * source.page..16 * (source.page + source.pages) {
        store.disk_values[object as usize] = chance.next();
        if !chance.one_in(4) {
            store.disk_stamps[object as usize] = source.stamp(chance);
        }
    }
}

/// Pending entries for objects drawn without putting back.
fn make_pending(store: &mut Store, source: &Source, chance: &mut Chance) {
    let first = (16 * source.page) as usize;
    let mut objects: Vec<u64> = (first as u64..first as u64 + 16 * source.pages).collect();
    for row in &mut store.pending {
        if objects.is_empty() {
            break;
        }
        let object = objects.swap_remove(chance.index(objects.len()));
        let (one, two) = (source.stamp(chance), source.stamp(chance));
        // Mostly the first stamp comes first.
        let (first, latest) =
            if chance.one_in(8) { (one, two) } else { (one.min(two), one.max(two)) };
        *row = Pending { object, first, latest, value: chance.next() };
    }
    store.pending_count = count(chance, PENDING.min(16 * source.pages as usize));
}

/// Past values of any spans: live ones, dead ones, empty ones, overlapping ones.
fn make_past(store: &mut Store, source: &Source, chance: &mut Chance) {
    let beyond = chance.one_in(3);
    let horizon = store.horizon;
    for row in &mut store.past {
        let (one, two) = (source.stamp(chance), source.stamp(chance));
        let (from, until) =
            if chance.one_in(8) { (one, two) } else { (one.min(two), one.max(two)) };
        // A table that is to stay full has spans that reach beyond the horizon.
        let until = if beyond { until.max(horizon.saturating_add(2)) } else { until };
        let object = source.object(chance);
        *row = Past { object, from, until, value: chance.next() };
    }
    store.past_count = count(chance, PAST);
}

/// Ascending snapshots, none 0, none beyond the horizon.
fn make_snapshots(store: &mut Store, chance: &mut Chance) {
    let wanted = count(chance, SNAPSHOTS);
    if wanted as u64 > store.horizon {
        store.horizon += wanted as u64;
    }
    let near = chance.pick(&[70, 300, u64::MAX]).max(wanted as u64);
    let low = store.horizon.saturating_sub(near).max(1);
    let mut found = Vec::with_capacity(wanted);
    while found.len() < wanted {
        let missing = wanted - found.len();
        found.extend((0..missing).map(|_| chance.within(low, store.horizon)));
        found.sort_unstable();
        found.dedup();
    }
    store.snapshots[..wanted].copy_from_slice(&found);
    chance.fill(&mut store.snapshots[wanted..]);
    store.snapshot_count = wanted;
}

/// Copies of any pages and stamps, many of them equal, some of known snapshots.
fn make_copies(store: &mut Store, source: &Source, chance: &mut Chance) {
    let known = store.snapshot_count;
    for number in 0..COPIES {
        let stamp = if known > 0 && !chance.one_in(3) {
            store.snapshots[chance.index(known)]
        } else {
            source.stamp(chance)
        };
        let row = &mut store.copies[number];
        *row = Copy { page: source.page(chance), stamp, values: [0; 16] };
        chance.fill(&mut row.values);
    }
    store.copy_count = count(chance, COPIES);
}

/// Changes a few numbers of a store that passes the test for damage, and keeps it passing.
pub fn bend(store: &mut Store, chance: &mut Chance) {
    for _ in 0..chance.within(1, 3) {
        let by = chance.pick(&[1, 2, 256, 100_000]);
        match chance.below(6) {
            0 => store.horizon = store.horizon.saturating_add(by),
            1 => {
                store.last =
                    chance.pick(&[0, store.horizon, store.last.saturating_add(by), u64::MAX])
            }
            2 if store.past_count > 0 => bend_span(store, by, chance),
            3 if store.pending_count > 0 => {
                let row = &mut store.pending[chance.index(store.pending_count)];
                row.first = row.first.wrapping_add(by);
                row.latest = row.latest.wrapping_sub(by / 2);
            }
            4 if store.copy_count > 0 => {
                let row = &mut store.copies[chance.index(store.copy_count)];
                row.stamp = row.stamp.wrapping_sub(by);
            }
            _ => {
                let stamp = &mut store.disk_stamps[chance.index(OBJECTS)];
                *stamp = stamp.wrapping_add(by);
            }
        }
    }
}

/// Moves an end of a past value's span.
fn bend_span(store: &mut Store, by: u64, chance: &mut Chance) {
    let row = &mut store.past[chance.index(store.past_count)];
    if chance.one_in(2) {
        row.from = row.from.wrapping_sub(by);
    } else {
        row.until = row.until.wrapping_add(by);
    }
}

/// How many kinds of damage there are.
pub const DAMAGES: u64 = 12;

/// Damages a store in one of the ways; where its tables are too short for that, a count goes over
/// its limit.
pub fn damage(store: &mut Store, kind: u64, chance: &mut Chance) {
    let over = chance.pick(&[1, 2, 100, 1 << 32, usize::MAX / 2]);
    let all = chance.one_in(4);
    let count_over = |limit: usize| if all { usize::MAX } else { limit + over };
    match kind {
        0 => store.pending_count = count_over(PENDING),
        1 => store.past_count = count_over(PAST),
        2 => store.snapshot_count = count_over(SNAPSHOTS),
        3 => store.copy_count = count_over(COPIES),
        4..=7 => damage_row(store, kind, chance),
        _ => damage_snapshots(store, kind, chance),
    }
}

/// A number that is the limit, or over it by little or by much.
fn out_of_range(chance: &mut Chance, limit: u64) -> u64 {
    let over = chance.next() | 1 << 40;
    chance.pick(&[limit, limit + 1, limit + 256, limit + 65_536, limit << 32, over, u64::MAX])
}

/// An object or page out of range, or two entries for one object.
fn damage_row(store: &mut Store, kind: u64, chance: &mut Chance) {
    let object = out_of_range(chance, OBJECTS as u64);
    match kind {
        4 if store.pending_count > 0 => {
            store.pending[chance.index(store.pending_count)].object = object;
        }
        5 if store.past_count > 0 => store.past[chance.index(store.past_count)].object = object,
        6 if store.copy_count > 0 => {
            store.copies[chance.index(store.copy_count)].page = out_of_range(chance, PAGES as u64);
        }
        7 if store.pending_count > 1 => {
            let one = chance.index(store.pending_count - 1);
            let other = one + 1 + chance.index(store.pending_count - one - 1);
            store.pending[other].object = store.pending[one].object;
        }
        _ => store.past_count = PAST + 1,
    }
}

/// Snapshots that are 0, beyond the horizon, equal or descending.
fn damage_snapshots(store: &mut Store, kind: u64, chance: &mut Chance) {
    let count = store.snapshot_count;
    match kind {
        8 if count > 0 => store.snapshots[0] = 0,
        9 if count > 0 => store.horizon = store.snapshots[count - 1] - 1,
        10 if count > 1 => {
            let row = 1 + chance.index(count - 1);
            store.snapshots[row] = store.snapshots[row - 1];
        }
        11 if count > 1 => {
            let row = 1 + chance.index(count - 1);
            store.snapshots.swap(row - 1, row);
        }
        _ => store.snapshot_count = SNAPSHOTS + 1,
    }
}
