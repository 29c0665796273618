//! Calls by chance, made for the store as it stands: mostly ordinary ones, which it accepts, and
//! ones whose arguments lie at a border or beyond it.

use crate::call::{Call, Lent, Surviving, ON_STORES};
use crate::chance::Chance;
use crate::contents::{copies, past, pending, snapshots};
use crate::moods::Mood;
use crate::sides::{Post, Side};
use crate::{journals, orders, records};
use independent::{Coordinator, Store};

/// Numbers at the borders of what a page, an object or a list may be, in its own or a wider type.
const PAGES_ASIDE: [u64; 9] = [0, 31, 32, 33, 255, 256, 259, 1 << 32, u64::MAX];
const OBJECTS_ASIDE: [u64; 8] = [0, 511, 512, 513, 65_535, 65_536, 1 << 32, u64::MAX];
const LENGTHS: [usize; 9] = [0, 1, 2, 15, 16, 17, 40, 256, 272];
const STAMPS_ASIDE: [u64; 7] = [0, 1, 255, 256, 1 << 63, u64::MAX - 1, u64::MAX];
const TICKS_ASIDE: [u64; 5] = [0, (1 << 56) - 1, 1 << 56, (1 << 56) + 1, u64::MAX];

/// The store as it stands, the run's own journal, and the coordinator beside it.
pub struct View<'a> {
    pub store: &'a Store,
    pub journal: &'a [u8],
    pub place: usize,
    pub coordinator: &'a Coordinator,
    pub post: &'a Post,
}

impl Side<Store> {
    /// What the next call may be made for.
    pub fn view(&self) -> View<'_> {
        let Side { store, journal, place, coordinator, post } = self;
        View { store, journal, place: *place, coordinator, post }
    }
}

/// The next call of a run in this mood.
pub fn next(view: &View, mood: &Mood, chance: &mut Chance) -> Call {
    of_kind(chance.weighted(&mood.weights), view, mood, chance)
}

/// A call of this kind, an index to `call::KINDS`.
pub fn of_kind(kind: usize, view: &View, mood: &Mood, chance: &mut Chance) -> Call {
    match kind {
        0 => Call::Fresh,
        1 => Call::Restart(surviving(view, mood, chance)),
        2 => commit(view, mood, chance),
        3 => gossip(view, mood, chance),
        4 => {
            let page = page(view, mood, chance);
            Call::Flush { lent: lent(view, 4, mood, chance), page }
        }
        5 => {
            let (time, page) = (time(view, mood, chance), page(view, mood, chance));
            Call::SnapshotRead { time, page, buffer: buffer(mood, chance) }
        }
        6 => {
            let (tick, page) = (tick(view, mood, chance), page(view, mood, chance));
            Call::ClockRead { tick, page, buffer: buffer(mood, chance) }
        }
        7 => {
            let page = page(view, mood, chance);
            Call::CurrentRead { page, buffer: buffer(mood, chance) }
        }
        8 => Call::Standing,
        9 => Call::Known,
        10 => ask(view, mood, chance),
        11 => hear(view, mood, chance),
        _ => Call::Order(orders::of_kind(kind - ON_STORES, view.coordinator, mood, chance)),
    }
}

/// What a restart is lent: mostly the run's own journal, whole or cut.
fn surviving(view: &View, mood: &Mood, chance: &mut Chance) -> Surviving {
    let used = view.place.min(view.journal.len());
    if chance.one_in(mood.odd) {
        return Surviving::Bytes(journals::strange(&view.journal[..used], chance));
    }
    let less = match chance.below(4) {
        0 | 1 => 0,
        2 => chance.index(used.min(200) + 1),
        _ => chance.index(used + 1),
    };
    Surviving::OwnLess(less)
}

/// The journal for a record that takes `room` bytes.
pub fn lent(view: &View, room: usize, mood: &Mood, chance: &mut Chance) -> Lent {
    if !chance.one_in(mood.odd) {
        return Lent::Own;
    }
    let fitting = if view.place == 0 { room + 1 } else { room };
    match chance.below(8) {
        0 | 1 => Lent::Room(fitting),
        2 | 3 => Lent::Room(fitting - 1),
        4 => Lent::Room(chance.index(fitting)),
        5 => {
            let length = view.journal.len();
            Lent::At(chance.pick(&[0, 1, length, length + 1, usize::MAX, usize::MAX - 1]))
        }
        _ => {
            let length = chance.pick(&[0, 1, 3, fitting, fitting + 1, 65_535, 65_535, 65_536]);
            let fits = length.saturating_sub(room);
            let used = chance.pick(&[0, 1, fits, fits + 1, length, length + 1, usize::MAX]);
            Lent::Strange { length, seed: chance.next(), used }
        }
    }
}

fn commit(view: &View, mood: &Mood, chance: &mut Chance) -> Call {
    let mut objects = written(mood, chance);
    if chance.one_in(mood.odd) {
        turn_objects(&mut objects, chance);
    }
    let mut values: Vec<u64> = objects.iter().map(|_| value(chance)).collect();
    if chance.one_in(3 * mood.odd.min(1 << 32)) {
        values.resize(chance.pick(&LENGTHS), 1);
    }
    let stamp = if chance.one_in(mood.odd) {
        stamp_aside(view, chance)
    } else {
        let latest = view.store.last.max(view.store.horizon);
        latest.saturating_add(1).saturating_add(chance.below(mood.step))
    };
    let room = 12 + 10 * objects.len();
    Call::Commit { lent: lent(view, room, mood, chance), stamp, objects, values }
}

/// Different objects of the mood's.
fn written(mood: &Mood, chance: &mut Chance) -> Vec<u64> {
    let count = chance.within(1, mood.writes.min(mood.objects.len() as u64)) as usize;
    let mut objects = Vec::with_capacity(count);
    while objects.len() < count {
        let object = chance.pick(&mood.objects);
        if !objects.contains(&object) {
            objects.push(object);
        }
    }
    objects
}

/// Makes a commit's objects a list of another length, or puts one in twice or out of range.
fn turn_objects(objects: &mut Vec<u64>, chance: &mut Chance) {
    match chance.below(4) {
        0 => {
            let first = chance.below(512);
            let length = chance.pick(&LENGTHS) as u64;
            *objects = (first..first + length).map(|object| object % 512).collect();
        }
        1 => objects.push(objects[0]),
        _ => {
            let row = chance.index(objects.len());
            objects[row] = chance.pick(&OBJECTS_ASIDE);
        }
    }
}

fn value(chance: &mut Chance) -> u64 {
    let any = chance.next();
    chance.pick(&[any, any, any % 256, 0, u64::MAX])
}

fn gossip(view: &View, mood: &Mood, chance: &mut Chance) -> Call {
    let (prev, curr, stamps) = told(view, mood, chance);
    let room = 20 + 8 * stamps.len();
    Call::Gossip { lent: lent(view, room, mood, chance), prev, curr, stamps }
}

/// A message as bytes; out of the ordinary are also bytes that are none.
fn hear(view: &View, mood: &Mood, chance: &mut Chance) -> Call {
    let (prev, curr, stamps) = told(view, mood, chance);
    let mut message = records::message(prev, curr, &stamps);
    if chance.one_in(mood.odd) {
        message = records::altered(&message, chance);
    }
    Call::Hear { lent: lent(view, message.len(), mood, chance), message }
}

fn ask(view: &View, mood: &Mood, chance: &mut Chance) -> Call {
    let horizon = view.store.horizon;
    let to = if chance.one_in(mood.odd) {
        let before = horizon.saturating_sub(1);
        chance.pick(&[0, horizon / 2, before, before, horizon, u64::MAX])
    } else {
        horizon.saturating_add(chance.below(mood.step))
    };
    let buffer = if chance.one_in(mood.odd) { chance.index(41) } else { 19 };
    Call::Ask { to, buffer }
}

/// The bounds and the stamps of a message.
fn told(view: &View, mood: &Mood, chance: &mut Chance) -> (u64, u64, Vec<u64>) {
    let horizon = view.store.horizon;
    let ahead = view.store.last.saturating_sub(horizon).saturating_add(mood.step);
    let mut curr = horizon.saturating_add(chance.within(1, ahead.max(1)));
    let new = new_snapshots(view, curr, mood, chance);
    let (mut prev, mut stamps) = told_again(view, 16usize.saturating_sub(new.len()), chance);
    stamps.extend(new);
    if chance.one_in(12) {
        // A message of old news.
        curr = chance.within(prev, horizon);
        stamps.retain(|&stamp| stamp <= curr);
    }
    if chance.one_in(mood.odd) {
        turn_message(view, &mut prev, &mut curr, &mut stamps, chance);
    }
    (prev, curr, stamps)
}

/// Snapshots beyond the horizon up to `curr`, ascending, many of them at a stamp of the tables.
fn new_snapshots(view: &View, curr: u64, mood: &Mood, chance: &mut Chance) -> Vec<u64> {
    let low = view.store.horizon.saturating_add(1);
    let mut new: Vec<u64> = (0..chance.within(0, mood.snapshots))
        .map(
            |_| if chance.one_in(2) { chance.within(low, curr) } else { known_stamp(view, chance) },
        )
        .filter(|&stamp| stamp > view.store.horizon && stamp <= curr)
        .collect();
    new.sort_unstable();
    new.dedup();
    new
}

/// A start for a message at or before the horizon, and the known snapshots from there on, at most
/// so many.
fn told_again(view: &View, most: usize, chance: &mut Chance) -> (u64, Vec<u64>) {
    let known = snapshots(view.store);
    let horizon = view.store.horizon;
    if known.is_empty() {
        return (chance.pick(&[0, horizon, horizon / 2]), Vec::new());
    }
    let again = chance.index(most.min(known.len()) + 1);
    if again == 0 || chance.one_in(2) {
        let last = known[known.len() - 1];
        return (if chance.one_in(4) { last } else { horizon }, Vec::new());
    }
    let first = known.len() - again;
    let before = if first == 0 { 0 } else { known[first - 1] };
    let near = known[first].saturating_sub(1);
    (chance.pick(&[before, near, near]), known[first..].to_vec())
}

/// Makes a message one that is out of shape, leaves a gap, or tells something else.
fn turn_message(
    view: &View,
    prev: &mut u64,
    curr: &mut u64,
    stamps: &mut Vec<u64>,
    chance: &mut Chance,
) {
    let row = chance.index(stamps.len().max(1));
    match chance.below(10) {
        0 => *prev = stamp_aside(view, chance),
        1 => *curr = stamp_aside(view, chance),
        2 => stamps.insert(row.min(stamps.len()), stamp_aside(view, chance)),
        3 if !stamps.is_empty() => drop(stamps.remove(row)),
        4 if !stamps.is_empty() => stamps[row] = stamps[row].wrapping_add(1),
        5 if !stamps.is_empty() => stamps[row] = stamps[row].wrapping_sub(1),
        6 if stamps.len() > 1 => stamps.swap(0, row),
        7 => *prev = view.store.horizon.saturating_add(1),
        8 => *curr = (*curr).max(*prev).saturating_add(1),
        _ => {
            let length = chance.pick(&LENGTHS) as u64;
            *prev = view.store.horizon;
            *stamps = (1..=length).map(|step| prev.saturating_add(step)).collect();
            *curr = prev.saturating_add(length);
        }
    }
}

/// A stamp that the tables have, or one next to it.
fn known_stamp(view: &View, chance: &mut Chance) -> u64 {
    let store = view.store;
    let (pending, past) = (pending(store), past(store));
    let (snapshots, copies) = (snapshots(store), copies(store));
    let stamp = match chance.below(8) {
        0 => store.horizon,
        1 | 2 if !pending.is_empty() => pending[chance.index(pending.len())].latest,
        3 if !pending.is_empty() => pending[chance.index(pending.len())].first,
        4 if !past.is_empty() => past[chance.index(past.len())].from,
        5 if !past.is_empty() => past[chance.index(past.len())].until,
        6 if !snapshots.is_empty() => snapshots[chance.index(snapshots.len())],
        7 if !copies.is_empty() => copies[chance.index(copies.len())].stamp,
        _ => store.last,
    };
    match chance.below(4) {
        0 => stamp.saturating_add(1),
        1 => stamp.saturating_sub(1),
        _ => stamp,
    }
}

/// A stamp at some border. The highest ones are rare, since a run can't go on after them.
fn stamp_aside(view: &View, chance: &mut Chance) -> u64 {
    match chance.below(12) {
        0 => chance.pick(&STAMPS_ASIDE),
        1 => chance.next(),
        _ => known_stamp(view, chance),
    }
}

/// A page of the tables or of the mood.
fn page(view: &View, mood: &Mood, chance: &mut Chance) -> u64 {
    if chance.one_in(mood.odd) {
        return chance.pick(&PAGES_ASIDE);
    }
    let (pending, copies) = (pending(view.store), copies(view.store));
    match chance.below(5) {
        0..=2 if !pending.is_empty() => pending[chance.index(pending.len())].object / 16,
        3 if !copies.is_empty() => copies[chance.index(copies.len())].page,
        _ => chance.pick(&mood.objects) / 16,
    }
}

/// A time to read at: mostly up to the horizon.
fn time(view: &View, mood: &Mood, chance: &mut Chance) -> u64 {
    let horizon = view.store.horizon;
    if chance.one_in(mood.odd) {
        return chance.pick(&[0, 1, horizon, horizon.saturating_add(1), u64::MAX]);
    }
    match chance.below(4) {
        0 => horizon,
        1 => chance.within(0, horizon),
        _ => known_stamp(view, chance),
    }
}

fn tick(view: &View, mood: &Mood, chance: &mut Chance) -> u64 {
    if chance.one_in(mood.odd) {
        chance.pick(&TICKS_ASIDE)
    } else {
        time(view, mood, chance) / 256 + u64::from(chance.one_in(4))
    }
}

fn buffer(mood: &Mood, chance: &mut Chance) -> usize {
    if chance.one_in(3 * mood.odd.min(1 << 32)) {
        chance.pick(&LENGTHS)
    } else {
        16
    }
}
