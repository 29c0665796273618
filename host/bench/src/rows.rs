//! The rows of the comparison: a state, a call, and the code that it has to answer.

use crate::exchange;
use crate::sides::{Call, Lent, Ours, Side, Theirs};
use crate::states::{build, entries, strangers, Fill, State};
use crate::workload;
use std::collections::HashSet;
use std::rc::Rc;

/// One row of the table.
pub struct Row {
    pub name: String,
    /// How full the tables are.
    pub fill: &'static str,
    pub state: Rc<State>,
    pub call: Call,
    pub code: u64,
}

impl Row {
    /// The state on both sides, and what the call is lent.
    pub fn sides(&self) -> (Ours, Theirs, Lent) {
        let lent = Lent::new(self.state.journal.clone(), self.state.used);
        (self.state.ours(), self.state.theirs(), lent)
    }

    /// Makes the call once on both and tests that they agree in everything.
    pub fn agree(&self) {
        let (mut ours, mut theirs, mut lent) = self.sides();
        let mut other = lent.clone();
        let one = ours.run(&self.call, &mut lent);
        let two = theirs.run(&self.call, &mut other);
        let about = format!("{} ({})", self.name, self.fill);
        assert_eq!(one, two, "answers of {about}");
        assert_eq!(one.code, self.code, "code of {about}");
        assert!(lent == other, "journal or buffer of {about}");
        assert!(ours.contents() == theirs.contents(), "contents after {about}");
    }
}

/// Collects rows on one state.
pub struct On<'a> {
    pub rows: &'a mut Vec<Row>,
    pub fill: &'static str,
    pub state: Rc<State>,
}

impl On<'_> {
    pub fn add(&mut self, name: impl Into<String>, code: u64, call: Call) {
        let state = self.state.clone();
        self.rows.push(Row { name: name.into(), fill: self.fill, state, call, code });
    }
}

fn commit(state: &State, objects: &[u64]) -> Call {
    let t = state.clone().stamp();
    Call::Commit { t, objects: objects.to_vec(), values: vec![t ^ 0x5a5a; objects.len()] }
}

pub const EMPTY: Fill = Fill { pending: 0, past: 0, snapshots: 0, copies: 0 };
pub const HALF: Fill = Fill { pending: 64, past: 128, snapshots: 32, copies: 64 };
pub const FULL: Fill = Fill { pending: 128, past: 256, snapshots: 64, copies: 128 };

fn three() -> [(&'static str, Fill); 3] {
    [("empty", EMPTY), ("half", HALF), ("full", FULL)]
}

/// Commits. At "full" the tables have just the room that the largest of them needs.
fn commits(rows: &mut Vec<Row>) {
    let brim = Fill { pending: 112, past: 240, ..FULL };
    for (fill, rows_wanted) in [("empty", EMPTY), ("half", HALF), ("full", brim)] {
        let state = Rc::new(build(rows_wanted));
        let mut on = On { rows, fill, state: state.clone() };
        on.add("commit 1 new object", 0, commit(&state, &strangers()[..1]));
        on.add("commit 16 new objects", 0, commit(&state, &strangers()));
        if rows_wanted.pending != 0 {
            let known = entries(rows_wanted.pending);
            let last = known.len() - 16;
            on.add("commit 1 object with an entry", 0, commit(&state, &known[last / 2..][..1]));
            on.add("commit 16 objects with entries", 0, commit(&state, &known[last..]));
        }
    }
}

/// A message up to a stamp with this many stamps, evenly spread.
pub fn message(state: &State, curr: u64, count: u64) -> Call {
    let prev = state.store.horizon;
    let step = (curr - prev) / (count + 1);
    let stamps = (1..=count).map(|k| prev + k * step).collect();
    Call::Gossip { prev, curr, stamps }
}

/// Where a message ends, as its row says it: behind the horizon or behind the last commit.
pub const JUST_PAST: &str = "just past H";
pub const FAR_PAST: &str = "past L";

/// Messages. One that ends just behind the horizon drops nothing, one that ends behind the last
/// commit drops the past values that no snapshot wants. With few entries that is most of them.
fn gossips(rows: &mut Vec<Row>) {
    let brim = Fill { snapshots: 48, ..FULL };
    for (fill, rows_wanted) in [("empty", EMPTY), ("half", HALF), ("full", brim)] {
        let state = Rc::new(build(rows_wanted));
        let mut on = On { rows, fill, state: state.clone() };
        let near = (JUST_PAST, state.store.horizon + 100);
        let far = (FAR_PAST, state.store.last.max(near.1) + 100);
        let ends = if rows_wanted.past == 0 { vec![near] } else { vec![near, far] };
        for (end, count) in ends.into_iter().flat_map(|end| [(end, 0), (end, 16)]) {
            on.message(end, count);
        }
        on.add("gossip, nothing new", 1, nothing_new(&state));
    }
    let state = Rc::new(build(Fill { pending: 32, ..brim }));
    let far = (FAR_PAST, state.store.last + 100);
    On { rows, fill: "full", state }.message(far, 0);
}

/// A message that tells nothing new.
pub fn nothing_new(state: &State) -> Call {
    Call::Gossip { prev: 0, curr: state.store.horizon.min(10), stamps: vec![] }
}

impl On<'_> {
    /// A message up to a stamp; the row's name says where that is, and how many past values it drops.
    fn message(&mut self, (end, curr): (&str, u64), count: u64) {
        let call = message(&self.state, curr, count);
        let dropped = self.dropped(&call);
        self.add(format!("gossip {count} stamps {end}, drops {dropped}"), 0, call);
    }

    /// How many past values a message drops.
    pub fn dropped(&self, call: &Call) -> usize {
        let mut after = self.state.store.clone();
        if let Call::Gossip { prev, curr, stamps } = call {
            after.gossip(&mut vec![0; 1000], 0, *prev, *curr, stamps);
        }
        self.state.store.past_count - after.past_count
    }

    /// A flush that does something; the row's name says how much.
    fn flush(&mut self, page: u64) {
        let store = &self.state.store;
        let pending = &store.pending[..store.pending_count];
        let entries = pending.iter().filter(|entry| entry.object / 16 == page).count();
        let mut after = State::clone(&self.state);
        after.flush(page);
        let due = after.store.copy_count - store.copy_count;
        let noun = if entries == 1 { "entry" } else { "entries" };
        let known = if store.snapshot_count == 0 { "no snapshot" } else { &format!("{due} due") };
        self.add(format!("flush {entries} {noun}, {known}"), 0, Call::Flush { page });
    }
}

/// Flushes. Pages 0 and 1 have sixteen entries, page 4 few, page 31 none.
fn flushes(rows: &mut Vec<Row>) {
    for (fill, rows_wanted) in three() {
        let state = Rc::new(build(rows_wanted));
        On { rows, fill, state }.add("flush, nothing to do", 1, Call::Flush { page: 31 });
    }
    let mut one = State::fresh();
    one.commit(&[0]);
    On { rows, fill: "empty", state: Rc::new(one) }.flush(0);
    let quiet = Fill { past: 240, snapshots: 0, copies: 0, ..FULL };
    let brim = Fill { past: 240, copies: 96, ..FULL };
    for (fill, rows_wanted, pages) in [
        ("half", Fill { snapshots: 0, copies: 0, ..HALF }, vec![4, 1]),
        ("full", quiet, vec![4, 1]),
        ("half", HALF, vec![4, 0, 1]),
        ("full", brim, vec![4, 0, 1]),
    ] {
        let state = Rc::new(build(rows_wanted));
        let mut on = On { rows, fill, state };
        pages.into_iter().for_each(|page| on.flush(page));
    }
    On { rows, fill: "half", state: Rc::new(often_written()) }.flush(0);
}

/// Four objects of page 0, written again behind each of 31 snapshots.
fn often_written() -> State {
    let mut state = State::fresh();
    for _ in 0..31 {
        state.commit(&[0, 5, 6, 15]);
        state.gossip(1);
    }
    state.commit(&[0, 5, 6, 15]);
    state
}

/// By what the slots of a page are served as of a snapshot: copy, pending, past, disk.
fn paths(state: &State, page: u64, s: u64) -> [usize; 4] {
    let store = &state.store;
    let copies = &store.copies[..store.copy_count];
    if copies.iter().any(|copy| copy.page == page && copy.stamp >= s) {
        return [16, 0, 0, 0];
    }
    let mut served = [0; 4];
    for object in 16 * page..16 * page + 16 {
        let pending = store.pending[..store.pending_count]
            .iter()
            .any(|entry| entry.object == object && entry.latest <= s);
        let past = store.past[..store.past_count]
            .iter()
            .any(|row| row.object == object && row.from <= s && s < row.until);
        let path = match (pending, past) {
            (true, _) => 1,
            (false, true) => 2,
            (false, false) => 3,
        };
        served[path] += 1;
    }
    served
}

/// The page and snapshot that a path serves most slots of.
fn best_served(state: &State, path: usize) -> (u64, u64, usize) {
    let snapshots = &state.store.snapshots[..state.store.snapshot_count];
    let places = snapshots.iter().flat_map(|&s| (0..32).map(move |page| (s, page)));
    let (s, page) = places
        .max_by_key(|&(s, page)| paths(state, page, s)[path])
        .expect("a state with snapshots");
    (s, page, paths(state, page, s)[path])
}

fn reads(rows: &mut Vec<Row>) {
    for (fill, rows_wanted) in three() {
        let state = Rc::new(build(rows_wanted));
        let mut on = On { rows, fill, state: state.clone() };
        if rows_wanted.snapshots != 0 {
            for (path, what) in ["copy", "pending", "past", "disk"].iter().enumerate() {
                let (time, page, slots) = best_served(&state, path);
                let name = format!("snapshot read by {what}, {slots} slots");
                on.add(name, 0, Call::SnapshotRead { time, page });
            }
            let tick = state.store.horizon / 256;
            on.add("clock read, page 0", 0, Call::ClockRead { tick, page: 0 });
        }
        on.add("current read, page 0", 0, Call::CurrentRead { page: 0 });
        on.add("current read, page 31", 0, Call::CurrentRead { page: 31 });
        on.add("standing", 0, Call::Standing);
    }
}

/// Refusals that are common.
fn refusals(rows: &mut Vec<Row>) {
    for (fill, rows_wanted) in three() {
        let state = Rc::new(build(rows_wanted));
        let mut on = On { rows, fill, state: state.clone() };
        let (objects, values) = (vec![9], vec![9]);
        on.add("commit, Late", 5, Call::Commit { t: state.store.last, objects, values });
        let objects = vec![512];
        on.add("commit, Shape", 3, Call::Commit { t: u64::MAX, objects, values: vec![9] });
        let time = state.store.horizon + 1;
        on.add("snapshot read, Ahead", 13, Call::SnapshotRead { time, page: 0 });
        on.add("snapshot read, Shape", 3, Call::SnapshotRead { time: 0, page: 32 });
        if rows_wanted.past == 256 {
            on.add("commit, Past full", 9, commit(&state, &entries(128)[..1]));
            on.add("commit, Pending full", 8, commit(&state, &strangers()[..1]));
        }
    }
}

/// Fresh, and restarts from journals of one record up to the longest.
fn starts(rows: &mut Vec<Row>) {
    let state = Rc::new(build(FULL));
    On { rows, fill: "full", state }.add("fresh", 0, Call::Fresh);
    let empty = Rc::new(State::fresh());
    let mut on = On { rows, fill: "empty", state: empty };
    for (what, journal, records) in workload::journals() {
        let name = format!("restart {what}, {} bytes, {records} records", journal.len());
        on.add(name, 0, Call::Restart { journal });
    }
}

/// All rows.
pub fn rows() -> Vec<Row> {
    let mut rows = Vec::new();
    commits(&mut rows);
    gossips(&mut rows);
    flushes(&mut rows);
    reads(&mut rows);
    refusals(&mut rows);
    starts(&mut rows);
    exchange::exchanges(&mut rows);
    exchange::orders(&mut rows);
    rows
}

/// Tests that no two rows have the same name and fill.
pub fn expect_distinct(rows: &[Row]) {
    let mut labels = HashSet::new();
    for row in rows {
        assert!(labels.insert((&row.name, row.fill)), "two rows are {} ({})", row.name, row.fill);
    }
}
