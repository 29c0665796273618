//! Stores and coordinators to measure on, each reached by calls from a fresh one.

use crate::sides::{ours_from, ours_from_coordinator, Call, Ours, Theirs};
use independent::{Coordinator, Store};

/// How many rows each table is to have. Copies come in rounds of 32, past values in rounds of 16.
#[derive(Clone, Copy, Debug)]
pub struct Fill {
    pub pending: usize,
    pub past: usize,
    pub snapshots: usize,
    pub copies: usize,
}

/// A store, and the calls that made it: as records in a journal, and as data; beside it a
/// coordinator.
#[derive(Clone)]
pub struct State {
    pub store: Box<Store>,
    pub coordinator: Box<Coordinator>,
    pub journal: Vec<u8>,
    pub used: usize,
    pub calls: Vec<Call>,
    clock: u64,
}

/// Where the clock starts: the first milliseconds of 2026, as a stamp.
const NIGHT: u64 = 1_767_225_600_000 * 256;

/// A value for an object, with bits in all places.
fn value(t: u64, object: u64) -> u64 {
    (t ^ object << 48).wrapping_mul(0x9e37_79b9_7f4a_7c15)
}

/// The objects that have entries when there are n: the first half fills whole pages from page 0
/// on, the others lie one here and one there in pages 4 to 27.
pub fn entries(n: usize) -> Vec<u64> {
    let dense = (n / 2) as u64;
    let sparse = (0..n as u64 - dense).map(|j| 16 * (4 + j % 24) + 5 * (j / 24));
    (0..dense).chain(sparse).collect()
}

/// Sixteen objects that have none.
pub fn strangers() -> Vec<u64> {
    (0..16).map(|k| 16 * (4 + k) + 12).collect()
}

impl State {
    pub fn fresh() -> State {
        let (store, coordinator) = (Box::new(Store::fresh()), Box::new(Coordinator::fresh()));
        let journal = vec![0; 65_535];
        State { store, coordinator, journal, used: 0, calls: Vec::new(), clock: NIGHT }
    }

    /// A coordinator with this many grants, beside a fresh store.
    pub fn granting(count: usize) -> State {
        let mut state = State::fresh();
        for _ in 0..count {
            let stamp = state.stamp();
            assert_eq!(state.coordinator.grant(stamp / 256, stamp % 256), (0, stamp));
        }
        state
    }

    /// It in the proved store and coordinator.
    pub fn ours(&self) -> Ours {
        let coordinator = Box::new(ours_from_coordinator(&self.coordinator));
        Ours { store: ours_from(&self.store), coordinator }
    }

    /// It in the independent ones.
    pub fn theirs(&self) -> Theirs {
        Theirs { store: self.store.clone(), coordinator: self.coordinator.clone() }
    }

    /// The next stamp: ticks four apart, of node 7.
    pub fn stamp(&mut self) -> u64 {
        self.clock += 4 * 256;
        self.clock + 7
    }

    fn done(&mut self, reply: independent::Reply, call: Call) {
        assert_eq!(reply.code, 0, "a call that builds a state is refused: {reply:?}");
        self.used = reply.place;
        self.calls.push(call);
    }

    pub fn commit(&mut self, objects: &[u64]) {
        let t = self.stamp();
        let values: Vec<u64> = objects.iter().map(|&object| value(t, object)).collect();
        let reply = self.store.commit(&mut self.journal, self.used, t, objects, &values);
        self.done(reply, Call::Commit { t, objects: objects.to_vec(), values });
    }

    /// A message from the horizon on, with this many stamps.
    pub fn gossip(&mut self, count: usize) {
        let stamps: Vec<u64> = (0..count).map(|_| self.stamp()).collect();
        let curr = self.stamp();
        let prev = self.store.horizon;
        let reply = self.store.gossip(&mut self.journal, self.used, prev, curr, &stamps);
        self.done(reply, Call::Gossip { prev, curr, stamps });
    }

    pub fn flush(&mut self, page: u64) {
        let reply = self.store.flush(&mut self.journal, self.used, page);
        self.done(reply, Call::Flush { page });
    }

    /// A copy of every page, for one new snapshot.
    fn copy_all(&mut self) {
        self.gossip(1);
        for page in 0..32 {
            self.commit(&[16 * page + 3]);
            self.flush(page);
        }
    }

    /// Writes sixteen objects that have entries, which leaves sixteen past values. Those of page
    /// 0 are left alone where there are others.
    fn overwrite(&mut self, entries: &[u64], round: usize) {
        let entries = if entries.len() > 16 { &entries[16..] } else { entries };
        let objects: Vec<u64> = entries.iter().cycle().skip(16 * round).take(16).copied().collect();
        self.commit(&objects);
    }
}

/// A store with that many rows. Half of the past values are wanted by snapshots, the others lie
/// beyond the horizon.
pub fn build(fill: Fill) -> State {
    let mut state = State::fresh();
    for _ in 0..fill.copies / 32 {
        state.copy_all();
    }
    state.gossip(0);
    let entries = entries(fill.pending);
    for objects in entries.chunks(16) {
        state.commit(objects);
    }
    let rounds = fill.past / 16;
    let wanted = (rounds / 2).min(fill.snapshots.saturating_sub(fill.copies / 32));
    for round in 0..wanted {
        state.gossip(1);
        state.overwrite(&entries, round);
    }
    while state.store.snapshot_count < fill.snapshots {
        state.gossip((fill.snapshots - state.store.snapshot_count).min(16));
    }
    for round in wanted..rounds {
        state.overwrite(&entries, round);
    }
    check(&state.store, fill);
    state
}

fn check(store: &Store, fill: Fill) {
    let rows = [store.pending_count, store.past_count, store.snapshot_count, store.copy_count];
    assert_eq!(rows, [fill.pending, fill.past, fill.snapshots, fill.copies], "rows of a state");
}
