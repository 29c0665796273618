//! A call as data, and the two sides that it can be made on: a store and a coordinator each.

use crate::ffi;
use crate::wrappers::*;
use independent::KEPT;

/// A call with its arguments.
#[derive(Clone, Debug)]
pub enum Call {
    Commit { t: u64, objects: Vec<u64>, values: Vec<u64> },
    Gossip { prev: u64, curr: u64, stamps: Vec<u64> },
    Flush { page: u64 },
    SnapshotRead { time: u64, page: u64 },
    ClockRead { tick: u64, page: u64 },
    CurrentRead { page: u64 },
    Standing,
    Fresh,
    Restart { journal: Vec<u8> },
    Ask { to: u64 },
    Hear { message: Vec<u8> },
    Order(Order),
}

/// A call on a coordinator.
#[derive(Clone, Debug)]
pub enum Order {
    Restart { bytes: Vec<u8> },
    Grant { tick: u64, node: u64 },
    Message { prev: u64, clock: u64 },
    Serve { request: Vec<u8> },
    Keep,
}

impl Call {
    /// Whether it takes any store or coordinator, whatever it held before.
    pub fn is_start(&self) -> bool {
        matches!(self, Call::Fresh | Call::Restart { .. } | Call::Order(Order::Restart { .. }))
    }
}

/// What a call is lent besides the store or the coordinator.
#[derive(Clone, Debug, PartialEq, Eq)]
pub struct Lent {
    pub journal: Vec<u8>,
    pub used: usize,
    pub buffer: [u64; 16],
    pub bytes: [u8; KEPT],
}

impl Lent {
    /// A journal with its used length, and empty buffers.
    pub fn new(journal: Vec<u8>, used: usize) -> Lent {
        Lent { journal, used, buffer: [0; 16], bytes: [0; KEPT] }
    }
}

/// What a call answers: code, number and place, or standing's figures.
#[derive(Clone, Copy, Debug, PartialEq, Eq)]
pub struct Answer {
    pub code: u64,
    pub number: u64,
    pub rest: [u64; 5],
}

/// A store and a coordinator on which calls can be measured.
pub trait Side {
    fn run(&mut self, call: &Call, lent: &mut Lent) -> Answer;
    /// All of the memory of the store, or of the coordinator where the call is on it, as words.
    fn words(&mut self, call: &Call) -> &mut [u64];
    /// What the store and the coordinator hold, rows past a count as zeros.
    fn contents(&self) -> (Box<ffi::Store>, ffi::Coordinator);
}

/// The proved store and coordinator.
pub struct Ours {
    pub store: Box<ffi::Store>,
    pub coordinator: Box<ffi::Coordinator>,
}

/// The independent store and coordinator.
pub struct Theirs {
    pub store: Box<independent::Store>,
    pub coordinator: Box<independent::Coordinator>,
}

/// The answer of a change.
fn moved(code: u64, number: u64, place: usize) -> Answer {
    Answer { code, number, rest: [place as u64, 0, 0, 0, 0] }
}

/// The answer of a read, or of a coordinator.
fn read(code: u64, number: u64) -> Answer {
    Answer { code, number, rest: [0; 5] }
}

/// The same of ours, and of theirs.
fn read_ours(reply: ffi::Reply) -> Answer {
    read(reply.code, reply.number)
}

fn read_theirs((code, number): (u8, u64)) -> Answer {
    read(code.into(), number)
}

/// The words of a store, which is made of nothing but words.
fn words_of<T>(store: &mut T) -> &mut [u64] {
    let count = size_of::<T>() / 8;
    unsafe { std::slice::from_raw_parts_mut((store as *mut T).cast(), count) }
}

impl Side for Ours {
    fn run(&mut self, call: &Call, lent: &mut Lent) -> Answer {
        let store = &mut *self.store;
        let Lent { journal, used, buffer, bytes } = lent;
        let m = match call {
            Call::Commit { t, objects, values } => {
                measured_ours_commit(store, journal, *used, *t, objects, values)
            }
            Call::Gossip { prev, curr, stamps } => {
                measured_ours_gossip(store, journal, *used, *prev, *curr, stamps)
            }
            Call::Flush { page } => measured_ours_flush(store, journal, *used, *page),
            Call::Fresh => measured_ours_fresh(store),
            Call::Restart { journal } => measured_ours_restart(store, journal),
            Call::Standing => {
                let r = measured_ours_standing(store);
                let rest = [r.pending, r.past, r.snapshots, r.copies, r.lag as u64];
                return Answer { code: r.code, number: r.number, rest };
            }
            Call::SnapshotRead { time, page } => {
                return read_ours(measured_ours_snapshot_read(store, *time, *page, buffer));
            }
            Call::ClockRead { tick, page } => {
                return read_ours(measured_ours_clock_read(store, *tick, *page, buffer));
            }
            Call::CurrentRead { page } => {
                return read_ours(measured_ours_current_read(store, *page, buffer));
            }
            Call::Ask { to } => return read_ours(measured_ours_ask(store, *to, bytes)),
            Call::Hear { message } => measured_ours_hear(store, journal, *used, message),
            Call::Order(order) => return self.order(order, bytes),
        };
        moved(m.code, m.number, m.place)
    }

    fn words(&mut self, call: &Call) -> &mut [u64] {
        match call {
            Call::Order(_) => words_of(&mut *self.coordinator),
            _ => words_of(&mut *self.store),
        }
    }

    fn contents(&self) -> (Box<ffi::Store>, ffi::Coordinator) {
        let mut s = self.store.clone();
        s.pending[s.heads.pending..].fill([0; 4]);
        s.past[s.heads.past..].fill([0; 4]);
        s.snapshots[s.heads.snapshots..].fill(0);
        s.copies[s.heads.copies..].fill([0; 2]);
        s.copied[16 * s.heads.copies..].fill(0);
        let mut state = ffi::Coordinator::clone(&self.coordinator);
        state.granted[state.count as usize..].fill(0);
        (s, state)
    }
}

impl Ours {
    fn order(&mut self, order: &Order, bytes: &mut [u8]) -> Answer {
        let state = &mut *self.coordinator;
        read_ours(match order {
            Order::Restart { bytes } => measured_ours_coordinator_restart(state, bytes),
            Order::Grant { tick, node } => measured_ours_grant(state, *tick, *node),
            Order::Message { prev, clock } => measured_ours_message(state, *prev, *clock, bytes),
            Order::Serve { request } => measured_ours_serve(state, request, bytes),
            Order::Keep => measured_ours_keep(state, bytes),
        })
    }
}

impl Side for Theirs {
    fn run(&mut self, call: &Call, lent: &mut Lent) -> Answer {
        let store = &mut *self.store;
        let Lent { journal, used, buffer, bytes } = lent;
        let m = match call {
            Call::Commit { t, objects, values } => {
                measured_theirs_commit(store, journal, *used, *t, objects, values)
            }
            Call::Gossip { prev, curr, stamps } => {
                measured_theirs_gossip(store, journal, *used, *prev, *curr, stamps)
            }
            Call::Flush { page } => measured_theirs_flush(store, journal, *used, *page),
            Call::Fresh => measured_theirs_fresh(store),
            Call::Restart { journal } => measured_theirs_restart(store, journal),
            Call::Standing => {
                let (code, number, f) = measured_theirs_standing(store);
                let rest = [f.pending, f.past, f.snapshots, f.copies, f.lag as u64];
                return Answer { code: code.into(), number, rest };
            }
            Call::SnapshotRead { time, page } => {
                return read_theirs(measured_theirs_snapshot_read(store, *time, *page, buffer));
            }
            Call::ClockRead { tick, page } => {
                return read_theirs(measured_theirs_clock_read(store, *tick, *page, buffer));
            }
            Call::CurrentRead { page } => {
                return read_theirs(measured_theirs_current_read(store, *page, buffer));
            }
            Call::Ask { to } => return read_theirs(measured_theirs_ask(store, *to, bytes)),
            Call::Hear { message } => measured_theirs_hear(store, journal, *used, message),
            Call::Order(order) => return self.order(order, bytes),
        };
        moved(m.code.into(), m.number, m.place)
    }

    fn words(&mut self, call: &Call) -> &mut [u64] {
        match call {
            Call::Order(_) => words_of(&mut *self.coordinator),
            _ => words_of(&mut *self.store),
        }
    }

    fn contents(&self) -> (Box<ffi::Store>, ffi::Coordinator) {
        (ours_from(&self.store), ours_from_coordinator(&self.coordinator))
    }
}

impl Theirs {
    fn order(&mut self, order: &Order, bytes: &mut [u8]) -> Answer {
        let state = &mut *self.coordinator;
        read_theirs(match order {
            Order::Restart { bytes } => measured_theirs_coordinator_restart(state, bytes),
            Order::Grant { tick, node } => measured_theirs_grant(state, *tick, *node),
            Order::Message { prev, clock } => measured_theirs_message(state, *prev, *clock, bytes),
            Order::Serve { request } => measured_theirs_serve(state, request, bytes),
            Order::Keep => measured_theirs_keep(state, bytes),
        })
    }
}

/// The same coordinator as the proved one holds it.
pub fn ours_from_coordinator(of: &independent::Coordinator) -> ffi::Coordinator {
    let mut granted = [0; 64];
    let rows = of.count as usize;
    granted[..rows].copy_from_slice(&of.granted[..rows]);
    ffi::Coordinator { count: of.count, sent: of.sent, granted }
}

/// The same contents as the proved store holds them.
pub fn ours_from(s: &independent::Store) -> Box<ffi::Store> {
    let mut out = Box::new(ffi::Store {
        disk: s.disk_values,
        dated: s.disk_stamps,
        pending: [[0; 4]; 128],
        past: [[0; 4]; 256],
        snapshots: [0; 64],
        copies: [[0; 2]; 128],
        copied: [0; 2048],
        heads: ffi::Heads {
            pending: s.pending_count,
            past: s.past_count,
            snapshots: s.snapshot_count,
            copies: s.copy_count,
            horizon: s.horizon,
            last: s.last,
        },
    });
    for (to, e) in out.pending.iter_mut().zip(&s.pending[..s.pending_count]) {
        *to = [e.object, e.first, e.latest, e.value];
    }
    for (to, q) in out.past.iter_mut().zip(&s.past[..s.past_count]) {
        *to = [q.object, q.from, q.until, q.value];
    }
    out.snapshots[..s.snapshot_count].copy_from_slice(&s.snapshots[..s.snapshot_count]);
    for (number, copy) in s.copies[..s.copy_count].iter().enumerate() {
        out.copies[number] = [copy.page, copy.stamp];
        out.copied[16 * number..16 * number + 16].copy_from_slice(&copy.values);
    }
    out
}
