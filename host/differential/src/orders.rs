//! Calls by chance on a coordinator, made for it as it stands, mostly ordinary ones.

use crate::call::Order;
use crate::chance::Chance;
use crate::contents::granted;
use crate::coordinators;
use crate::moods::Mood;
use crate::records;
use independent::{Coordinator, KEPT, MESSAGE};

const TICKS: [u64; 6] = [0, 1, (1 << 56) - 1, 1 << 56, (1 << 56) + 1, u64::MAX];
const NODES: [u64; 7] = [0, 1, 255, 256, 257, 1 << 32, u64::MAX];
const BUFFERS: [usize; 9] = [0, 1, 19, 20, 147, 148, 149, 200, 1000];

/// A call of this kind, the order's own.
pub fn of_kind(kind: usize, state: &Coordinator, mood: &Mood, chance: &mut Chance) -> Order {
    match kind {
        0 => Order::Fresh,
        1 => Order::Restart(kept(state, mood, chance)),
        2 => grant(state, mood, chance),
        3 => {
            let (prev, clock) = bounds(state, mood, chance);
            Order::Message { prev, clock, buffer: buffer(mood, chance) }
        }
        4 => {
            let (from, to) = bounds(state, mood, chance);
            let mut request = records::request(from, to);
            if chance.one_in(mood.odd) {
                request = records::altered(&request, chance);
            }
            Order::Serve { request, buffer: buffer(mood, chance) }
        }
        _ => Order::Keep { buffer: keeping(state, mood, chance) },
    }
}

/// The larger of the last stamp granted and `sent`.
pub fn top(state: &Coordinator) -> u64 {
    granted(state).last().copied().unwrap_or(0).max(state.sent)
}

/// The grant of this stamp.
pub fn grant_of(stamp: u64) -> Order {
    Order::Grant { tick: stamp / 256, node: stamp % 256 }
}

/// The next snapshot, one that is late, or a tick or a node at a border.
fn grant(state: &Coordinator, mood: &Mood, chance: &mut Chance) -> Order {
    let stamp = if chance.one_in(mood.odd) {
        near(state, chance)
    } else {
        top(state).saturating_add(1).saturating_add(chance.below(mood.step))
    };
    let mut order = grant_of(stamp);
    if let Order::Grant { tick, node } = &mut order {
        if chance.one_in(2 * mood.odd.min(1 << 32)) {
            *tick = chance.pick(&TICKS);
        }
        if chance.one_in(2 * mood.odd.min(1 << 32)) {
            *node = chance.pick(&NODES);
        }
    }
    order
}

/// A stamp that the coordinator has, or one next to it.
fn near(state: &Coordinator, chance: &mut Chance) -> u64 {
    let stamps = granted(state);
    let stamp = match chance.below(8) {
        0 => 0,
        1 => state.sent,
        2 => top(state),
        _ if stamps.is_empty() => state.sent,
        3 => stamps[stamps.len() - 1],
        4 => stamps[0],
        _ => stamps[chance.index(stamps.len())],
    };
    match chance.below(4) {
        0 => stamp.saturating_add(1),
        1 => stamp.saturating_sub(1),
        _ => stamp,
    }
}

/// The bounds of a message. A clock at the very end is rare, since nothing is granted after it.
fn bounds(state: &Coordinator, mood: &Mood, chance: &mut Chance) -> (u64, u64) {
    let one = if chance.one_in(4) { 0 } else { near(state, chance) };
    let other = match chance.below(40) {
        0 => u64::MAX,
        1 => chance.next(),
        2..=6 => one,
        7..=15 => top(state).saturating_add(chance.below(mood.step)),
        _ => near(state, chance),
    };
    if chance.one_in(mood.odd) {
        (one, other)
    } else {
        (one.min(other), one.max(other))
    }
}

fn buffer(mood: &Mood, chance: &mut Chance) -> usize {
    if chance.one_in(mood.odd) {
        chance.pick(&BUFFERS)
    } else {
        MESSAGE
    }
}

/// The length of a buffer to keep the state in.
fn keeping(state: &Coordinator, mood: &Mood, chance: &mut Chance) -> usize {
    let size = coordinators::bytes_of(state).len();
    if chance.one_in(mood.odd) {
        chance.pick(&[0, 1, 9, 10, size - 1, size, size + 1, KEPT - 1, KEPT, KEPT + 1, 600])
    } else {
        KEPT
    }
}

/// Bytes to restart from: its own, another's, none, or ones that are refused.
fn kept(state: &Coordinator, mood: &Mood, chance: &mut Chance) -> Vec<u8> {
    let own = coordinators::bytes_of(state);
    match chance.below(8) {
        _ if chance.one_in(mood.odd) => coordinators::strange(&own, chance),
        0 => Vec::new(),
        1 | 2 => coordinators::bytes_of(&coordinators::made(chance)),
        3 => coordinators::strange(&own, chance),
        _ => own,
    }
}
