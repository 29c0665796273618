//! Worlds: a coordinator and a store that hears of it, with messages and requests that are lost,
//! repeated and shuffled on their way, both started again at times. What is proved of worlds is
//! tested after each call.

use crate::call::{Call, Lent, Order, Surviving};
use crate::calls::{self, View};
use crate::chance::Chance;
use crate::contents::{granted, snapshots};
use crate::coordinators;
use crate::moods::Mood;
use crate::orders::{grant_of, top};
use crate::records;
use independent::{KEPT, MESSAGE, REQUEST};

/// The next call.
pub fn next(view: &View, mood: &Mood, chance: &mut Chance) -> Call {
    let state = view.coordinator;
    match chance.below(40) {
        0..=7 => {
            let late = chance.one_in(8);
            let beyond = top(state).saturating_add(1 + chance.below(mood.step));
            Call::Order(grant_of(if late { top(state) } else { beyond }))
        }
        8..=14 => message(view, mood, chance),
        15..=22 => hear(view, chance),
        23..=25 => ask(view, chance),
        26..=28 => serve(view, chance),
        29 => Call::Order(Order::Restart(coordinators::bytes_of(state))),
        30 => Call::Order(Order::Keep { buffer: KEPT }),
        31 if chance.one_in(3) => {
            let used = view.place.min(view.journal.len());
            Call::Restart(Surviving::OwnLess(chance.index(used + 1)))
        }
        32 if chance.one_in(10) => Call::Fresh,
        33 | 34 => calls::of_kind(chance.pick(&[5, 6, 7, 8, 9]), view, mood, chance),
        35 => calls::of_kind(4, view, mood, chance),
        _ => calls::of_kind(2, view, mood, chance),
    }
}

/// One of these, mostly the last.
fn carried<'a>(bytes: &'a [Vec<u8>], chance: &mut Chance) -> Option<&'a Vec<u8>> {
    let any = if bytes.is_empty() { 0 } else { chance.index(bytes.len()) };
    if chance.one_in(2) {
        bytes.get(any)
    } else {
        bytes.last()
    }
}

/// A message from where an earlier one ended, or from where the store stands.
fn message(view: &View, mood: &Mood, chance: &mut Chance) -> Call {
    let ended = carried(&view.post.messages, chance).and_then(|message| records::curr_of(message));
    let horizon = view.store.horizon;
    let prev = chance.pick(&[0, horizon, horizon, ended.unwrap_or(0), ended.unwrap_or(horizon)]);
    let clock = top(view.coordinator).saturating_add(chance.below(mood.step)).max(prev);
    Call::Order(Order::Message { prev, clock, buffer: MESSAGE })
}

/// Hears a message, sometimes one of which only a part has come, sometimes with too little room.
fn hear(view: &View, chance: &mut Chance) -> Call {
    let Some(message) = carried(&view.post.messages, chance) else {
        return Call::Standing;
    };
    let mut message = message.clone();
    let lent = if chance.one_in(12) { Lent::Room(chance.index(160)) } else { Lent::Own };
    if chance.one_in(12) {
        message.truncate(chance.index(message.len()));
    }
    Call::Hear { lent, message }
}

/// Asks for what a message has told of, or up to where the store stands.
fn ask(view: &View, chance: &mut Chance) -> Call {
    let told = carried(&view.post.messages, chance).and_then(|message| records::curr_of(message));
    Call::Ask { to: told.unwrap_or(view.store.horizon), buffer: REQUEST }
}

/// Serves a request, sometimes one of which only a part has come.
fn serve(view: &View, chance: &mut Chance) -> Call {
    let Some(request) = carried(&view.post.requests, chance) else {
        return Call::Standing;
    };
    let mut request = request.clone();
    if chance.one_in(12) {
        request.truncate(chance.index(request.len()));
    }
    Call::Order(Order::Serve { request, buffer: MESSAGE })
}

/// The codes that are proved for a call in a world, where fewer than its table allows.
fn promised(view: &View, call: &Call) -> Option<&'static [u64]> {
    match call {
        Call::Hear { message, .. } if view.post.messages.contains(message) => Some(&[0, 1, 6, 12]),
        Call::Hear { .. } => Some(&[16]),
        Call::Order(Order::Serve { request, .. }) if view.post.requests.contains(request) => {
            Some(&[0])
        }
        Call::Order(Order::Serve { .. }) => Some(&[16]),
        Call::Order(Order::Grant { .. }) => Some(&[0, 5, 10]),
        Call::Order(_) | Call::Restart(_) => Some(&[0]),
        _ => None,
    }
}

/// What isn't as it is proved for worlds, after a call that answered this code.
pub fn broken(view: &View, call: &Call, code: u64) -> Option<String> {
    if code == 2 || promised(view, call).is_some_and(|codes| !codes.contains(&code)) {
        return Some(format!("both answer {code} in a world, which may not be"));
    }
    let horizon = view.store.horizon;
    let told = granted(view.coordinator);
    let told = &told[..told.partition_point(|&stamp| stamp <= horizon)];
    (snapshots(view.store) != told)
        .then(|| format!("up to {horizon} {told:?} are granted, and the store knows others"))
}
