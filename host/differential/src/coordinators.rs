//! Coordinators by chance, sound ones and damaged ones, and bytes that may be those of one.

use crate::chance::{self, Chance};
use crate::contents::granted;
use crate::records::changed;
use independent::{Coordinator, GRANTS, VERSION};

/// Bytes before the stamps: the version, what was sent, and the count of stamps, which is the last.
const HEAD: usize = 10;

/// A coordinator that passes the test for damage, with any `sent`.
pub fn made(chance: &mut Chance) -> Box<Coordinator> {
    let few = chance.index(12);
    let any = chance.index(GRANTS + 1);
    let count = chance.pick(&[0, few, few, 15, 16, 17, any, any, 63, 64, 64]);
    let stamps = ascending(count, chance);
    let mut state = Box::new(Coordinator::fresh());
    chance.fill(&mut state.granted);
    state.granted[..count].copy_from_slice(&stamps);
    state.count = count as u64;
    state.sent = sent(&stamps, chance);
    state
}

/// So many stamps from 1 up, close together or not.
fn ascending(count: usize, chance: &mut Chance) -> Vec<u64> {
    let span = chance.pick(&[64, 70, 200, 100_000, 1 << 50, u64::MAX - 1]).max(count as u64);
    let low = 1 + chance.pick(&[0, 0, 255, 1 << 40]).min(u64::MAX - 1 - span);
    let mut found = Vec::with_capacity(count);
    while found.len() < count {
        let missing = count - found.len();
        found.extend((0..missing).map(|_| chance.within(low, low + span)));
        found.sort_unstable();
        found.dedup();
    }
    found
}

/// What was sent, at any place among the stamps or beside them.
fn sent(stamps: &[u64], chance: &mut Chance) -> u64 {
    let any = if stamps.is_empty() { 0 } else { stamps[chance.index(stamps.len())] };
    let last = stamps.last().copied().unwrap_or(0);
    let (before, behind) = (any.saturating_sub(1), last.saturating_add(1));
    let far = if chance.one_in(8) { u64::MAX } else { last.saturating_add(300) };
    chance.pick(&[0, 0, before, any, last, last, behind, far])
}

/// How many kinds of damage there are.
pub const DAMAGES: u64 = 4;

/// Damages a coordinator in one of the ways; where it has too few stamps for that, its count goes
/// over the limit.
pub fn damage(state: &mut Coordinator, kind: u64, chance: &mut Chance) {
    let count = granted(state).len();
    let row = 1 + chance.index(count.max(2) - 1);
    match kind {
        1 if count > 0 => state.granted[0] = 0,
        2 if count > 1 => state.granted[row] = state.granted[row - 1],
        3 if count > 1 => state.granted.swap(row - 1, row),
        _ => state.count = chance.pick(&[65, 65, 66, 67, 128, 256, 1 << 32, u64::MAX]),
    }
}

/// The bytes of a coordinator with this `sent` and these stamps, if they are those of one.
pub fn bytes(sent: u64, stamps: &[u64]) -> Vec<u8> {
    let stamps: Vec<u8> = stamps.iter().flat_map(|stamp| stamp.to_be_bytes()).collect();
    let count = (stamps.len() / 8) as u8;
    [&[VERSION], &sent.to_be_bytes()[..], &[count], &stamps].concat()
}

/// The bytes of a coordinator, damaged or not.
pub fn bytes_of(state: &Coordinator) -> Vec<u8> {
    bytes(state.sent, granted(state))
}

/// Bytes that a coordinator may not have written: these cut, changed or put together anew, or ones
/// of any kind.
pub fn strange(own: &[u8], chance: &mut Chance) -> Vec<u8> {
    let any = |length: usize, chance: &mut Chance| chance::bytes(length, chance.next());
    match chance.below(11) {
        0 => any(chance.index(600), chance),
        1 => [&[VERSION], &any(chance.index(600), chance)[..]].concat(),
        2 => fitting(chance),
        3 => own[..chance.index(own.len())].to_vec(),
        4 => {
            let more = chance.pick(&[1, 7, 8, 9, 30]);
            [own, &any(more, chance)].concat()
        }
        5 | 6 => changed(own, chance),
        7 => recounted(own, chance),
        8 | 9 => {
            let mut state = made(chance);
            damage(&mut state, chance.within(1, DAMAGES - 1), chance);
            bytes_of(&state)
        }
        _ => {
            let count = chance.pick(&[65, 66, 128, 255, 256]);
            bytes(chance.next(), &ascending(count, chance))
        }
    }
}

/// Any bytes, but of the right version, and with the count that their length wants.
fn fitting(chance: &mut Chance) -> Vec<u8> {
    let count = chance.pick(&[0, 1, 2, 3, 8, 64, 65]);
    let stamps: Vec<u64> = (0..count).map(|_| chance.next()).collect();
    bytes(chance.next(), &stamps)
}

/// These bytes with another count; sometimes the length is that of the count.
fn recounted(own: &[u8], chance: &mut Chance) -> Vec<u8> {
    let mut bytes = own.to_vec();
    if let Some(count) = bytes.get_mut(HEAD - 1) {
        let near = [count.wrapping_add(1), count.wrapping_sub(1), 0, 64, 65, 255];
        *count = chance.pick(&near);
        let length = HEAD + 8 * usize::from(*count);
        if chance.one_in(2) {
            bytes.resize(length, 0xFF);
        }
    }
    bytes
}
