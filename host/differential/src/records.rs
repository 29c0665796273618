//! The bytes of records as they travel, messages and requests, and other bytes in their place.

use crate::chance::{self, Chance};

/// Kinds of records.
pub const COMMIT: u8 = 1;
pub const GOSSIP: u8 = 2;
pub const FLUSH: u8 = 3;
pub const REQUEST: u8 = 4;

/// Lengths that a record may tell, or just not, and some that it may not.
pub const LENGTHS: [u16; 14] = [0, 1, 2, 3, 16, 17, 18, 19, 26, 146, 170, 171, 256, 65_535];

/// A record of this kind.
pub fn framed(kind: u8, body: &[u8]) -> Vec<u8> {
    let length = (1 + body.len()) as u16;
    [&length.to_be_bytes()[..], &[kind], body].concat()
}

/// A message with these bounds and stamps.
pub fn message(prev: u64, curr: u64, stamps: &[u64]) -> Vec<u8> {
    let told = [prev, curr].map(u64::to_be_bytes).concat();
    let stamps: Vec<u8> = stamps.iter().flat_map(|stamp| stamp.to_be_bytes()).collect();
    framed(GOSSIP, &[&told[..], &[(stamps.len() / 8) as u8], &stamps].concat())
}

/// The curr of a message.
pub fn curr_of(message: &[u8]) -> Option<u64> {
    message.get(11..)?.first_chunk().map(|bytes| u64::from_be_bytes(*bytes))
}

/// A request with these ends.
pub fn request(from: u64, to: u64) -> Vec<u8> {
    framed(REQUEST, &[from, to].map(u64::to_be_bytes).concat())
}

/// These bytes with a few of them changed.
pub fn changed(bytes: &[u8], chance: &mut Chance) -> Vec<u8> {
    let mut bytes = bytes.to_vec();
    if !bytes.is_empty() {
        for _ in 0..chance.within(1, 2) {
            let place = chance.index(bytes.len());
            let byte = bytes[place];
            let any = chance.next() as u8;
            bytes[place] = chance.pick(&[any, byte ^ 1, byte.wrapping_add(1), 0, 1, 2, 3, 255]);
        }
    }
    bytes
}

/// What is there in place of a record that should travel alone: the record with something changed,
/// cut off or put behind it, a record of another kind, or bytes of any kind.
pub fn altered(record: &[u8], chance: &mut Chance) -> Vec<u8> {
    let any = |length: usize, chance: &mut Chance| chance::bytes(length, chance.next());
    match chance.below(11) {
        0..=2 => changed(record, chance),
        3 => record[..chance.index(record.len())].to_vec(),
        4 => {
            let more = chance.pick(&[1, 2, 8, 30]);
            [record, &any(more, chance)].concat()
        }
        5 => [record, record].concat(),
        6 => with_length(record, chance.pick(&LENGTHS)),
        7 => of_kind(record, chance.pick(&[0, COMMIT, GOSSIP, FLUSH, REQUEST, 5, 255])),
        8 => another(chance),
        9 => {
            let kind = record.get(2).copied().unwrap_or(GOSSIP);
            framed(kind, &any(chance.index(220), chance))
        }
        _ => {
            let long = chance.pick(&[1000, 65_535, 65_537, 65_538, 70_000]);
            let length = if chance.one_in(100) { long } else { chance.index(221) };
            any(length, chance)
        }
    }
}

/// A record that tells another length than its own.
fn with_length(record: &[u8], length: u16) -> Vec<u8> {
    let told = length.to_be_bytes();
    told.into_iter().chain(record.iter().skip(2).copied()).collect()
}

/// A record that tells another kind than its own.
fn of_kind(record: &[u8], kind: u8) -> Vec<u8> {
    let mut record = record.to_vec();
    record.get_mut(2).into_iter().for_each(|byte| *byte = kind);
    record
}

/// A well-formed record: a commit of one write, a message, a flush or a request.
fn another(chance: &mut Chance) -> Vec<u8> {
    let (low, high) = (chance.below(600), chance.below(600));
    match chance.below(4) {
        0 => {
            let head = [&high.to_be_bytes()[..], &[1, 0, low as u8]].concat();
            framed(COMMIT, &[&head[..], &chance.next().to_be_bytes()].concat())
        }
        1 => message(low.min(high), low.max(high), &[]),
        2 => framed(FLUSH, &[chance.below(32) as u8]),
        _ => request(low, high),
    }
}

/// All cuts of some bytes, and the bytes with each of them changed to several values.
pub fn sweep(bytes: &[u8], chance: &mut Chance) -> Vec<Vec<u8>> {
    let mut all: Vec<Vec<u8>> = (0..=bytes.len()).map(|cut| bytes[..cut].to_vec()).collect();
    for (place, &byte) in bytes.iter().enumerate() {
        let any = chance.next() as u8;
        for to in [any, byte ^ 1, byte ^ 128, byte.wrapping_add(1), byte.wrapping_sub(1), 0, 255] {
            let mut changed = bytes.to_vec();
            changed[place] = to;
            all.push(changed);
        }
    }
    all
}

/// Any bytes of every length up to this one, plain and as the body of a record of this kind.
pub fn of_all_lengths(longest: usize, kind: u8, chance: &mut Chance) -> Vec<Vec<u8>> {
    let any = |length: usize| chance::bytes(length, chance.next());
    let bodies: Vec<Vec<u8>> = (0..=longest).map(any).collect();
    let records: Vec<Vec<u8>> = bodies.iter().map(|body| framed(kind, body)).collect();
    [bodies, records].concat()
}
