//! Journals for restarts: grown by accepted calls, then cut, changed or put together anew, and
//! ones of any bytes.

use crate::call::Call;
use crate::calls;
use crate::chance::{self, Chance};
use crate::moods::Mood;
use crate::records::{self, changed, framed, COMMIT, FLUSH, GOSSIP, REQUEST};
use crate::sides::{Post, Side};
use independent::{Coordinator, Store};

/// The independent store after so many calls in this mood, none of them a start, with a journal of
/// this length, beside a fresh coordinator.
pub fn reach(mood: &Mood, room: usize, most: u64, chance: &mut Chance) -> Side<Store> {
    let journal = chance::bytes(room, chance.next());
    let (store, coordinator) = (Box::new(Store::fresh()), Box::new(Coordinator::fresh()));
    let mut side = Side { store, journal, place: 0, coordinator, post: Post::default() };
    for _ in 0..most {
        let call = calls::next(&side.view(), mood, chance);
        if !matches!(call, Call::Fresh | Call::Restart(_)) {
            side.play(&call);
        }
    }
    side
}

/// A journal of accepted calls, at most so long.
pub fn grown(room: usize, chance: &mut Chance) -> Vec<u8> {
    let mood = Mood::steady(chance);
    let mut side = reach(&mood, room, 60, chance);
    side.journal.truncate(side.place);
    side.journal
}

/// The records of a journal, each with its length; what can't be one is left out.
fn records(journal: &[u8]) -> Vec<Vec<u8>> {
    let mut found = Vec::new();
    let mut left = journal.get(1..).unwrap_or(&[]);
    while let [high, low, ..] = *left {
        let end = 2 + usize::from(u16::from_be_bytes([high, low]));
        let Some(record) = left.get(..end) else { break };
        found.push(record.to_vec());
        left = &left[end..];
    }
    found
}

/// A journal that isn't one that this one's store would have written: changed, put together anew,
/// or of any bytes.
pub fn strange(journal: &[u8], chance: &mut Chance) -> Vec<u8> {
    match chance.below(10) {
        0 => chance::bytes(chance.pick(&[0, 1, 2, 3, 5, 60]), chance.next()),
        1 => chance::bytes(chance.pick(&[65_534, 65_535, 65_536, 70_000]), chance.next()),
        2 => any_records(chance),
        3 => lengthened(journal, chance),
        4 | 5 => shuffled(journal, chance),
        6 | 7 => torn(journal, chance),
        _ => changed(journal, chance),
    }
}

/// The journal with bytes after it, perhaps up to the longest that is allowed, or one more.
fn lengthened(journal: &[u8], chance: &mut Chance) -> Vec<u8> {
    let length = chance.pick(&[journal.len() + 1, journal.len() + 30, 65_535, 65_536]);
    let mut bytes = chance::bytes(length, chance.next());
    let kept = journal.len().min(length);
    bytes[..kept].copy_from_slice(&journal[..kept]);
    bytes
}

/// The journal with the begin of one more record: a length at a border, and few bytes after it.
fn torn(journal: &[u8], chance: &mut Chance) -> Vec<u8> {
    let mut bytes = if journal.is_empty() { vec![1] } else { journal.to_vec() };
    let length: u16 = chance.pick(&[0, 1, 2, 3, 18, 170, 171, 256, 65_535]);
    bytes.extend(length.to_be_bytes());
    bytes.extend(chance::bytes(chance.pick(&[0, 1, 2, 3, 170, 171]), chance.next()));
    bytes.truncate(bytes.len() - usize::from(chance.one_in(8)));
    bytes
}

/// The journal with a record doubled, left out, moved, or changed in a byte.
fn shuffled(journal: &[u8], chance: &mut Chance) -> Vec<u8> {
    let mut all = records(journal);
    if !all.is_empty() {
        let (one, other) = (chance.index(all.len()), chance.index(all.len()));
        match chance.below(4) {
            0 => all.insert(one, all[other].clone()),
            1 => drop(all.remove(one)),
            2 => all.swap(one, other),
            _ => {
                let record = changed(&all[one], chance);
                all[one] = record;
            }
        }
    }
    [vec![1], all.concat()].concat()
}

/// Records with the right version, mostly right lengths and kinds, and bodies by chance.
fn any_records(chance: &mut Chance) -> Vec<u8> {
    let mut bytes = vec![1];
    for _ in 0..chance.within(1, 12) {
        let record = any_record(chance);
        let length = if chance.one_in(12) {
            chance.pick(&[0, 1, 2, 10, 20, 170, 171, 256, 65_535])
        } else {
            record.len() as u16
        };
        bytes.extend(length.to_be_bytes());
        bytes.extend(record);
    }
    bytes
}

/// A record's kind and body: small numbers, a count that mostly fits.
fn any_record(chance: &mut Chance) -> Vec<u8> {
    let count = chance.pick(&[0, 1, 1, 2, 15, 16, 17]);
    let told = if chance.one_in(12) { chance.next() as u8 } else { count };
    let small = |chance: &mut Chance| chance.below(60).to_be_bytes();
    let kinds = [COMMIT, COMMIT, COMMIT, GOSSIP, GOSSIP, GOSSIP, FLUSH, FLUSH, 0, REQUEST, REQUEST];
    let mut record = vec![chance.pick(&kinds)];
    match record[0] {
        COMMIT => {
            record.extend(small(chance));
            record.push(told);
            for _ in 0..count {
                record.extend(chance.pick(&[0, 1, 17, 510, 511, 512, 65_535u16]).to_be_bytes());
                record.extend(small(chance));
            }
        }
        GOSSIP => {
            let prev = chance.below(30);
            record.extend(prev.to_be_bytes());
            record.extend((prev + chance.below(60)).to_be_bytes());
            record.push(told);
            let stamps = prev + 1..=prev + u64::from(count);
            stamps.for_each(|stamp| record.extend(stamp.to_be_bytes()));
        }
        REQUEST if chance.one_in(2) => record.extend([small(chance), small(chance)].concat()),
        _ => record.push(chance.pick(&[0, 1, 31, 32, 255])),
    }
    record
}

/// The record that a change would write, were it accepted; none of a call that writes none.
fn record(call: &Call) -> Option<Vec<u8>> {
    match call {
        Call::Commit { stamp, objects, values, .. } => {
            let mut body = stamp.to_be_bytes().to_vec();
            body.push(objects.len() as u8);
            for (object, value) in objects.iter().zip(values) {
                body.extend((*object as u16).to_be_bytes());
                body.extend(value.to_be_bytes());
            }
            Some(framed(COMMIT, &body))
        }
        Call::Gossip { prev, curr, stamps, .. } => Some(records::message(*prev, *curr, stamps)),
        Call::Flush { page, .. } => Some(framed(FLUSH, &[*page as u8])),
        _ => None,
    }
}

/// A journal, and behind it each time the record of one more call, though the store may refuse it.
pub fn with_one_more(chance: &mut Chance) -> Vec<Vec<u8>> {
    let mood = Mood::by_chance(chance);
    let most = chance.pick(&[20, 300, 600]);
    let side = reach(&mood, 40_000, most, chance);
    let view = side.view();
    let used = if side.place == 0 { &[1] } else { &side.journal[..side.place] };
    let request = records::request(side.store.horizon, side.store.horizon);
    (0..30)
        .filter_map(|_| record(&calls::of_kind(chance.pick(&[2, 3, 4]), &view, &mood, chance)))
        .chain([request])
        .map(|record| [used, &record].concat())
        .collect()
}
