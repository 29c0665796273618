//! What passes between a repository and a coordinator: requests and messages as bytes, each
//! refusal in its order, and a world in which messages are lost, repeated and out of order.

mod common;
use common::*;
use independent::*;

/// The slow reading of a message: its bounds and stamps, if these bytes are one and nothing else.
fn read(bytes: &[u8]) -> Option<(u64, u64, Vec<u64>)> {
    if bytes.len() < 20 || number(&bytes[..2]) != bytes.len() as u64 - 2 || bytes[2] != 2 {
        return None;
    }
    let (prev, curr) = (number(&bytes[3..11]), number(&bytes[11..19]));
    if bytes[19] > 16 || bytes.len() != 20 + 8 * usize::from(bytes[19]) {
        return None;
    }
    let stamps: Vec<u64> = bytes[20..].chunks(8).map(number).collect();
    let fine = prev <= curr
        && stamps.windows(2).all(|pair| pair[0] < pair[1])
        && stamps.iter().all(|&stamp| prev < stamp && stamp <= curr);
    fine.then_some((prev, curr, stamps))
}

/// Hears a message and compares all with the slow reading.
fn hear(store: &mut Store, journal: &mut [u8], used: usize, message: &[u8]) -> Reply {
    let before = store.clone();
    let bytes = journal.to_vec();
    let mut model = Model::of(store);
    let (code, number, record) = if model.damaged() {
        (2, 0, vec![])
    } else if let Some((prev, curr, stamps)) = read(message) {
        let told = model.gossip(journal.len(), used, prev, curr, &stamps);
        (told.code, told.number, told.record)
    } else {
        (16, 0, vec![])
    };
    let answer = store.hear(journal, used, message);
    assert_eq!(answer, reply(code, number, used), "{message:?}");
    if code == 0 {
        assert_eq!(Model::of(store), model, "{message:?}");
        assert_eq!(answer.place, used + record.len());
        assert_eq!(journal[used..answer.place], record);
        assert!(record.ends_with(message));
        assert_eq!(journal[..used], bytes[..used]);
        assert_eq!(journal[answer.place..], bytes[answer.place..]);
    } else {
        assert!(identical(store, &before), "{message:?}");
        assert_eq!(journal, bytes, "{message:?}");
    }
    answer
}

/// A sound store with something in every table: snapshots 10, 20 and 30, the horizon 33.
fn sample() -> Box<Store> {
    store(
        &[pending(0, 30, 40, 5), pending(17, 35, 35, 6)],
        &[past(0, 30, 40, 1), past(511, 0, 36, 0), past(3, 11, 19, 4)],
        &[10, 20, 30],
        &[copy(0, 10, [1; 16]), copy(31, 10, [2; 16])],
        33,
        40,
    )
}

/// Stores with each kind of damage alone.
fn damaged() -> Vec<Box<Store>> {
    let spoil: [fn(&mut Store); 9] = [
        |store| store.pending_count = PENDING + 1,
        |store| store.past_count = PAST + 1,
        |store| store.snapshot_count = SNAPSHOTS + 1,
        |store| store.copy_count = COPIES + 1,
        |store| store.pending[1].object = 0,
        |store| store.past[2].object = 512,
        |store| store.copies[0].page = 32,
        |store| store.snapshots[1] = 10,
        |store| store.horizon = 29,
    ];
    spoil
        .into_iter()
        .map(|spoil| {
            let mut store = sample();
            spoil(&mut store);
            store
        })
        .collect()
}

#[test]
fn asking() {
    fn answers(store: &Store, to: u64, room: usize, code: u8) {
        let before = store.clone();
        let mut buffer = vec![0xEE; 30];
        let number = if code == 0 { 19 } else { 0 };
        assert_eq!(store.ask(to, &mut buffer[..room]), (code, number), "{to} {room}");
        assert!(identical(store, &before));
        let mut expected = vec![0xEE; 30];
        if code == 0 {
            expected[..19].copy_from_slice(&request_bytes(before.horizon, to));
        }
        assert_eq!(buffer, expected);
    }
    for damaged in damaged() {
        for to in [0, 28, 29, 32, 33, 34, u64::MAX] {
            for room in [0, 18, 19, 20] {
                answers(&damaged, to, room, 2);
            }
        }
    }
    let mut store = sample();
    for horizon in [33, 34, 1000, u64::MAX - 1, u64::MAX] {
        store.horizon = horizon;
        for room in [0, 1, 2, 17, 18] {
            for to in [0, horizon - 1, horizon, u64::MAX] {
                answers(&store, to, room, 3);
            }
        }
        for room in [19, 20, 21, 30] {
            for to in [0, 1, 32, horizon - 1] {
                answers(&store, to, room, 3);
            }
            answers(&store, horizon, room, 0);
            answers(&store, horizon.saturating_add(1), room, 0);
            answers(&store, u64::MAX, room, 0);
        }
    }
    // A fresh store may ask for everything.
    for to in [0, 1, u64::MAX] {
        answers(&Store::fresh(), to, 18, 3);
        answers(&Store::fresh(), to, 19, 0);
    }
    // The bytes themselves.
    let mut buffer = [7; 20];
    assert_eq!(sample().ask(258, &mut buffer), (0, 19));
    assert_eq!(buffer, [0, 17, 4, 0, 0, 0, 0, 0, 0, 0, 33, 0, 0, 0, 0, 0, 0, 1, 2, 7]);
}

/// The request isn't a record of a journal.
#[test]
fn no_request_in_a_journal() {
    let mut store = sample();
    let mut journal = vec![1];
    journal.extend(request_bytes(0, 9));
    assert_eq!(store.restart(&journal), reply(16, 1, 0));
    assert_eq!(*store, Store::fresh());
    // Cut short it ends the walk, like any other; after a record it has its own place.
    assert_eq!(store.restart(&journal[..19]), reply(0, 1, 0));
    let mut journal = vec![0; 200];
    let used = store.hear(&mut journal, 0, &message_bytes(0, 9, &[4])).place;
    journal[used..used + 19].copy_from_slice(&request_bytes(9, 20));
    assert_eq!(store.restart(&journal[..used + 18]), reply(0, used as u64, 0));
    assert_eq!(store.restart(&journal[..used + 19]), reply(16, used as u64, 0));
    // Nor is it a message.
    assert_eq!(hear(&mut sample(), &mut journal, 0, &request_bytes(33, 40)), reply(16, 0, 0));
}

/// All that can go wrong at once, righted one thing after the other.
#[test]
fn order_of_hearing() {
    /// 63 snapshots at 2, 4, .. 126; the horizon is 130.
    fn nearly_full() -> Box<Store> {
        let snapshots: Vec<u64> = (1..64).map(|number| 2 * number).collect();
        store(&[], &[past(5, 1, 131, 3)], &snapshots, &[], 130, 0)
    }
    let answers = |store: &Store, room: usize, used: usize, message: &[u8], code, number| {
        let mut journal = vec![0xEE; room];
        let answer = hear(&mut store.clone(), &mut journal, used, message);
        assert_eq!(answer, reply(code, number, used));
    };
    let mut one = nearly_full();
    let bad = message_bytes(150, 149, &[170, 160]);
    one.past[0].object = 512;
    answers(&one, 65_536, 65_537, &bad, 2, 0);
    answers(&one, 65_536, 65_537, &[], 2, 0);
    answers(&one, 100, 20, &message_bytes(130, 140, &[]), 2, 0);
    one.past[0].object = 511;
    // Malformed comes before the journal's shape.
    answers(&one, 65_536, 65_537, &bad, 16, 0);
    answers(&one, 65_536, 65_537, &[], 16, 0);
    answers(&one, 65_536, 65_537, &message_bytes(150, 170, &[170, 160]), 16, 0);
    answers(&one, 65_536, 65_537, &message_bytes(150, 170, &[9, 160]), 16, 0);
    let gap = message_bytes(150, 170, &[160, 170]);
    answers(&one, 65_536, 65_537, &gap, 3, 0);
    answers(&one, 65_536, 20, &gap, 3, 0);
    answers(&one, 30, 31, &gap, 3, 0);
    answers(&one, 30, usize::MAX, &gap, 3, 0);
    answers(&one, 30, 20, &gap, 6, 130);
    answers(&one, 65_535, 65_535, &gap, 6, 130);
    answers(&one, 30, 20, &message_bytes(131, 170, &[160, 170]), 6, 130);
    answers(&one, 30, 20, &message_bytes(125, 170, &[160, 170]), 7, 126);
    answers(&one, 30, 20, &message_bytes(125, 170, &[126, 127, 160, 170]), 7, 127);
    answers(&one, 30, 20, &message_bytes(125, 170, &[126, 160, 170]), 10, 0);
    answers(&one, 30, 20, &message_bytes(125, 170, &[126, 160]), 12, 56);
    answers(&one, 55, 20, &message_bytes(125, 170, &[126, 160]), 12, 56);
    answers(&one, 56, 20, &message_bytes(125, 170, &[126, 160]), 0, 56);
    answers(&one, 36, 0, &message_bytes(125, 170, &[126, 160]), 12, 37);
    answers(&one, 37, 0, &message_bytes(125, 170, &[126, 160]), 0, 37);
    // Nothing comes before the room of any table or journal, and after Conflict.
    answers(&one, 20, 20, &message_bytes(125, 130, &[126]), 1, 20);
    answers(&one, 20, 20, &message_bytes(125, 129, &[126]), 1, 20);
    answers(&one, 20, 20, &message_bytes(130, 130, &[]), 1, 20);
    answers(&one, 0, 0, &message_bytes(0, 0, &[]), 1, 0);
    answers(&one, 20, 20, &message_bytes(125, 130, &[]), 7, 126);
    answers(&one, 20, 20, &message_bytes(131, 131, &[]), 6, 130);
    // The ends of the journal.
    answers(&one, 65_535, 65_535 - 20, &message_bytes(130, 131, &[]), 0, 65_535);
    answers(&one, 65_535, 65_535 - 19, &message_bytes(130, 131, &[]), 12, 65_536);
    // The last stamps of all.
    answers(&one, 100, 0, &message_bytes(130, u64::MAX, &[u64::MAX]), 0, 29);
    answers(&one, 100, 0, &message_bytes(u64::MAX, u64::MAX, &[]), 6, 130);
}

/// Hearing a message is the same as being told what it says.
#[test]
fn as_gossip() {
    let mut chance = Chance(0xE0_0001);
    let mut seen = [0u32; 18];
    for _ in 0..20_000 {
        let one = any_store(&mut chance);
        let message = any_message(&mut chance, &one);
        let room = chance.pick(&[300, 300, 160, 40, 21, 0, 65_536]);
        let used = if chance.one_in(2) { 0 } else { chance.below(room as u64 + 2) as usize };
        let mut journal = vec![0xEE; room];
        let mut heard = one.clone();
        let answer = hear(&mut heard, &mut journal, used, &message);
        seen[answer.code as usize] += 1;
        if let Some((prev, curr, stamps)) = read(&message) {
            let mut told = one.clone();
            let mut other = vec![0xEE; room];
            assert_eq!(told.gossip(&mut other, used, prev, curr, &stamps), answer);
            assert!(identical(&told, &heard));
            assert_eq!(journal, other);
        }
    }
    for code in [0, 1, 2, 3, 6, 7, 10, 12, 16] {
        assert!(seen[code] > 100, "code {code}: {seen:?}");
    }
}

/// A store with rows by chance, on few stamps so that much of it meets.
fn any_store(chance: &mut Chance) -> Box<Store> {
    let mut snapshots: Vec<u64> = vec![];
    for _ in 0..chance.pick(&[0, 1, 3, 20, 60, 63, 64]) {
        snapshots.push(snapshots.last().unwrap_or(&0) + 1 + chance.below(3));
    }
    let newest = snapshots.last().copied().unwrap_or(0);
    let horizon = newest + chance.below(4);
    let pasts: Vec<Past> = (0..chance.below(20))
        .map(|_| past(chance.below(40), chance.below(newest + 9), chance.below(newest + 9), 1))
        .collect();
    let copies: Vec<Copy> = (0..chance.below(6))
        .map(|_| copy(chance.below(3), chance.below(newest + 2), [0; 16]))
        .collect();
    let mut one = store(&[pending(3, 5, 5, 1)], &pasts, &snapshots, &copies, horizon, 5);
    if chance.one_in(30) {
        match chance.below(3) {
            0 => one.snapshots[chance.below(64) as usize] = chance.below(9),
            1 => one.snapshot_count += 60,
            _ => one.past[chance.below(3) as usize].object = 512,
        }
    }
    one
}

/// Mostly a message that the store could hear, and often one that is spoilt somehow.
fn any_message(chance: &mut Chance, store: &Store) -> Vec<u8> {
    let horizon = store.horizon;
    let known = &store.snapshots[..store.snapshot_count.min(64)];
    let prev = match chance.below(5) {
        0 => horizon + chance.below(2),
        1 => chance.below(horizon + 1),
        2 => horizon.saturating_sub(chance.below(12)),
        _ => horizon,
    };
    let curr = chance.pick(&[prev, horizon, horizon + 1, horizon + 9, u64::MAX]);
    let mut stamps: Vec<u64> = known.iter().copied().filter(|&s| prev < s && s <= curr).collect();
    for _ in 0..chance.below(5) {
        stamps.push(horizon + 1 + chance.below(9));
    }
    if chance.one_in(8) {
        stamps.push(chance.below(horizon + 1));
    }
    stamps.sort();
    stamps.dedup();
    if chance.one_in(8) && !stamps.is_empty() {
        stamps.remove(chance.below(stamps.len() as u64) as usize);
    }
    if !chance.one_in(5) {
        stamps.retain(|&s| prev < s && s <= curr);
        stamps.truncate(16);
    }
    stamps.truncate(20);
    let mut bytes = message_bytes(prev, curr, &stamps);
    match chance.below(30) {
        0 => drop(bytes.pop()),
        1 => bytes.push(0),
        2 => bytes[chance.below(3) as usize] ^= 1 << chance.below(8),
        3 => bytes[19] ^= 1 << chance.below(8),
        4 => bytes.swap(3, 11),
        _ => {}
    }
    bytes
}

/// Exactly one record: not cut, not longer, no other kind, no other count.
#[test]
fn messages_spoilt() {
    let fresh = Store::fresh();
    let mut journal = vec![0xEE; 400];
    for stamps in [vec![], vec![5], vec![5, 6, 70], (3..19).collect()] {
        let message = message_bytes(2, 77, &stamps);
        let mut one = store(&[], &[], &[1], &[], 2, 0);
        assert_eq!(
            hear(&mut one, &mut journal, 0, &message),
            reply(0, 1 + message.len() as u64, 0)
        );
        let mut refused = |bytes: &[u8]| {
            let mut one = store(&[], &[], &[1], &[], 2, 0);
            assert_eq!(hear(&mut one, &mut journal, 9, bytes), reply(16, 0, 9), "{bytes:?}");
        };
        for length in 0..message.len() {
            refused(&message[..length]);
        }
        for more in 1..20 {
            let mut long = message.clone();
            long.resize(message.len() + more, 0);
            refused(&long);
            long[1] += more as u8;
            refused(&long);
        }
        refused(&[message.clone(), message.clone()].concat());
        refused(&[vec![1], message.clone()].concat());
        // Every byte altered to everything, against the slow reading.
        for at in 0..message.len() {
            for byte in 0..=255 {
                let mut other = message.clone();
                other[at] = byte;
                let mut one = store(&[], &[], &[1], &[], 2, 0);
                let code = hear(&mut one, &mut journal, 0, &other).code;
                if byte != message[at] && (at < 3 || at == 19) {
                    assert_eq!(code, 16);
                }
            }
        }
    }
    // 16 stamps and 17, which have the length they should have.
    let all: Vec<u64> = (1..=17).collect();
    let mut one = fresh.clone();
    assert_eq!(hear(&mut one, &mut journal, 0, &message_bytes(0, 17, &all)), reply(16, 0, 0));
    assert_eq!(
        hear(&mut one, &mut journal, 0, &message_bytes(0, 17, &all[..16])),
        reply(0, 149, 0)
    );
    // Lengths that a byte or two can't tell apart.
    for length in [20 + 256, 20 + 65_536] {
        let mut long = message_bytes(0, 9, &[]);
        long.resize(length, 0);
        assert_eq!(hear(&mut fresh.clone(), &mut journal, 0, &long), reply(16, 0, 0));
    }
}

#[test]
fn messages_of_every_length() {
    let mut chance = Chance(0xE0_0002);
    let mut journal = vec![0xEE; 300];
    let damaged = damaged();
    for length in 0..=200usize {
        for turn in 0..32 {
            let mut message: Vec<u8> = (0..length).map(|_| chance.next() as u8).collect();
            // In turn any bytes, those with the right kind, the right head, the right count too,
            // and at last small stamps in their order.
            if turn % 8 > 0 && length > 2 {
                message[2] = 2;
            }
            if turn % 8 > 1 && length > 1 {
                message[..2].copy_from_slice(&((length - 2) as u16).to_be_bytes());
            }
            if turn % 8 > 2 && length > 19 {
                message[19] = ((length - 20) / 8) as u8;
                message[3..11].fill(0);
            }
            if turn % 8 > 3 && length > 19 {
                for (stamp, bytes) in (1u64..).zip(message[20..].chunks_exact_mut(8)) {
                    bytes.copy_from_slice(&(stamp << 50).to_be_bytes());
                }
                message[11] = 0xFF;
            }
            let mut one = Store::fresh();
            let code = hear(&mut one, &mut journal, 0, &message).code;
            let whole = (20..=148).contains(&length) && length % 8 == 4;
            match turn % 8 {
                4.. if whole => assert_eq!(code, 0),
                _ if !whole => assert_eq!(code, 16),
                _ => {}
            }
            let spoilt = &damaged[turn % damaged.len()];
            assert_eq!(hear(&mut spoilt.clone(), &mut journal, 5, &message).code, 2);
        }
    }
}

/// After a gap, the request for the refused message's curr brings all that was missed.
#[test]
fn a_gap_closes() {
    let mut coordinator = Coordinator::fresh();
    let mut one = Box::new(Store::fresh());
    let mut journal = vec![0; 2000];
    let mut buffer = [0; 148];
    let mut request = [0; 19];
    for tick in 1..=40 {
        assert_eq!(coordinator.grant(tick, 0), (0, 256 * tick));
    }
    // Everything up to tick 40 is lost but the end.
    let (prev, clock) = (256 * 39, 256 * 41);
    let size = coordinator.message(prev, clock, &mut buffer).1 as usize;
    let last = buffer[..size].to_vec();
    assert_eq!(hear(&mut one, &mut journal, 0, &last), reply(6, 0, 0));
    let mut used = 0;
    for horizon in [256 * 16, 256 * 32, clock] {
        let from = one.horizon;
        assert_eq!(one.ask(clock, &mut request), (0, 19));
        assert_eq!(request[..], request_bytes(from, clock));
        let size = coordinator.serve(&request, &mut buffer).1 as usize;
        let answer = hear(&mut one, &mut journal, used, &buffer[..size]);
        assert_eq!(answer.code, 0);
        used = answer.place;
        assert_eq!(one.horizon, horizon);
        let granted = &coordinator.granted[..40];
        let up_to = granted.partition_point(|&stamp| stamp <= horizon);
        assert_eq!(snapshots_of(&one), &granted[..up_to]);
    }
    assert_eq!(hear(&mut one, &mut journal, used, &last), reply(1, used as u64, used));
    // Asked once more, there is nothing to tell.
    assert_eq!(one.ask(clock, &mut request), (0, 19));
    let size = coordinator.serve(&request, &mut buffer).1 as usize;
    assert_eq!(buffer[..size], message_bytes(clock, clock, &[]));
    assert_eq!(hear(&mut one, &mut journal, used, &buffer[..size]), reply(1, used as u64, used));
}

/// A number below one of these limits.
fn few(chance: &mut Chance, limits: &[u64]) -> u64 {
    let limit = chance.pick(limits);
    chance.below(limit)
}

/// One coordinator, one repository and all that was ever written between them.
struct World {
    coordinator: Coordinator,
    store: Box<Store>,
    journal: Vec<u8>,
    used: usize,
    /// The messages written; those that answer a request know where it began.
    messages: Vec<(Vec<u8>, Option<u64>)>,
    requests: Vec<Vec<u8>>,
    /// For each event how often each code was answered.
    seen: [[u32; 18]; 9],
    /// How many messages ended at their sixteenth snapshot.
    shortened: u32,
}

const GRANT: usize = 0;
const MESSAGES: usize = 1;
const ASK: usize = 2;
const SERVE: usize = 3;
const HEAR: usize = 4;
const COMMIT: usize = 5;
const FLUSH: usize = 6;
const READ: usize = 7;
const RESTART: usize = 8;

impl World {
    fn fresh(room: usize, seen: [[u32; 18]; 9]) -> World {
        World {
            coordinator: Coordinator::fresh(),
            store: Box::new(Store::fresh()),
            journal: vec![0xEE; room],
            used: 0,
            messages: vec![],
            requests: vec![],
            seen,
            shortened: 0,
        }
    }

    fn granted(&self) -> &[u64] {
        &self.coordinator.granted[..self.coordinator.count as usize]
    }

    fn top(&self) -> u64 {
        self.granted().last().copied().unwrap_or(0).max(self.coordinator.sent)
    }

    fn met(&mut self, event: usize, code: u8) {
        assert_ne!(code, 2);
        self.seen[event][code as usize] += 1;
    }

    /// A stamp that something in the world ends at, or one beside it.
    fn stamp(&self, chance: &mut Chance) -> u64 {
        let stamp = match chance.below(6) {
            0 => self.store.horizon,
            1 => self.store.last,
            2 => self.top(),
            3 if !self.granted().is_empty() => chance.pick(self.granted()),
            4 if !self.messages.is_empty() => {
                let message = &self.messages[chance.below(self.messages.len() as u64) as usize].0;
                number(&message[11..19])
            }
            _ => chance.below(self.top() + 2),
        };
        (stamp + few(chance, &[1, 1, 2, 3, 90])).saturating_sub(few(chance, &[1, 1, 2]))
    }

    fn grant(&mut self, chance: &mut Chance) {
        // Close together, and now and then at or below the top.
        let stamp = match chance.below(4) {
            0 => self.top(),
            1 => chance.below(self.top() + 1),
            _ => self.top() + 1 + few(chance, &[1, 5, 40]),
        };
        let top = self.top();
        let (code, number) = self.coordinator.grant(stamp / 256, stamp % 256);
        match code {
            0 => assert!(number == stamp && stamp > top),
            5 => assert!(number == top && stamp <= top),
            10 => assert!(self.coordinator.count == 64 && stamp > top),
            _ => panic!("{code}"),
        }
        self.met(GRANT, code);
    }

    fn message(&mut self, chance: &mut Chance) {
        let (one, two) = (self.stamp(chance), self.stamp(chance));
        let (prev, clock) =
            if chance.one_in(20) { (one, two) } else { (one.min(two), one.max(two)) };
        let mut buffer = [0xEE; 160];
        let (code, size) = self.coordinator.message(prev, clock, &mut buffer);
        assert_eq!(code, if clock < prev { 3 } else { 0 });
        if code == 0 {
            self.shortened += u32::from(number(&buffer[11..19]) < clock);
            self.messages.push((buffer[..size as usize].to_vec(), None));
        }
        self.met(MESSAGES, code);
    }

    fn ask(&mut self, to: u64) -> u8 {
        let mut buffer = [0xEE; 25];
        let (code, size) = self.store.ask(to, &mut buffer);
        assert_eq!(code, if to < self.store.horizon { 3 } else { 0 });
        if code == 0 {
            self.requests.push(buffer[..size as usize].to_vec());
        }
        self.met(ASK, code);
        code
    }

    /// Each request that was written is served.
    fn serve(&mut self, number_of: usize) {
        let request = &self.requests[number_of];
        let (from, to) = (number(&request[3..11]), number(&request[11..]));
        let mut buffer = [0xEE; 160];
        let (code, size) = self.coordinator.serve(request, &mut buffer);
        assert_eq!(code, 0);
        self.shortened += u32::from(number(&buffer[11..19]) < to);
        let begin = (from < to).then_some(from);
        self.messages.push((buffer[..size as usize].to_vec(), begin));
        self.met(SERVE, code);
    }

    fn hear(&mut self, number_of: usize) -> u8 {
        let (message, begin) = &self.messages[number_of];
        let horizon = self.store.horizon;
        let answer = self.store.hear(&mut self.journal, self.used, message);
        assert!([0, 1, 6, 12].contains(&answer.code), "{answer:?} {message:?}");
        // The reply to a request closes the gap it was written for.
        if *begin == Some(horizon) {
            assert!([0, 12].contains(&answer.code), "{answer:?} {message:?}");
        }
        self.used = answer.place;
        self.met(HEAR, answer.code);
        answer.code
    }

    fn step(&mut self, chance: &mut Chance) {
        match chance.below(40) {
            0..=7 => self.grant(chance),
            8..=12 => self.message(chance),
            13..=14 => {
                let to = self.stamp(chance);
                self.ask(to);
            }
            15..=18 if !self.requests.is_empty() => {
                let from_end = few(chance, &[1, 4, 1000]);
                let number = self.requests.len().saturating_sub(1 + from_end as usize);
                self.serve(number);
            }
            19..=30 if !self.messages.is_empty() => {
                let from_end = few(chance, &[1, 4, 1000]);
                let number = self.messages.len().saturating_sub(1 + from_end as usize);
                if self.hear(number) == 6 {
                    // The request for what was refused can always be written.
                    let curr = common::number(&self.messages[number].0[11..19]);
                    assert!(self.store.horizon < curr);
                    assert_eq!(self.ask(curr), 0);
                    if chance.one_in(2) {
                        self.serve(self.requests.len() - 1);
                        let code = self.hear(self.messages.len() - 1);
                        assert!(code == 0 || code == 12);
                    }
                }
            }
            31..=34 => {
                let after = self.store.last.max(self.store.horizon);
                let t = if chance.one_in(5) { self.stamp(chance) } else { after + 1 };
                let object = chance.below(48);
                let answer = self.store.commit(
                    &mut self.journal,
                    self.used,
                    t,
                    &[object, object + 1],
                    &[t, chance.next()],
                );
                self.used = answer.place;
                self.met(COMMIT, answer.code);
            }
            35 => {
                let answer = self.store.flush(&mut self.journal, self.used, chance.below(4));
                self.used = answer.place;
                self.met(FLUSH, answer.code);
            }
            36 => {
                let mut page = [0; 16];
                let time = self.stamp(chance);
                let (code, _) = self.store.snapshot_read(time, chance.below(4), &mut page);
                self.met(READ, code);
            }
            37 => {
                // A cut at any byte, mostly near the end, and other bytes behind it.
                let lost = few(chance, &[1, 2, 40, self.used as u64 + 1]);
                let cut = self.used - (lost as usize).min(self.used);
                self.journal[cut..].fill(chance.next() as u8);
                let answer = self.store.restart(&self.journal[..cut]);
                assert_eq!(answer.code, 0);
                assert!(answer.place <= cut);
                self.used = answer.place;
                self.met(RESTART, answer.code);
            }
            38 if chance.one_in(10) => {
                self.used = self.store.reset().place;
                assert_eq!(self.used, 0);
            }
            39 => {
                let mut bytes = [0; 522];
                let (code, size) = self.coordinator.keep(&mut bytes);
                assert_eq!((code, size), (0, 10 + 8 * self.coordinator.count));
                let mut again = coordinator(&[9, 8, 7], 6);
                assert_eq!(again.restart(&bytes[..size as usize]), (0, size));
                assert_eq!(again, self.coordinator);
                self.coordinator = again;
            }
            _ => {}
        }
        self.check();
    }

    /// The repository knows exactly the granted snapshots up to its horizon.
    fn check(&self) {
        let granted = self.granted();
        let up_to = granted.partition_point(|&stamp| stamp <= self.store.horizon);
        assert_eq!(snapshots_of(&self.store), &granted[..up_to]);
        assert!(self.store.horizon <= self.coordinator.sent);
    }

    /// Each message ever written still tells exactly the granted snapshots between its ends.
    fn check_messages(&self) {
        for (message, _) in &self.messages {
            let (prev, curr, stamps) = read(message).expect("a message");
            assert!(curr <= self.coordinator.sent);
            let granted: Vec<u64> =
                self.granted().iter().copied().filter(|&s| prev < s && s <= curr).collect();
            assert_eq!(stamps, granted);
        }
    }
}

#[test]
fn one_coordinator_one_repository() {
    let mut chance = Chance(0xE0_0003);
    let mut seen = [[0; 18]; 9];
    let mut shortened = 0;
    for run in 0..300 {
        let room = match run % 4 {
            0 => 120 + chance.below(600) as usize,
            _ => 20_000,
        };
        let mut world = World::fresh(room, seen);
        // Some worlds begin with more snapshots than one message holds.
        for _ in 0..chance.pick(&[0, 0, 30, 120]) {
            world.grant(&mut chance);
        }
        for step in 0..700 {
            world.step(&mut chance);
            if step % 50 == 0 {
                world.check_messages();
            }
        }
        world.check_messages();
        seen = world.seen;
        shortened += world.shortened;
    }
    assert!(shortened > 1000, "{shortened}");
    for (event, codes) in [
        (GRANT, &[0, 5, 10][..]),
        (MESSAGES, &[0, 3]),
        (ASK, &[0, 3]),
        (SERVE, &[0]),
        (HEAR, &[0, 1, 6, 12]),
        (COMMIT, &[0, 5, 12]),
        (FLUSH, &[0, 1, 12]),
        (READ, &[0, 13, 14]),
        (RESTART, &[0]),
    ] {
        for &code in codes {
            assert!(seen[event][code] > 50, "event {event}, code {code}: {seen:?}");
        }
    }
}
