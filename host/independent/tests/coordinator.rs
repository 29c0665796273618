//! The coordinator: every row of its table with both sides of each boundary, its kept bytes, and
//! any state and any call against a second, slow reading.

mod common;
use common::*;
use independent::*;

const TOP_TICK: u64 = (1 << 56) - 1;

/// The slow reading: lists that grow, every rule as the document says it.
#[derive(Clone, Debug, PartialEq)]
struct Slow {
    granted: Vec<u64>,
    sent: u64,
    /// Whether the count is over its limit.
    over: bool,
}

type Told = (u8, u64, Vec<u8>);

fn told(code: u8, number: u64) -> Told {
    (code, number, vec![])
}

impl Slow {
    fn of(coordinator: &Coordinator) -> Slow {
        Slow {
            granted: coordinator.granted[..coordinator.count.min(64) as usize].to_vec(),
            sent: coordinator.sent,
            over: coordinator.count > 64,
        }
    }

    fn damaged(&self) -> bool {
        self.over
            || self.granted.contains(&0)
            || self.granted.windows(2).any(|pair| pair[0] >= pair[1])
    }

    fn top(&self) -> u64 {
        self.granted.iter().copied().chain([self.sent]).max().unwrap()
    }

    fn grant(&mut self, tick: u64, node: u64) -> Told {
        if self.damaged() {
            return told(2, 0);
        }
        if tick > TOP_TICK || node > 255 {
            return told(3, 0);
        }
        let stamp = 256 * tick + node;
        if self.granted.iter().any(|&s| stamp <= s) || stamp <= self.sent {
            return told(5, self.top());
        }
        if self.granted.len() == 64 {
            return told(10, 0);
        }
        self.granted.push(stamp);
        told(0, stamp)
    }

    fn message(&mut self, prev: u64, clock: u64, room: usize) -> Told {
        if self.damaged() {
            return told(2, 0);
        }
        if room < 148 || clock < prev {
            return told(3, 0);
        }
        let mut stamps: Vec<u64> =
            self.granted.iter().copied().filter(|&s| prev < s && s <= clock).collect();
        let mut curr = clock;
        if stamps.len() > 16 {
            stamps.truncate(16);
            curr = stamps[15];
        }
        self.sent = self.sent.max(curr);
        (0, 20 + 8 * stamps.len() as u64, message_bytes(prev, curr, &stamps))
    }

    fn serve(&mut self, request: &[u8], room: usize) -> Told {
        if self.damaged() {
            return told(2, 0);
        }
        if request.len() != 19 || request[..3] != [0, 17, 4] {
            return told(16, 0);
        }
        self.message(number(&request[3..11]), number(&request[11..]), room)
    }

    fn keep(&self, room: usize) -> Told {
        if self.damaged() {
            return told(2, 0);
        }
        if room < 522 {
            return told(3, 0);
        }
        let mut bytes = vec![1];
        bytes.extend(self.sent.to_be_bytes());
        bytes.push(self.granted.len() as u8);
        bytes.extend(self.granted.iter().flat_map(|stamp| stamp.to_be_bytes()));
        (0, bytes.len() as u64, bytes)
    }

    fn restart(&mut self, bytes: &[u8]) -> Told {
        *self = Slow { granted: vec![], sent: 0, over: false };
        if bytes.is_empty() {
            return told(0, 0);
        }
        if bytes[0] != 1 {
            return told(15, u64::from(bytes[0]));
        }
        if bytes.len() < 10 {
            return told(16, 1);
        }
        let count = usize::from(bytes[9]);
        if count > 64 || bytes.len() != 10 + 8 * count {
            return told(16, 9);
        }
        let stamps: Vec<u64> = bytes[10..].chunks(8).map(number).collect();
        for k in 0..count {
            let before = if k == 0 { 0 } else { stamps[k - 1] };
            if stamps[k] <= before {
                return told(16, 10 + 8 * k as u64);
            }
        }
        self.granted = stamps;
        self.sent = number(&bytes[1..9]);
        told(0, bytes.len() as u64)
    }
}

#[derive(Debug)]
enum Call {
    Reset,
    Grant(u64, u64),
    Message(u64, u64, usize),
    Serve(Vec<u8>, usize),
    Keep(usize),
    Restart(Vec<u8>),
}
use Call::*;

/// Makes one call of the coordinator and of the slow reading and compares everything: the answer,
/// the state, and the buffer within and beyond what was to be written.
fn both(coordinator: &mut Coordinator, call: &Call) -> (u8, u64) {
    let before = coordinator.clone();
    let mut slow = Slow::of(coordinator);
    let mut buffer = vec![0xEE; 600];
    let ((code, number), told) = match call {
        Reset => {
            slow = Slow { granted: vec![], sent: 0, over: false };
            (coordinator.reset(), told(0, 0))
        }
        Grant(tick, node) => (coordinator.grant(*tick, *node), slow.grant(*tick, *node)),
        Message(prev, clock, room) => (
            coordinator.message(*prev, *clock, &mut buffer[..*room]),
            slow.message(*prev, *clock, *room),
        ),
        Serve(request, room) => {
            (coordinator.serve(request, &mut buffer[..*room]), slow.serve(request, *room))
        }
        Keep(room) => (coordinator.keep(&mut buffer[..*room]), slow.keep(*room)),
        Restart(bytes) => (coordinator.restart(bytes), slow.restart(bytes)),
    };
    assert_eq!((code, number), (told.0, told.1), "{call:?} {before:?}");
    if code != 0 && !matches!(call, Restart(_)) {
        assert!(alike(coordinator, &before), "{call:?} {before:?}");
    }
    assert_eq!(Slow::of(coordinator), slow, "{call:?} {before:?}");
    let (written, rest) = buffer.split_at(told.2.len());
    assert_eq!(written, told.2, "{call:?} {before:?}");
    assert!(rest.iter().all(|&byte| byte == 0xEE), "{call:?} {before:?}");
    (code, number)
}

/// The same, of a coordinator that goes on as it was.
fn answers(coordinator: &Coordinator, call: Call, code: u8, number: u64) {
    assert_eq!(both(&mut coordinator.clone(), &call), (code, number), "{call:?}");
}

/// Stamps 10, 20, .. of this number.
fn tens(count: u64) -> Vec<u64> {
    (1..=count).map(|number| 10 * number).collect()
}

#[test]
fn layout() {
    assert_eq!(size_of::<Coordinator>(), 66 * 8);
    assert_eq!(std::mem::offset_of!(Coordinator, count), 0);
    assert_eq!(std::mem::offset_of!(Coordinator, sent), 8);
    assert_eq!(std::mem::offset_of!(Coordinator, granted), 16);
    assert_eq!((GRANTS, MESSAGE, REQUEST, KEPT), (64, 148, 19, 522));
}

#[test]
fn fresh() {
    let fresh = Coordinator::fresh();
    assert!(alike(&fresh, &coordinator(&[], 0)));
    assert_eq!(Coordinator::default(), fresh);
    let mut damaged = coordinator(&[5, 4], 9);
    for count in [0, 1, 2, 64, 65, u64::MAX] {
        damaged.count = count;
        answers(&damaged, Reset, 0, 0);
        let mut after = damaged.clone();
        after.reset();
        assert_eq!(after, fresh);
    }
}

/// Stamps past the count aren't contents.
#[test]
fn equality() {
    let one = coordinator(&[1, 2], 3);
    let mut two = one.clone();
    two.granted[2] = 9;
    assert_eq!(one, two);
    two.count = 3;
    assert_ne!(one, two);
    assert_ne!(one, coordinator(&[1, 2], 4));
    assert_ne!(one, coordinator(&[1, 3], 3));
    assert_ne!(one, coordinator(&[1], 3));
    two.count = u64::MAX;
    assert_eq!(two, two.clone());
    assert_ne!(one, two);
    assert_ne!(two, one);
}

/// The bytes themselves, written out.
#[test]
fn worked() {
    let mut one = Coordinator::fresh();
    let mut buffer = [0xEE; 148];
    assert_eq!(one.grant(1, 3), (0, 259));
    assert_eq!(one.message(0, 512, &mut buffer), (0, 28));
    let message = [
        0x00, 0x1A, 0x02, 0, 0, 0, 0, 0, 0, 0, 0, 0, 0, 0, 0, 0, 0, 2, 0, 1, 0, 0, 0, 0, 0, 0, 1, 3,
    ];
    assert_eq!(buffer[..28], message);
    assert_eq!(buffer[28..], [0xEE; 120]);
    assert_eq!(one.grant(2, 0), (5, 512));
    assert_eq!(one.grant(2, 1), (0, 513));
    let request = [0x00, 0x11, 0x04, 0, 0, 0, 0, 0, 0, 0, 0, 0, 0, 0, 0, 0, 0, 2, 0];
    let mut again = [0xEE; 148];
    assert_eq!(one.serve(&request, &mut again), (0, 28));
    assert_eq!(again, buffer);
    let mut kept = [0xEE; 522];
    assert_eq!(one.keep(&mut kept), (0, 26));
    let state = [1, 0, 0, 0, 0, 0, 0, 2, 0, 2, 0, 0, 0, 0, 0, 0, 1, 3, 0, 0, 0, 0, 0, 0, 2, 1];
    assert_eq!(kept[..26], state);
    assert_eq!(kept[26..], [0xEE; 522 - 26]);
    let mut two = Coordinator::fresh();
    assert_eq!(two.restart(&state), (0, 26));
    assert_eq!(two, one);
}

/// All that can go wrong at once, righted one thing after the other.
#[test]
fn order_of_grant() {
    let mut full = coordinator(&tens(64), 700);
    full.granted[9] = 0;
    answers(&full, Grant(1 << 56, 256), 2, 0);
    answers(&full, Grant(0, 0), 2, 0);
    answers(&full, Grant(TOP_TICK, 255), 2, 0);
    full.granted[9] = 100;
    answers(&full, Grant(1 << 56, 256), 3, 0);
    answers(&full, Grant(1 << 56, 0), 3, 0);
    answers(&full, Grant(0, 256), 3, 0);
    answers(&full, Grant(0, 0), 5, 700);
    answers(&full, Grant(2, 188), 5, 700); // late and the 65th
    answers(&full, Grant(2, 189), 10, 0);
    full.count = 63;
    answers(&full, Grant(2, 188), 5, 700);
    answers(&full, Grant(2, 189), 0, 701);
}

#[test]
fn ticks_and_nodes() {
    let fresh = Coordinator::fresh();
    answers(&fresh, Grant(0, 0), 5, 0);
    answers(&fresh, Grant(0, 1), 0, 1);
    answers(&fresh, Grant(0, 255), 0, 255);
    answers(&fresh, Grant(0, 256), 3, 0);
    answers(&fresh, Grant(1, 0), 0, 256);
    answers(&fresh, Grant(TOP_TICK, 0), 0, u64::MAX - 255);
    answers(&fresh, Grant(TOP_TICK, 255), 0, u64::MAX);
    answers(&fresh, Grant(TOP_TICK, 256), 3, 0);
    for tick in [1 << 56, (1 << 56) + 1, 1 << 57, 1 << 63, u64::MAX] {
        for node in [0, 1, 255, 256, u64::MAX] {
            answers(&fresh, Grant(tick, node), 3, 0);
        }
    }
    for node in [256, 257, 511, 512, 1 << 32, 1 << 56, u64::MAX] {
        answers(&fresh, Grant(5, node), 3, 0);
    }
}

#[test]
fn beyond_all_granted_or_sent() {
    for (granted, sent, top) in
        [(1000, 0, 1000), (1000, 999, 1000), (1000, 1000, 1000), (1000, 1001, 1001)]
    {
        let one = coordinator(&[7, granted], sent);
        answers(&one, Grant(0, 7), 5, top);
        answers(&one, Grant(top / 256, top % 256 - 1), 5, top);
        answers(&one, Grant(top / 256, top % 256), 5, top);
        answers(&one, Grant(top / 256, top % 256 + 1), 0, top + 1);
    }
    // Sent alone; and nothing is beyond the last stamp of all.
    answers(&coordinator(&[], 300), Grant(1, 44), 5, 300);
    answers(&coordinator(&[], 300), Grant(1, 45), 0, 301);
    answers(&coordinator(&[], u64::MAX), Grant(TOP_TICK, 255), 5, u64::MAX);
    answers(&coordinator(&[u64::MAX], 0), Grant(TOP_TICK, 255), 5, u64::MAX);
    answers(&coordinator(&[u64::MAX], 9), Grant(0, 0), 5, u64::MAX);
    answers(&coordinator(&[u64::MAX - 1], u64::MAX - 1), Grant(TOP_TICK, 255), 0, u64::MAX);
}

#[test]
fn sixty_four_grants() {
    let mut one = Coordinator::fresh();
    for tick in 1..=64 {
        assert_eq!(both(&mut one, &Grant(tick, 2)), (0, 256 * tick + 2));
        assert_eq!(both(&mut one, &Grant(tick, 2)), (5, 256 * tick + 2));
        assert_eq!(one.count, tick);
    }
    assert_eq!(both(&mut one, &Grant(64, 3)), (10, 0));
    assert_eq!(both(&mut one, &Grant(TOP_TICK, 255)), (10, 0));
    assert_eq!(both(&mut one, &Grant(64, 2)), (5, 64 * 256 + 2));
    assert_eq!(both(&mut one, &Grant(64, 256)), (3, 0));
    // The full one still tells of all it has.
    let mut prev = 0;
    for part in 1..=4 {
        assert_eq!(both(&mut one, &Message(prev, u64::MAX, 148)), (0, 148));
        prev = if part < 4 { one.granted[16 * part - 1] } else { u64::MAX };
        assert_eq!(one.sent, prev);
    }
    assert_eq!(both(&mut one, &Grant(TOP_TICK, 255)), (5, u64::MAX));
}

/// All that can go wrong at once, righted one thing after the other; and the buffer's sizes.
#[test]
fn order_and_shapes_of_messages() {
    let mut one = coordinator(&tens(64), 0);
    one.count = 65;
    answers(&one, Message(5, 4, 0), 2, 0);
    answers(&one, Message(5, 4, 148), 2, 0);
    answers(&one, Message(4, 5, 148), 2, 0);
    answers(&one, Serve(vec![], 0), 2, 0);
    answers(&one, Serve(request_bytes(5, 4), 0), 2, 0);
    answers(&one, Serve(request_bytes(4, 5), 148), 2, 0);
    one.count = 64;
    answers(&one, Message(5, 4, 0), 3, 0);
    answers(&one, Message(5, 4, 148), 3, 0);
    answers(&one, Message(u64::MAX, 0, 148), 3, 0);
    answers(&one, Message(u64::MAX, u64::MAX - 1, 148), 3, 0);
    answers(&one, Serve(vec![], 0), 16, 0);
    answers(&one, Serve(vec![0; 19], 147), 16, 0);
    answers(&one, Serve(request_bytes(5, 4), 0), 3, 0);
    answers(&one, Serve(request_bytes(5, 4), 148), 3, 0);
    answers(&one, Serve(request_bytes(u64::MAX, 0), 148), 3, 0);
    // The size of the buffer is asked for also where the message would be shorter.
    for (prev, clock, size) in [(0, 0, 20), (0, 160, 148), (0, 170, 148), (0, 50, 60)] {
        for room in [0, 1, 19, 20, 59, 60, 146, 147] {
            answers(&one, Message(prev, clock, room), 3, 0);
            answers(&one, Serve(request_bytes(prev, clock), room), 3, 0);
        }
        for room in [148, 149, 150, 600] {
            answers(&one, Message(prev, clock, room), 0, size);
            answers(&one, Serve(request_bytes(prev, clock), room), 0, size);
        }
    }
}

/// A message's bounds: open at prev, closed at the clock.
#[test]
fn ends_of_messages() {
    let one = coordinator(&[10, 20, 30], 0);
    for (prev, clock, stamps) in [
        (0, 9, &[][..]),
        (0, 10, &[10]),
        (9, 10, &[10]),
        (10, 10, &[]),
        (10, 19, &[]),
        (10, 20, &[20]),
        (9, 20, &[10, 20]),
        (9, 30, &[10, 20, 30]),
        (29, 31, &[30]),
        (30, 30, &[]),
        (30, u64::MAX, &[]),
        (0, u64::MAX, &[10, 20, 30]),
        (0, 0, &[]),
        (u64::MAX, u64::MAX, &[]),
    ] {
        let mut after = one.clone();
        let size = 20 + 8 * stamps.len() as u64;
        let mut buffer = [0xEE; 160];
        assert_eq!(after.message(prev, clock, &mut buffer), (0, size));
        assert_eq!(buffer[..size as usize], message_bytes(prev, clock, stamps));
        assert!(buffer[size as usize..].iter().all(|&byte| byte == 0xEE));
        assert!(alike(&after, &coordinator(&[10, 20, 30], clock)));
        answers(&one, Message(prev, clock, 148), 0, size);
        answers(&one, Serve(request_bytes(prev, clock), 148), 0, size);
    }
    // At the top of all stamps.
    let last = coordinator(&[u64::MAX - 1, u64::MAX], 0);
    answers(&last, Message(u64::MAX - 1, u64::MAX, 148), 0, 28);
    answers(&last, Message(u64::MAX - 2, u64::MAX - 1, 148), 0, 28);
    answers(&last, Message(0, u64::MAX, 148), 0, 36);
    answers(&last, Message(u64::MAX, u64::MAX, 148), 0, 20);
}

/// 15, 16 and 17 snapshots in the bounds; only with more than 16 is curr the sixteenth.
#[test]
fn sixteen_and_seventeen() {
    for held in [17, 18, 33, 64] {
        let all = tens(held);
        let one = coordinator(&all, 0);
        for first in [0, (held as usize - 17) / 2, held as usize - 17] {
            let prev = if first == 0 { 0 } else { all[first - 1] };
            let sixteenth = all[first + 15];
            for (clock, count, curr) in [
                (sixteenth - 1, 15, sixteenth - 1),
                (sixteenth, 16, sixteenth),
                (sixteenth + 1, 16, sixteenth + 1),
                (sixteenth + 9, 16, sixteenth + 9),
                (sixteenth + 10, 16, sixteenth),
                (sixteenth + 11, 16, sixteenth),
                (u64::MAX, 16, sixteenth),
            ] {
                let mut after = one.clone();
                let size = 20 + 8 * count as u64;
                assert_eq!(both(&mut after, &Message(prev, clock, 148)), (0, size));
                assert_eq!(after.sent, curr, "{held} {first} {clock}");
                let mut buffer = [0; 148];
                after.message(prev, clock, &mut buffer);
                assert_eq!(
                    buffer[..size as usize],
                    message_bytes(prev, curr, &all[first..first + count])
                );
                let mut after = one.clone();
                assert_eq!(both(&mut after, &Serve(request_bytes(prev, clock), 148)), (0, size));
                assert_eq!(after.sent, curr);
            }
        }
    }
}

/// `sent` takes the largest curr written, and only what was written.
#[test]
fn sent() {
    let mut one = coordinator(&[10, 20], 0);
    for (prev, clock, room, code, sent) in [
        (0, 25, 147, 3, 0),
        (26, 25, 148, 3, 0),
        (0, 25, 148, 0, 25), // taken
        (0, 24, 148, 0, 25), // kept by a smaller one
        (0, 25, 148, 0, 25), // kept by an equal one
        (0, 0, 148, 0, 25),
        (24, 26, 148, 0, 26), // an empty list counts
        (26, 27, 147, 3, 26),
        (30, 30, 148, 0, 30), // so does prev = clock
    ] {
        assert_eq!(both(&mut one, &Message(prev, clock, room)).0, code);
        assert_eq!(one.sent, sent);
    }
    for (request, room, code, sent) in [
        (request_bytes(0, 31), 147, 3, 30),
        (request_bytes(32, 31), 148, 3, 30),
        (request_bytes(0, 31)[..18].to_vec(), 148, 16, 30),
        (request_bytes(0, 31), 148, 0, 31),
        (request_bytes(0, 30), 148, 0, 31),
    ] {
        assert_eq!(both(&mut one, &Serve(request, room)).0, code);
        assert_eq!(one.sent, sent);
    }
    assert_eq!(both(&mut one, &Grant(0, 31)), (5, 31));
    assert_eq!(both(&mut one, &Grant(0, 32)), (0, 32));

    // With more than 16, a stamp between the sixteenth and the clock is free still.
    let mut one = coordinator(&tens(17), 0);
    assert_eq!(both(&mut one, &Message(0, 10_000, 148)), (0, 148));
    assert_eq!(one.sent, 160);
    assert_eq!(both(&mut one, &Grant(0, 170)), (5, 170));
    assert_eq!(both(&mut one, &Grant(0, 171)), (0, 171));
    assert_eq!(both(&mut one, &Message(160, 10_000, 148)), (0, 36));
    assert_eq!(both(&mut one, &Grant(0, 172)), (5, 10_000));

    // The whole of time is sent.
    let mut one = coordinator(&[10, 20], 0);
    assert_eq!(both(&mut one, &Message(15, u64::MAX, 148)), (0, 28));
    assert_eq!(one.sent, u64::MAX);
    assert_eq!(both(&mut one, &Grant(TOP_TICK, 255)), (5, u64::MAX));
}

/// A request is exactly 19 bytes that start with its length and kind.
#[test]
fn requests() {
    let one = coordinator(&tens(40), 55);
    let request = request_bytes(15, 95);
    answers(&one, Serve(request.clone(), 148), 0, 20 + 64);
    for length in 0..19 {
        answers(&one, Serve(request[..length].to_vec(), 148), 16, 0);
    }
    for more in 1..40 {
        let mut long = request.clone();
        long.resize(19 + more, 0);
        answers(&one, Serve(long.clone(), 148), 16, 0);
        // Also with a length that says so.
        long[1] += more as u8;
        answers(&one, Serve(long, 148), 16, 0);
    }
    answers(&one, Serve([request.clone(), request.clone()].concat(), 148), 16, 0);
    answers(&one, Serve(message_bytes(15, 95, &[]), 148), 16, 0);
    // Every byte altered to everything: a head that differs is refused, all else another request.
    for at in 0..19 {
        for byte in 0..=255 {
            let mut other = request.clone();
            other[at] = byte;
            let (code, _) = both(&mut one.clone(), &Serve(other.clone(), 148));
            let expected = match at {
                0..3 if byte != request[at] => 16,
                _ if number(&other[3..11]) > number(&other[11..]) => 3,
                _ => 0,
            };
            assert_eq!(code, expected, "{other:?}");
        }
    }
}

#[test]
fn requests_of_every_length() {
    let mut chance = Chance(0xC0_0001);
    let one = coordinator(&tens(64), 55);
    for length in 0..=200usize {
        for turn in 0..30 {
            let mut request: Vec<u8> = (0..length).map(|_| chance.next() as u8).collect();
            // In turn any bytes, those with the right kind, and those with the right head.
            if turn % 3 > 0 && length > 2 {
                request[2] = 4;
            }
            if turn % 3 > 1 && length > 1 {
                request[..2].copy_from_slice(&((length - 2) as u16).to_be_bytes());
            }
            let (code, _) = both(&mut one.clone(), &Serve(request.clone(), 148));
            match length {
                19 if turn % 3 == 2 => assert!(code == 0 || code == 3),
                19 => {}
                _ => assert_eq!(code, 16),
            }
            answers(&coordinator(&[3, 3], 0), Serve(request, 148), 2, 0);
        }
    }
    // Lengths that a byte or two can't tell apart.
    for length in [19 + 256, 19 + 65_536] {
        let mut request = request_bytes(1, 2);
        request.resize(length, 0);
        answers(&one, Serve(request, 148), 16, 0);
    }
}

/// Each kind of damage alone, for every call; and what isn't damage.
#[test]
fn damage() {
    fn refused(damaged: &Coordinator) {
        for tick in [0, 1, 5000, TOP_TICK, 1 << 56] {
            for node in [0, 255, 256] {
                answers(damaged, Grant(tick, node), 2, 0);
            }
        }
        for room in [0, 147, 148, 521, 522] {
            answers(damaged, Message(0, 500, room), 2, 0);
            answers(damaged, Message(500, 0, room), 2, 0);
            answers(damaged, Serve(request_bytes(0, 500), room), 2, 0);
            answers(damaged, Serve(request_bytes(500, 0), room), 2, 0);
            answers(damaged, Serve(vec![4; 18], room), 2, 0);
            answers(damaged, Keep(room), 2, 0);
        }
        // Fresh and Restart don't look.
        answers(damaged, Reset, 0, 0);
        answers(damaged, Restart(vec![]), 0, 0);
        answers(damaged, Restart(vec![9]), 15, 9);
        answers(
            damaged,
            Restart(vec![1, 0, 0, 0, 0, 0, 0, 0, 5, 1, 0, 0, 0, 0, 0, 0, 0, 7]),
            0,
            18,
        );
    }
    fn sound(coordinator: &Coordinator) {
        answers(coordinator, Keep(522), 0, 10 + 8 * coordinator.count);
        answers(coordinator, Message(9, 9, 148), 0, 20);
        answers(coordinator, Serve(request_bytes(9, 9), 148), 0, 20);
        assert_ne!(both(&mut coordinator.clone(), &Grant(99, 0)).0, 2);
    }

    for count in 0..=64u64 {
        let one = coordinator(&tens(count), 1 + 5 * count);
        sound(&one);
        for at in 0..count as usize {
            for stamp in [0, 10 * at as u64, (10 * at as u64).saturating_sub(1)] {
                let mut damaged = one.clone();
                damaged.granted[at] = stamp;
                refused(&damaged);
            }
            let mut other = one.clone();
            other.granted[at] = 10 * at as u64 + 1;
            sound(&other);
            other.granted[at] = 10 * at as u64 + 19;
            sound(&other);
            if at + 1 < count as usize {
                other.granted[at] = 10 * at as u64 + 20;
                refused(&other);
                other.granted[at] = u64::MAX;
                refused(&other);
            }
        }
        // Past the count nothing is looked at.
        let mut other = one.clone();
        other.granted[count as usize..].fill(0);
        sound(&other);
        other.granted[count as usize..].fill(u64::MAX);
        sound(&other);
        // Nothing is asked of `sent`.
        for sent in [0, 1, 10 * count, u64::MAX] {
            sound(&Coordinator { sent, ..one.clone() });
        }
    }
    let mut over = coordinator(&tens(64), 0);
    for count in [65, 66, 128, 256, 1 << 32, (1 << 32) + 1, 1 << 63, u64::MAX] {
        over.count = count;
        refused(&over);
    }
    over.count = 64;
    sound(&over);
    sound(&coordinator(&[1], 0));
    sound(&coordinator(&[u64::MAX], 0));
    sound(&coordinator(&(u64::MAX - 63..=u64::MAX).collect::<Vec<_>>(), 0));
    refused(&coordinator(&[u64::MAX, u64::MAX], 0));
    refused(&coordinator(&[0], 0));
    refused(&coordinator(&[1, 0], 0));
}

#[test]
fn kept_states() {
    for count in 0..=64u64 {
        for sent in [0, 1, 10 * count, 1 << 40, u64::MAX] {
            let one = coordinator(&tens(count), sent);
            let size = 10 + 8 * count;
            for room in [0, 1, 9, 10, size as usize - 1, size as usize, 520, 521] {
                if room < 522 {
                    answers(&one, Keep(room), 3, 0);
                }
            }
            for room in [522, 523, 600] {
                answers(&one, Keep(room), 0, size);
            }
            // It reads back as itself, over whatever was there.
            let mut bytes = [0; 522];
            one.keep(&mut bytes);
            let mut again = coordinator(&[77, 66, 55], 44);
            again.count = 99;
            assert_eq!(both(&mut again, &Restart(bytes[..size as usize].to_vec())), (0, size));
            assert_eq!(again, one);
            let mut second = [0; 522];
            assert_eq!(again.keep(&mut second), (0, size));
            assert_eq!(second, bytes);
        }
    }
}

/// A state's bytes cut at every length, and lengthened.
#[test]
fn kept_states_cut() {
    for count in [0, 1, 2, 31, 63, 64] {
        let mut bytes = vec![0; 522];
        let one = coordinator(&tens(count), 1000);
        let size = one.keep(&mut bytes).1 as usize;
        for length in 0..=600 {
            let mut cut = bytes[..size].to_vec();
            cut.resize(length, 0xFF);
            let (code, number) = match length {
                0 => (0, 0),
                1..10 => (16, 1),
                _ if length == size => (0, size as u64),
                _ => (16, 9),
            };
            let mut after = coordinator(&[4, 5], 6);
            assert_eq!(both(&mut after, &Restart(cut)), (code, number), "{count} {length}");
            let expected = if length == size { &one } else { &Coordinator::fresh() };
            assert_eq!(after, *expected);
        }
    }
}

/// A state's bytes with every byte altered to everything.
#[test]
fn kept_states_altered() {
    let mut seen = [0; 18];
    for (granted, sent) in [
        (vec![], 0),
        (vec![1], 1),
        ((1..=5).collect(), 258),
        (tens(64), 640),
        ((1..=64).map(|number| number << 58 | 1).filter(|&stamp| stamp > 1).collect(), u64::MAX),
    ] {
        let mut granted: Vec<u64> = granted;
        granted.sort();
        granted.dedup();
        let one = coordinator(&granted, sent);
        let mut kept = [0; 522];
        let size = one.keep(&mut kept).1 as usize;
        let mut bytes = kept[..size].to_vec();
        for at in 0..size {
            let right = bytes[at];
            for byte in 0..=255 {
                bytes[at] = byte;
                let mut after = one.clone();
                let (code, number) = both(&mut after, &Restart(bytes.clone()));
                seen[code as usize] += 1;
                match at {
                    _ if byte == right => assert_eq!((code, number), (0, size as u64)),
                    0 => assert_eq!((code, number), (15, u64::from(byte))),
                    1..9 => assert_eq!((code, number), (0, size as u64)),
                    9 => assert_eq!((code, number), (16, 9)),
                    _ => {
                        // Its own stamp, or the one after it.
                        let own = at as u64 - (at as u64 - 10) % 8;
                        assert!(code == 0 || code == 16 && (number == own || number == own + 8));
                    }
                }
                if code == 0 {
                    // What is accepted is never damaged, and has one encoding.
                    let mut again = [0; 522];
                    assert_eq!(after.keep(&mut again), (0, size as u64));
                    assert_eq!(again[..size], bytes);
                } else {
                    assert_eq!(after, Coordinator::fresh());
                }
            }
            bytes[at] = right;
        }
    }
    assert!(seen[0] > 1000 && seen[15] > 1000 && seen[16] > 1000, "{seen:?}");
}

/// The order of a restart's tests, and the first of two bad stamps.
#[test]
fn order_of_restart() {
    let one = coordinator(&[5], 5);
    let mut bytes = vec![2, 0, 0, 0, 0, 0, 0, 0, 0];
    answers(&one, Restart(vec![0]), 15, 0);
    answers(&one, Restart(vec![255; 1000]), 15, 255);
    answers(&one, Restart(bytes.clone()), 15, 2);
    bytes[0] = 1;
    answers(&one, Restart(vec![1]), 16, 1);
    answers(&one, Restart(bytes.clone()), 16, 1);
    bytes.push(65);
    answers(&one, Restart(bytes.clone()), 16, 9);
    bytes.resize(10 + 8 * 65, 0);
    answers(&one, Restart(bytes.clone()), 16, 9); // its length, but over 64
    bytes[9] = 64;
    answers(&one, Restart(bytes.clone()), 16, 9);
    bytes.truncate(522);
    answers(&one, Restart(bytes.clone()), 16, 10); // the first stamp is 0
    for number in 0..64 {
        bytes[10 + 8 * number + 7] = number as u8 + 1;
        let answer = if number < 63 { (16, 18 + 8 * number as u64) } else { (0, 522) };
        answers(&one, Restart(bytes.clone()), answer.0, answer.1);
    }
    bytes[10 + 8 * 20 + 7] = 20; // equal to the one before
    bytes[10 + 8 * 40 + 7] = 39;
    answers(&one, Restart(bytes.clone()), 16, 10 + 8 * 20);
    bytes[10 + 8 * 20 + 7] = 21;
    answers(&one, Restart(bytes), 16, 10 + 8 * 40);
}

/// Any state, sound or damaged, on few stamps so that much of it meets.
fn any_coordinator(chance: &mut Chance) -> Coordinator {
    let top = chance.pick(&[3, 20, 90, 300, 5000]);
    // A number often at a limit, and gaps that are often 1.
    let count = match chance.below(6) {
        0 => chance.pick(&[63, 64]),
        1 => chance.pick(&[15, 16, 17, 18]),
        2 => chance.below(3),
        _ => chance.below(65),
    };
    let mut stamps: Vec<u64> = Vec::new();
    for _ in 0..count {
        stamps.push(stamps.last().unwrap_or(&0) + 1 + chance.below(top / 32 + 1));
    }
    if chance.one_in(9) && stamps.pop().is_some() {
        stamps.push(chance.pick(&[u64::MAX, u64::MAX - 1]));
    }
    let sent = near(chance, &stamps, top);
    let mut one = coordinator(&stamps, sent);
    for stamp in &mut one.granted[stamps.len()..] {
        *stamp = chance.below(top);
    }
    match chance.below(20) {
        0 => one.count = chance.pick(&[64, 65, 66, u64::MAX]),
        1 => one.granted[chance.below(64) as usize] = chance.below(top),
        _ => {}
    }
    one
}

/// A stamp at or beside one of these, or any.
fn near(chance: &mut Chance, stamps: &[u64], top: u64) -> u64 {
    match chance.below(12) {
        0 => chance.pick(&[0, 1, u64::MAX, u64::MAX - 1, 1 << 56]),
        1..=6 if !stamps.is_empty() => {
            let stamp = chance.pick(stamps);
            chance.pick(&[stamp - 1, stamp, stamp, stamp.saturating_add(1)])
        }
        _ => chance.below(top + 3),
    }
}

#[test]
fn any_state_any_call() {
    let mut chance = Chance(0xC0_0002);
    let mut seen = [[0u32; 18]; 5];
    for _ in 0..30_000 {
        let mut one = any_coordinator(&mut chance);
        for _ in 0..6 {
            let stamps: Vec<u64> = one.granted.iter().copied().filter(|&s| s > 0).collect();
            let top = chance.pick(&[20, 300, 5000]);
            let (low, high) = (near(&mut chance, &stamps, top), near(&mut chance, &stamps, top));
            let (low, high) =
                if chance.one_in(9) { (high, low) } else { (low.min(high), high.max(low)) };
            let room = chance.pick(&[148, 148, 149, 300, 600, 147, 0]);
            let (kind, call) = match chance.below(9) {
                0..=2 => {
                    let largest = stamps.iter().copied().chain([one.sent]).max().unwrap();
                    let stamp = chance.pick(&[low, largest, largest.saturating_add(1)]);
                    match chance.below(20) {
                        0 => (0, Grant(chance.pick(&[1 << 56, u64::MAX]), stamp % 256)),
                        1 => (0, Grant(stamp / 256, chance.pick(&[256, 257, u64::MAX]))),
                        _ => (0, Grant(stamp / 256, stamp % 256)),
                    }
                }
                3..=4 => (1, Message(low, high, room)),
                5..=6 => {
                    let mut request = request_bytes(low, high);
                    match chance.below(12) {
                        0 => drop(request.pop()),
                        1 => request.push(0),
                        2 => request[chance.below(3) as usize] ^= 1 << chance.below(8),
                        _ => {}
                    }
                    (2, Serve(request, room))
                }
                7 => (3, Keep(chance.pick(&[522, 522, 523, 600, 521, 0]))),
                _ => {
                    let mut bytes = vec![0; 522];
                    let size = one.keep(&mut bytes).1 as usize;
                    bytes.truncate(size);
                    for _ in 0..chance.below(3) {
                        if !bytes.is_empty() {
                            let at = chance.below(bytes.len() as u64) as usize;
                            bytes[at] ^= 1 << chance.below(8);
                        }
                    }
                    (4, Restart(bytes))
                }
            };
            let (code, _) = both(&mut one, &call);
            seen[kind][code as usize] += 1;
        }
    }
    let codes = [&[0, 2, 3, 5, 10][..], &[0, 2, 3], &[0, 2, 3, 16], &[0, 2, 3], &[0, 15, 16]];
    for (seen, codes) in seen.iter().zip(codes) {
        assert!(codes.iter().all(|&code| seen[code] > 50), "{seen:?}");
        assert_eq!(seen.iter().filter(|&&times| times > 0).count(), codes.len(), "{seen:?}");
    }
}
