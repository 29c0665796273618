//! The order of the refusals. Each test starts with all that can go wrong at once and rights one
//! thing after the other; every refusal leaves all as it was.

mod common;
use common::*;
use independent::*;

struct Commit<'a> {
    store: Box<Store>,
    room: usize,
    used: usize,
    t: u64,
    objects: &'a [u64],
    values: &'a [u64],
}

impl Commit<'_> {
    fn answers(&self, code: u8, number: u64) {
        let mut store = self.store.clone();
        let mut journal = vec![0xEE; self.room];
        let answer = store.commit(&mut journal, self.used, self.t, self.objects, self.values);
        assert_eq!(answer, reply(code, number, self.used));
        if code != 0 {
            assert!(identical(&store, &self.store));
            assert!(journal.iter().all(|&byte| byte == 0xEE));
        }
    }
}

/// A full pending table (objects 0 to 127), a full past table and three snapshots.
fn full() -> Box<Store> {
    let pendings: Vec<_> = (0..128).map(|object| pending(object, 50, 60, object)).collect();
    let pasts: Vec<_> = (0..256).map(|object| past(object, 0, 100, 1)).collect();
    store(&pendings, &pasts, &[10, 20, 30], &[], 40, 60)
}

#[test]
fn commit() {
    let mut call = Commit {
        store: full(),
        room: 65_536,
        used: 65_537,
        t: 60,
        objects: &[0, 512, 0],
        values: &[1],
    };
    call.store.snapshots[0] = 20;
    call.answers(2, 0);
    call.store.snapshots[0] = 10;
    call.answers(3, 0); // journal too long, used beyond it, an object out of range, unequal lists
    call.room = 30;
    call.answers(3, 0); // used beyond it
    call.used = 20;
    call.answers(3, 0); // an object out of range, unequal lists
    call.objects = &[0, 200, 0];
    call.answers(3, 0); // unequal lists
    call.values = &[1, 2, 3];
    call.answers(4, 0);
    call.objects = &[0, 200, 3];
    call.answers(5, 60); // L
    call.store.horizon = 70;
    call.answers(5, 70); // H is larger
    call.t = 70;
    call.answers(5, 70);
    call.t = 0;
    call.answers(5, 70);
    call.t = 72;
    call.answers(8, 0);
    call.store.pending_count = 127;
    call.answers(9, 0);
    call.store.past_count = 254;
    call.answers(12, 20 + 12 + 30);
    call.room = 20 + 12 + 30 - 1;
    call.answers(12, 20 + 12 + 30);
    call.room = 20 + 12 + 30;
    call.answers(0, 20 + 12 + 30);
    call.used = 0;
    call.room = 42;
    call.answers(12, 43);
    call.room = 43;
    call.answers(0, 43);
    call.room = 0;
    call.answers(12, 43);
}

#[test]
fn commit_shapes() {
    let many: Vec<u64> = (0..17).collect();
    let fine = Commit {
        store: Box::new(Store::fresh()),
        room: 1000,
        used: 0,
        t: 1,
        objects: &[511],
        values: &[1],
    };
    fine.answers(0, 23);
    Commit { objects: &[], values: &[], ..fine_again() }.answers(3, 0);
    Commit { objects: &many, values: &many, ..fine_again() }.answers(3, 0);
    Commit { objects: &many[..16], values: &many[..16], ..fine_again() }.answers(0, 1 + 172);
    Commit { objects: &many[..16], values: &many, ..fine_again() }.answers(3, 0);
    Commit { objects: &many[..2], values: &many[..1], ..fine_again() }.answers(3, 0);
    Commit { objects: &[], values: &many[..1], ..fine_again() }.answers(3, 0);
    for object in [512, 65_536, 1 << 32, u64::MAX] {
        Commit { objects: &[object], ..fine_again() }.answers(3, 0);
        // Shape comes before Twice.
        Commit { objects: &[1, 1, object], values: &[1; 3], ..fine_again() }.answers(3, 0);
        Commit { objects: &[object, object], values: &[1; 2], ..fine_again() }.answers(3, 0);
    }
    Commit { objects: &[511, 0, 511], values: &[1; 3], ..fine_again() }.answers(4, 0);
    Commit { room: 65_535, ..fine_again() }.answers(0, 23);
    Commit { room: 65_536, ..fine_again() }.answers(3, 0);
    Commit { used: 1000, ..fine_again() }.answers(12, 1022);
    Commit { used: 1001, ..fine_again() }.answers(3, 0);
    Commit { used: usize::MAX, ..fine_again() }.answers(3, 0);
    Commit { room: 65_535, used: 65_535, ..fine_again() }.answers(12, 65_557);
    Commit { room: 65_535, used: 65_535 - 22, ..fine_again() }.answers(0, 65_535);

    fn fine_again() -> Commit<'static> {
        Commit {
            store: Box::new(Store::fresh()),
            room: 1000,
            used: 0,
            t: 1,
            objects: &[511],
            values: &[1],
        }
    }
}

struct Gossip<'a> {
    store: Box<Store>,
    room: usize,
    used: usize,
    prev: u64,
    curr: u64,
    stamps: &'a [u64],
}

impl Gossip<'_> {
    fn answers(&self, code: u8, number: u64) {
        let mut store = self.store.clone();
        let mut journal = vec![0xEE; self.room];
        let answer = store.gossip(&mut journal, self.used, self.prev, self.curr, self.stamps);
        assert_eq!(answer, reply(code, number, self.used));
        if code != 0 {
            assert!(identical(&store, &self.store));
            assert!(journal.iter().all(|&byte| byte == 0xEE));
        }
    }
}

/// 63 snapshots at 2, 4, .. 126; the horizon is 130.
fn nearly_full_of_snapshots() -> Box<Store> {
    let snapshots: Vec<u64> = (1..64).map(|number| 2 * number).collect();
    store(&[], &[], &snapshots, &[], 130, 0)
}

#[test]
fn gossip() {
    let mut call = Gossip {
        store: nearly_full_of_snapshots(),
        room: 65_536,
        used: 65_537,
        prev: 150,
        curr: 149,
        stamps: &[170, 160, 9],
    };
    call.store.copies[0].page = 32;
    call.store.copy_count = 1;
    call.answers(2, 0);
    call.store.copy_count = 0;
    call.answers(3, 0); // all of it
    call.room = 30;
    call.answers(3, 0);
    call.used = 20;
    call.answers(3, 0); // prev > curr, order, bounds
    call.curr = 170;
    call.answers(3, 0); // order, bounds
    call.stamps = &[9, 160, 170];
    call.answers(3, 0); // bounds
    call.stamps = &[160, 170];
    call.answers(6, 130); // a gap, and more snapshots than there is room for
    call.prev = 131;
    call.answers(6, 130);
    call.prev = 125;
    call.answers(7, 126); // a conflict, and more snapshots than there is room for
    call.stamps = &[126, 127, 160, 170];
    call.answers(7, 127);
    call.stamps = &[126, 160, 170];
    call.answers(10, 0);
    call.stamps = &[126, 160];
    call.answers(12, 20 + 20 + 16);
    call.room = 55;
    call.answers(12, 56);
    call.room = 56;
    call.answers(0, 56);

    // Conflict comes before Nothing, Nothing before the room of any table or journal.
    call.room = 20;
    call.curr = 130;
    call.stamps = &[];
    call.answers(7, 126);
    call.stamps = &[126];
    call.answers(1, 20);
    call.store.snapshot_count = 64;
    call.store.snapshots[63] = 129;
    call.stamps = &[126, 129];
    call.answers(1, 20);
    call.used = 0;
    call.room = 0;
    call.answers(1, 0);
    call.stamps = &[126, 129, 131];
    call.curr = 131;
    call.answers(10, 0);
    call.stamps = &[126, 129];
    call.answers(12, 1 + 20 + 16);
    // A message without new stamps needs no room among the snapshots.
    call.room = 37;
    call.answers(0, 37);
}

#[test]
fn gossip_shapes() {
    let many: Vec<u64> = (1..18).collect();
    let ask = |prev, curr, stamps: &[u64], code, number| {
        let store = Box::new(Store::fresh());
        Gossip { store, room: 500, used: 3, prev, curr, stamps }.answers(code, number);
    };
    ask(0, 20, &many[..16], 0, 3 + 20 + 128);
    ask(0, 20, &many, 3, 0);
    ask(0, 16, &many[..16], 0, 151);
    ask(0, 15, &many[..16], 3, 0);
    ask(1, 20, &many[..16], 3, 0);
    ask(1, 0, &[], 3, 0);
    ask(0, 0, &[], 1, 3);
    ask(0, 0, &[0], 3, 0);
    ask(0, 5, &[0], 3, 0);
    ask(0, 5, &[5], 0, 31);
    ask(0, 5, &[6], 3, 0);
    ask(0, 5, &[1, 1], 3, 0);
    ask(0, 5, &[2, 1], 3, 0);
    ask(0, u64::MAX, &[u64::MAX], 0, 31);
    ask(u64::MAX, u64::MAX, &[u64::MAX], 3, 0);
    ask(u64::MAX, u64::MAX, &[], 6, 0);
    ask(1, 1, &[], 6, 0);
    let fresh = || Box::new(Store::fresh());
    for (room, used, code, number) in [
        (65_535, 0, 0, 21),
        (65_536, 0, 3, 0),
        (10, 11, 3, 0),
        (10, 10, 12, 30),
        (10, usize::MAX, 3, 0),
        (65_535, 65_515, 0, 65_535),
        (65_535, 65_516, 12, 65_536),
    ] {
        Gossip { store: fresh(), room, used, prev: 0, curr: 9, stamps: &[] }.answers(code, number);
    }
}

#[test]
fn gossip_conflicts() {
    let ask = |prev, curr, stamps: &[u64], code, number| {
        let store = store(&[], &[], &[10, 20, 30, 40], &[], 45, 0);
        Gossip { store, room: 500, used: 3, prev, curr, stamps }.answers(code, number);
    };
    ask(0, 45, &[10, 20, 30, 40], 1, 3);
    ask(0, 40, &[10, 20, 30, 40], 1, 3);
    ask(0, 39, &[10, 20, 30], 1, 3);
    ask(9, 45, &[10, 20, 30, 40], 1, 3);
    ask(10, 45, &[20, 30, 40], 1, 3);
    ask(10, 10, &[], 1, 3);
    ask(45, 45, &[], 1, 3);
    // One missing: at the start, the middle, the end.
    ask(0, 45, &[20, 30, 40], 7, 10);
    ask(0, 45, &[10, 30, 40], 7, 20);
    ask(0, 45, &[10, 20, 30], 7, 40);
    ask(0, 45, &[], 7, 10);
    // One too many.
    ask(0, 45, &[5, 10, 20, 30, 40], 7, 5);
    ask(0, 45, &[10, 15, 20, 30, 40], 7, 15);
    ask(0, 45, &[10, 20, 30, 40, 41], 7, 41);
    ask(10, 19, &[15], 7, 15);
    // Instead of one another: the smaller counts.
    ask(0, 45, &[10, 21, 30, 40], 7, 20);
    ask(0, 45, &[10, 19, 30, 40], 7, 19);
    // Only up to the horizon, which itself is compared.
    ask(0, 60, &[10, 20, 30, 40, 45], 7, 45);
    ask(0, 60, &[10, 20, 30, 40, 46], 0, 3 + 20 + 40);
    ask(30, 60, &[40, 46, 60], 0, 3 + 20 + 24);
    ask(30, 60, &[46, 60], 7, 40);
    ask(45, 60, &[46, 60], 0, 3 + 20 + 16);
    ask(44, 60, &[45, 60], 7, 45);
    ask(46, 60, &[47], 6, 45);
}

struct Flush {
    store: Box<Store>,
    room: usize,
    used: usize,
    page: u64,
}

impl Flush {
    fn answers(&self, code: u8, number: u64) {
        let mut store = self.store.clone();
        let mut journal = vec![0xEE; self.room];
        let answer = store.flush(&mut journal, self.used, self.page);
        assert_eq!(answer, reply(code, number, self.used));
        if code != 0 {
            assert!(identical(&store, &self.store));
            assert!(journal.iter().all(|&byte| byte == 0xEE));
        }
    }
}

#[test]
fn flush() {
    let mut call = Flush { store: full(), room: 65_536, used: 65_537, page: 32 };
    // The archive is full too, with copies of page 9, which has nothing pending and nothing due;
    // page 0 has, and its flush makes a live past value with no room for it.
    call.store.copies = [copy(9, 30, [0; 16]); 128];
    call.store.copy_count = 128;
    for row in &mut call.store.past {
        *row = past(500, 0, 100, 1);
    }
    call.store.disk_stamps[..16].fill(45);
    call.store.pending[127].object = 126;
    call.answers(2, 0);
    call.store.pending[127].object = 127;
    call.answers(3, 0);
    call.room = 23;
    call.answers(3, 0);
    call.used = 20;
    call.answers(3, 0);
    call.page = u64::MAX;
    call.answers(3, 0);
    call.page = 9;
    call.answers(1, 20);
    call.page = 0;
    // All three snapshots are due: the disk values were written after them.
    call.answers(11, 0);
    call.store.copy_count = 126;
    call.answers(11, 0);
    call.store.copy_count = 125;
    call.answers(9, 0);
    call.store.past_count = 241;
    call.answers(9, 0);
    call.store.past_count = 240;
    call.answers(12, 24);
    call.room = 24;
    call.answers(0, 24);
    call.used = 0;
    call.room = 4;
    call.answers(12, 5);
    call.room = 5;
    call.answers(0, 5);
    call.page = 9;
    call.room = 0;
    call.answers(1, 0);
    call.room = 65_536;
    call.answers(3, 0);
    call.room = 65_535;
    call.used = 65_535;
    call.answers(1, 65_535);
    call.page = 0;
    call.answers(12, 65_539);
}

#[test]
fn reads() {
    let mut sample = store(&[], &[], &[], &[], 600, 0);
    let ask = |sample: &Store, time, tick, page, length, code, number| {
        let mut buffer = vec![9; length];
        assert_eq!(sample.snapshot_read(time, page, &mut buffer), (code, number));
        assert!(code == 0 || buffer.iter().all(|&value| value == 9));
        let mut buffer = vec![9; length];
        assert_eq!(sample.clock_read(tick, page, &mut buffer), (code, number));
        assert!(code == 0 || buffer.iter().all(|&value| value == 9));
    };
    sample.past[0].object = 512;
    sample.past_count = 1;
    ask(&sample, 601, 1 << 56, 32, 15, 2, 0);
    sample.past_count = 0;
    ask(&sample, 601, 1 << 56, 32, 15, 3, 0);
    ask(&sample, 601, 3, 32, 16, 3, 0);
    ask(&sample, 601, 3, u64::MAX, 16, 3, 0);
    for length in [0, 15, 17, 512] {
        ask(&sample, 601, 3, 31, length, 3, 0);
    }
    ask(&sample, 601, 3, 31, 16, 13, 600);
    ask(&sample, 600, 2, 31, 16, 14, 0);
    ask(&sample, 0, 0, 31, 16, 14, 0);
    sample.snapshots[0] = 513;
    sample.snapshot_count = 1;
    ask(&sample, 512, 2, 31, 16, 14, 0);
    sample.snapshots[0] = 512;
    ask(&sample, 512, 2, 31, 16, 0, 512);

    let mut buffer = [9; 16];
    // A tick out of range is out of shape also where the horizon reaches to the end.
    sample.horizon = u64::MAX;
    for tick in [1 << 56, (1 << 56) + 1, u64::MAX] {
        assert_eq!(sample.clock_read(tick, 0, &mut buffer), (3, 0));
    }
    assert_eq!(buffer, [9; 16]);
    assert_eq!(sample.clock_read((1 << 56) - 1, 0, &mut buffer), (0, 512));
    assert_eq!(sample.snapshot_read(u64::MAX, 0, &mut buffer), (0, 512));
    sample.horizon = u64::MAX - 256;
    assert_eq!(sample.clock_read((1 << 56) - 1, 0, &mut buffer), (13, u64::MAX - 256));
    sample.horizon = u64::MAX - 255;
    assert_eq!(sample.clock_read((1 << 56) - 1, 0, &mut buffer), (0, 512));

    let mut buffer = [9; 17];
    assert_eq!(sample.current_read(0, &mut buffer), (3, 0));
    assert_eq!(sample.current_read(0, &mut buffer[..15]), (3, 0));
    assert_eq!(sample.current_read(32, &mut buffer[..16]), (3, 0));
    assert_eq!(buffer, [9; 17]);
    assert_eq!(sample.current_read(31, &mut buffer[..16]), (0, 0));
    assert_eq!(buffer[..16], [0; 16]);
    sample.copies[0].page = 32;
    sample.copy_count = 1;
    assert_eq!(sample.current_read(32, &mut buffer), (2, 0));
}
