//! A journal cut at every byte: restart gives the store after the last whole record, and from
//! there the rest of the night can be played again.

mod common;
use common::*;
use independent::*;

enum Call {
    Commit(u64, Vec<u64>, Vec<u64>),
    Gossip(u64, u64, Vec<u64>),
    Flush(u64),
}
use Call::*;

fn make(store: &mut Store, journal: &mut [u8], used: usize, call: &Call) -> Reply {
    match call {
        Commit(t, objects, values) => store.commit(journal, used, *t, objects, values),
        Gossip(prev, curr, stamps) => store.gossip(journal, used, *prev, *curr, stamps),
        Flush(page) => store.flush(journal, used, *page),
    }
}

/// Calls that all answer 0, with the longest and shortest records.
fn night() -> Vec<Call> {
    vec![
        Commit(100, vec![0], vec![7]),
        Commit(120, vec![0, 511, 17], vec![9, u64::MAX, 3]),
        Gossip(0, 110, vec![105]),
        Commit(130, (0..16).map(|k| 31 * k).collect(), (0..16).map(|k| k << 56 | 1).collect()),
        Flush(0),
        Gossip(100, 126, vec![105, 121, 125, 126]),
        Flush(31),
        Gossip(126, 126 + 16, (127..=142).collect()),
        Commit(143, vec![0, 16, 32], vec![0, 0, 0]),
        Flush(0),
        Flush(1),
        Commit(u64::MAX - 1, vec![0, 5], vec![1, 2]),
        Gossip(142, 142, vec![]), // answers 1 and leaves no record
        Gossip(142, u64::MAX - 1, vec![u64::MAX - 2]),
        Commit(u64::MAX, vec![5, 0], vec![8, 9]),
        Flush(0),
        Gossip(u64::MAX - 1, u64::MAX, vec![u64::MAX]),
        Flush(2),
    ]
}

#[test]
fn every_cut() {
    let calls = night();
    let mut journal = vec![0xEE; 2000];
    let mut store = Box::new(Store::fresh());
    // The place and the store after each call, and before the first.
    let mut stages = vec![(0, store.clone())];
    for (number, call) in calls.iter().enumerate() {
        let used = stages[number].0;
        let answer = make(&mut store, &mut journal, used, call);
        assert_eq!(answer.code, if number == 12 { 1 } else { 0 }, "call {number}");
        stages.push((answer.place, store.clone()));
    }
    let used = stages[calls.len()].0;
    assert!(journal[used..].iter().all(|&byte| byte == 0xEE));

    for cut in 0..=used {
        let mut again = store.clone();
        let answer = again.restart(&journal[..cut]);
        // The last stage whose bytes are all there.
        let number = stages.iter().rposition(|(place, _)| *place <= cut).unwrap();
        let (place, stage) = &stages[number];
        let place = if cut == 0 { 0 } else { 1.max(*place) };
        assert_eq!(answer, Reply { code: 0, number: place as u64, place }, "cut {cut}");
        assert_eq!(again, *stage, "cut {cut}");

        // Play on from there, over a journal with other bytes behind the cut.
        let mut second = vec![0x55; 2000];
        second[..cut].copy_from_slice(&journal[..cut]);
        let mut at = answer.place;
        for call in &calls[number..] {
            at = make(&mut again, &mut second, at, call).place;
        }
        assert_eq!(at, used, "cut {cut}");
        assert_eq!(again, store, "cut {cut}");
        assert_eq!(second[..used], journal[..used], "cut {cut}");
    }
}

/// The whole of the longest journal, with the fullest of its records cut off.
#[test]
fn longest_journal() {
    let mut journal = vec![0; JOURNAL];
    let mut store = Box::new(Store::fresh());
    let mut used = 0;
    let mut t = 0;
    let mut stages = vec![];
    loop {
        // A snapshotless night: the horizon follows, and the past values go.
        t += 1;
        let objects: Vec<u64> = (0..16).map(|k| (t * 5 + k * 3) % 128).collect();
        let answer = store.commit(&mut journal, used, t, &objects, &[t; 16]);
        if answer.code == 12 {
            assert_eq!(answer.number, used as u64 + 172);
            break;
        }
        assert_eq!(answer.code, 0);
        used = answer.place;
        stages.push((used, store.clone()));
        if t % 8 == 0 {
            let answer = store.gossip(&mut journal, used, t - 8, t, &[]);
            if answer.code == 12 {
                break;
            }
            assert_eq!(answer.code, 0);
            used = answer.place;
            stages.push((used, store.clone()));
        }
    }
    assert!(used > JOURNAL - 172);
    let mut again = Box::new(Store::fresh());
    for (place, stage) in stages.iter().rev().step_by(37) {
        assert_eq!(again.restart(&journal[..*place]), reply(0, *place as u64, 0));
        assert_eq!(again, *stage);
        assert_eq!(again.restart(&journal[..*place + 1]), reply(0, *place as u64, 0));
        assert_eq!(again, *stage);
    }
    // With zeros behind it, the rest isn't a record cut short but a length of 0.
    assert_eq!(again.restart(&journal), reply(16, used as u64, 0));
    assert_eq!(*again, Store::fresh());
}
