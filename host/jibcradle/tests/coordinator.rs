//! The coordinator, and the catalogue's end of the exchange with it.

use jibcradle::{
    Catalogue, Change, Coordinator, CoordinatorState, Refusal, Reply, Store, GRANTED, KEPT,
    MESSAGE, REQUEST,
};

mod common;
use common::{Dice, Scratch};

const LAST_TICK: u64 = (1 << 56) - 1;

/// A coordinator that has granted these.
fn holding(granted: &[u64], sent: u64) -> CoordinatorState {
    let mut state = CoordinatorState::fresh();
    state.count = granted.len() as u64;
    state.granted[..granted.len()].copy_from_slice(granted);
    state.sent = sent;
    state
}

fn reply(code: u64, number: u64) -> Reply {
    Reply { code, number }
}

/// A message's or a request's numbers: each field of eight bytes from a place on.
fn word(bytes: &[u8], at: usize) -> u64 {
    u64::from_be_bytes(bytes[at..at + 8].try_into().unwrap())
}

#[test]
fn a_grant_lies_beyond_everything_granted_and_sent() {
    let mut coordinator = Coordinator::fresh();
    assert_eq!(coordinator.grant(0, 0), Err(Refusal::Late { latest: 0 }));
    assert_eq!(coordinator.grant(LAST_TICK + 1, 0), Err(Refusal::Shape));
    assert_eq!(coordinator.grant(0, 256), Err(Refusal::Shape));
    assert_eq!(coordinator.grant(0, 1), Ok(1));
    assert_eq!(coordinator.grant(0, 1), Err(Refusal::Late { latest: 1 }));
    coordinator.message(0, 600).unwrap();
    assert_eq!(coordinator.grant(2, 88), Err(Refusal::Late { latest: 600 }));
    assert_eq!(coordinator.grant(2, 89), Ok(601));
    assert_eq!((coordinator.granted(), coordinator.sent()), ([1, 601].as_slice(), 600));
    assert_eq!(coordinator.grant(LAST_TICK, 255), Ok(u64::MAX));
    assert_eq!(coordinator.grant(LAST_TICK, 255), Err(Refusal::Late { latest: u64::MAX }));
}

#[test]
fn it_keeps_sixty_four() {
    let mut coordinator = Coordinator::fresh();
    for tick in 1..=GRANTED as u64 {
        assert_eq!(coordinator.grant(tick, 7), Ok(256 * tick + 7));
    }
    assert_eq!(coordinator.grant(65, 0), Err(Refusal::SnapshotsFull));
    // A 65th that is also late is late.
    assert_eq!(coordinator.grant(64, 7), Err(Refusal::Late { latest: 64 * 256 + 7 }));
    assert_eq!(coordinator.granted().len(), GRANTED);
}

#[test]
fn a_message_tells_of_sixteen_at_most() {
    let stamps: Vec<u64> = (1..=17).map(|n| 10 * n).collect();
    for (clock, curr, count) in [(160, 160, 16), (169, 169, 16), (170, 160, 16), (999, 160, 16)] {
        let mut state = holding(&stamps, 0);
        let mut buffer = [9; MESSAGE + 1];
        assert_eq!(state.message(0, clock, &mut buffer), reply(0, 20 + 8 * count));
        assert_eq!((word(&buffer, 3), word(&buffer, 11), buffer[19]), (0, curr, 16));
        assert_eq!((word(&buffer, 20), word(&buffer, 140)), (10, 160));
        assert_eq!((buffer[MESSAGE], state.sent), (9, curr));
    }
    let mut state = holding(&stamps, 500);
    let mut buffer = [9; MESSAGE];
    assert_eq!(state.message(160, 170, &mut buffer), reply(0, 28));
    assert!(buffer[28..].iter().all(|&byte| byte == 9));
    assert_eq!((word(&buffer, 20), state.sent), (170, 500));
    assert_eq!(state.message(170, 170, &mut buffer), reply(0, 20));
}

#[test]
fn a_refused_call_leaves_everything() {
    let damaged = [holding(&[0], 0), holding(&[5, 5], 0), holding(&[7, 6], 0), {
        let mut over = CoordinatorState::fresh();
        over.count = GRANTED as u64 + 1;
        over
    }];
    for before in damaged {
        let mut state = before.clone();
        let mut buffer = [9; KEPT];
        assert_eq!(state.grant(LAST_TICK + 1, 0), reply(2, 0));
        assert_eq!(state.message(1, 0, &mut []), reply(2, 0));
        assert_eq!(state.serve(&[], &mut buffer), reply(2, 0));
        assert_eq!(state.keep(&mut buffer), reply(2, 0));
        assert_eq!((state, buffer), (before, [9; KEPT]));
    }
    let before = holding(&[5, 6], 9);
    for length in 0..MESSAGE {
        let mut state = before.clone();
        let mut buffer = vec![9; length];
        assert_eq!(state.message(0, 9, &mut buffer), reply(3, 0));
        assert_eq!((state, buffer), (before.clone(), vec![9; length]));
    }
    let mut state = before.clone();
    let mut buffer = [9; MESSAGE];
    assert_eq!(state.message(10, 9, &mut buffer), reply(3, 0));
    assert_eq!((state, buffer), (before, [9; MESSAGE]));
}

#[test]
fn a_request_is_exactly_one_record() {
    let mut catalogue = Catalogue::fresh();
    catalogue.gossip(0, 300, &[261]).unwrap();
    let request = catalogue.ask(600).unwrap();
    assert_eq!(request[..3], [0, 17, 4]);
    assert_eq!((word(&request, 3), word(&request, 11)), (300, 600));
    assert_eq!(catalogue.ask(299), Err(Refusal::Shape));
    assert!(catalogue.ask(300).is_ok());
    for length in 0..REQUEST {
        assert_eq!(catalogue.store().ask(600, &mut vec![0; length]), reply(3, 0));
    }

    let mut coordinator = Coordinator::fresh();
    assert_eq!(coordinator.serve(&request).unwrap().len(), 20);
    for length in (0..REQUEST).chain([REQUEST + 1, 200]) {
        let mut bytes = request.to_vec();
        bytes.resize(length, 0);
        assert_eq!(coordinator.serve(&bytes), Err(Refusal::Malformed { offset: 0 }));
    }
    for place in 0..3 {
        let mut bytes = request;
        bytes[place] ^= 1;
        assert_eq!(coordinator.serve(&bytes), Err(Refusal::Malformed { offset: 0 }));
    }
    let mut backwards = request;
    backwards[11..].fill(0);
    assert_eq!(coordinator.serve(&backwards), Err(Refusal::Shape));
}

#[test]
fn a_message_is_heard_whole_or_not_at_all() {
    let mut coordinator = Coordinator::fresh();
    coordinator.grant(1, 5).unwrap();
    let message = coordinator.message(0, 300).unwrap();
    let mut catalogue = Catalogue::fresh();
    let fresh = catalogue.clone();
    for length in 0..message.len() {
        let heard = catalogue.hear(&message[..length]);
        assert_eq!(heard, Err(Refusal::Malformed { offset: 0 }));
    }
    let longer = [&message[..], &[0]].concat();
    assert_eq!(catalogue.hear(&longer), Err(Refusal::Malformed { offset: 0 }));
    let commit = [0, 20, 1, 0, 0, 0, 0, 0, 0, 0, 9, 1, 0, 0, 0, 0, 0, 0, 0, 0, 0, 7];
    assert_eq!(catalogue.hear(&commit), Err(Refusal::Malformed { offset: 0 }));
    assert_eq!(catalogue.hear(&[0, 2, 3, 0]), Err(Refusal::Malformed { offset: 0 }));
    assert_eq!(catalogue, fresh);
    assert_eq!(catalogue.hear(&message), Ok(Change::Written(29)));
    assert_eq!(&catalogue.journal()[1..], &message[..]);
    // A damaged store is told before the message is looked at.
    let mut store = Store::fresh();
    store.heads.pending = 129;
    assert_eq!(store.hear(&mut [0; 64], 0, &[]).code, 2);
}

#[test]
fn a_journal_with_a_request_in_it_is_malformed() {
    let request = Catalogue::fresh().ask(600).unwrap();
    let journal = [&[1], &request[..]].concat();
    assert_eq!(Catalogue::restart(&journal), Err(Refusal::Malformed { offset: 1 }));
}

#[test]
fn what_is_kept_comes_back() {
    assert_eq!(Coordinator::restart(&[]), Ok(Coordinator::fresh()));
    let mut coordinator = Coordinator::fresh();
    for tick in 1..=GRANTED as u64 {
        assert_eq!(Coordinator::restart(&coordinator.bytes()), Ok(coordinator.clone()));
        coordinator.grant(tick, tick).unwrap();
        coordinator.message(0, 256 * tick + tick).unwrap();
    }
    let bytes = coordinator.bytes();
    assert_eq!(bytes.len(), KEPT);
    assert_eq!(Coordinator::restart(&bytes), Ok(coordinator.clone()));
    for length in 1..bytes.len() {
        let offset = if length < 10 { 1 } else { 9 };
        assert_eq!(Coordinator::restart(&bytes[..length]), Err(Refusal::Malformed { offset }));
    }
    let mut other = bytes.clone();
    other[0] = 2;
    assert_eq!(Coordinator::restart(&other), Err(Refusal::Version { found: 2 }));
    let mut other = bytes.clone();
    other.copy_within(10..18, 18);
    assert_eq!(Coordinator::restart(&other), Err(Refusal::Malformed { offset: 18 }));
    let mut other = bytes.clone();
    other[10..18].fill(0);
    assert_eq!(Coordinator::restart(&other), Err(Refusal::Malformed { offset: 10 }));
    // A refused restart leaves a fresh one.
    let mut state = coordinator.state().clone();
    assert_eq!(state.restart(&other), reply(16, 10));
    assert_eq!(state, CoordinatorState::fresh());
    for length in [0, KEPT - 1] {
        let mut buffer = vec![9; length];
        assert_eq!(coordinator.state().keep(&mut buffer), reply(3, 0));
        assert_eq!(buffer, vec![9; length]);
    }
}

/// Two catalogues hear one coordinator over a line that loses, repeats and delays.
#[test]
fn catalogues_know_what_was_granted() {
    let mut dice = Dice(0x5eed);
    for _ in 0..200 {
        let mut coordinator = Coordinator::fresh();
        let mut catalogues = [Catalogue::fresh(), Catalogue::fresh()];
        let mut written: Vec<Vec<u8>> = Vec::new();
        let mut clock = 0;
        for _ in 0..60 {
            clock += dice.below(300);
            match dice.below(4) {
                0 => drop(coordinator.grant(clock / 256 + dice.below(2), dice.below(256))),
                1 => written.push(coordinator.message(dice.below(clock + 1), clock).unwrap()),
                2 => coordinator = Coordinator::restart(&coordinator.bytes()).unwrap(),
                _ => exchange(&mut dice, &mut coordinator, &mut catalogues, &mut written),
            }
            for catalogue in &catalogues {
                let known = catalogue.known().unwrap();
                let granted = coordinator.granted();
                let upto = granted.partition_point(|&stamp| stamp <= known.horizon);
                assert_eq!(known.snapshots, &granted[..upto]);
            }
        }
    }
}

/// One catalogue hears one of the messages; on a gap it asks, and the reply joins them.
fn exchange(
    dice: &mut Dice,
    coordinator: &mut Coordinator,
    catalogues: &mut [Catalogue; 2],
    written: &mut Vec<Vec<u8>>,
) {
    if written.is_empty() {
        return;
    }
    let catalogue = &mut catalogues[dice.below(2) as usize];
    let message = written[dice.below(written.len() as u64) as usize].clone();
    match catalogue.hear(&message) {
        Ok(_) => {}
        Err(Refusal::Gap { .. }) => {
            let request = catalogue.ask(word(&message, 11)).unwrap();
            written.push(coordinator.serve(&request).unwrap());
        }
        Err(refusal) => panic!("a message was answered {refusal:?}"),
    }
}

#[test]
fn what_a_file_heard_lasts() {
    let scratch = Scratch::new("hears");
    let path = scratch.path("journal");
    let mut coordinator = Coordinator::fresh();
    coordinator.grant(1, 5).unwrap();
    let first = coordinator.message(0, 300).unwrap();
    let second = coordinator.message(300, 600).unwrap();
    let mut file = Catalogue::open(&path).unwrap();
    assert!(file.hear(&second).is_err());
    assert_eq!(file.ask(600).unwrap()[..3], [0, 17, 4]);
    file.hear(&first).unwrap();
    drop(file);
    let mut file = Catalogue::open(&path).unwrap();
    assert_eq!(file.known().unwrap().snapshots, [261]);
    assert_eq!(file.hear(&first).unwrap(), Change::Nothing);
    file.hear(&second).unwrap();
    assert_eq!(file.known().unwrap().horizon, 600);
}
