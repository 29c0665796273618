//! Tests of the comparison: it finds each fault laid on the library's side, finds none where there
//! is none, and makes the same calls for the same seed.

use crate::call::{Call, Lent, Order};
use crate::driver::Driver;
use crate::fault::{Fault, FAULTS};
use crate::options::Options;
use crate::orders::grant_of;
use crate::run::{replay, Pair, Start};
use crate::schedule::{Run, WEIGHTS};
use crate::worlds;
use independent::{Coordinator, Store, MESSAGE};
use std::collections::BTreeSet;
use std::time::Duration;

fn driver(seed: u64, calls: u64, fault: Fault) -> Driver {
    Driver::new(Options { seed, time: Duration::ZERO, calls: Some(calls), fault })
}

#[test]
fn each_fault_is_found_and_made_small() {
    for (name, fault) in FAULTS {
        let mut driver = driver(7, 1_000_000, fault);
        let finding = driver.drive().unwrap_or_else(|| panic!("{name} isn't found"));
        let before = finding.calls.len();
        let case = driver.shrunk(*finding);
        assert!(case.calls.len() <= before);
        let (last, _) = replay(&case.start, &case.calls, fault).expect("the small case differs");
        assert_eq!(last + 1, case.calls.len());
        assert!(replay(&case.start, &case.calls, Fault::None).is_none(), "{name}");
        println!("{name}: found after {} calls, made {} of {before}", driver.calls, last + 1);
    }
}

#[test]
fn no_difference_where_there_is_no_fault() {
    let mut driver = driver(3, 60_000, Fault::None);
    assert!(driver.drive().is_none());
    assert_eq!(driver.calls, 60_000);
}

/// The codes that hearing and serving meet in some worlds.
#[test]
fn worlds_leave_gaps_and_close_them() {
    let (mut heard, mut served) = (BTreeSet::new(), BTreeSet::new());
    for seed in 0..60 {
        let mut run = Run::of(seed, WEIGHTS.len() as u64 - 1);
        let mut pair = Pair::new(&run.start, Fault::None);
        while let Some(call) = run.next(&pair.view()) {
            let code = pair.play(&call).expect("both sides agree");
            assert_eq!(run.broken(&pair.view(), &call, code), None);
            match call {
                Call::Hear { .. } => drop(heard.insert(code)),
                Call::Order(Order::Serve { .. }) => drop(served.insert(code)),
                _ => {}
            }
        }
    }
    assert_eq!(heard, BTreeSet::from([0, 1, 6, 12, 16]));
    assert_eq!(served, BTreeSet::from([0, 16]));
}

#[test]
fn a_coordinator_that_forgets_is_found_out() {
    let (store, coordinator) = (Box::new(Store::fresh()), Box::new(Coordinator::fresh()));
    let start = Start { store, junk: 1, journal: vec![0; 200], place: 0, coordinator };
    let mut pair = Pair::new(&start, Fault::None);
    let mut broken = |call: Call| {
        let code = pair.play(&call).expect("both sides agree");
        let message = pair.view().post.messages.last().cloned().unwrap_or_default();
        (worlds::broken(&pair.view(), &call, code), message)
    };
    let message = |clock: u64| Call::Order(Order::Message { prev: 0, clock, buffer: MESSAGE });
    assert_eq!(broken(Call::Order(grant_of(261))).0, None);
    let (_, told) = broken(message(300));
    assert_eq!(broken(Call::Hear { lent: Lent::Own, message: told }).0, None);
    // What the store knows isn't granted any more, and then something else is.
    assert!(broken(Call::Order(Order::Fresh)).0.is_some());
    broken(Call::Order(grant_of(5)));
    let (_, told) = broken(message(400));
    assert!(broken(Call::Hear { lent: Lent::Own, message: told }).0.is_some());
}

#[test]
fn the_same_calls_for_the_same_seed() {
    let tally = |seed: u64| {
        let mut driver = driver(seed, 5_000, Fault::None);
        driver.drive();
        driver.tally.to_string()
    };
    assert_eq!(tally(5), tally(5));
    assert_ne!(tally(5), tally(6));
}

#[test]
fn flags() {
    let read = |line: &str| Options::read(line.split_whitespace().map(String::from));
    let minute = Duration::from_secs(60);
    let plain = Options { seed: 1, time: minute, calls: None, fault: Fault::None };
    assert_eq!(read(""), Ok(plain));
    assert_eq!(read("--long").unwrap().time, 30 * minute);
    assert_eq!(read("--calls 7 --seed 9").unwrap().calls, Some(7));
    assert_eq!(read("--fault lag").unwrap().fault, Fault::Lag);
    assert!(read("--seconds").is_err());
    assert!(read("--second 3").is_err());
}
