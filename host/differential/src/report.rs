//! Prints a difference: where it was met, what both sides answered, and the smallest run found
//! that has it.

use crate::call::Call;
use crate::contents::{copies, granted, past, pending, snapshots};
use crate::driver::{Driver, Finding};
use crate::run::{replay, Difference, Start};
use independent::{Coordinator, Store};

/// Prints the finding, and its case made small.
pub fn tell(seed: u64, driver: &Driver, finding: Finding) {
    let Finding { run, call, .. } = finding;
    println!("\nDIFFERENCE: seed {seed}, call {} (run {run}, call {call} of it)", driver.calls);
    tell_difference(&finding.calls[call], &finding.difference);
    let case = driver.shrunk(finding);
    println!("\nthe same in {} calls:", case.calls.len());
    tell_start(&case.start);
    for (number, call) in case.calls.iter().enumerate() {
        println!("  {number}: {call:?}");
    }
    if let Some((last, difference)) = replay(&case.start, &case.calls, driver.fault()) {
        tell_difference(&case.calls[last], &difference);
    }
}

fn tell_difference(call: &Call, difference: &Difference) {
    println!("call:        {call:?}");
    println!("differ in:   {}", difference.what);
    println!("independent: {}", difference.reference);
    println!("library:     {}", difference.library);
}

/// Prints the contents that a run starts from.
fn tell_start(start: &Start) {
    let (journal, place) = (&start.journal, start.place);
    let used = &journal[..place.min(journal.len())];
    println!("  journal of {} bytes, place {place}, used bytes {used:02x?}", journal.len());
    let state = &start.coordinator;
    if **state == Coordinator::fresh() {
        println!("  fresh coordinator");
    } else {
        println!(
            "  coordinator: sent {}, {} granted {:?}",
            state.sent,
            state.count,
            granted(state)
        );
    }
    let store = &start.store;
    if **store == Store::fresh() {
        println!("  fresh store");
        return;
    }
    println!("  horizon {}, last {}", store.horizon, store.last);
    let disk = store.disk_values.iter().zip(&store.disk_stamps).enumerate();
    let written: Vec<_> = disk.filter(|(_, row)| *row != (&0, &0)).collect();
    println!("  disk (object, (value, stamp)) {written:?}");
    println!("  {} pending {:?}", store.pending_count, pending(store));
    println!("  {} past {:?}", store.past_count, past(store));
    println!("  {} snapshots {:?}", store.snapshot_count, snapshots(store));
    println!("  {} copies {:?}", store.copy_count, copies(store));
}
