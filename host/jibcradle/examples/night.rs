//! The scope document's worked night: what each call answers, and what its pages show.
//! Run it by `cargo run --example night`.

use jibcradle::{Catalogue, Change, Refusal, Snapshot};

/// The night's calls, in order; stops at a refusal that the night doesn't have.
fn main() -> Result<(), Refusal> {
    let mut night = Catalogue::with_room(4096)?;
    tell("commit 100, object 0 = 7", night.commit(100, &[(0, 7)]));
    tell("commit 100 again", night.commit(100, &[(0, 7)]));
    tell("commit 120, object 0 = 9", night.commit(120, &[(0, 9)]));
    tell("gossip 0 to 110 of 105", night.gossip(0, 110, &[105]));
    show("read page 0 at time 107", night.read(107, 0));
    show("read page 0 at time 104", night.read(104, 0));
    show("read page 0 at time 111", night.read(111, 0));
    tell("flush page 0", night.flush(0));
    tell("flush page 0 again", night.flush(0));
    tell("gossip 110 to 200 of none", night.gossip(110, 200, &[]));
    tell("commit 200", night.commit(200, &[(0, 1)]));
    tell("gossip 201 to 300 of none", night.gossip(201, 300, &[]));
    tell("gossip 100 to 300 of 106", night.gossip(100, 300, &[106]));
    tell("gossip 100 to 150 of 105", night.gossip(100, 150, &[105]));
    println!("page 0 now: {:?}", night.now(0)?);
    println!("standing: {:?}", night.standing()?);

    let again = Catalogue::restart(night.journal())?;
    println!("restarted from {} bytes, the same: {}", night.journal().len(), again == night);
    Ok(())
}

/// Prints what a change answered.
fn tell(call: &str, outcome: Result<Change, Refusal>) {
    match outcome {
        Ok(Change::Written(place)) => println!("{call}: done, {place} bytes of journal"),
        Ok(Change::Nothing) => println!("{call}: nothing to do"),
        Err(refusal) => refused(call, refusal),
    }
}

/// Prints what a read showed.
fn show(call: &str, outcome: Result<Snapshot, Refusal>) {
    match outcome {
        Ok(seen) => println!("{call}: snapshot {}, values {:?}", seen.stamp, seen.values),
        Err(refusal) => refused(call, refusal),
    }
}

/// Prints a refusal with its code and number.
fn refused(call: &str, refusal: Refusal) {
    println!("{call}: refused, {refusal} (code {}, number {})", refusal.code(), refusal.number());
}
