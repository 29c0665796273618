//! How the times grow with the journal and with the tables.

use crate::rows::Row;
use crate::sides::Call;
use crate::states::{build, entries, Fill, State};
use crate::table::bar;
use crate::time::time;
use crate::workload;
use std::rc::Rc;
use std::time::Duration;

/// Nanoseconds for a call on a state, ours and theirs, after a test that both agree.
fn timed(state: &Rc<State>, call: Call, budget: Duration) -> (f64, f64) {
    let row = Row { name: "growth".into(), fill: "", state: state.clone(), call, code: 0 };
    row.agree();
    time(&row, budget)
}

/// A small table: a first column, ours and theirs, and a bar for ours.
fn print(what: &str, unit: &str, lines: &[(String, (f64, f64))]) {
    println!("\n{what:<40}{:>12}{:>12}", format!("ours {unit}"), format!("theirs {unit}"));
    let largest = lines.iter().map(|(_, (ours, _))| *ours).fold(0.0, f64::max);
    for (name, (ours, theirs)) in lines {
        println!("{name:<40}{ours:>12.1}{theirs:>12.1}  {}", bar(*ours, largest));
    }
}

fn restarts(writes: usize, budget: Duration) {
    let fresh = Rc::new(State::fresh());
    let lines: Vec<_> = [4_096, 16_384, 32_768, 49_152, 65_535]
        .map(|length| {
            let state = workload::run(writes, length);
            let journal = state.journal[..state.used].to_vec();
            let (ours, theirs) = timed(&fresh, Call::Restart { journal }, budget);
            let records = state.calls.len();
            let each = ours / records as f64;
            let name = format!("{} bytes, {records} records at {each:.0} ns", state.used);
            (name, (ours / 1_000.0, theirs / 1_000.0))
        })
        .into();
    print(&format!("restart, commits of {writes}"), "us", &lines);
}

/// A commit of one object, which has an entry where there are any.
fn commit(state: &State, object: u64) -> Call {
    Call::Commit { t: state.clone().stamp(), objects: vec![object], values: vec![1] }
}

fn pending(budget: Duration) {
    let mut commits = Vec::new();
    let mut reads = Vec::new();
    for pending in [0, 32, 64, 96, 128] {
        let state = Rc::new(build(Fill { pending, past: 0, snapshots: 0, copies: 0 }));
        let object = entries(pending).last().copied().unwrap_or(0);
        let rows = format!("{pending} pending entries");
        let times = timed(&state, commit(&state, object), budget);
        commits.push((format!("commit, {rows}"), times));
        let times = timed(&state, Call::CurrentRead { page: 0 }, budget);
        reads.push((format!("current read, {rows}"), times));
    }
    print("commit of the last entry's object", "ns", &commits);
    print("current read of page 0", "ns", &reads);
}

fn past(budget: Duration) {
    let mut commits = Vec::new();
    let mut reads = Vec::new();
    for past in [0, 64, 128, 192, 256] {
        let state = Rc::new(build(Fill { pending: 32, past, snapshots: 16, copies: 0 }));
        let rows = format!("{past} past values");
        let times = timed(&state, commit(&state, 500), budget);
        commits.push((format!("commit, {rows}"), times));
        let time = state.store.horizon;
        let times = timed(&state, Call::SnapshotRead { time, page: 4 }, budget);
        reads.push((format!("snapshot read, {rows}"), times));
    }
    print("commit of a new object", "ns", &commits);
    print("snapshot read of page 4", "ns", &reads);
}

/// All of them.
pub fn print_all(budget: Duration) {
    restarts(1, budget);
    restarts(16, budget);
    pending(budget);
    past(budget);
}
