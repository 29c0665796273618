//! Against SQLite: the same commits and the same reads in the same run, with the same results.

use crate::sides::{Call, Lent, Ours, Side};
use crate::sqlite::{version, History};
use crate::states::State;
use crate::workload;
use std::fs::{metadata, remove_file, File};
use std::hint::black_box;
use std::io::Write;
use std::time::{Duration, Instant};

/// How long the durable part goes on, and how often the others are repeated.
pub struct Effort {
    pub rounds: usize,
    pub synced: usize,
}

/// A proved store, fresh, with an empty journal.
fn fresh() -> (Ours, Lent) {
    (State::fresh().ours(), Lent::new(vec![0; 65_535], 0))
}

/// Makes a change and moves the place on.
fn change(ours: &mut Ours, lent: &mut Lent, call: &Call) {
    let answer = ours.run(call, lent);
    assert_eq!(answer.code, 0, "a change of the run is refused");
    lent.used = answer.rest[0] as usize;
}

fn commits(state: &State) -> impl Iterator<Item = (u64, &[u64], &[u64])> {
    state.calls.iter().filter_map(|call| match call {
        Call::Commit { t, objects, values } => Some((*t, &objects[..], &values[..])),
        _ => None,
    })
}

/// The run's commits into a history.
fn fill(history: &mut History, state: &State) {
    for (t, objects, values) in commits(state) {
        history.commit(t, objects, values);
    }
}

/// Nanoseconds for one of so many.
fn each(time: Duration, count: usize) -> f64 {
    time.as_nanos() as f64 / count as f64
}

/// Both in memory: nanoseconds for a commit. Ours counts the messages and flushes of the run too.
fn commit_times(state: &State, rounds: usize) -> (f64, f64) {
    let (mut one, mut two) = (Duration::MAX, Duration::MAX);
    for _ in 0..rounds {
        let (mut ours, mut lent) = fresh();
        let start = Instant::now();
        for call in &state.calls {
            change(&mut ours, &mut lent, call);
        }
        one = one.min(start.elapsed());
        let mut history = History::open(":memory:", "");
        let start = Instant::now();
        fill(&mut history, state);
        two = two.min(start.elapsed());
    }
    let count = commits(state).count();
    (each(one, count), each(two, count))
}

/// All pages as of all snapshots: nanoseconds for a read, after a test that the results are equal.
fn read_times(state: &State, rounds: usize) -> (f64, f64) {
    let (mut ours, mut lent) = fresh();
    state.calls.iter().for_each(|call| change(&mut ours, &mut lent, call));
    let mut history = History::open(":memory:", "");
    fill(&mut history, state);
    let snapshots = &state.store.snapshots[..state.store.snapshot_count];
    let places: Vec<(u64, u64)> =
        snapshots.iter().flat_map(|&s| (0..32).map(move |page| (s, page))).collect();
    for &(time, page) in &places {
        let mut buffer = [0; 16];
        ours.run(&Call::SnapshotRead { time, page }, &mut lent);
        history.read(time, page, &mut buffer);
        assert_eq!(lent.buffer, buffer, "page {page} as of {time}");
    }
    let (mut one, mut two) = (Duration::MAX, Duration::MAX);
    for _ in 0..rounds {
        let start = Instant::now();
        for &(time, page) in &places {
            black_box(ours.run(&Call::SnapshotRead { time, page }, &mut lent));
        }
        one = one.min(start.elapsed());
        let start = Instant::now();
        for &(time, page) in &places {
            history.read(time, page, black_box(&mut lent.buffer));
        }
        two = two.min(start.elapsed());
    }
    (each(one, places.len()), each(two, places.len()))
}

/// A path for a file that is gone again at the end.
struct Scratch(String);

impl Scratch {
    fn new(name: &str) -> Scratch {
        let file = format!("jibcradle-bench-{}.{name}", std::process::id());
        Scratch(std::env::temp_dir().join(file).to_string_lossy().into_owned())
    }
}

impl Drop for Scratch {
    fn drop(&mut self) {
        for end in ["", "-wal", "-shm", "-journal"] {
            let _ = remove_file(format!("{}{end}", self.0));
        }
    }
}

/// The proved store with its journal in a file, each record synced.
struct Synced {
    ours: Ours,
    lent: Lent,
    file: File,
    _path: Scratch,
}

impl Synced {
    fn new() -> Synced {
        let path = Scratch::new("journal");
        let file = File::create(&path.0).expect("a file for the journal");
        let (ours, lent) = fresh();
        Synced { ours, lent, file, _path: path }
    }

    fn change(&mut self, call: &Call) {
        let from = self.lent.used;
        change(&mut self.ours, &mut self.lent, call);
        self.file.write_all(&self.lent.journal[from..self.lent.used]).expect("a record is written");
        self.file.sync_data().expect("a record is synced");
    }
}

/// Runs something and notes its nanoseconds.
fn noted(times: &mut Vec<f64>, run: impl FnOnce()) {
    let start = Instant::now();
    run();
    times.push(start.elapsed().as_nanos() as f64);
}

fn median(mut times: Vec<f64>) -> f64 {
    times.sort_by(f64::total_cmp);
    times[times.len() / 2]
}

/// The run's first commits, each synced, in turn: the median of ours, and of SQLite's with a
/// rollback journal and with a log written ahead.
fn synced_times(state: &State, count: usize) -> [f64; 3] {
    let (one, two) = (Scratch::new("db"), Scratch::new("log"));
    let full = "PRAGMA synchronous=FULL;";
    let mut ours = Synced::new();
    let mut rollback = History::open(&one.0, &format!("PRAGMA journal_mode=DELETE;{full}"));
    let mut ahead = History::open(&two.0, &format!("PRAGMA journal_mode=WAL;{full}"));
    let mut times = [const { Vec::new() }; 3];
    for call in &state.calls {
        if let Call::Commit { t, objects, values } = call {
            noted(&mut times[0], || ours.change(call));
            noted(&mut times[1], || rollback.commit(*t, objects, values));
            noted(&mut times[2], || ahead.commit(*t, objects, values));
        } else {
            ours.change(call);
        }
        if times[0].len() == count {
            break;
        }
    }
    times.map(median)
}

fn line(what: &str, (ours, theirs): (f64, f64)) {
    println!("{what:<58}{ours:>12.0}{theirs:>12.0}{:>9.2}", theirs / ours);
}

/// The times.
pub fn print(effort: &Effort) {
    println!("SQLite {} (ns for each; SQLite takes so many times ours)", version());
    println!("{:<58}{:>12}{:>12}{:>9}", "", "ours", "SQLite", "times");
    for writes in [1, 16] {
        let state = workload::run(writes, 65_535);
        let count = commits(&state).count();
        let what = format!("commit of {writes} in memory, mean of {count}");
        line(&what, commit_times(&state, effort.rounds));
        let what = format!("read of a page as of a snapshot, after these {count}");
        line(&what, read_times(&state, effort.rounds));
        let [ours, rollback, ahead] = synced_times(&state, effort.synced);
        line(&format!("durable commit of {writes}, median; SQLite FULL, DELETE"), (ours, rollback));
        line(&format!("durable commit of {writes}, median; SQLite FULL, WAL"), (ours, ahead));
    }
}

/// The bytes.
pub fn print_space() {
    println!("{:<44}{:>12}{:>12}{:>12}", "", "its record", "our journal", "SQLite file");
    for writes in [1, 16] {
        let state = workload::run(writes, 65_535);
        let count = commits(&state).count();
        let path = Scratch::new("space");
        fill(&mut History::open(&path.0, "PRAGMA synchronous=OFF;"), &state);
        let file = metadata(&path.0).expect("SQLite has written its file").len();
        let what = format!("bytes for a commit of {writes}, mean of {count}");
        let journal = state.used as f64 / count as f64;
        let record = 12 + 10 * writes;
        println!("{what:<44}{record:>12}{journal:>12.1}{:>12.1}", file as f64 / count as f64);
    }
}
