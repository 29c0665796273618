//! What the tests with files share: a folder for each test, runs of calls, and children of this
//! test program.

#![allow(dead_code)]

use jibcradle::{Catalogue, Change, FileCatalogue, Refusal};
use std::ffi::OsString;
use std::fs;
use std::path::{Path, PathBuf};
use std::process::Command;

/// A folder of its own, gone at the end.
pub struct Scratch(PathBuf);

impl Scratch {
    pub fn new(name: &str) -> Scratch {
        let name = format!("{name}-{}", std::process::id());
        let folder = Path::new(env!("CARGO_TARGET_TMPDIR")).join(name);
        let _ = fs::remove_dir_all(&folder);
        fs::create_dir_all(&folder).unwrap();
        Scratch(folder)
    }

    pub fn path(&self, name: &str) -> PathBuf {
        self.0.join(name)
    }

    /// The names in it, sorted.
    pub fn names(&self) -> Vec<String> {
        let entries = fs::read_dir(&self.0).unwrap();
        let mut names: Vec<String> =
            entries.map(|entry| entry.unwrap().file_name().into_string().unwrap()).collect();
        names.sort();
        names
    }
}

impl Drop for Scratch {
    fn drop(&mut self) {
        let _ = fs::remove_dir_all(&self.0);
    }
}

/// The path with something put behind it.
pub fn behind(path: &Path, end: &str) -> PathBuf {
    let mut name = OsString::from(path);
    name.push(end);
    name.into()
}

/// A small generator of pseudo-random numbers (xorshift).
pub struct Dice(pub u64);

impl Dice {
    pub fn below(&mut self, limit: u64) -> u64 {
        self.0 ^= self.0 << 13;
        self.0 ^= self.0 >> 7;
        self.0 ^= self.0 << 17;
        (self.0 >> 11) % limit
    }
}

/// A change.
#[derive(Clone, Debug)]
pub enum Call {
    Commit(u64, Vec<(u16, u64)>),
    Gossip(u64, u64, Vec<u64>),
    Flush(u8),
}

impl Call {
    pub fn on(&self, catalogue: &mut Catalogue) -> Result<Change, Refusal> {
        match self {
            Call::Commit(t, writes) => catalogue.commit(*t, writes),
            Call::Gossip(prev, curr, stamps) => catalogue.gossip(*prev, *curr, stamps),
            Call::Flush(page) => catalogue.flush(*page),
        }
    }

    pub fn on_file(&self, catalogue: &mut FileCatalogue) -> Result<Change, jibcradle::Error> {
        match self {
            Call::Commit(t, writes) => catalogue.commit(*t, writes),
            Call::Gossip(prev, curr, stamps) => catalogue.gossip(*prev, *curr, stamps),
            Call::Flush(page) => catalogue.flush(*page),
        }
    }

    /// The command's line for it.
    pub fn line(&self) -> String {
        let words: Vec<String> = match self {
            Call::Commit(_, writes) => writes.iter().map(|(o, v)| format!(" {o}={v}")).collect(),
            Call::Gossip(_, _, stamps) => stamps.iter().map(|s| format!(" {s}")).collect(),
            Call::Flush(_) => vec![],
        };
        match self {
            Call::Commit(t, _) => format!("commit {t}{}\n", words.concat()),
            Call::Gossip(prev, curr, _) => format!("gossip {prev} {curr}{}\n", words.concat()),
            Call::Flush(page) => format!("flush {page}\n"),
        }
    }
}

/// The call that comes next in a long run, which depends on the catalogue alone: commits, a
/// message after every eighth, flushes of the page of the oldest entry when there are many, and a
/// snapshot while there is room for its copies.
pub fn next_call(catalogue: &Catalogue) -> Call {
    let store = catalogue.store();
    let heads = &store.heads;
    let t = heads.last.max(heads.horizon) + 1;
    if heads.pending > 100 {
        return Call::Flush((store.pending[0].object / 16) as u8);
    }
    if t % 8 == 0 || heads.past > 200 {
        let stamps = if heads.snapshots < 4 && t % 64 == 0 { vec![t] } else { vec![] };
        return Call::Gossip(heads.horizon, t, stamps);
    }
    let object = |k: u64| ((t * 37 + k * 101) % 512) as u16;
    Call::Commit(t, (0..1 + t % 3).map(|k| (object(k), t * 1_000_003 + k)).collect())
}

/// A catalogue after so many calls of the run.
pub fn after_calls(count: usize) -> Catalogue {
    let mut catalogue = Catalogue::fresh();
    for _ in 0..count {
        next_call(&catalogue).on(&mut catalogue).unwrap();
    }
    catalogue
}

/// A journal with records of all three kinds, and one each with and without a list.
pub fn night() -> Catalogue {
    let mut night = Catalogue::fresh();
    night.commit(100, &[(0, 7)]).unwrap();
    night.commit(120, &[(0, 9), (17, 3), (511, u64::MAX)]).unwrap();
    night.gossip(0, 110, &[101, 105]).unwrap();
    night.flush(0).unwrap();
    night.gossip(110, 200, &[]).unwrap();
    night.commit(300, &[(0, 1)]).unwrap();
    night
}

/// The variable that tells a child of this program which journal is its own.
pub const JOURNAL: &str = "JIBCRADLE_TEST_JOURNAL";

/// The arguments with which this test program makes only the test of this name.
pub fn arguments(test: &str) -> [String; 4] {
    [test.into(), "--exact".into(), "--nocapture".into(), "--quiet".into()]
}

/// This test program again, to make only the test of this name with a journal.
pub fn child(test: &str, journal: &Path) -> Command {
    let mut command = Command::new(std::env::current_exe().unwrap());
    command.args(arguments(test)).env(JOURNAL, journal);
    command
}

/// The journal of a child; none where this isn't one.
pub fn journal_of_child() -> Option<PathBuf> {
    std::env::var_os(JOURNAL).map(PathBuf::from)
}
