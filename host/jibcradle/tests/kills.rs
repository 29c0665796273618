//! Processes that are killed, and processes that start at one moment: what was acknowledged is
//! there, nobody is locked out, and never two have one journal.

mod common;

use common::{behind, child, journal_of_child, next_call, Dice, Scratch};
use jibcradle::{Catalogue, Change, Refusal};
use std::fs;
use std::io::{self, BufRead, BufReader, Read, Write};
use std::path::Path;
use std::process::{Child, ChildStdout, Stdio};
use std::thread::sleep;
use std::time::Duration;

/// How often a process is killed.
const KILLS: usize = 100;

/// Beyond this a journal is left for a new one.
const LONG: usize = 50_000;

/// Says something on standard output, where the test's frame doesn't catch it.
fn say(words: &str) {
    let mut out = io::stdout().lock();
    out.write_all(format!("{words}\n").as_bytes()).and_then(|()| out.flush()).unwrap();
}

/// The child that is killed: it makes the run's calls and tells the length after each.
#[test]
fn child_that_commits() {
    let Some(path) = journal_of_child() else { return };
    let mut opened = Catalogue::open(path).unwrap();
    say(&format!("opened {}", opened.journal().len()));
    loop {
        let call = next_call(opened.catalogue());
        match call.on_file(&mut opened) {
            Ok(Change::Written(length)) => say(&format!("done {length}")),
            Err(error) if matches!(error.refusal(), Some(Refusal::NoJournalRoom { .. })) => {
                sleep(Duration::from_secs(60));
            }
            other => panic!("{other:?}"),
        }
    }
}

/// The last number behind this word in what a child said; a line without its end doesn't count.
fn last_told(said: &str, word: &str) -> Option<usize> {
    let whole = &said[..said.rfind('\n').map_or(0, |end| end + 1)];
    whole.lines().rev().find_map(|line| line.strip_prefix(word)?.trim().parse().ok())
}

/// The run's catalogue with a journal of this length, from one with a shorter one on.
fn run_on(catalogue: &mut Catalogue, length: usize) {
    while catalogue.journal().len() < length {
        next_call(catalogue).on(catalogue).unwrap();
    }
    assert_eq!(catalogue.journal().len(), length, "the file's length is none that the run has");
}

/// Starts the child on the journal, kills it some time after its start or after it has opened the
/// journal, and opens the journal again. Tells whether the child has changed anything.
fn kill_once(path: &Path, run: &mut Catalogue, opened_first: bool, after: Duration) -> bool {
    let mut process = child("child_that_commits", path).stdout(Stdio::piped()).spawn().unwrap();
    let mut out = BufReader::new(process.stdout.take().unwrap());
    let mut said = String::new();
    while opened_first && last_told(&said, "opened ").is_none() {
        assert_ne!(out.read_line(&mut said).unwrap(), 0, "the child didn't open it: {said}");
    }
    sleep(after);
    process.kill().unwrap();
    out.read_to_string(&mut said).unwrap();
    process.wait().unwrap();
    let acknowledged = last_told(&said, "done ").or(last_told(&said, "opened "));

    let opened = Catalogue::open(path).unwrap();
    let length = opened.journal().len();
    run_on(run, acknowledged.unwrap_or(run.journal().len()).max(run.journal().len()));
    // One change may have been written that wasn't acknowledged any more.
    if length > run.journal().len() {
        next_call(run).on(run).unwrap();
    }
    assert_eq!(opened.catalogue(), run);
    drop(opened);
    assert_eq!(fs::read(path).unwrap(), run.journal());
    assert!(!behind(path, ".lock").exists());
    last_told(&said, "done ").is_some()
}

#[test]
fn killed_at_any_moment() {
    let scratch = Scratch::new("killed");
    let seed = u64::from(std::process::id()) << 20 | 0x9e37_79b9;
    let mut dice = Dice(seed);
    let (mut run, mut journals, mut changed) = (Catalogue::fresh(), 0, 0);
    for turn in 0..KILLS {
        if run.journal().len() > LONG {
            (run, journals) = (Catalogue::fresh(), journals + 1);
        }
        let path = scratch.path(&format!("journal-{journals}"));
        // A torn record, now and then, as a cut of power would leave it.
        if turn % 10 == 9 {
            let mut next = run.clone();
            next_call(&run).on(&mut next).unwrap();
            let cut = run.journal().len() + 1 + dice.below(3) as usize;
            fs::write(&path, &next.journal()[..cut]).unwrap();
            if run.journal().is_empty() {
                run = Catalogue::restart(&next.journal()[..cut]).unwrap();
            }
        }
        let after = Duration::from_micros(dice.below(20_000));
        changed += usize::from(kill_once(&path, &mut run, turn % 3 > 0, after));
    }
    assert!(changed > KILLS / 10, "only {changed} of {KILLS} children changed anything");
}

/// The child that opens at a word and holds the journal until its input ends.
#[test]
fn child_that_opens_at_a_word() {
    let Some(path) = journal_of_child() else { return };
    say("ready");
    let mut word = String::new();
    io::stdin().read_line(&mut word).unwrap();
    let opened = Catalogue::open(path);
    say(&match &opened {
        Ok(_) => "opened 0".into(),
        Err(error) => format!("refused: {error}"),
    });
    io::stdin().read_line(&mut word).unwrap();
}

/// A child that waits for its word.
struct Waiting {
    process: Child,
    out: BufReader<ChildStdout>,
}

impl Waiting {
    fn new(path: &Path) -> Waiting {
        let mut command = child("child_that_opens_at_a_word", path);
        let mut process = command.stdin(Stdio::piped()).stdout(Stdio::piped()).spawn().unwrap();
        let out = BufReader::new(process.stdout.take().unwrap());
        let mut waiting = Waiting { process, out };
        waiting.hear(&["ready"]);
        waiting
    }

    /// The next line that begins with one of these.
    fn hear(&mut self, words: &[&str]) -> String {
        loop {
            let mut line = String::new();
            assert_ne!(self.out.read_line(&mut line).unwrap(), 0, "the child has ended");
            if words.iter().any(|word| line.starts_with(word)) {
                return line;
            }
        }
    }

    fn send(&mut self) {
        self.process.stdin.as_mut().unwrap().write_all(b"go\n").unwrap();
    }

    fn end(mut self) {
        drop(self.process.stdin.take());
        self.process.wait().unwrap();
    }
}

#[test]
fn of_many_processes_one_opens_it() {
    let scratch = Scratch::new("processes");
    for turn in 0..20 {
        let path = scratch.path(&format!("journal-{turn}"));
        let left = "2147483647 1 00000000-0000-0000-0000-000000000000\n";
        if turn % 4 > 0 {
            fs::write(behind(&path, ".lock"), left).unwrap();
        }
        if turn % 4 > 1 {
            fs::write(behind(&path, ".lock.take"), left).unwrap();
        }
        let mut waiting: Vec<Waiting> = (0..3).map(|_| Waiting::new(&path)).collect();
        waiting.iter_mut().for_each(Waiting::send);
        let said: Vec<String> =
            waiting.iter_mut().map(|one| one.hear(&["opened", "refused"])).collect();
        let opened = said.iter().filter(|line| line.starts_with("opened")).count();
        assert_eq!(opened, 1, "turn {turn}: {said:?}");
        waiting.into_iter().for_each(Waiting::end);
        assert!(!behind(&path, ".lock").exists() && !behind(&path, ".lock.take").exists());
    }
}
