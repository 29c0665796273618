//! The command and the crate on one journal: the same calls make the same bytes, what one wrote the
//! other opens, and the one keeps the other off. Without the command's program in the repository's
//! `target/bin` nothing is tested.

mod common;

use common::{after_calls, behind, next_call, night, Call, Dice, Scratch};
use jibcradle::{Catalogue, Change, Error};
use std::fs;
use std::io::{BufRead, BufReader, Read, Write};
use std::path::{Path, PathBuf};
use std::process::{Child, Command, Stdio};

/// The command's program, where it was built.
fn program() -> Option<PathBuf> {
    let path = Path::new(env!("CARGO_MANIFEST_DIR")).join("../../target/bin/jibcradle");
    let there = path.is_file();
    if !there {
        eprintln!("the command isn't built, so it isn't compared");
    }
    there.then_some(path)
}

/// The command on a journal, with pipes. Its words on standard error aren't looked at.
fn started(program: &Path, journal: &Path) -> Child {
    let mut command = Command::new(program);
    command.arg(journal).stdin(Stdio::piped()).stdout(Stdio::piped()).stderr(Stdio::null());
    command.spawn().unwrap()
}

/// Runs the command on a journal with these lines, and gives the lines that it printed.
fn run(program: &Path, journal: &Path, lines: &str) -> Vec<String> {
    let mut process = started(program, journal);
    let mut input = process.stdin.take().unwrap();
    std::thread::scope(|scope| {
        scope.spawn(move || input.write_all(lines.as_bytes()));
        let mut out = String::new();
        process.stdout.take().unwrap().read_to_string(&mut out).unwrap();
        process.wait().unwrap();
        out.lines().map(String::from).collect()
    })
}

/// What the command says first of a journal that it opens.
fn opened(journal: &Path, length: usize) -> String {
    format!("opened {}: 0 {length} Done", journal.display())
}

/// The command's answer to a change.
fn answer(outcome: &Result<Change, Error>, used: usize) -> String {
    match outcome {
        Ok(Change::Written(length)) => format!("0 {length} Done"),
        Ok(Change::Nothing) => format!("1 {used} Nothing"),
        Err(error) => {
            let refusal = error.refusal().unwrap();
            format!("{} {} {}", refusal.code(), refusal.number(), refusal.name())
        }
    }
}

/// A run of calls, of which some are refused and some do nothing.
fn calls(count: usize) -> Vec<Call> {
    let (mut run, mut dice) = (Catalogue::fresh(), Dice(0x1234_5678_9abc));
    let mut calls = Vec::new();
    while calls.len() < count {
        let near = run.store().heads.last.saturating_sub(5) + dice.below(12);
        let call = match dice.below(12) {
            0 => Call::Commit(near, vec![(dice.below(520) as u16, dice.0); dice.below(4) as usize]),
            1 => Call::Gossip(dice.below(near + 1), near, vec![near; dice.below(2) as usize]),
            2 => Call::Flush(dice.below(34) as u8),
            _ => next_call(&run),
        };
        let _ = call.on(&mut run);
        calls.push(call);
    }
    calls
}

#[test]
fn the_same_calls_make_the_same_bytes_and_answers() {
    let Some(program) = program() else { return };
    let scratch = Scratch::new("same");
    let (ours, theirs) = (scratch.path("ours"), scratch.path("theirs"));
    let calls = calls(600);
    let mut catalogue = Catalogue::open(&ours).unwrap();
    let mut expected = vec![opened(&theirs, 0)];
    for call in &calls {
        let outcome = call.on_file(&mut catalogue);
        expected.push(answer(&outcome, catalogue.journal().len()));
    }
    let lines: String = calls.iter().map(Call::line).collect();
    assert_eq!(run(&program, &theirs, &lines), expected);
    assert_eq!(fs::read(&theirs).unwrap(), fs::read(&ours).unwrap());
    assert!(expected.iter().filter(|line| line.ends_with(" Done")).count() > 300);
    assert!(expected.iter().filter(|line| !line.ends_with(" Done")).count() > 50);
}

#[test]
fn what_one_wrote_the_other_opens_in_turn() {
    let Some(program) = program() else { return };
    let scratch = Scratch::new("turns");
    let path = scratch.path("journal");
    let mut memory = Catalogue::fresh();
    for turn in 0..20 {
        let mut lines = String::new();
        let before = memory.journal().len();
        for _ in 0..turn {
            let call = next_call(&memory);
            call.on(&mut memory).unwrap();
            lines += &call.line();
        }
        let said = run(&program, &path, &lines);
        assert_eq!(said[0], opened(&path, before));
        assert_eq!(fs::read(&path).unwrap(), memory.journal());

        let mut catalogue = Catalogue::open(&path).unwrap();
        assert_eq!(catalogue.catalogue(), &memory);
        for _ in 0..turn {
            let call = next_call(&memory);
            call.on(&mut memory).unwrap();
            call.on_file(&mut catalogue).unwrap();
        }
    }
    assert_eq!(scratch.names(), ["journal"]);
}

#[test]
fn every_cut_is_taken_alike() {
    let Some(program) = program() else { return };
    let scratch = Scratch::new("alike");
    let night = night();
    let journal = night.journal();
    for cut in (0..journal.len()).step_by(5).chain([journal.len()]) {
        let (ours, theirs) = (scratch.path("ours"), scratch.path("theirs"));
        fs::write(&ours, &journal[..cut]).unwrap();
        fs::write(&theirs, &journal[..cut]).unwrap();
        let length = Catalogue::open(&ours).unwrap().journal().len();
        assert_eq!(run(&program, &theirs, "")[0], opened(&theirs, length));
        assert_eq!(fs::read(&ours).unwrap(), fs::read(&theirs).unwrap());
        assert_eq!(run(&program, &ours, "")[0], opened(&ours, length));
    }
    // A command that keeps torn tails keeps the same.
    let theirs = tails(&scratch, "theirs.torn-");
    assert!(theirs.is_empty() || theirs == tails(&scratch, "ours.torn-"));
}

/// The kept tails whose names begin so: their numbers and bytes.
fn tails(scratch: &Scratch, begin: &str) -> Vec<(String, Vec<u8>)> {
    let names = scratch.names();
    let numbers = names.iter().filter_map(|name| Some((name, name.strip_prefix(begin)?)));
    numbers.map(|(name, end)| (end.into(), fs::read(scratch.path(name)).unwrap())).collect()
}

#[test]
fn the_one_keeps_the_other_off() {
    let Some(program) = program() else { return };
    let scratch = Scratch::new("off");
    let path = scratch.path("journal");
    fs::write(&path, after_calls(20).journal()).unwrap();
    let mut process = started(&program, &path);
    let mut first = String::new();
    BufReader::new(process.stdout.as_mut().unwrap()).read_line(&mut first).unwrap();
    let lock = fs::read_to_string(behind(&path, ".lock")).unwrap();
    match Catalogue::open(&path).unwrap_err() {
        Error::Locked { by, .. } => assert_eq!(by, Some(process.id())),
        other => panic!("{other:?}"),
    }
    assert_eq!(fs::read_to_string(behind(&path, ".lock")).unwrap(), lock);
    // Killed, it leaves its lock, which is taken over.
    process.kill().unwrap();
    let mut opened = Catalogue::open(&path).unwrap();
    process.wait().unwrap();
    opened.commit(1 << 30, &[(0, 1)]).unwrap();

    // A command that knows the whole line is kept off by ours.
    if lock.split(' ').count() == 3 {
        let said = run(&program, &path, "commit 2000000000 0=2\n");
        assert_eq!(said, [""; 0]);
        opened.commit((1 << 30) + 1, &[(0, 1)]).unwrap();
    }
}
