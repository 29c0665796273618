//! A catalogue in a file: opened, made, cut, refused, locked, moved away, changed by others.

mod common;

use common::{after_calls, behind, next_call, night, Scratch};
use jibcradle::{Catalogue, Change, Error, Refusal, JOURNAL};
use std::fs;
use std::io::ErrorKind;
use std::path::Path;
use std::process::{Child, Command, Stdio};
use std::time::{Duration, Instant};

/// The number of the process in the error, which has to be `Locked`.
#[track_caller]
fn locked_by(error: Error) -> Option<u32> {
    match error {
        Error::Locked { by, .. } => by,
        other => panic!("not Locked: {other:?}"),
    }
}

/// The kind of trouble in the error, which has to be `Io` with that path.
#[track_caller]
fn trouble(error: Error, at: &Path) -> ErrorKind {
    match error {
        Error::Io { path, error } if path == at => error.kind(),
        other => panic!("not Io at {}: {other:?}", at.display()),
    }
}

#[test]
fn a_file_is_made_and_grows_by_the_same_bytes_as_a_journal_in_memory() {
    let scratch = Scratch::new("grows");
    let path = scratch.path("journal");
    let mut memory = Catalogue::fresh();
    let mut opened = Catalogue::open(&path).unwrap();
    assert_eq!((opened.path(), opened.torn(), opened.poisoned()), (&*path, None, false));
    for _ in 0..300 {
        let call = next_call(&memory);
        let outcome = call.on(&mut memory).unwrap();
        assert_eq!(call.on_file(&mut opened).unwrap(), outcome);
        assert_eq!(fs::read(&path).unwrap(), memory.journal());
    }
    assert_eq!(opened.catalogue(), &memory);
    assert_eq!((opened.journal(), opened.store()), (memory.journal(), memory.store()));
    assert_eq!(opened.standing(), memory.standing());
    assert_eq!(opened.now(3), memory.now(3));
    let time = memory.store().snapshots[0];
    assert_eq!(opened.read(time, 3), memory.read(time, 3));
    assert_eq!(opened.clock(1, 3), memory.clock(1, 3));
    drop(opened);
    assert_eq!(Catalogue::open(&path).unwrap().catalogue(), &memory);
    assert_eq!(scratch.names(), ["journal"]);
}

#[test]
fn refused_changes_write_nothing_and_poison_nothing() {
    let scratch = Scratch::new("refused");
    let path = scratch.path("journal");
    let mut opened = Catalogue::open(&path).unwrap();
    opened.commit(100, &[(0, 7)]).unwrap();
    let refused = opened.commit(100, &[(0, 8)]).unwrap_err();
    assert_eq!(refused.refusal(), Some(Refusal::Late { latest: 100 }));
    assert_eq!(opened.gossip(5, 6, &[]).unwrap_err().refusal(), Some(Refusal::Gap { horizon: 0 }));
    assert_eq!(opened.flush(32).unwrap_err().refusal(), Some(Refusal::Shape));
    assert_eq!(opened.flush(31).unwrap(), Change::Nothing);
    assert_eq!(fs::read(&path).unwrap().len(), 23);
    assert!(!opened.poisoned());
    assert_eq!(opened.flush(0).unwrap(), Change::Written(27));
}

#[test]
fn every_cut_opens_and_its_tail_is_kept() {
    let scratch = Scratch::new("cuts");
    let whole = night();
    let journal = whole.journal();
    for cut in 0..=journal.len() {
        let path = scratch.path(&format!("cut-{cut}"));
        fs::write(&path, &journal[..cut]).unwrap();
        let expected = Catalogue::restart(&journal[..cut]).unwrap();
        let place = expected.journal().len();
        let mut opened = Catalogue::open(&path).unwrap();
        assert_eq!(opened.catalogue(), &expected);
        assert_eq!(fs::read(&path).unwrap(), &journal[..place]);
        let kept = behind(&path, ".torn-1");
        match opened.torn() {
            Some(torn) => {
                assert_eq!((&torn.path, torn.length), (&kept, cut - place));
                assert_eq!(fs::read(&kept).unwrap(), &journal[place..cut]);
            }
            None => assert!(place == cut && !kept.exists()),
        }
        opened.commit(1 << 20, &[(3, 4)]).unwrap();
        let after = opened.catalogue().clone();
        drop(opened);
        assert_eq!(fs::read(&path).unwrap(), after.journal());
        let again = Catalogue::open(&path).unwrap();
        assert_eq!((again.catalogue(), again.torn()), (&after, None));
    }
    assert!(scratch.names().iter().all(|name| !name.contains("lock") && !name.contains("torn-2")));
}

#[test]
fn a_torn_tail_takes_the_first_free_number() {
    let scratch = Scratch::new("numbers");
    let path = scratch.path("journal");
    let journal = night().journal().to_vec();
    fs::write(behind(&path, ".torn-1"), "mine").unwrap();
    fs::create_dir(behind(&path, ".torn-2")).unwrap();
    fs::write(behind(&path, ".torn-4"), "mine too").unwrap();
    fs::write(&path, [&journal[..], &[0, 20, 1]].concat()).unwrap();
    let opened = Catalogue::open(&path).unwrap();
    assert_eq!(opened.torn().unwrap().path, behind(&path, ".torn-3"));
    assert_eq!(fs::read(behind(&path, ".torn-3")).unwrap(), [0, 20, 1]);
    assert_eq!(fs::read(behind(&path, ".torn-1")).unwrap(), b"mine");
    assert_eq!(fs::read(behind(&path, ".torn-4")).unwrap(), b"mine too");
    assert_eq!(fs::read(&path).unwrap(), journal);
}

#[test]
fn no_journal_is_refused_and_left_as_it_is() {
    let scratch = Scratch::new("no-journal");
    let path = scratch.path("journal");
    let night = night().journal().to_vec();
    let malformed = [&night[..], &[0, 1]].concat();
    let contradiction = [&night[..], &[0, 2, 3, 30]].concat();
    let offset = night.len() as u64;
    for (bytes, refusal) in [
        (b"some text".to_vec(), Refusal::Version { found: 115 }),
        (vec![2], Refusal::Version { found: 2 }),
        (malformed, Refusal::Malformed { offset }),
        (contradiction, Refusal::Contradiction { offset }),
        (vec![1; JOURNAL + 1], Refusal::Shape),
        (vec![1; 3 * JOURNAL], Refusal::Shape),
    ] {
        fs::write(&path, &bytes).unwrap();
        let error = Catalogue::open(&path).unwrap_err();
        assert_eq!(error.refusal(), Some(refusal));
        assert_eq!(error.to_string(), refusal.to_string());
        assert_eq!(fs::read(&path).unwrap(), bytes);
        assert_eq!(scratch.names(), ["journal"]);
    }
}

#[test]
fn a_full_journal_opens_and_refuses_for_its_room() {
    let scratch = Scratch::new("full-journal");
    let path = scratch.path("journal");
    let mut full = after_calls(2_000);
    loop {
        match next_call(&full).on(&mut full) {
            Ok(_) => {}
            Err(Refusal::NoJournalRoom { .. }) => break,
            other => panic!("{other:?}"),
        }
    }
    fs::write(&path, full.journal()).unwrap();
    let mut opened = Catalogue::open(&path).unwrap();
    assert_eq!(opened.catalogue(), &full);
    let refused = next_call(&full).on_file(&mut opened).unwrap_err();
    assert!(matches!(refused.refusal(), Some(Refusal::NoJournalRoom { .. })));
    assert_eq!(fs::read(&path).unwrap(), full.journal());
}

#[test]
fn names_that_are_no_files() {
    let scratch = Scratch::new("names");
    let folder = scratch.path("folder");
    fs::create_dir(&folder).unwrap();
    let kind = trouble(Catalogue::open(&folder).unwrap_err(), &folder);
    assert_eq!(kind, ErrorKind::IsADirectory);
    assert_eq!(scratch.names(), ["folder"]);
    assert_eq!(fs::read_dir(&folder).unwrap().count(), 0);

    let nowhere = scratch.path("nowhere/journal");
    let kind = trouble(Catalogue::open(&nowhere).unwrap_err(), &nowhere);
    assert_eq!(kind, ErrorKind::NotFound);
    let empty = Path::new("");
    assert_eq!(trouble(Catalogue::open(empty).unwrap_err(), empty), ErrorKind::InvalidInput);

    let pipe = scratch.path("pipe");
    assert!(Command::new("mkfifo").arg(&pipe).status().unwrap().success());
    assert_eq!(trouble(Catalogue::open(&pipe).unwrap_err(), &pipe), ErrorKind::InvalidInput);
    fs::remove_file(&pipe).unwrap();
    let nobody = scratch.path("dangling");
    std::os::unix::fs::symlink("nothing", &nobody).unwrap();
    assert_eq!(trouble(Catalogue::open(&nobody).unwrap_err(), &nobody), ErrorKind::AlreadyExists);
    fs::remove_file(&nobody).unwrap();

    let path = scratch.path("journal");
    for name in [behind(&path, ".lock"), behind(&path, ".lock.take")] {
        fs::create_dir(&name).unwrap();
        if name.ends_with("journal.lock.take") {
            fs::write(behind(&path, ".lock"), "0\n").unwrap();
        }
        let kind = trouble(Catalogue::open(&path).unwrap_err(), &name);
        assert_eq!(kind, ErrorKind::IsADirectory);
        fs::remove_dir(&name).unwrap();
    }
    assert_eq!(scratch.names(), ["folder", "journal.lock"]);
}

#[test]
fn a_link_leads_to_the_file() {
    let scratch = Scratch::new("links");
    let (path, link) = (scratch.path("journal"), scratch.path("link"));
    std::os::unix::fs::symlink("journal", &link).unwrap();
    fs::write(&path, night().journal()).unwrap();
    let mut opened = Catalogue::open(&link).unwrap();
    opened.commit(400, &[(1, 1)]).unwrap();
    assert_eq!(fs::read(&path).unwrap(), opened.journal());
    // Under its own name it has another lock file, but the system's lock is the file's.
    assert_eq!(locked_by(Catalogue::open(&path).unwrap_err()), None);
    drop(opened);
    assert_eq!(scratch.names(), ["journal", "link"]);
}

#[test]
fn a_second_opening_is_refused() {
    let scratch = Scratch::new("second");
    let path = scratch.path("journal");
    let mut first = Catalogue::open(&path).unwrap();
    first.commit(1, &[(0, 1)]).unwrap();
    for _ in 0..3 {
        let begun = Instant::now();
        let error = Catalogue::open(&path).unwrap_err();
        assert!(begun.elapsed() < Duration::from_secs(1));
        assert_eq!(locked_by(error), Some(std::process::id()));
    }
    first.commit(2, &[(0, 2)]).unwrap();
    drop(first);
    assert_eq!(scratch.names(), ["journal"]);
    assert_eq!(Catalogue::open(&path).unwrap().journal().len(), 45);
}

#[test]
fn of_many_threads_one_opens_it() {
    let scratch = Scratch::new("threads");
    for turn in 0..50 {
        let path = &scratch.path(&format!("journal-{turn}"));
        // In every other turn there is a lock to be taken over.
        if turn % 2 == 1 {
            fs::write(behind(path, ".lock"), "2147483647\n").unwrap();
        }
        let barrier = &std::sync::Barrier::new(4);
        let opened: Vec<_> = std::thread::scope(|scope| {
            let open = || {
                barrier.wait();
                Catalogue::open(path)
            };
            let threads: Vec<_> = (0..4).map(|_| scope.spawn(open)).collect();
            threads.into_iter().map(|thread| thread.join().unwrap()).collect()
        });
        assert_eq!(opened.iter().filter(|one| one.is_ok()).count(), 1, "turn {turn}: {opened:?}");
        for error in opened.into_iter().filter_map(Result::err) {
            locked_by(error);
        }
        assert!(!behind(path, ".lock").exists() && !behind(path, ".lock.take").exists());
    }
}

/// Another process, which sleeps.
struct Sleeper(Child);

impl Sleeper {
    fn new() -> Sleeper {
        Sleeper(Command::new("sleep").arg("100").stdin(Stdio::null()).spawn().unwrap())
    }

    /// The line that names it in a lock: its number, its start, and the machine's.
    fn line(&self) -> (u32, u64, String) {
        let stat = fs::read_to_string(format!("/proc/{}/stat", self.0.id())).unwrap();
        let start = stat.rsplit_once(')').unwrap().1.split_whitespace().nth(19).unwrap();
        let boot = fs::read_to_string("/proc/sys/kernel/random/boot_id").unwrap();
        (self.0.id(), start.parse().unwrap(), boot.trim().into())
    }
}

impl Drop for Sleeper {
    fn drop(&mut self) {
        let _ = self.0.kill();
        let _ = self.0.wait();
    }
}

#[test]
fn a_lock_of_the_living_holds() {
    let scratch = Scratch::new("living");
    let path = scratch.path("journal");
    let sleeper = Sleeper::new();
    let (number, start, boot) = sleeper.line();
    for line in [format!("{number} {start} {boot}\n"), format!("{number}\n")] {
        fs::write(behind(&path, ".lock"), &line).unwrap();
        assert_eq!(locked_by(Catalogue::open(&path).unwrap_err()), Some(number));
        assert_eq!(fs::read_to_string(behind(&path, ".lock")).unwrap(), line);
        assert_eq!(scratch.names(), ["journal.lock"]);
    }
    // Neither is its guard taken away.
    fs::write(behind(&path, ".lock"), "0\n").unwrap();
    fs::write(behind(&path, ".lock.take"), format!("{number} {start} {boot}\n")).unwrap();
    match Catalogue::open(&path).unwrap_err() {
        Error::Locked { lock, by: Some(by) } => {
            assert_eq!((lock, by), (behind(&path, ".lock.take"), number));
        }
        other => panic!("{other:?}"),
    }
    assert_eq!(scratch.names(), ["journal.lock", "journal.lock.take"]);
}

#[test]
fn a_lock_of_the_dead_is_taken_over() {
    let scratch = Scratch::new("dead");
    let path = scratch.path("journal");
    let (lock, guard) = (behind(&path, ".lock"), behind(&path, ".lock.take"));
    let sleeper = Sleeper::new();
    let (number, start, boot) = sleeper.line();
    let mut lines = vec![
        format!("{number} {} {boot}\n", start + 1),
        format!("{number} {start} 00000000-0000-0000-0000-000000000000\n"),
        "2147483647\n".into(),
        format!("2147483647 {start} {boot}\n"),
        "0\n".into(),
        "\n".into(),
        "rubbish\n".into(),
        // Our own number in other lines than ours.
        format!("{}\n", std::process::id()),
        format!("{} 1 {boot}\n", std::process::id()),
    ];
    // Killed and waited for, and killed alone.
    let mut other = Sleeper::new();
    let (number, start, boot) = other.line();
    lines.push(format!("{number} {start} {boot}\n"));
    lines.push(format!("{number}\n"));
    other.0.kill().unwrap();

    // Our own line without the system's lock on it was left behind.
    drop(Catalogue::open(&path).unwrap());
    let opened = Catalogue::open(&path).unwrap();
    let own = fs::read_to_string(&lock).unwrap();
    drop(opened);
    assert!(
        own.starts_with(&format!("{} ", std::process::id()))
            && own.ends_with(&format!(" {boot}\n"))
    );
    lines.push(own.clone());

    for line in lines {
        for guarded in [false, true] {
            fs::write(&lock, &line).unwrap();
            if guarded {
                fs::write(&guard, &line).unwrap();
            }
            let opened = Catalogue::open(&path).unwrap_or_else(|error| panic!("{line:?}: {error}"));
            assert_eq!(fs::read_to_string(&lock).unwrap(), own);
            assert_eq!(scratch.names(), ["journal", "journal.lock"]);
            drop(opened);
            assert_eq!(scratch.names(), ["journal"]);
        }
    }
}

#[test]
fn a_lock_without_a_whole_line_is_waited_for() {
    let scratch = Scratch::new("unfinished");
    let path = scratch.path("journal");
    let lock = behind(&path, ".lock");
    let sleeper = Sleeper::new();
    let (number, start, boot) = sleeper.line();
    fs::write(&lock, format!("{number}")).unwrap();
    std::thread::scope(|scope| {
        let opening = scope.spawn(|| Catalogue::open(&path));
        std::thread::sleep(Duration::from_millis(300));
        fs::write(&lock, format!("{number} {start} {boot}\n")).unwrap();
        assert_eq!(locked_by(opening.join().unwrap().unwrap_err()), Some(number));
    });
    fs::write(&lock, format!("{number}")).unwrap();
    let begun = Instant::now();
    let opened = Catalogue::open(&path).unwrap();
    assert!(begun.elapsed() > Duration::from_secs(4));
    drop(opened);
    assert_eq!(scratch.names(), ["journal"]);
}

#[test]
fn a_lock_that_is_no_longer_ours_stays() {
    let scratch = Scratch::new("stays");
    let path = scratch.path("journal");
    let opened = Catalogue::open(&path).unwrap();
    let lock = behind(&path, ".lock");
    let line = fs::read_to_string(&lock).unwrap();
    fs::remove_file(&lock).unwrap();
    fs::write(&lock, &line).unwrap();
    drop(opened);
    assert_eq!(fs::read_to_string(&lock).unwrap(), line);
}

#[test]
fn a_file_that_was_moved_removed_or_replaced_is_not_written() {
    let scratch = Scratch::new("moved");
    let elsewhere = scratch.path("elsewhere");
    for how in ["moved", "replaced"] {
        let path = scratch.path(how);
        let mut opened = Catalogue::open(&path).unwrap();
        opened.commit(5, &[(0, 5)]).unwrap();
        let before = opened.catalogue().clone();
        // Removed, it is still to be seen under another name.
        fs::hard_link(&path, &elsewhere).unwrap();
        fs::remove_file(&path).unwrap();
        if how == "replaced" {
            fs::copy(&elsewhere, &path).unwrap();
        }
        // What is refused needs no file.
        assert!(opened.commit(5, &[(0, 6)]).unwrap_err().refusal().is_some());
        match opened.commit(6, &[(0, 6)]) {
            Err(Error::Moved { path: told }) => assert_eq!(told, path),
            other => panic!("{how}: {other:?}"),
        }
        assert_eq!(opened.catalogue(), &before);
        assert_eq!(fs::read(&elsewhere).unwrap(), before.journal());
        if path.exists() {
            assert_eq!(fs::read(&path).unwrap(), before.journal());
        }
        // It stays so when the file is back.
        let _ = fs::remove_file(&path);
        fs::rename(&elsewhere, &path).unwrap();
        assert!(matches!(opened.commit(6, &[(0, 6)]), Err(Error::Poisoned { .. })));
        assert!(opened.poisoned());
        assert_eq!(opened.now(0).unwrap()[0], 5);
        drop(opened);
        assert_eq!(Catalogue::open(&path).unwrap().catalogue(), &before);
    }
}

#[test]
fn a_file_that_others_wrote_is_not_written() {
    let scratch = Scratch::new("changed");
    for (how, length) in [("longer", 24), ("shorter", 22), ("empty", 0)] {
        let path = scratch.path(how);
        let mut opened = Catalogue::open(&path).unwrap();
        opened.commit(5, &[(0, 5)]).unwrap();
        let before = opened.catalogue().clone();
        fs::OpenOptions::new().write(true).open(&path).unwrap().set_len(length).unwrap();
        let theirs = fs::read(&path).unwrap();
        match opened.flush(0) {
            Err(Error::Changed { left: 23, found, .. }) => assert_eq!(found, length),
            other => panic!("{how}: {other:?}"),
        }
        assert_eq!(opened.catalogue(), &before);
        assert!(matches!(opened.flush(0), Err(Error::Poisoned { .. })));
        assert_eq!(fs::read(&path).unwrap(), theirs);
    }
}

#[test]
fn a_relative_path_stays_where_it_was() {
    // The program's folder is the crate's, and can't be changed here: other tests run beside.
    let scratch = Scratch::new("relative");
    let whole = scratch.path("journal");
    let here = std::env::current_dir().unwrap();
    let up: String = here.components().skip(1).map(|_| "../").collect();
    let relative = format!("{up}{}", whole.to_str().unwrap().trim_start_matches('/'));
    let mut opened = Catalogue::open(&relative).unwrap();
    assert!(opened.path().is_absolute());
    opened.commit(5, &[(0, 5)]).unwrap();
    assert_eq!(fs::read(&whole).unwrap(), opened.journal());
}
