//! Writes and syncs that fail: nothing of the change stands, what was acknowledged does, and no
//! more changes are taken.

mod common;

use common::{arguments, behind, journal_of_child, next_call, night, Scratch, JOURNAL};
use jibcradle::{Catalogue, Error};
use std::fs;
use std::path::{Path, PathBuf};
use std::process::{Command, Output};

/// The child whose writes or syncs fail at some time: it makes the run's calls until one isn't
/// written, looks at everything then, and tells how long the journal was.
#[test]
fn child_that_fails() {
    let Some(path) = journal_of_child() else { return };
    let mut opened = match Catalogue::open(&path) {
        Ok(opened) => opened,
        Err(Error::Io { path, error }) => {
            println!(
                "not opened: {:?} {}",
                path.file_name().unwrap(),
                error.raw_os_error().unwrap()
            );
            return;
        }
        Err(other) => panic!("{other:?}"),
    };
    let (before, error) = loop {
        let before = opened.catalogue().clone();
        let call = next_call(&before);
        match call.on_file(&mut opened) {
            Ok(_) => assert_eq!(fs::read(&path).unwrap(), opened.journal()),
            Err(Error::Io { path: told, error }) => {
                assert_eq!(told, path);
                break (before, error);
            }
            Err(other) => panic!("{other:?}"),
        }
    };
    // The change is undone, in memory and in the file.
    assert_eq!(opened.catalogue(), &before);
    assert_eq!(fs::read(&path).unwrap(), before.journal());
    assert!(opened.poisoned());
    // Reads go on, changes don't, not those either that would be refused or do nothing.
    assert_eq!(opened.now(0), before.now(0));
    assert_eq!(opened.standing(), before.standing());
    assert!(matches!(next_call(&before).on_file(&mut opened), Err(Error::Poisoned { .. })));
    assert!(matches!(opened.commit(0, &[]), Err(Error::Poisoned { .. })));
    assert!(matches!(opened.flush(31), Err(Error::Poisoned { .. })));
    assert!(matches!(opened.gossip(0, 0, &[]), Err(Error::Poisoned { .. })));
    assert_eq!(fs::read(&path).unwrap(), before.journal());
    drop(opened);
    println!("failed: {} at {}", error.raw_os_error().unwrap(), before.journal().len());
}

/// Runs the child under a program that makes something fail, and gives what it printed.
fn failing(program: &str, first: &[&str], path: &Path) -> Output {
    let me = std::env::current_exe().unwrap();
    let mut command = Command::new(program);
    command.args(first).arg(me).args(arguments("child_that_fails")).env(JOURNAL, path);
    command.output().unwrap()
}

/// The child's last word that begins with this.
#[track_caller]
fn word<'a>(said: &'a str, begin: &str) -> &'a str {
    let line = said.lines().find_map(|line| line.strip_prefix(begin));
    line.unwrap_or_else(|| panic!("no {begin:?} in {said}"))
}

/// What a journal is after the child: all that was acknowledged, and it goes on.
fn expect_held(path: &Path, length: usize) {
    let bytes = fs::read(path).unwrap();
    assert_eq!(bytes.len(), length);
    assert!(!behind(path, ".lock").exists());
    let mut opened = Catalogue::open(path).unwrap();
    assert_eq!((opened.journal(), opened.torn()), (&bytes[..], None));
    let call = next_call(opened.catalogue());
    call.on_file(&mut opened).unwrap();
    assert_eq!(fs::read(path).unwrap(), opened.journal());
}

/// No file may grow beyond so many blocks of 512 bytes. The signal that tells of it is ignored, so
/// that the write fails as it does on a full disk.
fn limited(blocks: usize, path: &Path) -> String {
    let limit = format!("trap '' XFSZ; ulimit -f {blocks} && exec \"$0\" \"$@\"");
    let out = failing("sh", &["-c", &limit], path);
    let said = String::from_utf8_lossy(&out.stdout).into_owned();
    assert!(out.status.success(), "{said}{}", String::from_utf8_lossy(&out.stderr));
    said
}

const TOO_BIG: &str = "27";

#[test]
fn a_file_that_may_not_grow() {
    let scratch = Scratch::new("full");
    for blocks in 1..10 {
        let path = scratch.path(&format!("journal-{blocks}"));
        let said = limited(blocks, &path);
        let (error, length) = word(&said, "failed: ").split_once(" at ").unwrap();
        let length: usize = length.parse().unwrap();
        assert_eq!(error, TOO_BIG);
        // The first record that didn't fit was the last one tried.
        assert!(length <= blocks * 512 && length + 200 > blocks * 512, "{length} of {blocks}");
        expect_held(&path, length);
    }
}

/// A small disk in memory, there as long as this value.
struct Disk {
    folder: PathBuf,
}

impl Disk {
    /// A disk of so many pages of 4096 bytes; none where mounting one isn't permitted.
    fn mounted(folder: PathBuf, pages: usize) -> Option<Disk> {
        fs::create_dir(&folder).unwrap();
        let disk = Disk { folder };
        disk.mount("rw", pages).then_some(disk)
    }

    fn mount(&self, how: &str, pages: usize) -> bool {
        let how = format!("{how},size={}", pages * 4096);
        let mut command = Command::new("mount");
        command.args(["-t", "tmpfs", "-o", &how, "none"]).arg(&self.folder);
        command.output().is_ok_and(|done| done.status.success())
    }
}

impl Drop for Disk {
    fn drop(&mut self) {
        let _ = Command::new("umount").arg(&self.folder).output();
    }
}

const NO_ROOM: &str = "28";

#[test]
fn a_full_disk() {
    let scratch = Scratch::new("disk");
    let Some(disk) = Disk::mounted(scratch.path("disk"), 4) else {
        eprintln!("skipped: mounting a small disk isn't permitted here");
        return;
    };
    let path = disk.folder.join("journal");
    let out = failing("env", &[], &path);
    let said = String::from_utf8_lossy(&out.stdout).into_owned();
    assert!(out.status.success(), "{said}{}", String::from_utf8_lossy(&out.stderr));
    let (error, length) = word(&said, "failed: ").split_once(" at ").unwrap();
    let length: usize = length.parse().unwrap();
    assert_eq!(error, NO_ROOM);
    // The lock has one page, the journal the others; the first record that didn't fit was the last.
    assert!(length <= 3 * 4096 && length + 200 > 3 * 4096, "{length}");
    assert!(disk.mount("remount", 16), "room can't be made");
    expect_held(&path, length);
}

#[test]
fn a_disk_without_room_for_a_torn_tail() {
    let scratch = Scratch::new("no-room");
    let path = scratch.path("journal");
    let journal = night().journal().to_vec();
    // A record that is longer than what is there of it.
    let torn = [&journal[..], &[0, 170, 1], &[7; 160]].concat();
    fs::write(&path, &torn).unwrap();
    let said = limited(0, &path);
    assert_eq!(word(&said, "not opened: "), format!("\"journal.lock\" {TOO_BIG}"));
    assert_eq!(scratch.names(), ["journal"]);
    if strace_runs() {
        let rule = "inject=fsync:error=ENOSPC:when=1";
        let said = traced(rule, &path);
        assert_eq!(word(&said, "not opened: "), "\"journal.torn-1\" 28");
        assert_eq!(scratch.names(), ["journal"]);
        let rule = "inject=ftruncate:error=EIO:when=1";
        let said = traced(rule, &path);
        assert_eq!(word(&said, "not opened: "), "\"journal\" 5");
        assert_eq!(scratch.names(), ["journal", "journal.torn-1"]);
        fs::remove_file(behind(&path, ".torn-1")).unwrap();
    }
    assert_eq!(fs::read(&path).unwrap(), torn);
    let opened = Catalogue::open(&path).unwrap();
    assert_eq!(opened.journal(), journal);
    assert_eq!(fs::read(&opened.torn().unwrap().path).unwrap(), &torn[journal.len()..]);
}

/// Whether strace is here and may be used.
fn strace_runs() -> bool {
    let runs = Command::new("strace").args(["-o", "/dev/null", "true"]).output();
    let runs = runs.is_ok_and(|out| out.status.success());
    if !runs {
        eprintln!("strace can't be run, so no failing syncs are tested");
    }
    runs
}

/// Runs the child with system calls that fail by this rule.
fn traced(rule: &str, path: &Path) -> String {
    let out = failing("strace", &["-f", "-o", "/dev/null", "-e", rule], path);
    let said = String::from_utf8_lossy(&out.stdout).into_owned();
    assert!(out.status.success(), "{rule}: {said}{}", String::from_utf8_lossy(&out.stderr));
    said
}

#[test]
fn a_write_or_a_sync_that_fails() {
    if !strace_runs() {
        return;
    }
    let scratch = Scratch::new("failing");
    // The first sync of the file is that of its opening.
    for (rule, error) in [
        ("inject=fdatasync:error=EIO:when=2", "5"),
        ("inject=fdatasync:error=EIO:when=9", "5"),
        ("inject=pwrite64:error=ENOSPC:when=1", "28"),
        ("inject=pwrite64:error=ENOSPC:when=7", "28"),
        ("inject=pwrite64:error=EIO:when=3", "5"),
    ] {
        let path = scratch.path("journal");
        let said = traced(rule, &path);
        let (told, length) = word(&said, "failed: ").split_once(" at ").unwrap();
        assert_eq!(told, error, "{rule}");
        expect_held(&path, length.parse().unwrap());
        fs::remove_file(&path).unwrap();
    }
    let path = scratch.path("journal");
    let said = traced("inject=fdatasync:error=EIO:when=1", &path);
    assert_eq!(word(&said, "not opened: "), "\"journal\" 5");
    assert_eq!((scratch.names(), fs::read(&path).unwrap()), (vec!["journal".into()], vec![]));
}

#[test]
fn a_file_that_can_not_be_cut_back() {
    if !strace_runs() {
        return;
    }
    // The record is whole but wasn't acknowledged: it is there at the next opening, as it is after
    // a kill between write and answer. The child's own look at the file fails then.
    let scratch = Scratch::new("no-way-back");
    let path = scratch.path("journal");
    let first = "inject=fdatasync:error=EIO:when=3";
    let out = failing(
        "strace",
        &["-f", "-o", "/dev/null", "-e", first, "-e", "inject=ftruncate:error=EIO"],
        &path,
    );
    assert!(!out.status.success());
    let mut run = Catalogue::fresh();
    for _ in 0..2 {
        next_call(&run).on(&mut run).unwrap();
    }
    assert_eq!(Catalogue::open(&path).unwrap().catalogue(), &run);
}
