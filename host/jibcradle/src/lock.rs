//! The lock that keeps other programs off a journal: the file `PATH.lock`, with the line that names
//! the process that has it. The command of this repository keeps the same lock.
//!
//! It is made exclusively, and removed with the catalogue. A lock whose process is gone is taken
//! over behind a guard, `PATH.lock.take`, which is a lock of the same form: only who has made the
//! guard may remove the lock, and reads it again first.
//!
//! A process of this crate also holds the system's advisory lock on the lock files that it has
//! made. So one that is held is never taken for one that was left behind, not by another thread of
//! the same process either, whose line is the same.

use crate::process::{Line, Process, State};
use crate::Error;
use std::ffi::OsString;
use std::fs::{self, File, OpenOptions, TryLockError};
use std::io::{self, ErrorKind, Read, Write};
use std::os::unix::fs::MetadataExt;
use std::path::{Path, PathBuf};
use std::thread::sleep;
use std::time::{Duration, Instant};

/// How long a lock without a whole line is waited for: its process may be about to write it.
const UNFINISHED: Duration = Duration::from_secs(5);

/// How long a dying process is waited for.
pub(crate) const DYING: Duration = Duration::from_secs(2);

/// Between two looks at a lock. It is longer than a killed process may still seem to live.
const PAUSE: Duration = Duration::from_millis(10);

/// More than a line has.
const LINE: u64 = 200;

/// How often a lock that comes and goes is tried.
const TURNS: usize = 100;

/// A lock file that is ours. It goes with this value, if it is still ours then.
#[derive(Debug)]
pub(crate) struct Lock {
    path: PathBuf,
    file: File,
}

/// How it is with a lock file.
enum Held {
    /// There is none.
    Free,
    /// Somebody has it.
    Living(Option<u32>),
    /// Its process is gone.
    Gone(Left),
}

/// A lock file that was left behind. The system's lock on it is ours.
struct Left {
    file: File,
    line: Line,
}

/// The path with something put behind it.
pub(crate) fn behind(path: &Path, end: &str) -> PathBuf {
    let mut name = OsString::from(path);
    name.push(end);
    name.into()
}

/// Whether the path leads to this open file.
pub(crate) fn leads_to(path: &Path, file: &File) -> io::Result<bool> {
    let there = match fs::metadata(path) {
        Ok(there) => there,
        Err(error) if error.kind() == ErrorKind::NotFound => return Ok(false),
        Err(error) => return Err(error),
    };
    let open = file.metadata()?;
    Ok((there.dev(), there.ino()) == (open.dev(), open.ino()))
}

/// Takes the system's lock on a file; `false` where somebody has it.
fn is_locked(file: &File) -> io::Result<bool> {
    match file.try_lock() {
        Ok(()) => Ok(true),
        Err(TryLockError::WouldBlock) => Ok(false),
        Err(TryLockError::Error(error)) => Err(error),
    }
}

/// The same, after some waiting: who is dying has it a little longer.
pub(crate) fn is_locked_within(file: &File, patience: Duration) -> io::Result<bool> {
    let end = Instant::now() + patience;
    while !is_locked(file)? {
        if Instant::now() > end {
            return Ok(false);
        }
        sleep(PAUSE);
    }
    Ok(true)
}

impl Lock {
    /// The lock of a journal, once it is ours.
    pub fn take(journal: &Path) -> Result<Lock, Error> {
        let path = behind(journal, ".lock");
        for _ in 0..TURNS {
            if let Some(lock) = Lock::make(&path)? {
                return Ok(lock);
            }
            match judge(&path)? {
                Held::Free => {}
                Held::Living(by) => return Err(Error::Locked { lock: path, by }),
                Held::Gone(left) => {
                    if let Some(lock) = Lock::take_over(&path, &left)? {
                        return Ok(lock);
                    }
                }
            }
        }
        Err(Error::Locked { lock: path, by: None })
    }

    /// Makes the lock file with our line in it; none where there is one.
    fn make(path: &Path) -> Result<Option<Lock>, Error> {
        let failed = |error| Error::io(path, error);
        let file = match OpenOptions::new().write(true).create_new(true).open(path) {
            Ok(file) => file,
            Err(error) if error.kind() == ErrorKind::AlreadyExists => return Ok(None),
            Err(error) => return Err(failed(error)),
        };
        let lock = Lock { path: path.into(), file };
        let ours = is_locked(&lock.file).map_err(failed)?;
        (&lock.file).write_all(Process::own().line().as_bytes()).map_err(failed)?;
        // Somebody may have taken it over, if we stood still for very long.
        if ours && leads_to(path, &lock.file).map_err(failed)? {
            Ok(Some(lock))
        } else {
            Err(Error::Locked { lock: path.into(), by: None })
        }
    }

    /// Puts our lock in the place of one that was left behind; none where somebody was quicker.
    fn take_over(path: &Path, left: &Left) -> Result<Option<Lock>, Error> {
        let _guard = Lock::guard(path)?;
        left.remove(path)?;
        Lock::make(path)
    }

    /// The guard of a taking over. One whose process is gone was left by a kill in the middle.
    fn guard(lock: &Path) -> Result<Lock, Error> {
        let path = behind(lock, ".take");
        for _ in 0..TURNS {
            if let Some(guard) = Lock::make(&path)? {
                return Ok(guard);
            }
            match judge(&path)? {
                Held::Free => {}
                Held::Living(by) => return Err(Error::Locked { lock: path, by }),
                Held::Gone(left) => left.remove(&path)?,
            }
        }
        Err(Error::Locked { lock: path, by: None })
    }
}

impl Left {
    /// Removes the lock file, if it is still this one with this line.
    fn remove(&self, path: &Path) -> Result<(), Error> {
        let removed = match self.is_still_at(path) {
            Ok(true) => fs::remove_file(path),
            Ok(false) => Ok(()),
            Err(error) => Err(error),
        };
        removed.map_err(|error| Error::io(path, error))
    }

    fn is_still_at(&self, path: &Path) -> io::Result<bool> {
        let now = look(path)?;
        Ok(leads_to(path, &self.file)? && now.is_some_and(|(_, line)| line == self.line))
    }
}

/// Who has a lock file. What may be over in a moment is waited for.
fn judge(path: &Path) -> Result<Held, Error> {
    let failed = |error| Error::io(path, error);
    let start = Instant::now();
    let mut lived = false;
    loop {
        let Some((file, line)) = look(path).map_err(failed)? else {
            return Ok(Held::Free);
        };
        let finished = line != Line::Unfinished;
        let over = start.elapsed() > if finished { DYING } else { UNFINISHED };
        if finished || over {
            let free = is_locked(&file).map_err(failed)?;
            match state(&line, free) {
                State::Gone if free => return Ok(Held::Gone(Left { file, line })),
                State::Living if lived => return Ok(Held::Living(line.number())),
                State::Living => lived = true,
                _ if over => return Ok(Held::Living(line.number())),
                _ => {}
            }
        }
        drop(file);
        sleep(PAUSE);
    }
}

/// How it is with the process of a line, where `free` says that nobody had the system's lock. Our
/// own line is that of another thread, which then has the system's lock, or was left behind; our
/// own number in any other line is that of an earlier process.
fn state(line: &Line, free: bool) -> State {
    let own = Process::own();
    match line {
        Line::Of(process) if process.number == own.number => {
            if *process == own && !free {
                State::Living
            } else {
                State::Gone
            }
        }
        Line::Of(process) => process.state(),
        Line::Nobody | Line::Unfinished => State::Gone,
    }
}

/// The lock file, open, and its line; none where there is none.
fn look(path: &Path) -> io::Result<Option<(File, Line)>> {
    let file = match File::open(path) {
        Ok(file) => file,
        Err(error) if error.kind() == ErrorKind::NotFound => return Ok(None),
        Err(error) => return Err(error),
    };
    let mut text = Vec::new();
    (&file).take(LINE).read_to_end(&mut text)?;
    Ok(Some((file, Line::read(&text))))
}

impl Drop for Lock {
    fn drop(&mut self) {
        if let Ok(true) = leads_to(&self.path, &self.file) {
            let _ = fs::remove_file(&self.path);
        }
    }
}
