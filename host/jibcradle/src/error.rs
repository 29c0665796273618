//! What may go wrong with a catalogue that is kept in a file.

use crate::Refusal;
use std::fmt;
use std::io;
use std::path::{Path, PathBuf};

/// Why a file wasn't opened as a catalogue, or a change of one not done.
///
/// After any of these but [`Error::Refused`] a catalogue takes no more changes; see
/// [`FileCatalogue`](crate::FileCatalogue).
///
/// There may be more of them one day, so a `match` needs a last arm for the others.
#[derive(Debug)]
#[non_exhaustive]
pub enum Error {
    /// The store refused the change, or the file's bytes as a journal. Nothing has changed.
    Refused(Refusal),
    /// The system refused something: a file can't be made, read, written or synced.
    Io {
        /// The file or folder.
        path: PathBuf,
        /// What the system said.
        error: io::Error,
    },
    /// The journal is in use.
    Locked {
        /// The file that says so: the lock `PATH.lock`, its guard `PATH.lock.take` where somebody is
        /// just taking over the lock of a process that is gone, or the journal itself where it is
        /// locked under another name.
        lock: PathBuf,
        /// The process that has it, where it is known.
        by: Option<u32>,
    },
    /// The path no longer leads to the open file: it was moved, removed or replaced.
    Moved {
        /// The path.
        path: PathBuf,
    },
    /// The file's end isn't where this catalogue left it: another program has changed it.
    Changed {
        /// The journal.
        path: PathBuf,
        /// The length that it was left with.
        left: u64,
        /// The length found.
        found: u64,
    },
    /// An earlier change could not be written, so no more are taken.
    Poisoned {
        /// The journal.
        path: PathBuf,
    },
}

impl Error {
    /// The refusal, where it is one.
    pub fn refusal(&self) -> Option<Refusal> {
        match self {
            Error::Refused(refusal) => Some(*refusal),
            _ => None,
        }
    }

    /// What the system said of a file or folder.
    pub(crate) fn io(path: &Path, error: io::Error) -> Error {
        Error::Io { path: path.into(), error }
    }
}

impl From<Refusal> for Error {
    fn from(refusal: Refusal) -> Error {
        Error::Refused(refusal)
    }
}

/// A sentence for a person; it begins with the file's path where there is one.
impl fmt::Display for Error {
    fn fmt(&self, out: &mut fmt::Formatter<'_>) -> fmt::Result {
        match self {
            Error::Refused(refusal) => refusal.fmt(out),
            Error::Io { path, error } => write!(out, "{}: {error}", path.display()),
            Error::Locked { lock, by: Some(process) } => {
                write!(out, "{}: process {process} has the journal", lock.display())
            }
            Error::Locked { lock, by: None } => {
                write!(out, "{}: another program has the journal", lock.display())
            }
            Error::Moved { path } => {
                write!(out, "{}: the open file is no longer at this name", path.display())
            }
            Error::Changed { path, left, found } => write!(
                out,
                "{}: another program has changed it: it was left with {left} bytes and has {found}",
                path.display()
            ),
            Error::Poisoned { path } => {
                write!(out, "{}: an earlier change could not be written", path.display())
            }
        }
    }
}

impl std::error::Error for Error {}
