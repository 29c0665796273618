//! A journal's file: opened under its lock, its torn tail kept, records put at its end for good.

use crate::lock::{behind, is_locked_within, leads_to, Lock, DYING};
use crate::{Error, JOURNAL};
use std::fs::{self, File, OpenOptions};
use std::io::{self, ErrorKind, Read, Write};
use std::os::unix::fs::FileExt;
use std::path::{Path, PathBuf};

/// The bytes behind a journal's last whole record, which were moved to a file of their own when the
/// journal was opened. A write that a kill or a cut of power ended early leaves such bytes.
#[derive(Clone, Debug, PartialEq, Eq)]
pub struct Torn {
    /// The file that they are in: `PATH.torn-N`.
    pub path: PathBuf,
    /// How many they are.
    pub length: usize,
}

/// The open file and its locks.
#[derive(Debug)]
pub(crate) struct JournalFile {
    path: PathBuf,
    file: File,
    /// Goes last, when the system's lock on the file is gone.
    _lock: Lock,
}

/// An error of this kind, in our own words.
fn told(kind: ErrorKind, words: &str) -> io::Error {
    io::Error::new(kind, words)
}

/// Waits until the names in the file's folder are there for good.
fn sync_folder(path: &Path) -> Result<(), Error> {
    let folder = path.parent().unwrap_or(path);
    File::open(folder).and_then(|open| open.sync_all()).map_err(|error| Error::io(folder, error))
}

/// The file, made where there is none. Of an empty one the name may not be there for good yet: it
/// is new, or whoever made it was killed.
fn opened(path: &Path) -> Result<File, Error> {
    let open = |new| OpenOptions::new().read(true).write(true).create_new(new).open(path);
    let file = match open(false) {
        Err(error) if error.kind() == ErrorKind::NotFound => open(true),
        file => file,
    };
    let failed = |error| Error::io(path, error);
    let file = file.map_err(failed)?;
    let about = file.metadata().map_err(failed)?;
    if !about.is_file() {
        return Err(failed(told(ErrorKind::InvalidInput, "it is no regular file")));
    }
    if about.len() == 0 {
        sync_folder(path)?;
    }
    Ok(file)
}

impl JournalFile {
    /// Opens the file, or makes it. Nobody else has it from here on.
    pub fn open(path: &Path) -> Result<JournalFile, Error> {
        let failed = |error| Error::io(path, error);
        let path = &std::path::absolute(path).map_err(failed)?;
        if path.is_dir() {
            return Err(failed(told(ErrorKind::IsADirectory, "it is a folder, not a journal")));
        }
        if path.parent().is_some_and(|folder| !folder.exists()) {
            return Err(failed(told(ErrorKind::NotFound, "its folder does not exist")));
        }
        let lock = Lock::take(path)?;
        let file = opened(path)?;
        if !is_locked_within(&file, DYING).map_err(failed)? {
            return Err(Error::Locked { lock: path.clone(), by: None });
        }
        Ok(JournalFile { path: path.clone(), file, _lock: lock })
    }

    pub fn path(&self) -> &Path {
        &self.path
    }

    fn failed(&self, error: io::Error) -> Error {
        Error::io(&self.path, error)
    }

    /// The file's bytes; of a file that is too long to be a journal one more than a journal has.
    pub fn read(&self) -> Result<Vec<u8>, Error> {
        let mut bytes = Vec::new();
        let most = JOURNAL as u64 + 1;
        (&self.file).take(most).read_to_end(&mut bytes).map_err(|error| self.failed(error))?;
        Ok(bytes)
    }

    /// Brings the file to its first bytes for good, up to `place`. Those behind are kept in a file
    /// of their own first.
    pub fn settle(&self, bytes: &[u8], place: usize) -> Result<Option<Torn>, Error> {
        let torn = match &bytes[place..] {
            [] => None,
            tail => Some(self.keep(tail)?),
        };
        let cut = if torn.is_some() { self.file.set_len(place as u64) } else { Ok(()) };
        cut.and_then(|()| self.file.sync_data()).map_err(|error| self.failed(error))?;
        Ok(torn)
    }

    /// Writes the tail to the first of `PATH.torn-1`, `PATH.torn-2`, .. that isn't there yet.
    fn keep(&self, tail: &[u8]) -> Result<Torn, Error> {
        for number in 1.. {
            let path = behind(&self.path, &format!(".torn-{number}"));
            let mut file = match OpenOptions::new().write(true).create_new(true).open(&path) {
                Ok(file) => file,
                Err(error) if error.kind() == ErrorKind::AlreadyExists => continue,
                Err(error) => return Err(Error::io(&path, error)),
            };
            if let Err(error) = file.write_all(tail).and_then(|()| file.sync_all()) {
                let _ = fs::remove_file(&path);
                return Err(Error::io(&path, error));
            }
            sync_folder(&path)?;
            return Ok(Torn { path, length: tail.len() });
        }
        unreachable!("there are more numbers than files")
    }

    /// Writes a record at the file's end, which has to be `place`, and waits until it is there for
    /// good. Where that fails, the file is cut back if it can be.
    pub fn append(&self, place: usize, record: &[u8]) -> Result<(), Error> {
        let place = place as u64;
        if !leads_to(&self.path, &self.file).map_err(|error| self.failed(error))? {
            return Err(Error::Moved { path: self.path.clone() });
        }
        let found = self.file.metadata().map_err(|error| self.failed(error))?.len();
        if found != place {
            return Err(Error::Changed { path: self.path.clone(), left: place, found });
        }
        let written = self.file.write_all_at(record, place).and_then(|()| self.file.sync_data());
        written.map_err(|error| {
            let _ = self.file.set_len(place).and_then(|()| self.file.sync_data());
            self.failed(error)
        })
    }
}

impl Drop for JournalFile {
    /// The system's lock is given up by name: a copy of the descriptor in a child of this process
    /// would hold it on.
    fn drop(&mut self) {
        let _ = self.file.unlock();
    }
}
