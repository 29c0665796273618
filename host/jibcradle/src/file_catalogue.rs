//! A catalogue whose journal is kept in a file.

use crate::answers::{Change, Known, Snapshot, Standing};
use crate::journal_file::{JournalFile, Torn};
use crate::{Catalogue, Error, Refusal, Store, REQUEST, SLOTS};
use std::fmt;
use std::path::Path;

/// A catalogue whose journal is kept in a file; [`Catalogue::open`] gives one.
///
/// It has the calls of a [`Catalogue`], and promises of its file what the command of this
/// repository does:
///
/// * **`Ok` is for good.** A change has its record at the file's end, and the file synced, before it
///   gives [`Change::Written`]. Killed at any moment, the next opening shows every change that was
///   acknowledged, and at most one more, the last, which was on its way.
/// * **No byte is lost.** Bytes behind the last whole record are moved to a file `PATH.torn-N`,
///   and only then is the journal cut; [`FileCatalogue::torn`] tells of it. A file that isn't a
///   journal is refused and left as it is.
/// * **One at a time.** While it is open, `PATH.lock` names this process, and the file has the
///   system's advisory lock: no other process opens it, by this crate or by the command, nor this
///   process a second time. A lock whose process is gone is taken over.
/// * **Nobody else's file is written.** Before each record the path must still lead to the open
///   file, and the file must end where it was left.
/// * **A failure poisons it.** Where a record can't be written or synced, or the file is no longer
///   ours ([`Error::Moved`], [`Error::Changed`]), the change is undone: the store is built again
///   from the journal as it was before. From then on every change gives [`Error::Poisoned`]; reads
///   go on and show what was acknowledged. The file was cut back, if that could be done; if not,
///   the record that failed may be there at the next opening, whole, or be cut as a torn tail. To
///   go on, drop this one and open the file again.
///
/// To begin anew, drop it, move the file away and open the path again.
///
/// It isn't `Clone`, since two of them can't have one file; [`FileCatalogue::catalogue`] can be
/// cloned, and the clone is kept in memory alone.
///
/// ```compile_fail
/// fn twice(night: jibcradle::FileCatalogue) -> [jibcradle::FileCatalogue; 2] {
///     [night.clone(), night]
/// }
/// ```
pub struct FileCatalogue {
    catalogue: Catalogue,
    file: JournalFile,
    torn: Option<Torn>,
    poisoned: bool,
}

impl Catalogue {
    /// The catalogue whose journal is the file at `path`, which is made where there is none. What
    /// [`FileCatalogue`] promises of it is said there.
    ///
    /// A relative path is made absolute now, so that the program may change its folder later.
    ///
    /// ```
    /// use jibcradle::{Catalogue, Change, Error};
    /// # let path = std::env::temp_dir().join(format!("jibcradle-open-{}", std::process::id()));
    ///
    /// let mut night = Catalogue::open(&path)?;
    /// assert_eq!(night.commit(100, &[(0, 7)])?, Change::Written(23));
    /// drop(night);
    ///
    /// let night = Catalogue::open(&path)?;
    /// assert_eq!(night.now(0)?[0], 7);
    /// assert!(matches!(Catalogue::open(&path), Err(Error::Locked { .. })));
    /// # drop(night);
    /// # std::fs::remove_file(path).unwrap();
    /// # Ok::<(), Error>(())
    /// ```
    ///
    /// # Errors
    ///
    /// * [`Error::Refused`] where the bytes are no journal: [`Refusal::Version`],
    ///   [`Refusal::Malformed`], [`Refusal::Contradiction`], or [`Refusal::Shape`] where there are
    ///   over 65,535. The file is left as it is.
    /// * [`Error::Locked`] where another process has it, or this one already. A dying process is
    ///   waited for some two seconds.
    /// * [`Error::Io`] for trouble with the file, its folder, its lock or its torn tail.
    pub fn open(path: impl AsRef<Path>) -> Result<FileCatalogue, Error> {
        let file = JournalFile::open(path.as_ref())?;
        let bytes = file.read()?;
        let catalogue = Catalogue::restart(&bytes)?;
        let torn = file.settle(&bytes, catalogue.journal().len())?;
        Ok(FileCatalogue { catalogue, file, torn, poisoned: false })
    }
}

impl FileCatalogue {
    /// Commits the writes, each an object and its new value, at the stamp `t`.
    ///
    /// # Errors
    ///
    /// [`Error::Refused`] with what [`Catalogue::commit`] refuses; nothing has changed. Any other
    /// error poisons the catalogue, see [`FileCatalogue`].
    pub fn commit(&mut self, t: u64, writes: &[(u16, u64)]) -> Result<Change, Error> {
        self.change(|catalogue| catalogue.commit(t, writes))
    }

    /// Takes in a message: the snapshots beyond `prev` up to `curr` are exactly `stamps`.
    ///
    /// # Errors
    ///
    /// [`Error::Refused`] with what [`Catalogue::gossip`] refuses; nothing has changed. Any other
    /// error poisons the catalogue, see [`FileCatalogue`].
    pub fn gossip(&mut self, prev: u64, curr: u64, stamps: &[u64]) -> Result<Change, Error> {
        self.change(|catalogue| catalogue.gossip(prev, curr, stamps))
    }

    /// Takes in a message as a [`Coordinator`](crate::Coordinator) wrote it.
    ///
    /// # Errors
    ///
    /// [`Error::Refused`] with what [`Catalogue::hear`] refuses; nothing has changed. Any other
    /// error poisons the catalogue, see [`FileCatalogue`].
    pub fn hear(&mut self, message: &[u8]) -> Result<Change, Error> {
        self.change(|catalogue| catalogue.hear(message))
    }

    /// The request for all snapshots from the horizon up to `to`, for a coordinator to serve.
    ///
    /// # Errors
    ///
    /// Those of [`Catalogue::ask`].
    pub fn ask(&self, to: u64) -> Result<[u8; REQUEST], Refusal> {
        self.catalogue.ask(to)
    }

    /// Archives the page's due snapshots and brings its pending entries to disk.
    ///
    /// # Errors
    ///
    /// [`Error::Refused`] with what [`Catalogue::flush`] refuses; nothing has changed. Any other
    /// error poisons the catalogue, see [`FileCatalogue`].
    pub fn flush(&mut self, page: u8) -> Result<Change, Error> {
        self.change(|catalogue| catalogue.flush(page))
    }

    /// The page as of the largest known snapshot at or before `time`.
    ///
    /// # Errors
    ///
    /// Those of [`Catalogue::read`].
    pub fn read(&self, time: u64, page: u8) -> Result<Snapshot, Refusal> {
        self.catalogue.read(time, page)
    }

    /// The page as of the largest known snapshot at or before the tick, which is at most
    /// 2^56 - 1.
    ///
    /// # Errors
    ///
    /// Those of [`Catalogue::clock`].
    pub fn clock(&self, tick: u64, page: u8) -> Result<Snapshot, Refusal> {
        self.catalogue.clock(tick, page)
    }

    /// The page's current values.
    ///
    /// # Errors
    ///
    /// Those of [`Catalogue::now`].
    pub fn now(&self, page: u8) -> Result<[u64; SLOTS], Refusal> {
        self.catalogue.now(page)
    }

    /// The numbers of rows, and the lag.
    ///
    /// # Errors
    ///
    /// Those of [`Catalogue::standing`].
    pub fn standing(&self) -> Result<Standing, Refusal> {
        self.catalogue.standing()
    }

    /// The horizon, the last commit and all known snapshots.
    ///
    /// # Errors
    ///
    /// Those of [`Catalogue::known`].
    pub fn known(&self) -> Result<Known, Refusal> {
        self.catalogue.known()
    }

    /// The journal's bytes, which are the file's.
    pub fn journal(&self) -> &[u8] {
        self.catalogue.journal()
    }

    /// The store, to look at.
    pub fn store(&self) -> &Store {
        self.catalogue.store()
    }

    /// Store and journal as they are in memory, to look at or to clone.
    pub fn catalogue(&self) -> &Catalogue {
        &self.catalogue
    }

    /// The file's path, absolute.
    pub fn path(&self) -> &Path {
        self.file.path()
    }

    /// The bytes behind the last whole record that were found at the opening, if there were any,
    /// and the file that they are kept in.
    pub fn torn(&self) -> Option<&Torn> {
        self.torn.as_ref()
    }

    /// Whether a change could not be written, so that no more are taken.
    pub fn poisoned(&self) -> bool {
        self.poisoned
    }

    /// Makes a change in memory, then in the file. Where it can't be had in the file it is undone.
    fn change(
        &mut self,
        call: impl FnOnce(&mut Catalogue) -> Result<Change, Refusal>,
    ) -> Result<Change, Error> {
        if self.poisoned {
            return Err(Error::Poisoned { path: self.path().into() });
        }
        let before = self.journal().len();
        let change = call(&mut self.catalogue)?;
        if change == Change::Nothing {
            return Ok(change);
        }
        self.file.append(before, &self.journal()[before..]).inspect_err(|_| {
            self.poisoned = true;
            self.catalogue.cut(before);
        })?;
        Ok(change)
    }
}

impl fmt::Debug for FileCatalogue {
    fn fmt(&self, out: &mut fmt::Formatter<'_>) -> fmt::Result {
        out.debug_struct("FileCatalogue")
            .field("path", &self.path())
            .field("length", &self.journal().len())
            .field("torn", &self.torn)
            .field("poisoned", &self.poisoned)
            .finish_non_exhaustive()
    }
}
