//! The store's memory, and its calls as the library has them.

use crate::answers::{Knowledge, Moved, Reply, Report};
use crate::{ffi, COPIES, OBJECTS, PAST, PENDING, SLOTS, SNAPSHOTS};
use std::fmt;

/// A modified object that hasn't gone to disk yet.
#[repr(C)]
#[derive(Clone, Copy, Debug, Default, PartialEq, Eq)]
pub struct Pending {
    /// Object number.
    pub object: u64,
    /// Stamp of its first commit since the last flush.
    pub first: u64,
    /// Stamp of its latest commit.
    pub latest: u64,
    /// The value the latest commit gave it.
    pub value: u64,
}

/// A value that an object had at each stamp `s` with `from <= s < until`.
#[repr(C)]
#[derive(Clone, Copy, Debug, Default, PartialEq, Eq)]
pub struct Past {
    /// Object number.
    pub object: u64,
    /// First stamp of the span.
    pub from: u64,
    /// First stamp after the span.
    pub until: u64,
    /// The value.
    pub value: u64,
}

/// An archived copy of a page, but for its values.
#[repr(C)]
#[derive(Clone, Copy, Debug, Default, PartialEq, Eq)]
pub struct Copied {
    /// Page number.
    pub page: u64,
    /// The snapshot it was taken for.
    pub stamp: u64,
}

/// The numbers of rows, the horizon and the last commit.
#[repr(C)]
#[derive(Clone, Copy, Debug, Default, PartialEq, Eq)]
pub struct Heads {
    /// Number of pending entries.
    pub pending: usize,
    /// Number of past values.
    pub past: usize,
    /// Number of known snapshots.
    pub snapshots: usize,
    /// Number of archived copies.
    pub copies: usize,
    /// The horizon: all snapshots up to here are known.
    pub horizon: u64,
    /// The stamp of the last commit.
    pub last: u64,
}

/// The whole store, in the library's layout.
///
/// Every call takes every store: the fields may be written freely, and a store that isn't one is
/// answered by code 2. Only the rows below a table's count are contents, and equality is that of
/// contents.
///
/// The changing calls are lent the journal and told its used length; the answer's place is the
/// used length for the next call. A [`Catalogue`](crate::Catalogue) sees to that by itself.
///
/// ```
/// use jibcradle::{Moved, Reply, Store};
///
/// let mut store = Store::fresh();
/// let mut journal = [0; 4096];
/// let moved = store.commit(&mut journal, 0, 100, &[0], &[7]);
/// assert_eq!(moved, Moved { code: 0, number: 23, place: 23 });
/// let moved = store.gossip(&mut journal, moved.place, 0, 110, &[105]);
/// assert_eq!(moved, Moved { code: 0, number: 51, place: 51 });
///
/// let mut page = [0; 16];
/// assert_eq!(store.snapshot_read(107, 0, &mut page), Reply { code: 0, number: 105 });
/// assert_eq!(page[0], 7);
/// ```
#[repr(C)]
#[derive(Clone)]
pub struct Store {
    /// Disk value of each object.
    pub disk: [u64; OBJECTS],
    /// Stamp of the commit that wrote each disk value.
    pub dated: [u64; OBJECTS],
    /// Pending entries, at most one for each object.
    pub pending: [Pending; PENDING],
    /// Past values.
    pub past: [Past; PAST],
    /// Known snapshots, strictly ascending.
    pub snapshots: [u64; SNAPSHOTS],
    /// Archived copies, but for their values.
    pub copies: [Copied; COPIES],
    /// The values of the archived copies, 16 for each.
    pub copied: [u64; COPIES * SLOTS],
    /// The numbers of rows, the horizon and the last commit.
    pub heads: Heads,
}

impl Store {
    /// The fresh store. The journal that goes with it is empty.
    pub fn fresh() -> Store {
        let mut store = Store {
            disk: [0; OBJECTS],
            dated: [0; OBJECTS],
            pending: [Pending::default(); PENDING],
            past: [Past::default(); PAST],
            snapshots: [0; SNAPSHOTS],
            copies: [Copied::default(); COPIES],
            copied: [0; COPIES * SLOTS],
            heads: Heads::default(),
        };
        // A fresh start is never refused, and its place is 0.
        let _ = store.reset();
        store
    }

    /// Makes this a fresh store, whatever it was. The journal counts as empty from here.
    pub fn reset(&mut self) -> Moved {
        ffi::fresh(self)
    }

    /// Rebuilds the store from the surviving bytes of its journal; what it was plays no part. The
    /// number is the next place. Refused, it leaves a fresh store.
    pub fn restart(&mut self, journal: &[u8]) -> Moved {
        ffi::restart(self, journal)
    }

    /// Commits the writes at stamp `t`.
    pub fn commit(
        &mut self,
        journal: &mut [u8],
        used: usize,
        t: u64,
        objects: &[u64],
        values: &[u64],
    ) -> Moved {
        ffi::commit(self, journal, used, t, objects, values)
    }

    /// Takes in a message: the snapshots beyond `prev` up to `curr` are exactly `stamps`.
    pub fn gossip(
        &mut self,
        journal: &mut [u8],
        used: usize,
        prev: u64,
        curr: u64,
        stamps: &[u64],
    ) -> Moved {
        ffi::gossip(self, journal, used, prev, curr, stamps)
    }

    /// Archives the page's due snapshots and brings its pending entries to disk.
    pub fn flush(&mut self, journal: &mut [u8], used: usize, page: u64) -> Moved {
        ffi::flush(self, journal, used, page)
    }

    /// Reads the page as of the largest known snapshot at or before `time`, whose stamp is the
    /// number. Refused, it leaves the buffer as it was.
    pub fn snapshot_read(&self, time: u64, page: u64, buffer: &mut [u64]) -> Reply {
        ffi::snapshot_read(self, time, page, buffer)
    }

    /// Reads the page as of the largest known snapshot at or before `256 * tick`, as
    /// [`Store::snapshot_read`] does.
    pub fn clock_read(&self, tick: u64, page: u64, buffer: &mut [u64]) -> Reply {
        ffi::clock_read(self, tick, page, buffer)
    }

    /// Reads the page's current values. Refused, it leaves the buffer as it was.
    pub fn current_read(&self, page: u64, buffer: &mut [u64]) -> Reply {
        ffi::current_read(self, page, buffer)
    }

    /// Counts the tables' rows and the lag.
    pub fn standing(&self) -> Report {
        ffi::standing(self)
    }

    /// Tells the horizon, the last commit and all known snapshots.
    pub fn known(&self) -> Knowledge {
        ffi::known(self)
    }

    /// Takes in a message as a [`Coordinator`](crate::Coordinator) wrote it, as [`Store::gossip`]
    /// takes its numbers. Bytes that aren't exactly one message are malformed.
    pub fn hear(&mut self, journal: &mut [u8], used: usize, message: &[u8]) -> Moved {
        ffi::hear(self, journal, used, message)
    }

    /// After a gap: writes the request for all snapshots from the horizon up to `to` to the front
    /// of the buffer, which has 19 bytes or more. Refused, it leaves the buffer as it was.
    pub fn ask(&self, to: u64, buffer: &mut [u8]) -> Reply {
        ffi::ask(self, to, buffer)
    }

    /// The pending entries that are contents; all rows where the count is over its limit.
    pub fn pending_rows(&self) -> &[Pending] {
        &self.pending[..self.heads.pending.min(PENDING)]
    }

    /// The past values that are contents; all rows where the count is over its limit.
    pub fn past_rows(&self) -> &[Past] {
        &self.past[..self.heads.past.min(PAST)]
    }

    /// The known snapshots; all rows where the count is over its limit.
    pub fn snapshot_rows(&self) -> &[u64] {
        &self.snapshots[..self.heads.snapshots.min(SNAPSHOTS)]
    }

    /// The archived copies, but for their values; all rows where the count is over its limit.
    pub fn copy_rows(&self) -> &[Copied] {
        &self.copies[..self.heads.copies.min(COPIES)]
    }

    /// The values of the archived copies, 16 for each of [`Store::copy_rows`].
    pub fn copied_values(&self) -> &[u64] {
        &self.copied[..self.copy_rows().len() * SLOTS]
    }
}

impl Default for Store {
    fn default() -> Store {
        Store::fresh()
    }
}

impl PartialEq for Store {
    fn eq(&self, other: &Store) -> bool {
        self.heads == other.heads
            && self.disk == other.disk
            && self.dated == other.dated
            && self.pending_rows() == other.pending_rows()
            && self.past_rows() == other.past_rows()
            && self.snapshot_rows() == other.snapshot_rows()
            && self.copy_rows() == other.copy_rows()
            && self.copied_values() == other.copied_values()
    }
}

impl Eq for Store {}

impl fmt::Debug for Store {
    fn fmt(&self, out: &mut fmt::Formatter<'_>) -> fmt::Result {
        out.debug_struct("Store")
            .field("disk", &self.disk)
            .field("dated", &self.dated)
            .field("pending", &self.pending_rows())
            .field("past", &self.past_rows())
            .field("snapshots", &self.snapshot_rows())
            .field("copies", &self.copy_rows())
            .field("copied", &self.copied_values())
            .field("heads", &self.heads)
            .finish()
    }
}
