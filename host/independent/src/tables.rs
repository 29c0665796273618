//! The tables, the fresh store and the test for damage.

use crate::{COPIES, OBJECTS, PAGES, PAST, PENDING, SLOTS, SNAPSHOTS};

/// A modified object that hasn't gone to disk yet.
#[derive(Clone, Copy, Debug, Default, PartialEq, Eq)]
pub struct Pending {
    /// Object number.
    pub object: u64,
    /// Stamp of its first commit since the last flush.
    pub first: u64,
    /// Stamp of its latest commit.
    pub latest: u64,
    /// The value the latest commit gave it.
    pub value: u64,
}

/// A value that an object had at each stamp `s` with `from <= s < until`.
#[derive(Clone, Copy, Debug, Default, PartialEq, Eq)]
pub struct Past {
    /// Object number.
    pub object: u64,
    /// First stamp of the span.
    pub from: u64,
    /// First stamp after the span.
    pub until: u64,
    /// The value.
    pub value: u64,
}

/// An archived copy of a page.
#[derive(Clone, Copy, Debug, Default, PartialEq, Eq)]
pub struct Copy {
    /// Page number.
    pub page: u64,
    /// The snapshot it was taken for.
    pub stamp: u64,
    /// The page's values as of that snapshot.
    pub values: [u64; SLOTS],
}

/// The repository. Only the rows below a table's count are contents, and equality is that of
/// contents.
#[derive(Clone, Debug)]
pub struct Store {
    /// Disk value of each object.
    pub disk_values: [u64; OBJECTS],
    /// Stamp of the commit that wrote each disk value.
    pub disk_stamps: [u64; OBJECTS],
    /// Pending entries, at most one for each object.
    pub pending: [Pending; PENDING],
    /// Number of pending entries.
    pub pending_count: usize,
    /// Past values.
    pub past: [Past; PAST],
    /// Number of past values.
    pub past_count: usize,
    /// Known snapshots, strictly ascending.
    pub snapshots: [u64; SNAPSHOTS],
    /// Number of known snapshots.
    pub snapshot_count: usize,
    /// Archived copies.
    pub copies: [Copy; COPIES],
    /// Number of archived copies.
    pub copy_count: usize,
    /// The horizon H: all snapshots up to here are known.
    pub horizon: u64,
    /// The last commit L.
    pub last: u64,
}

/// For each object the number of its pending row plus one, or 0 if it has none. The test for
/// damage has to meet every pending row once, and fills this on the way.
pub(crate) type Rows = [u8; OBJECTS];

// A pending row's number plus one and a past row's number have to fit a byte, and a snapshot's
// number a bit of a u64.
const _: () = assert!(PENDING < 256 && PAST <= 256 && SNAPSHOTS <= 64);
// The bounds below are tested on all numbers of a table or-ed together.
const _: () = assert!(OBJECTS.is_power_of_two() && PAGES.is_power_of_two());

/// The last of these stamps, 0 if there are none; `None` if they don't strictly ascend from 1 up.
pub(crate) fn last_ascending(stamps: &[u64]) -> Option<u64> {
    let mut ascending = true;
    let mut before = 0;
    for &stamp in stamps {
        ascending &= before < stamp;
        before = stamp;
    }
    ascending.then_some(before)
}

impl Store {
    /// The fresh store.
    pub const fn fresh() -> Store {
        Store {
            disk_values: [0; OBJECTS],
            disk_stamps: [0; OBJECTS],
            pending: [Pending { object: 0, first: 0, latest: 0, value: 0 }; PENDING],
            pending_count: 0,
            past: [Past { object: 0, from: 0, until: 0, value: 0 }; PAST],
            past_count: 0,
            snapshots: [0; SNAPSHOTS],
            snapshot_count: 0,
            copies: [Copy { page: 0, stamp: 0, values: [0; SLOTS] }; COPIES],
            copy_count: 0,
            horizon: 0,
            last: 0,
        }
    }

    /// Makes the contents those of a fresh store.
    pub(crate) fn empty(&mut self) {
        self.disk_values.fill(0);
        self.disk_stamps.fill(0);
        self.pending_count = 0;
        self.past_count = 0;
        self.snapshot_count = 0;
        self.copy_count = 0;
        self.horizon = 0;
        self.last = 0;
    }

    /// Whether the store is undamaged; if so, `rows` (lent all zero) says where each object's
    /// pending entry is.
    pub(crate) fn sound(&self, rows: &mut Rows) -> bool {
        if self.pending_count > PENDING
            || self.past_count > PAST
            || self.snapshot_count > SNAPSHOTS
            || self.copy_count > COPIES
        {
            return false;
        }

        // A limit that is a power of two is kept by all numbers just when their "or" keeps it.
        let objects = self.past().iter().fold(0, |all, row| all | row.object);
        let pages = self.copies().iter().fold(0, |all, copy| all | copy.page);
        if objects >= OBJECTS as u64 || pages >= PAGES as u64 {
            return false;
        }

        if last_ascending(self.snapshots()).is_none_or(|last| last > self.horizon) {
            return false;
        }

        for (entry, number) in self.pending().iter().zip(1..) {
            if entry.object >= OBJECTS as u64 {
                return false;
            }
            let row = &mut rows[entry.object as usize];
            if *row != 0 {
                return false;
            }
            *row = number;
        }
        true
    }

    // The contents of the tables, of a store that has passed the test for damage.

    pub(crate) fn pending(&self) -> &[Pending] {
        &self.pending[..self.pending_count]
    }

    pub(crate) fn past(&self) -> &[Past] {
        &self.past[..self.past_count]
    }

    pub(crate) fn snapshots(&self) -> &[u64] {
        &self.snapshots[..self.snapshot_count]
    }

    pub(crate) fn copies(&self) -> &[Copy] {
        &self.copies[..self.copy_count]
    }
}

impl Default for Store {
    fn default() -> Store {
        Store::fresh()
    }
}

impl PartialEq for Store {
    fn eq(&self, other: &Store) -> bool {
        fn same<T: PartialEq>(one: &[T], count: usize, two: &[T], other_count: usize) -> bool {
            let rows = count.min(one.len());
            count == other_count && one[..rows] == two[..rows]
        }
        self.disk_values == other.disk_values
            && self.disk_stamps == other.disk_stamps
            && self.horizon == other.horizon
            && self.last == other.last
            && same(&self.pending, self.pending_count, &other.pending, other.pending_count)
            && same(&self.past, self.past_count, &other.past, other.past_count)
            && same(&self.snapshots, self.snapshot_count, &other.snapshots, other.snapshot_count)
            && same(&self.copies, self.copy_count, &other.copies, other.copy_count)
    }
}

impl Eq for Store {}
