//! What the tables say. All of it is read over a store that has passed the test for damage.

use crate::tables::{Past, Pending, Rows, Store};
use crate::{PAGES, PAST, PENDING, SLOTS};
use std::ops::Range;

/// The page of an object.
pub(crate) fn page_of(object: u64) -> usize {
    object as usize / SLOTS
}

/// The objects of a page.
pub(crate) fn objects_of(page: usize) -> Range<usize> {
    page * SLOTS..(page + 1) * SLOTS
}

/// The bits below bit `count`, which is at most 64.
fn below(count: usize) -> u64 {
    u64::MAX.checked_shr(64 - count as u32).unwrap_or(0)
}

/// How many of the snapshots lie before a stamp.
fn before(snapshots: &[u64], stamp: u64) -> usize {
    snapshots.partition_point(|&snapshot| snapshot < stamp)
}

/// The row numbers of a page's past values, in their order.
pub(crate) struct PastRows {
    rows: [u8; PAST],
    count: usize,
}

impl PastRows {
    pub(crate) fn iter(&self) -> impl Iterator<Item = usize> + '_ {
        self.rows[..self.count].iter().map(|&row| usize::from(row))
    }
}

impl Store {
    /// How many known snapshots lie at or before a stamp.
    pub(crate) fn snapshots_up_to(&self, stamp: u64) -> usize {
        self.snapshots().partition_point(|&snapshot| snapshot <= stamp)
    }

    /// The mark of a page: the largest stamp of its copies, 0 if it has none.
    pub(crate) fn mark(&self, page: usize) -> u64 {
        let mut mark = 0;
        for copy in self.copies() {
            if copy.page as usize == page {
                mark = copy.stamp.max(mark);
            }
        }
        mark
    }

    /// The marks of all pages.
    pub(crate) fn marks(&self) -> [u64; PAGES] {
        let mut marks = [0; PAGES];
        for copy in self.copies() {
            let mark = &mut marks[copy.page as usize];
            *mark = copy.stamp.max(*mark);
        }
        marks
    }

    /// Where the page's past values are.
    pub(crate) fn past_rows(&self, page: usize) -> PastRows {
        let mut found = PastRows { rows: [0; PAST], count: 0 };
        for (number, row) in self.past().iter().enumerate() {
            // Written in any case, and left standing if it counts.
            found.rows[found.count] = number as u8;
            found.count += usize::from(page_of(row.object) == page);
        }
        found
    }

    /// Whether a past value with this span is live: a stamp of the span is beyond the horizon, or
    /// is a known snapshot beyond the mark of its page. The mark is asked for only when it counts.
    pub(crate) fn live(&self, from: u64, until: u64, mark: impl FnOnce() -> u64) -> bool {
        live(self.horizon, self.snapshots(), from, until, mark)
    }

    /// Drops the dead past values from row `first` on, each judged by the mark given for its page;
    /// those of a page without one stay.
    pub(crate) fn drop_dead(&mut self, first: usize, mark_of: impl Fn(usize) -> Option<u64>) {
        let snapshots = &self.snapshots[..self.snapshot_count];
        self.past_count = first
            + retain(&mut self.past[first..self.past_count], |row| {
                mark_of(page_of(row.object))
                    .is_none_or(|mark| live(self.horizon, snapshots, row.from, row.until, || mark))
            });
    }

    /// The page's values as of a stamp.
    pub(crate) fn page_as_of(&self, page: usize, stamp: u64, rows: &Rows, out: &mut [u64; SLOTS]) {
        // The oldest copy that will do, the first row among equals.
        let copy = self
            .copies()
            .iter()
            .filter(|copy| copy.page as usize == page && copy.stamp >= stamp)
            .min_by_key(|copy| copy.stamp);
        if let Some(copy) = copy {
            *out = copy.values;
            return;
        }

        let objects = objects_of(page);
        out.copy_from_slice(&self.disk_values[objects.clone()]);
        // Bit k: slot k still shows the disk value.
        let mut open = u16::MAX;
        for (slot, &row) in rows[objects].iter().enumerate() {
            if row != 0 {
                let entry = &self.pending[row as usize - 1];
                if entry.latest <= stamp {
                    out[slot] = entry.value;
                    open &= !(1 << slot);
                }
            }
        }
        for row in self.past() {
            if page_of(row.object) == page && row.from <= stamp && stamp < row.until {
                let slot = row.object as usize % SLOTS;
                if open & (1 << slot) != 0 {
                    out[slot] = row.value;
                    open &= !(1 << slot);
                }
            }
        }
    }

    /// The page's current values.
    pub(crate) fn page_now(&self, page: usize, rows: &Rows, out: &mut [u64; SLOTS]) {
        let objects = objects_of(page);
        out.copy_from_slice(&self.disk_values[objects.clone()]);
        for (value, &row) in out.iter_mut().zip(&rows[objects]) {
            if row != 0 {
                *value = self.pending[row as usize - 1].value;
            }
        }
    }

    /// The due snapshots of a page with this mark, bit k for snapshot k: those beyond the mark
    /// with an object whose value as of the next snapshot, or now for the last one, was written
    /// after it.
    pub(crate) fn due(&self, page: usize, mark: u64, rows: &Rows, past_rows: &PastRows) -> u64 {
        let snapshots = self.snapshots();
        let first = self.snapshots_up_to(mark);
        let Some(&last) = snapshots[first..].last() else {
            return 0;
        };
        let mut due = 0;

        // The snapshots that come next after one beyond the mark.
        let nexts = below(snapshots.len()) & !below(first + 1);
        if nexts != 0 {
            let versions = Versions {
                snapshots,
                pending: &self.pending,
                rows: &rows[objects_of(page)],
                past: &self.past,
                past_rows,
                disk_values: &self.disk_values[objects_of(page)],
                disk_stamps: &self.disk_stamps[objects_of(page)],
            };
            versions.serve(nexts, |_, served, written, _| {
                due |= (served >> 1) & below(before(snapshots, written));
            });
        }

        let written_after_last = objects_of(page).any(|object| {
            let written = match rows[object] {
                0 => self.disk_stamps[object],
                row => self.pending[row as usize - 1].latest,
            };
            written > last
        });
        due | u64::from(written_after_last) << (snapshots.len() - 1)
    }

    /// Appends copies of the page for the due snapshots, in ascending order.
    pub(crate) fn archive(&mut self, page: usize, due: u64, rows: &Rows, past_rows: &PastRows) {
        if due == 0 {
            return;
        }
        let copies = &mut self.copies[self.copy_count..];
        let versions = Versions {
            snapshots: &self.snapshots[..self.snapshot_count],
            pending: &self.pending,
            rows: &rows[objects_of(page)],
            past: &self.past,
            past_rows,
            disk_values: &self.disk_values[objects_of(page)],
            disk_stamps: &self.disk_stamps[objects_of(page)],
        };
        for (copy, number) in copies.iter_mut().zip(bits(due)) {
            copy.page = page as u64;
            copy.stamp = versions.snapshots[number];
        }
        versions.serve(due, |slot, served, _, value| {
            for number in bits(served) {
                let place = (due & below(number)).count_ones() as usize;
                copies[place].values[slot] = value;
            }
        });
        self.copy_count += due.count_ones() as usize;
    }
}

/// See [`Store::live`].
fn live(
    horizon: u64,
    snapshots: &[u64],
    from: u64,
    until: u64,
    mark: impl FnOnce() -> u64,
) -> bool {
    if from >= until {
        return false;
    }
    if until - 1 > horizon {
        return true;
    }
    // If any snapshot will do, the last one before the span's end will.
    match before(snapshots, until) {
        0 => false,
        count => {
            let snapshot = snapshots[count - 1];
            snapshot >= from && snapshot > mark()
        }
    }
}

/// Moves the rows to be kept to the front, in their order, and gives their number.
fn retain(table: &mut [Past], keep: impl Fn(&Past) -> bool) -> usize {
    let mut kept = 0;
    for number in 0..table.len() {
        let row = table[number];
        if keep(&row) {
            table[kept] = row;
            kept += 1;
        }
    }
    kept
}

/// The numbers of the bits set, ascending.
fn bits(mut set: u64) -> impl Iterator<Item = usize> {
    std::iter::from_fn(move || {
        let number = set.trailing_zeros() as usize;
        set &= set.checked_sub(1)?;
        Some(number)
    })
}

/// The values a page's objects have had, but for its copies.
struct Versions<'a> {
    snapshots: &'a [u64],
    pending: &'a [Pending; PENDING],
    /// The page's part of the pending rows' numbers.
    rows: &'a [u8],
    past: &'a [Past; PAST],
    past_rows: &'a PastRows,
    /// The page's part of the disk.
    disk_values: &'a [u64],
    disk_stamps: &'a [u64],
}

impl Versions<'_> {
    /// Tells which value serves which of the wanted snapshots (bit k for snapshot k), all of them
    /// beyond the page's mark: `tell(slot, served, written, value)` says that as of the snapshots
    /// `served` the slot has this value, written at this stamp. Each slot and wanted snapshot is
    /// told of once, so that one pass over the page's past values does for all snapshots.
    fn serve(&self, wanted: u64, mut tell: impl FnMut(usize, u64, u64, u64)) {
        // For each slot the wanted snapshots that aren't served yet.
        let mut open = [wanted; SLOTS];
        for (slot, &row) in self.rows.iter().enumerate() {
            if row != 0 {
                let entry = &self.pending[row as usize - 1];
                let served = open[slot] & !below(before(self.snapshots, entry.latest));
                if served != 0 {
                    open[slot] &= !served;
                    tell(slot, served, entry.latest, entry.value);
                }
            }
        }
        for row in self.past_rows.iter() {
            let row = &self.past[row];
            let slot = row.object as usize % SLOTS;
            let served = open[slot]
                & below(before(self.snapshots, row.until))
                & !below(before(self.snapshots, row.from));
            if served != 0 {
                open[slot] &= !served;
                tell(slot, served, row.from, row.value);
            }
        }
        for (slot, &served) in open.iter().enumerate() {
            if served != 0 {
                tell(slot, served, self.disk_stamps[slot], self.disk_values[slot]);
            }
        }
    }
}

#[cfg(test)]
mod tests {
    use super::*;

    #[test]
    fn masks() {
        assert_eq!(below(0), 0);
        assert_eq!(below(1), 1);
        assert_eq!(below(63), u64::MAX >> 1);
        assert_eq!(below(64), u64::MAX);
        assert_eq!(bits(0).count(), 0);
        assert_eq!(bits(u64::MAX).count(), 64);
        assert_eq!(bits(1 << 63 | 1 << 5 | 1).collect::<Vec<_>>(), [0, 5, 63]);
    }

    #[test]
    fn life_at_the_ends() {
        let none = || 0;
        // No stamp lies in an empty span.
        assert!(!live(0, &[], 0, 0, none));
        assert!(!live(0, &[], 7, 7, none));
        assert!(!live(0, &[], 8, 7, none));
        assert!(!live(0, &[], u64::MAX, 0, none));
        // The span's last stamp is the one before its end.
        assert!(!live(9, &[], 0, 10, none));
        assert!(live(9, &[], 0, 11, none));
        assert!(live(9, &[], 10, 11, none));
        assert!(live(u64::MAX - 2, &[], 0, u64::MAX, none));
        assert!(!live(u64::MAX - 1, &[], 0, u64::MAX, none));
        assert!(!live(u64::MAX, &[], 0, u64::MAX, none));
        // A snapshot at its start, its last stamp, its end, and outside.
        assert!(live(20, &[5], 5, 6, none));
        assert!(live(20, &[5], 3, 6, none));
        assert!(!live(20, &[5], 3, 5, none));
        assert!(!live(20, &[5], 6, 9, none));
        // The largest one in the span decides.
        assert!(live(20, &[5, 7, 9], 4, 8, || 6));
        assert!(!live(20, &[5, 7, 9], 4, 8, || 7));
        assert!(!live(20, &[5, 7, 9], 4, 8, || u64::MAX));
    }
}
