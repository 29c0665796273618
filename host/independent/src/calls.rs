//! The public calls. A changing call judges first, over the store as it is, and writes only when
//! nothing is left that could refuse it. Judging and writing are apart from the journal, so that
//! restart uses them too.

use crate::rules::{objects_of, page_of, PastRows};
use crate::tables::{Past, Pending, Rows, Store};
use crate::{code, journal};
use crate::{COPIES, OBJECTS, PAGES, PAST, PENDING, REQUEST, SLOTS, SNAPSHOTS, STAMPS, WRITES};

/// What a changing call answers.
#[derive(Clone, Copy, Debug, Default, PartialEq, Eq)]
pub struct Reply {
    /// The [code].
    pub code: u8,
    /// The number that goes with it.
    pub number: u64,
    /// The journal's place for the next call.
    pub place: usize,
}

/// What [`Store::standing`] counts.
#[derive(Clone, Copy, Debug, Default, PartialEq, Eq)]
pub struct Figures {
    /// Pending entries.
    pub pending: u64,
    /// Past values.
    pub past: u64,
    /// Known snapshots.
    pub snapshots: u64,
    /// Archived copies.
    pub copies: u64,
    /// Tick of the last commit minus tick of the horizon.
    pub lag: i64,
}

/// What [`Store::known`] tells.
#[derive(Clone, Copy, Debug, PartialEq, Eq)]
pub struct Known {
    /// The horizon.
    pub horizon: u64,
    /// The last commit.
    pub last: u64,
    /// Known snapshots, strictly ascending; 0 from their number on.
    pub snapshots: [u64; SNAPSHOTS],
    /// Number of known snapshots.
    pub snapshot_count: usize,
}

impl Default for Known {
    fn default() -> Known {
        Known { horizon: 0, last: 0, snapshots: [0; SNAPSHOTS], snapshot_count: 0 }
    }
}

/// A code other than 0 and its number.
#[derive(Clone, Copy, Debug, PartialEq, Eq)]
pub(crate) struct Refusal(pub(crate) u8, pub(crate) u64);

pub(crate) const DAMAGED: Refusal = Refusal(code::DAMAGED, 0);
pub(crate) const SHAPE: Refusal = Refusal(code::SHAPE, 0);
/// The refusal of bytes that came alone and aren't the record they should be.
pub(crate) const MALFORMED: Refusal = Refusal(code::MALFORMED, 0);

/// The reply of a change: its new used length, or a refusal and the old one.
fn reply(outcome: Result<usize, Refusal>, used: usize) -> Reply {
    match outcome {
        Ok(place) => Reply { code: code::DONE, number: place as u64, place },
        Err(Refusal(code, number)) => Reply { code, number, place: used },
    }
}

/// The answer of a call without a journal.
pub(crate) fn answer(outcome: Result<u64, Refusal>) -> (u8, u64) {
    match outcome {
        Ok(number) => (code::DONE, number),
        Err(Refusal(code, number)) => (code, number),
    }
}

/// A page number in range, as an index.
pub(crate) fn page_in_shape(page: u64) -> Option<usize> {
    (page < PAGES as u64).then_some(page as usize)
}

/// Whether a commit's lists are in range.
pub(crate) fn commit_in_shape(objects: &[u64], values: &[u64]) -> bool {
    (1..=WRITES).contains(&objects.len())
        && objects.len() == values.len()
        && objects.iter().all(|&object| object < OBJECTS as u64)
}

/// Whether a list of objects, all in range, names one twice.
pub(crate) fn names_twice(objects: &[u64]) -> bool {
    let mut seen = [0u64; OBJECTS / 64];
    objects.iter().any(|&object| {
        let word = &mut seen[object as usize / 64];
        let bit = 1 << (object % 64);
        let twice = *word & bit != 0;
        *word |= bit;
        twice
    })
}

/// Whether a message is in range: `prev < stamp <= curr`, strictly ascending.
pub(crate) fn gossip_in_shape(prev: u64, curr: u64, stamps: &[u64]) -> bool {
    let mut before = prev;
    stamps.len() <= STAMPS
        && prev <= curr
        && stamps.iter().all(|&stamp| {
            let ascending = before < stamp && stamp <= curr;
            before = stamp;
            ascending
        })
}

/// A commit that nothing refuses. Bit k: write k leaves a live past value.
pub(crate) struct CommitPlan {
    keeps: u16,
}

/// A message that nothing refuses.
pub(crate) struct GossipPlan<'a> {
    /// Its stamps beyond the horizon.
    new: &'a [u64],
}

/// A flush that nothing refuses.
pub(crate) struct FlushPlan {
    /// Bit k: snapshot k is due.
    due: u64,
    /// The page's mark after the flush.
    mark: u64,
    /// The page's past values, and the first of them that is dead by that mark.
    past_rows: PastRows,
    first_dead: Option<usize>,
    /// Bit k: the disk value of slot k becomes a live past value.
    keeps: u16,
}

impl Store {
    /// Commits the writes at stamp `t`.
    pub fn commit(
        &mut self,
        journal: &mut [u8],
        used: usize,
        t: u64,
        objects: &[u64],
        values: &[u64],
    ) -> Reply {
        reply(self.try_commit(journal, used, t, objects, values), used)
    }

    fn try_commit(
        &mut self,
        journal: &mut [u8],
        used: usize,
        t: u64,
        objects: &[u64],
        values: &[u64],
    ) -> Result<usize, Refusal> {
        let mut rows = [0; OBJECTS];
        if !self.sound(&mut rows) {
            return Err(DAMAGED);
        }
        if !journal::in_shape(journal, used) || !commit_in_shape(objects, values) {
            return Err(SHAPE);
        }
        if names_twice(objects) {
            return Err(Refusal(code::TWICE, 0));
        }
        let plan = self.judge_commit(t, objects, &rows)?;
        let place = journal::append_commit(journal, used, t, objects, values)?;
        self.apply_commit(&plan, t, objects, values, &mut rows);
        Ok(place)
    }

    /// Takes in a message: the snapshots beyond `prev` up to `curr` are exactly `stamps`.
    pub fn gossip(
        &mut self,
        journal: &mut [u8],
        used: usize,
        prev: u64,
        curr: u64,
        stamps: &[u64],
    ) -> Reply {
        reply(self.try_gossip(journal, used, prev, curr, stamps), used)
    }

    fn try_gossip(
        &mut self,
        journal: &mut [u8],
        used: usize,
        prev: u64,
        curr: u64,
        stamps: &[u64],
    ) -> Result<usize, Refusal> {
        let mut rows = [0; OBJECTS];
        if !self.sound(&mut rows) {
            return Err(DAMAGED);
        }
        if !journal::in_shape(journal, used) || !gossip_in_shape(prev, curr, stamps) {
            return Err(SHAPE);
        }
        let plan = self.judge_gossip(used, prev, curr, stamps)?;
        let place = journal::append_gossip(journal, used, prev, curr, stamps)?;
        self.apply_gossip(&plan, curr);
        Ok(place)
    }

    /// Takes in a message as it travels: one gossip record and nothing else.
    pub fn hear(&mut self, journal: &mut [u8], used: usize, message: &[u8]) -> Reply {
        reply(self.try_hear(journal, used, message), used)
    }

    fn try_hear(
        &mut self,
        journal: &mut [u8],
        used: usize,
        message: &[u8],
    ) -> Result<usize, Refusal> {
        let mut rows = [0; OBJECTS];
        if !self.sound(&mut rows) {
            return Err(DAMAGED);
        }
        let mut stamps = [0; STAMPS];
        let (prev, curr, stamps) = journal::message_of(message, &mut stamps).ok_or(MALFORMED)?;
        if !journal::in_shape(journal, used) {
            return Err(SHAPE);
        }
        let plan = self.judge_gossip(used, prev, curr, stamps)?;
        // A record has one encoding, so the message's bytes are the journal's.
        let place = journal::append_record(journal, used, message)?;
        self.apply_gossip(&plan, curr);
        Ok(place)
    }

    /// Writes the request for the message that starts at the horizon and goes on up to `to`, as a
    /// store sends it that has met a gap.
    pub fn ask(&self, to: u64, buffer: &mut [u8]) -> (u8, u64) {
        answer(self.try_ask(to, buffer))
    }

    fn try_ask(&self, to: u64, buffer: &mut [u8]) -> Result<u64, Refusal> {
        let mut rows = [0; OBJECTS];
        if !self.sound(&mut rows) {
            return Err(DAMAGED);
        }
        let record = buffer.get_mut(..REQUEST).ok_or(SHAPE)?;
        if to < self.horizon {
            return Err(SHAPE);
        }
        journal::put_request(record, self.horizon, to);
        Ok(REQUEST as u64)
    }

    /// Archives the page's due snapshots and brings its pending entries to disk.
    pub fn flush(&mut self, journal: &mut [u8], used: usize, page: u64) -> Reply {
        reply(self.try_flush(journal, used, page), used)
    }

    fn try_flush(&mut self, journal: &mut [u8], used: usize, page: u64) -> Result<usize, Refusal> {
        let mut rows = [0; OBJECTS];
        if !self.sound(&mut rows) {
            return Err(DAMAGED);
        }
        let page = page_in_shape(page).ok_or(SHAPE)?;
        if !journal::in_shape(journal, used) {
            return Err(SHAPE);
        }
        let plan = self.judge_flush(used, page, &rows)?;
        let place = journal::append_flush(journal, used, page)?;
        self.apply_flush(&plan, page, &mut rows);
        Ok(place)
    }

    /// Reads the page as of the largest known snapshot at or before `time`.
    pub fn snapshot_read(&self, time: u64, page: u64, buffer: &mut [u64]) -> (u8, u64) {
        answer(self.try_read(Some(time), page, buffer))
    }

    /// Reads the page as of the largest known snapshot at or before `256 * tick`.
    pub fn clock_read(&self, tick: u64, page: u64, buffer: &mut [u64]) -> (u8, u64) {
        answer(self.try_read(tick.checked_mul(256), page, buffer))
    }

    /// `time` is `None` for a tick out of range.
    fn try_read(&self, time: Option<u64>, page: u64, buffer: &mut [u64]) -> Result<u64, Refusal> {
        let mut rows = [0; OBJECTS];
        if !self.sound(&mut rows) {
            return Err(DAMAGED);
        }
        let time = time.ok_or(SHAPE)?;
        let page = page_in_shape(page).ok_or(SHAPE)?;
        let buffer = buffer.try_into().map_err(|_| SHAPE)?;
        if time > self.horizon {
            return Err(Refusal(code::AHEAD, self.horizon));
        }
        let snapshot = match self.snapshots_up_to(time) {
            0 => return Err(Refusal(code::NO_SNAPSHOT, 0)),
            count => self.snapshots[count - 1],
        };
        self.page_as_of(page, snapshot, &rows, buffer);
        Ok(snapshot)
    }

    /// Reads the page's current values.
    pub fn current_read(&self, page: u64, buffer: &mut [u64]) -> (u8, u64) {
        answer(self.try_current_read(page, buffer))
    }

    fn try_current_read(&self, page: u64, buffer: &mut [u64]) -> Result<u64, Refusal> {
        let mut rows = [0; OBJECTS];
        if !self.sound(&mut rows) {
            return Err(DAMAGED);
        }
        let page = page_in_shape(page).ok_or(SHAPE)?;
        let buffer: &mut [u64; SLOTS] = buffer.try_into().map_err(|_| SHAPE)?;
        self.page_now(page, &rows, buffer);
        Ok(0)
    }

    /// Counts the tables' rows and the lag.
    pub fn standing(&self) -> (u8, u64, Figures) {
        let mut rows = [0; OBJECTS];
        if !self.sound(&mut rows) {
            return (code::DAMAGED, 0, Figures::default());
        }
        let figures = Figures {
            pending: self.pending_count as u64,
            past: self.past_count as u64,
            snapshots: self.snapshot_count as u64,
            copies: self.copy_count as u64,
            // Ticks are below 2^56.
            lag: (self.last / 256) as i64 - (self.horizon / 256) as i64,
        };
        (code::DONE, 0, figures)
    }

    /// Tells the horizon, the last commit and all known snapshots.
    pub fn known(&self) -> (u8, u64, Known) {
        let mut rows = [0; OBJECTS];
        if !self.sound(&mut rows) {
            return (code::DAMAGED, 0, Known::default());
        }
        let mut known = Known {
            horizon: self.horizon,
            last: self.last,
            snapshot_count: self.snapshot_count,
            ..Known::default()
        };
        // Rows past the count aren't contents and stay behind.
        known.snapshots[..self.snapshot_count].copy_from_slice(self.snapshots());
        (code::DONE, 0, known)
    }

    /// Makes this a fresh store, whatever it was. The journal counts as empty from here.
    pub fn reset(&mut self) -> Reply {
        self.empty();
        Reply { code: code::DONE, number: 0, place: 0 }
    }

    /// Judges a commit that is in shape: Late, Pending full, Past full.
    pub(crate) fn judge_commit(
        &self,
        t: u64,
        objects: &[u64],
        rows: &Rows,
    ) -> Result<CommitPlan, Refusal> {
        let latest = self.last.max(self.horizon);
        if t <= latest {
            return Err(Refusal(code::LATE, latest));
        }
        let mut new = 0;
        let mut keeps = 0u16;
        for (number, &object) in objects.iter().enumerate() {
            match rows[object as usize] {
                0 => new += 1,
                row => {
                    let from = self.pending[row as usize - 1].latest;
                    if self.live(from, t, || self.mark(page_of(object))) {
                        keeps |= 1 << number;
                    }
                }
            }
        }
        if self.pending_count + new > PENDING {
            return Err(Refusal(code::PENDING_FULL, 0));
        }
        if self.past_count + keeps.count_ones() as usize > PAST {
            return Err(Refusal(code::PAST_FULL, 0));
        }
        Ok(CommitPlan { keeps })
    }

    /// Does a commit that has been judged; `rows` keeps up with the pending table.
    pub(crate) fn apply_commit(
        &mut self,
        plan: &CommitPlan,
        t: u64,
        objects: &[u64],
        values: &[u64],
        rows: &mut Rows,
    ) {
        for (number, (&object, &value)) in objects.iter().zip(values).enumerate() {
            let row = &mut rows[object as usize];
            if *row == 0 {
                self.pending[self.pending_count] = Pending { object, first: t, latest: t, value };
                self.pending_count += 1;
                *row = self.pending_count as u8;
            } else {
                let entry = &mut self.pending[*row as usize - 1];
                if plan.keeps & (1 << number) != 0 {
                    self.past[self.past_count] =
                        Past { object, from: entry.latest, until: t, value: entry.value };
                    self.past_count += 1;
                }
                entry.latest = t;
                entry.value = value;
            }
        }
        self.last = t;
    }

    /// Judges a message that is in shape: Gap, Conflict, Nothing, Snapshots full.
    pub(crate) fn judge_gossip<'a>(
        &self,
        used: usize,
        prev: u64,
        curr: u64,
        stamps: &'a [u64],
    ) -> Result<GossipPlan<'a>, Refusal> {
        if prev > self.horizon {
            return Err(Refusal(code::GAP, self.horizon));
        }

        // Up to the end that the message and the store both cover, they have to agree.
        let end = curr.min(self.horizon);
        let known = &self.snapshots[self.snapshots_up_to(prev)..self.snapshots_up_to(end)];
        let (told, new) = stamps.split_at(stamps.partition_point(|&stamp| stamp <= end));
        if known != told {
            // Both ascend, so the smallest stamp in one alone is where they part.
            let parting = known.iter().zip(told).take_while(|(one, two)| one == two).count();
            let one = known.get(parting).copied().unwrap_or(u64::MAX);
            let two = told.get(parting).copied().unwrap_or(u64::MAX);
            return Err(Refusal(code::CONFLICT, one.min(two)));
        }

        if curr <= self.horizon {
            return Err(Refusal(code::NOTHING, used as u64));
        }
        if self.snapshot_count + new.len() > SNAPSHOTS {
            return Err(Refusal(code::SNAPSHOTS_FULL, 0));
        }
        Ok(GossipPlan { new })
    }

    /// Does what a judged message says.
    pub(crate) fn apply_gossip(&mut self, plan: &GossipPlan, curr: u64) {
        let count = self.snapshot_count + plan.new.len();
        self.snapshots[self.snapshot_count..count].copy_from_slice(plan.new);
        self.snapshot_count = count;
        self.horizon = curr;
        if self.past_count != 0 {
            let marks = self.marks();
            self.drop_dead(0, |page| Some(marks[page]));
        }
    }

    /// Judges a flush that is in shape: Nothing, Archive full, Past full.
    pub(crate) fn judge_flush(
        &self,
        used: usize,
        page: usize,
        rows: &Rows,
    ) -> Result<FlushPlan, Refusal> {
        let mark = self.mark(page);
        let past_rows = self.past_rows(page);
        let due = self.due(page, mark, rows, &past_rows);
        if due == 0 && rows[objects_of(page)] == [0; SLOTS] {
            return Err(Refusal(code::NOTHING, used as u64));
        }
        if self.copy_count + due.count_ones() as usize > COPIES {
            return Err(Refusal(code::ARCHIVE_FULL, 0));
        }

        let mark = due.checked_ilog2().map_or(mark, |number| self.snapshots[number as usize]);
        let mut dead = 0;
        let mut first_dead = None;
        for number in past_rows.iter() {
            let row = &self.past[number];
            if !self.live(row.from, row.until, || mark) {
                dead += 1;
                first_dead = first_dead.or(Some(number));
            }
        }
        let mut keeps = 0u16;
        for (slot, object) in objects_of(page).enumerate() {
            let row = rows[object];
            if row != 0 {
                let until = self.pending[row as usize - 1].first;
                if self.live(self.disk_stamps[object], until, || mark) {
                    keeps |= 1 << slot;
                }
            }
        }
        if self.past_count - dead + keeps.count_ones() as usize > PAST {
            return Err(Refusal(code::PAST_FULL, 0));
        }
        Ok(FlushPlan { due, mark, past_rows, first_dead, keeps })
    }

    /// Does a flush that has been judged; `rows` keeps up with the pending table.
    pub(crate) fn apply_flush(&mut self, plan: &FlushPlan, page: usize, rows: &mut Rows) {
        self.archive(page, plan.due, rows, &plan.past_rows);
        if let Some(first) = plan.first_dead {
            self.drop_dead(first, |other| (other == page).then_some(plan.mark));
        }
        let mut left = 0;
        for number in 0..self.pending_count {
            let entry = self.pending[number];
            let object = entry.object as usize;
            if page_of(entry.object) == page {
                let value = &mut self.disk_values[object];
                let stamp = &mut self.disk_stamps[object];
                if plan.keeps & (1 << (object % SLOTS)) != 0 {
                    self.past[self.past_count] = Past {
                        object: entry.object,
                        from: *stamp,
                        until: entry.first,
                        value: *value,
                    };
                    self.past_count += 1;
                }
                *value = entry.value;
                *stamp = entry.latest;
                rows[object] = 0;
            } else {
                self.pending[left] = entry;
                left += 1;
                rows[object] = left as u8;
            }
        }
        self.pending_count = left;
    }
}
