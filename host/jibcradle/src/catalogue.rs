//! A store with its journal. The place in the journal never leaves it, so that no call can be
//! given a wrong one.

use crate::answers::{Change, Known, Moved, Snapshot, Standing};
use crate::{Refusal, Store, JOURNAL, REQUEST, SLOTS, WRITES};
use std::fmt;

/// A store, its journal and the journal's place, in memory.
///
/// Each change that is done ([`Change::Written`]) has written one record to the journal, and
/// [`Catalogue::journal`] is all that is needed to have the same catalogue again.
/// [`Catalogue::open`] gives one whose journal is kept in a file.
#[derive(Clone)]
pub struct Catalogue {
    store: Box<Store>,
    /// As long as the journal may become; `place` bytes of it are used.
    journal: Box<[u8]>,
    place: usize,
}

impl Catalogue {
    /// A fresh store with an empty journal that may grow to 65,535 bytes.
    pub fn fresh() -> Catalogue {
        Catalogue { store: Box::new(Store::fresh()), journal: empty_journal(JOURNAL), place: 0 }
    }

    /// A fresh store with an empty journal that may grow to `room` bytes.
    ///
    /// # Errors
    ///
    /// [`Refusal::Shape`] where `room` is over 65,535.
    pub fn with_room(room: usize) -> Result<Catalogue, Refusal> {
        if room > JOURNAL {
            return Err(Refusal::Shape);
        }
        Ok(Catalogue { journal: empty_journal(room), ..Catalogue::fresh() })
    }

    /// The catalogue whose journal survives in `journal`: any leading part of what
    /// [`Catalogue::journal`] was will do. A record whose bytes aren't all there is left out. The
    /// journal may grow to 65,535 bytes again.
    ///
    /// # Errors
    ///
    /// [`Refusal::Shape`] where there are over 65,535 bytes, [`Refusal::Version`] where the first
    /// isn't 1, [`Refusal::Malformed`] or [`Refusal::Contradiction`] at the first bad record.
    pub fn restart(journal: &[u8]) -> Result<Catalogue, Refusal> {
        let mut catalogue = Catalogue::fresh();
        let moved = catalogue.store.restart(journal);
        moved.outcome()?;
        catalogue.place = moved.place;
        catalogue.journal[..moved.place].copy_from_slice(&journal[..moved.place]);
        Ok(catalogue)
    }

    /// Commits the writes, each an object and its new value, at the stamp `t`.
    ///
    /// # Errors
    ///
    /// [`Refusal::Shape`] where there are none or over 16, or an object is over 511;
    /// [`Refusal::Twice`], [`Refusal::Late`], [`Refusal::PendingFull`], [`Refusal::PastFull`],
    /// [`Refusal::NoJournalRoom`].
    pub fn commit(&mut self, t: u64, writes: &[(u16, u64)]) -> Result<Change, Refusal> {
        // A list over 16 is refused for its length, so one more than 16 is as good as all of it.
        let mut objects = [0; WRITES + 1];
        let mut values = [0; WRITES + 1];
        let count = writes.len().min(WRITES + 1);
        for (number, &(object, value)) in writes.iter().take(count).enumerate() {
            objects[number] = u64::from(object);
            values[number] = value;
        }
        let (objects, values) = (&objects[..count], &values[..count]);
        let moved = self.store.commit(&mut self.journal, self.place, t, objects, values);
        self.moved(moved)
    }

    /// Takes in a message: the snapshots beyond `prev` up to `curr` are exactly `stamps`.
    ///
    /// # Errors
    ///
    /// [`Refusal::Shape`] where `stamps` are over 16, aren't strictly ascending or lie outside the
    /// bounds, or `prev` is over `curr`; [`Refusal::Gap`], [`Refusal::Conflict`],
    /// [`Refusal::SnapshotsFull`], [`Refusal::NoJournalRoom`].
    pub fn gossip(&mut self, prev: u64, curr: u64, stamps: &[u64]) -> Result<Change, Refusal> {
        let moved = self.store.gossip(&mut self.journal, self.place, prev, curr, stamps);
        self.moved(moved)
    }

    /// Takes in a message as a [`Coordinator`](crate::Coordinator) wrote it. On a
    /// [`Refusal::Gap`], [`Catalogue::ask`] gives the request for what was missed.
    ///
    /// # Errors
    ///
    /// [`Refusal::Malformed`] where the bytes aren't exactly one message; then those of
    /// [`Catalogue::gossip`].
    pub fn hear(&mut self, message: &[u8]) -> Result<Change, Refusal> {
        let moved = self.store.hear(&mut self.journal, self.place, message);
        self.moved(moved)
    }

    /// The request for all snapshots from the horizon up to `to`, for a coordinator to serve.
    ///
    /// # Errors
    ///
    /// [`Refusal::Shape`] where `to` lies before the horizon.
    pub fn ask(&self, to: u64) -> Result<[u8; REQUEST], Refusal> {
        let mut request = [0; REQUEST];
        self.store.ask(to, &mut request).outcome()?;
        Ok(request)
    }

    /// Archives the page's due snapshots and brings its pending entries to disk.
    ///
    /// # Errors
    ///
    /// [`Refusal::Shape`] where the page is over 31; [`Refusal::ArchiveFull`],
    /// [`Refusal::PastFull`], [`Refusal::NoJournalRoom`].
    pub fn flush(&mut self, page: u8) -> Result<Change, Refusal> {
        let moved = self.store.flush(&mut self.journal, self.place, u64::from(page));
        self.moved(moved)
    }

    /// The page as of the largest known snapshot at or before `time`.
    ///
    /// # Errors
    ///
    /// [`Refusal::Shape`] where the page is over 31; [`Refusal::Ahead`], [`Refusal::NoSnapshot`].
    pub fn read(&self, time: u64, page: u8) -> Result<Snapshot, Refusal> {
        let mut values = [0; SLOTS];
        let reply = self.store.snapshot_read(time, u64::from(page), &mut values);
        Ok(Snapshot { stamp: reply.outcome()?, values })
    }

    /// The page as of the largest known snapshot at or before the tick, which is at most
    /// 2^56 - 1.
    ///
    /// # Errors
    ///
    /// [`Refusal::Shape`] where the page is over 31 or the tick over its limit;
    /// [`Refusal::Ahead`], [`Refusal::NoSnapshot`].
    pub fn clock(&self, tick: u64, page: u8) -> Result<Snapshot, Refusal> {
        let mut values = [0; SLOTS];
        let reply = self.store.clock_read(tick, u64::from(page), &mut values);
        Ok(Snapshot { stamp: reply.outcome()?, values })
    }

    /// The page's current values.
    ///
    /// # Errors
    ///
    /// [`Refusal::Shape`] where the page is over 31.
    pub fn now(&self, page: u8) -> Result<[u64; SLOTS], Refusal> {
        let mut values = [0; SLOTS];
        self.store.current_read(u64::from(page), &mut values).outcome()?;
        Ok(values)
    }

    /// The numbers of rows, and the lag.
    ///
    /// # Errors
    ///
    /// None: only a damaged store refuses this, and a catalogue's never is.
    pub fn standing(&self) -> Result<Standing, Refusal> {
        self.store.standing().outcome()
    }

    /// The horizon, the last commit and all known snapshots.
    ///
    /// # Errors
    ///
    /// None: only a damaged store refuses this, and a catalogue's never is.
    pub fn known(&self) -> Result<Known, Refusal> {
        self.store.known().outcome()
    }

    /// The used bytes of the journal.
    pub fn journal(&self) -> &[u8] {
        &self.journal[..self.place]
    }

    /// How many bytes the journal may have.
    pub fn room(&self) -> usize {
        self.journal.len()
    }

    /// The store, to look at.
    pub fn store(&self) -> &Store {
        &self.store
    }

    /// Undoes the changes whose records lie from `place` on, where one begins: the store is built
    /// again from the journal before it, which is proved to give the store that was.
    pub(crate) fn cut(&mut self, place: usize) {
        let moved = self.store.restart(&self.journal[..place]);
        debug_assert_eq!(moved, Moved { code: 0, number: place as u64, place });
        self.place = place;
    }

    /// Remembers the place for the next call.
    fn moved(&mut self, moved: Moved) -> Result<Change, Refusal> {
        self.place = moved.place;
        moved.outcome()
    }
}

/// A journal of this length, none of it used.
fn empty_journal(length: usize) -> Box<[u8]> {
    vec![0; length].into_boxed_slice()
}

impl Default for Catalogue {
    fn default() -> Catalogue {
        Catalogue::fresh()
    }
}

/// Two catalogues are equal when their stores' contents and their used journals are.
impl PartialEq for Catalogue {
    fn eq(&self, other: &Catalogue) -> bool {
        self.journal() == other.journal() && self.store == other.store
    }
}

impl Eq for Catalogue {}

impl fmt::Debug for Catalogue {
    fn fmt(&self, out: &mut fmt::Formatter<'_>) -> fmt::Result {
        out.debug_struct("Catalogue")
            .field("store", &self.store)
            .field("journal", &self.journal())
            .finish()
    }
}
