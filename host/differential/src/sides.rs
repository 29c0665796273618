//! One of the two sides, a store and a coordinator, and a call made on it.

use crate::call::{Call, Lent, Order, Surviving};
use crate::chance;
use crate::faces::{CoordinatorCalls, Journal, StoreCalls};
use jibcradle::{Knowledge, Moved, Reply, Report, Standing};
use std::fmt;

/// All that a call hands back, the run's own journal, the store and the coordinator aside.
#[derive(Clone, Debug, Default, PartialEq)]
pub struct Outcome {
    pub code: u64,
    pub number: u64,
    /// The place, of a call that hands one back.
    pub place: Option<usize>,
    /// The figures, of standing.
    pub figures: Option<Standing>,
    /// All of what known answers.
    pub known: Option<Knowledge>,
    /// The page buffer, of a read.
    pub buffer: Vec<u64>,
    /// The buffer of bytes, of a call that writes to one.
    pub bytes: Vec<u8>,
    /// The journal lent, where it isn't the run's own.
    pub strange: Vec<u8>,
}

impl Outcome {
    fn moved(moved: Moved) -> Outcome {
        let Moved { code, number, place } = moved;
        Outcome { code, number, place: Some(place), ..Outcome::default() }
    }

    fn replied(reply: Reply) -> Outcome {
        let Reply { code, number } = reply;
        Outcome { code, number, ..Outcome::default() }
    }

    fn stood(report: Report) -> Outcome {
        let Report { code, number, pending, past, snapshots, copies, lag } = report;
        let figures = Some(Standing { pending, past, snapshots, copies, lag });
        Outcome { code, number, figures, ..Outcome::default() }
    }

    fn knew(known: Knowledge) -> Outcome {
        let Knowledge { code, number, .. } = known;
        Outcome { code, number, known: Some(known), ..Outcome::default() }
    }

    /// The bytes that were written, where they were: the number says how many.
    fn written(&self) -> Option<Vec<u8>> {
        let front = self.bytes.get(..usize::try_from(self.number).ok()?)?;
        (self.code == 0).then(|| front.to_vec())
    }
}

/// An outcome on one line, but for a journal that was lent.
impl fmt::Display for Outcome {
    fn fmt(&self, out: &mut fmt::Formatter<'_>) -> fmt::Result {
        write!(out, "code {}, number {}", self.code, self.number)?;
        if let Some(place) = self.place {
            write!(out, ", place {place}")?;
        }
        if let Some(figures) = &self.figures {
            write!(out, ", {figures:?}")?;
        }
        if let Some(known) = &self.known {
            write!(out, ", {known:?}")?;
        }
        if !self.buffer.is_empty() {
            write!(out, ", buffer {:?}", self.buffer)?;
        }
        if !self.bytes.is_empty() {
            write!(out, ", buffer {:02x?}", self.bytes)?;
        }
        Ok(())
    }
}

/// What is in the first slot of a buffer before a read; each further slot has one more.
const UNREAD: u64 = 0xB0B0_B0B0_B0B0_B000;

/// What is in the first byte of a buffer before a call; each further byte has one more.
const UNWRITTEN: u8 = 0xB0;

/// A buffer of this many bytes, lent to a call.
fn lend(length: usize, call: impl FnOnce(&mut [u8]) -> Reply) -> Outcome {
    let mut bytes: Vec<u8> = (0..length).map(|at| UNWRITTEN.wrapping_add(at as u8)).collect();
    let reply = call(&mut bytes);
    Outcome { bytes, ..Outcome::replied(reply) }
}

/// What was written to be carried: messages and requests, oldest first.
#[derive(Clone, Debug, Default)]
pub struct Post {
    pub messages: Vec<Vec<u8>>,
    pub requests: Vec<Vec<u8>>,
}

/// One of the two sides: a store with a journal of its own and its place, and a coordinator.
pub struct Side<S: StoreCalls> {
    pub store: Box<S>,
    pub journal: Vec<u8>,
    pub place: usize,
    pub coordinator: Box<S::Coordinator>,
    pub post: Post,
}

impl<S: StoreCalls> Side<S> {
    /// Makes a call.
    pub fn play(&mut self, call: &Call) -> Outcome {
        match call {
            Call::Fresh => {
                let moved = self.store.fresh();
                self.place = moved.place;
                Outcome::moved(moved)
            }
            Call::Restart(surviving) => self.restart(surviving),
            Call::Commit { lent, stamp, objects, values } => {
                self.change(lent, |store, lent| store.commit(lent, *stamp, objects, values))
            }
            Call::Gossip { lent, prev, curr, stamps } => {
                self.change(lent, |store, lent| store.gossip(lent, *prev, *curr, stamps))
            }
            Call::Flush { lent, page } => self.change(lent, |store, lent| store.flush(lent, *page)),
            Call::SnapshotRead { time, page, buffer } => {
                self.read(*buffer, |store, buffer| store.snapshot_read(*time, *page, buffer))
            }
            Call::ClockRead { tick, page, buffer } => {
                self.read(*buffer, |store, buffer| store.clock_read(*tick, *page, buffer))
            }
            Call::CurrentRead { page, buffer } => {
                self.read(*buffer, |store, buffer| store.current_read(*page, buffer))
            }
            Call::Standing => Outcome::stood(self.store.standing()),
            Call::Known => Outcome::knew(self.store.known()),
            Call::Ask { to, buffer } => {
                let outcome = lend(*buffer, |bytes| self.store.ask(*to, bytes));
                self.post.requests.extend(outcome.written());
                outcome
            }
            Call::Hear { lent, message } => {
                self.change(lent, |store, lent| store.hear(lent, message))
            }
            Call::Order(order) => self.order(order),
        }
    }

    /// Makes a call on the coordinator.
    fn order(&mut self, order: &Order) -> Outcome {
        let coordinator = &mut *self.coordinator;
        match order {
            Order::Fresh => Outcome::replied(coordinator.fresh()),
            Order::Restart(bytes) => Outcome::replied(coordinator.restart(bytes)),
            Order::Grant { tick, node } => Outcome::replied(coordinator.grant(*tick, *node)),
            Order::Message { prev, clock, buffer } => {
                self.send(*buffer, |coordinator, bytes| coordinator.message(*prev, *clock, bytes))
            }
            Order::Serve { request, buffer } => {
                self.send(*buffer, |coordinator, bytes| coordinator.serve(request, bytes))
            }
            Order::Keep { buffer } => lend(*buffer, |bytes| coordinator.keep(bytes)),
        }
    }

    /// Has a message written to a buffer of this length; it goes to the post.
    fn send(
        &mut self,
        length: usize,
        call: impl FnOnce(&mut S::Coordinator, &mut [u8]) -> Reply,
    ) -> Outcome {
        let outcome = lend(length, |bytes| call(&mut self.coordinator, bytes));
        self.post.messages.extend(outcome.written());
        outcome
    }

    /// Restarts; bytes that are given become the run's own journal, as far as they fit.
    fn restart(&mut self, surviving: &Surviving) -> Outcome {
        let moved = match surviving {
            Surviving::OwnLess(less) => {
                let used = self.place.min(self.journal.len());
                self.store.restart(&self.journal[..used.saturating_sub(*less)])
            }
            Surviving::Bytes(bytes) => {
                let fitting = bytes.len().min(self.journal.len());
                self.journal[..fitting].copy_from_slice(&bytes[..fitting]);
                self.store.restart(bytes)
            }
        };
        self.place = moved.place;
        Outcome::moved(moved)
    }

    /// Makes a change on the journal that it is to be lent. The place is kept for the next call,
    /// but for a refused call that was told a wrong one.
    fn change(&mut self, lent: &Lent, call: impl FnOnce(&mut S, Journal) -> Moved) -> Outcome {
        let (end, used) = match *lent {
            Lent::Own => (self.journal.len(), self.place),
            Lent::Room(room) => {
                (self.place.saturating_add(room).min(self.journal.len()), self.place)
            }
            Lent::At(used) => (self.journal.len(), used),
            Lent::Strange { length, seed, used } => {
                let mut strange = chance::bytes(length, seed);
                let moved = call(&mut self.store, Journal { bytes: &mut strange, used });
                return Outcome { strange, ..Outcome::moved(moved) };
            }
        };
        let moved = call(&mut self.store, Journal { bytes: &mut self.journal[..end], used });
        if moved.code == 0 || used == self.place {
            self.place = moved.place;
        }
        Outcome::moved(moved)
    }

    /// Reads to a buffer of this length.
    fn read(&self, length: usize, call: impl FnOnce(&S, &mut [u64]) -> Reply) -> Outcome {
        let mut buffer: Vec<u64> = (UNREAD..).take(length).collect();
        let reply = call(&self.store, &mut buffer);
        Outcome { buffer, ..Outcome::replied(reply) }
    }
}
