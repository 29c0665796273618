//! The calls of the two stores, and of the two coordinators, behind one face each.

use jibcradle::{CoordinatorState, Knowledge, Moved, Reply, Report};

/// The calls on a store, as both have them.
pub trait StoreCalls {
    /// The coordinator of the same side.
    type Coordinator: CoordinatorCalls;

    fn fresh(&mut self) -> Moved;
    fn restart(&mut self, journal: &[u8]) -> Moved;
    fn commit(&mut self, lent: Journal, t: u64, objects: &[u64], values: &[u64]) -> Moved;
    fn gossip(&mut self, lent: Journal, prev: u64, curr: u64, stamps: &[u64]) -> Moved;
    fn flush(&mut self, lent: Journal, page: u64) -> Moved;
    fn snapshot_read(&self, time: u64, page: u64, buffer: &mut [u64]) -> Reply;
    fn clock_read(&self, tick: u64, page: u64, buffer: &mut [u64]) -> Reply;
    fn current_read(&self, page: u64, buffer: &mut [u64]) -> Reply;
    fn standing(&self) -> Report;
    fn known(&self) -> Knowledge;
    fn ask(&self, to: u64, buffer: &mut [u8]) -> Reply;
    fn hear(&mut self, lent: Journal, message: &[u8]) -> Moved;
}

/// The calls on a coordinator, as both have them.
pub trait CoordinatorCalls {
    fn fresh(&mut self) -> Reply;
    fn restart(&mut self, bytes: &[u8]) -> Reply;
    fn grant(&mut self, tick: u64, node: u64) -> Reply;
    fn message(&mut self, prev: u64, clock: u64, buffer: &mut [u8]) -> Reply;
    fn serve(&mut self, request: &[u8], buffer: &mut [u8]) -> Reply;
    fn keep(&self, buffer: &mut [u8]) -> Reply;
}

/// A journal lent to a change, and the used length told.
pub struct Journal<'a> {
    pub bytes: &'a mut [u8],
    pub used: usize,
}

impl StoreCalls for jibcradle::Store {
    type Coordinator = CoordinatorState;

    fn fresh(&mut self) -> Moved {
        self.reset()
    }
    fn restart(&mut self, journal: &[u8]) -> Moved {
        self.restart(journal)
    }
    fn commit(&mut self, lent: Journal, t: u64, objects: &[u64], values: &[u64]) -> Moved {
        self.commit(lent.bytes, lent.used, t, objects, values)
    }
    fn gossip(&mut self, lent: Journal, prev: u64, curr: u64, stamps: &[u64]) -> Moved {
        self.gossip(lent.bytes, lent.used, prev, curr, stamps)
    }
    fn flush(&mut self, lent: Journal, page: u64) -> Moved {
        self.flush(lent.bytes, lent.used, page)
    }
    fn snapshot_read(&self, time: u64, page: u64, buffer: &mut [u64]) -> Reply {
        self.snapshot_read(time, page, buffer)
    }
    fn clock_read(&self, tick: u64, page: u64, buffer: &mut [u64]) -> Reply {
        self.clock_read(tick, page, buffer)
    }
    fn current_read(&self, page: u64, buffer: &mut [u64]) -> Reply {
        self.current_read(page, buffer)
    }
    fn standing(&self) -> Report {
        self.standing()
    }
    fn known(&self) -> Knowledge {
        self.known()
    }
    fn ask(&self, to: u64, buffer: &mut [u8]) -> Reply {
        self.ask(to, buffer)
    }
    fn hear(&mut self, lent: Journal, message: &[u8]) -> Moved {
        self.hear(lent.bytes, lent.used, message)
    }
}

impl CoordinatorCalls for CoordinatorState {
    fn fresh(&mut self) -> Reply {
        self.reset()
    }
    fn restart(&mut self, bytes: &[u8]) -> Reply {
        self.restart(bytes)
    }
    fn grant(&mut self, tick: u64, node: u64) -> Reply {
        self.grant(tick, node)
    }
    fn message(&mut self, prev: u64, clock: u64, buffer: &mut [u8]) -> Reply {
        self.message(prev, clock, buffer)
    }
    fn serve(&mut self, request: &[u8], buffer: &mut [u8]) -> Reply {
        self.serve(request, buffer)
    }
    fn keep(&self, buffer: &mut [u8]) -> Reply {
        self.keep(buffer)
    }
}

/// The independent store's answer to a change, in the library's type.
fn moved(reply: independent::Reply) -> Moved {
    Moved { code: u64::from(reply.code), number: reply.number, place: reply.place }
}

/// The independent answer to a call without a journal, in the library's type.
fn reply((code, number): (u8, u64)) -> Reply {
    Reply { code: u64::from(code), number }
}

impl StoreCalls for independent::Store {
    type Coordinator = independent::Coordinator;

    fn fresh(&mut self) -> Moved {
        moved(self.reset())
    }
    fn restart(&mut self, journal: &[u8]) -> Moved {
        moved(self.restart(journal))
    }
    fn commit(&mut self, lent: Journal, t: u64, objects: &[u64], values: &[u64]) -> Moved {
        moved(self.commit(lent.bytes, lent.used, t, objects, values))
    }
    fn gossip(&mut self, lent: Journal, prev: u64, curr: u64, stamps: &[u64]) -> Moved {
        moved(self.gossip(lent.bytes, lent.used, prev, curr, stamps))
    }
    fn flush(&mut self, lent: Journal, page: u64) -> Moved {
        moved(self.flush(lent.bytes, lent.used, page))
    }
    fn snapshot_read(&self, time: u64, page: u64, buffer: &mut [u64]) -> Reply {
        reply(self.snapshot_read(time, page, buffer))
    }
    fn clock_read(&self, tick: u64, page: u64, buffer: &mut [u64]) -> Reply {
        reply(self.clock_read(tick, page, buffer))
    }
    fn current_read(&self, page: u64, buffer: &mut [u64]) -> Reply {
        reply(self.current_read(page, buffer))
    }
    fn standing(&self) -> Report {
        let (code, number, figures) = self.standing();
        let independent::Figures { pending, past, snapshots, copies, lag } = figures;
        Report { code: u64::from(code), number, pending, past, snapshots, copies, lag }
    }
    fn known(&self) -> Knowledge {
        let (code, number, known) = self.known();
        let independent::Known { horizon, last, snapshots: stamps, snapshot_count } = known;
        let count = snapshot_count as u64;
        Knowledge { code: u64::from(code), number, horizon, last, count, stamps }
    }
    fn ask(&self, to: u64, buffer: &mut [u8]) -> Reply {
        reply(self.ask(to, buffer))
    }
    fn hear(&mut self, lent: Journal, message: &[u8]) -> Moved {
        moved(self.hear(lent.bytes, lent.used, message))
    }
}

impl CoordinatorCalls for independent::Coordinator {
    fn fresh(&mut self) -> Reply {
        reply(self.reset())
    }
    fn restart(&mut self, bytes: &[u8]) -> Reply {
        reply(self.restart(bytes))
    }
    fn grant(&mut self, tick: u64, node: u64) -> Reply {
        reply(self.grant(tick, node))
    }
    fn message(&mut self, prev: u64, clock: u64, buffer: &mut [u8]) -> Reply {
        reply(self.message(prev, clock, buffer))
    }
    fn serve(&mut self, request: &[u8], buffer: &mut [u8]) -> Reply {
        reply(self.serve(request, buffer))
    }
    fn keep(&self, buffer: &mut [u8]) -> Reply {
        reply(self.keep(buffer))
    }
}
