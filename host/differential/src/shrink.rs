//! Makes a run after which the sides differ shorter, as long as they still do.

use crate::call::Call;
use crate::fault::Fault;
use crate::run::{replay, Start};
use independent::{Coordinator, Store};

/// A run after which the sides differ.
pub struct Case {
    pub start: Start,
    pub calls: Vec<Call>,
    fault: Fault,
    /// How many more times a run may be made.
    tries: u32,
}

/// The counts of a start's tables, told and set.
type Count = (fn(&Start) -> usize, fn(&mut Start, usize));
const COUNTS: [Count; 5] = [
    (|start| start.store.pending_count, |start, rows| start.store.pending_count = rows),
    (|start| start.store.past_count, |start, rows| start.store.past_count = rows),
    (|start| start.store.snapshot_count, |start, rows| start.store.snapshot_count = rows),
    (|start| start.store.copy_count, |start, rows| start.store.copy_count = rows),
    (|start| start.coordinator.count as usize, |start, rows| start.coordinator.count = rows as u64),
];

impl Case {
    /// The case after some tries to have it smaller.
    pub fn shrunk(start: Start, calls: Vec<Call>, fault: Fault) -> Case {
        let mut case = Case { start, calls, fault, tries: 3000 };
        case.drop_calls();
        case.clear_start();
        case.shorten_tables();
        case.drop_calls();
        case
    }

    /// Takes a smaller start and fewer calls, if the sides still differ.
    fn take(&mut self, start: Option<Start>, calls: Option<Vec<Call>>) -> bool {
        if self.tries == 0 {
            return false;
        }
        self.tries -= 1;
        let tried = start.as_ref().unwrap_or(&self.start);
        let made = calls.as_ref().unwrap_or(&self.calls);
        let Some((last, _)) = replay(tried, made, self.fault) else {
            return false;
        };
        self.start = start.unwrap_or_else(|| self.start.clone());
        self.calls = calls.unwrap_or_else(|| std::mem::take(&mut self.calls));
        self.calls.truncate(last + 1);
        true
    }

    /// Drops calls, many at once and then single ones.
    fn drop_calls(&mut self) {
        let mut many = self.calls.len().div_ceil(2);
        while many > 0 {
            let mut from = 0;
            while from < self.calls.len() {
                let mut fewer = self.calls.clone();
                fewer.drain(from..(from + many).min(fewer.len()));
                if !self.take(None, Some(fewer)) {
                    from += many;
                }
            }
            many /= 2;
        }
    }

    /// Has the start's journal empty and its disk fresh, or all of its store, or its coordinator.
    fn clear_start(&mut self) {
        self.take(Some(Start { place: 0, ..self.start.clone() }), None);
        self.take(Some(Start { store: Box::new(Store::fresh()), ..self.start.clone() }), None);
        let coordinator = Box::new(Coordinator::fresh());
        self.take(Some(Start { coordinator, ..self.start.clone() }), None);
        let mut start = self.start.clone();
        start.store.disk_values.fill(0);
        start.store.disk_stamps.fill(0);
        self.take(Some(start), None);
    }

    /// Drops rows of the start's tables.
    fn shorten_tables(&mut self) {
        for (count, set) in COUNTS {
            let mut less = count(&self.start);
            while less > 0 {
                let mut start = self.start.clone();
                set(&mut start, count(&self.start).saturating_sub(less));
                if !self.take(Some(start), None) {
                    less /= 2;
                }
                less = less.min(count(&self.start));
            }
        }
    }
}
