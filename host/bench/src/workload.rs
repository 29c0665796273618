//! Runs of calls that go on until the journal is full, for restarts.

use crate::states::State;

/// A small generator of pseudo-random numbers (xorshift), so that each run is the same.
pub struct Dice(pub u64);

impl Dice {
    pub fn below(&mut self, limit: u64) -> u64 {
        self.0 ^= self.0 << 13;
        self.0 ^= self.0 >> 7;
        self.0 ^= self.0 << 17;
        (self.0 >> 11) % limit
    }

    /// Distinct objects.
    pub fn objects(&mut self, count: usize) -> Vec<u64> {
        let mut objects = Vec::new();
        while objects.len() < count {
            let object = self.below(512);
            if !objects.contains(&object) {
                objects.push(object);
            }
        }
        objects
    }
}

/// Commits of so many writes, a message every eighth, and flushes when a table has little room,
/// up to a length of the journal. Four snapshots at most, so that the archive has room for a copy
/// of every page for each.
pub fn run(writes: usize, length: usize) -> State {
    let mut state = State::fresh();
    let mut dice = Dice(88_172_645_463_325_252);
    let mut number = 0;
    while state.used + 200 < length {
        if state.store.pending_count + writes > 100 {
            make_room(&mut state);
            continue;
        }
        if state.store.past_count + writes > 200 || number % 8 == 7 {
            let one = state.store.snapshot_count < 4 && number % 32 == 7;
            state.gossip(usize::from(one));
        }
        let objects = dice.objects(writes);
        state.commit(&objects);
        number += 1;
    }
    state
}

/// Flushes the page of the oldest entry.
fn make_room(state: &mut State) {
    let page = state.store.pending[0].object / 16;
    if state.used + 200 < state.journal.len() {
        state.flush(page);
    }
}

/// Journals to restart from: what they are of, their bytes and the number of their records.
pub fn journals() -> Vec<(&'static str, Vec<u8>, usize)> {
    let mut one = State::fresh();
    one.commit(&[0]);
    let mut sixteen = State::fresh();
    sixteen.commit(&(0..16).collect::<Vec<u64>>());
    let cases = [
        ("1 write", one),
        ("16 writes", sixteen),
        ("of 1-write commits", run(1, 1_024)),
        ("of 16-write commits", run(16, 4_096)),
        ("of 1-write commits", run(1, 65_535)),
        ("of 16-write commits", run(16, 65_535)),
    ];
    cases
        .into_iter()
        .map(|(what, state)| (what, state.journal[..state.used].to_vec(), state.calls.len()))
        .collect()
}
