//! Times per call: the two sides in turn, many times, and of each the fastest. A call that changes
//! the store is timed alone and undone after it; the others are timed in batches.

use crate::rows::Row;
use crate::sides::{Call, Lent, Side};
use std::arch::x86_64::{_mm_lfence, _rdtsc};
use std::hint::black_box;
use std::sync::OnceLock;
use std::time::{Duration, Instant};

/// The processor's time stamp, with no instruction moved across it.
fn ticks() -> u64 {
    unsafe {
        _mm_lfence();
        let now = _rdtsc();
        _mm_lfence();
        now
    }
}

/// The ticks between two askings.
fn ask_twice() -> u64 {
    let start = ticks();
    ticks() - start
}

/// The clock of [`ticks`]: what asking it costs, and nanoseconds for a tick.
fn clock() -> (u64, f64) {
    static CLOCK: OnceLock<(u64, f64)> = OnceLock::new();
    *CLOCK.get_or_init(|| {
        let cost = (0..10_000).map(|_| ask_twice()).min().unwrap_or(0);
        let (start, from) = (Instant::now(), ticks());
        while start.elapsed() < Duration::from_millis(50) {}
        let passed = (ticks() - from) as f64;
        (cost, start.elapsed().as_nanos() as f64 / passed)
    })
}

/// The words that a call changes, with what they were. Putting them back makes the call possible
/// again. A start needs none of it: it takes anything.
fn undo<S: Side>(side: &mut S, call: &Call, lent: &mut Lent) -> Vec<(usize, u64)> {
    if call.is_start() {
        return Vec::new();
    }
    let before = side.words(call).to_vec();
    side.run(call, lent);
    let words = side.words(call);
    let changed: Vec<(usize, u64)> =
        (0..words.len()).filter(|&k| words[k] != before[k]).map(|k| (k, before[k])).collect();
    words.copy_from_slice(&before);
    changed
}

/// One side of a row, and the fewest nanoseconds that its call has taken.
struct Timed<'a, S: Side> {
    side: S,
    lent: Lent,
    call: &'a Call,
    undo: Vec<(usize, u64)>,
    best: f64,
}

impl<'a, S: Side> Timed<'a, S> {
    fn new(mut side: S, mut lent: Lent, call: &'a Call) -> Self {
        let undo = undo(&mut side, call, &mut lent);
        Timed { side, lent, call, undo, best: f64::MAX }
    }

    /// So many calls: in one batch, or each alone where it has to be undone.
    fn round(&mut self, calls: u32) {
        if self.undo.is_empty() {
            self.batch(calls);
        } else {
            (0..calls).for_each(|_| self.alone());
        }
    }

    /// The call, and only the code of its answer: to copy the whole answer costs half as much as
    /// a short call, and not the same on both sides.
    fn call(&mut self) {
        black_box(self.side.run(black_box(self.call), &mut self.lent).code);
    }

    fn batch(&mut self, calls: u32) {
        let start = Instant::now();
        for _ in 0..calls {
            self.call();
        }
        self.best = self.best.min(start.elapsed().as_nanos() as f64 / f64::from(calls));
    }

    fn alone(&mut self) {
        let (cost, tick) = clock();
        let start = ticks();
        self.call();
        let passed = (ticks() - start).saturating_sub(cost);
        self.best = self.best.min(passed as f64 * tick);
        let words = self.side.words(self.call);
        for &(at, word) in &self.undo {
            words[at] = word;
        }
    }
}

/// Does it with the stack so many steps deeper. A call is slower where its own words on the stack
/// happen to lie at the same place of their page as the store's words: the processor takes one for
/// the other. The fewest over sixteen places is free of that.
#[inline(never)]
fn deeper(steps: u32, action: &mut dyn FnMut()) {
    let step = black_box([0u8; 256]);
    match steps {
        0 => action(),
        _ => deeper(steps - 1, action),
    }
    black_box(&step);
}

/// Nanoseconds for the row's call, ours and theirs, within about this time.
pub fn time(row: &Row, budget: Duration) -> (f64, f64) {
    let (ours, theirs, lent) = row.sides();
    let mut ours = Timed::new(ours, lent.clone(), &row.call);
    let mut theirs = Timed::new(theirs, lent, &row.call);
    let calls = calls_in_round(&mut ours);
    let start = Instant::now();
    let mut rounds = 0;
    while rounds < 16 || start.elapsed() < budget {
        deeper(rounds % 16, &mut || {
            ours.round(calls);
            theirs.round(calls);
        });
        rounds += 1;
    }
    (ours.best, theirs.best)
}

/// So many calls that they take some 30 microseconds: long beside the clock's step, short enough
/// that some rounds go undisturbed.
fn calls_in_round<S: Side>(timed: &mut Timed<S>) -> u32 {
    timed.round(4);
    let calls = 30_000.0 / timed.best.max(1.0);
    timed.best = f64::MAX;
    (calls as u32).clamp(1, 1_000)
}
