//! The proved store and coordinator as C sees them: their structs, answers and calls.

/// The tables' counts, the horizon and the last commit.
#[repr(C)]
#[derive(Clone, Copy, Debug, Default, PartialEq, Eq)]
pub struct Heads {
    pub pending: usize,
    pub past: usize,
    pub snapshots: usize,
    pub copies: usize,
    pub horizon: u64,
    pub last: u64,
}

/// All tables, one after the other.
#[repr(C)]
#[derive(Clone, Debug, PartialEq, Eq)]
pub struct Store {
    pub disk: [u64; 512],
    pub dated: [u64; 512],
    /// object, first, latest, value
    pub pending: [[u64; 4]; 128],
    /// object, from, until, value
    pub past: [[u64; 4]; 256],
    pub snapshots: [u64; 64],
    /// page, stamp
    pub copies: [[u64; 2]; 128],
    /// Sixteen words a copy.
    pub copied: [u64; 2048],
    pub heads: Heads,
}

/// A coordinator: how many stamps are granted, the largest curr sent, the stamps.
#[repr(C)]
#[derive(Clone, Debug, PartialEq, Eq)]
pub struct Coordinator {
    pub count: u64,
    pub sent: u64,
    pub granted: [u64; 64],
}

/// What a change or a start answers.
#[repr(C)]
#[derive(Clone, Copy, Debug, PartialEq, Eq)]
pub struct Moved {
    pub code: u64,
    pub number: u64,
    pub place: usize,
}

/// What a read answers, or a coordinator's call.
#[repr(C)]
#[derive(Clone, Copy, Debug, PartialEq, Eq)]
pub struct Reply {
    pub code: u64,
    pub number: u64,
}

/// What standing answers.
#[repr(C)]
#[derive(Clone, Copy, Debug, PartialEq, Eq)]
pub struct Report {
    pub code: u64,
    pub number: u64,
    pub pending: u64,
    pub past: u64,
    pub snapshots: u64,
    pub copies: u64,
    pub lag: i64,
}

// A slice is a pointer and a length. Each call takes any contents, and writes only within what it is lent.
extern "C" {
    pub fn jibcradle_fresh(store: *mut Store) -> Moved;
    pub fn jibcradle_restart(store: *mut Store, journal: *const u8, length: usize) -> Moved;
    pub fn jibcradle_commit(
        store: *mut Store,
        journal: *mut u8,
        length: usize,
        used: usize,
        t: u64,
        objects: *const u64,
        objects_length: usize,
        values: *const u64,
        values_length: usize,
    ) -> Moved;
    pub fn jibcradle_gossip(
        store: *mut Store,
        journal: *mut u8,
        length: usize,
        used: usize,
        prev: u64,
        curr: u64,
        stamps: *const u64,
        stamps_length: usize,
    ) -> Moved;
    pub fn jibcradle_flush(
        store: *mut Store,
        journal: *mut u8,
        length: usize,
        used: usize,
        page: u64,
    ) -> Moved;
    pub fn jibcradle_snapshot_read(
        store: *const Store,
        time: u64,
        page: u64,
        buffer: *mut u64,
        length: usize,
    ) -> Reply;
    pub fn jibcradle_clock_read(
        store: *const Store,
        tick: u64,
        page: u64,
        buffer: *mut u64,
        length: usize,
    ) -> Reply;
    pub fn jibcradle_current_read(
        store: *const Store,
        page: u64,
        buffer: *mut u64,
        length: usize,
    ) -> Reply;
    pub fn jibcradle_standing(store: *const Store) -> Report;
    pub fn jibcradle_ask(store: *const Store, to: u64, buffer: *mut u8, length: usize) -> Reply;
    pub fn jibcradle_hear(
        store: *mut Store,
        journal: *mut u8,
        length: usize,
        used: usize,
        message: *const u8,
        message_length: usize,
    ) -> Moved;
    pub fn jibcradle_grant(state: *mut Coordinator, tick: u64, node: u64) -> Reply;
    pub fn jibcradle_message(
        state: *mut Coordinator,
        prev: u64,
        clock: u64,
        buffer: *mut u8,
        length: usize,
    ) -> Reply;
    pub fn jibcradle_serve(
        state: *mut Coordinator,
        request: *const u8,
        request_length: usize,
        buffer: *mut u8,
        length: usize,
    ) -> Reply;
    pub fn jibcradle_coordinator_keep(
        state: *const Coordinator,
        buffer: *mut u8,
        length: usize,
    ) -> Reply;
    pub fn jibcradle_coordinator_restart(
        state: *mut Coordinator,
        bytes: *const u8,
        length: usize,
    ) -> Reply;
}
