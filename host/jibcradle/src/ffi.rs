//! The calls of the static library, and one of the system's, each behind a safe function. All
//! of the crate's `unsafe` is here.
//!
//! Common to all: the library is proved to take every input whatever and to touch no memory but
//! what it is lent. A lent store is a `repr(C)` struct of integers only, whose layout is checked
//! below, so that any bytes in it are valid; a lent slice is its pointer and its length. Rust's
//! borrows see to it that what is lent lives through the call, and that nothing else reaches what
//! is lent for writing.

#![allow(unsafe_code)]

use crate::answers::{Knowledge, Moved, Reply, Report};
use crate::coordinator::CoordinatorState;
use crate::store::{Heads, Store};
use std::mem::{align_of, offset_of, size_of};

// The layout that the library was compiled with.
const _: () = assert!(size_of::<usize>() == 8 && align_of::<Store>() == 8);
const _: () = assert!(size_of::<Store>() == 39_472 && size_of::<Heads>() == 48);
const _: () = assert!(offset_of!(Store, disk) == 0 && offset_of!(Store, dated) == 4_096);
const _: () = assert!(offset_of!(Store, pending) == 8_192 && offset_of!(Store, past) == 12_288);
const _: () = assert!(offset_of!(Store, snapshots) == 20_480);
const _: () = assert!(offset_of!(Store, copies) == 20_992 && offset_of!(Store, copied) == 23_040);
const _: () = assert!(offset_of!(Store, heads) == 39_424);
const _: () = assert!(size_of::<CoordinatorState>() == 528 && align_of::<CoordinatorState>() == 8);
const _: () = assert!(offset_of!(CoordinatorState, count) == 0);
const _: () = assert!(offset_of!(CoordinatorState, sent) == 8);
const _: () = assert!(offset_of!(CoordinatorState, granted) == 16);
const _: () = assert!(size_of::<Moved>() == 24 && size_of::<Reply>() == 16);
const _: () = assert!(size_of::<Report>() == 56 && size_of::<Knowledge>() == 552);
const _: () = assert!(offset_of!(Knowledge, stamps) == 40);

extern "C" {
    fn jibcradle_fresh(store: *mut Store) -> Moved;
    fn jibcradle_restart(store: *mut Store, journal: *const u8, length: usize) -> Moved;
    fn jibcradle_commit(
        store: *mut Store,
        journal: *mut u8,
        length: usize,
        used: usize,
        t: u64,
        objects: *const u64,
        object_count: usize,
        values: *const u64,
        value_count: usize,
    ) -> Moved;
    fn jibcradle_gossip(
        store: *mut Store,
        journal: *mut u8,
        length: usize,
        used: usize,
        prev: u64,
        curr: u64,
        stamps: *const u64,
        stamp_count: usize,
    ) -> Moved;
    fn jibcradle_flush(
        store: *mut Store,
        journal: *mut u8,
        length: usize,
        used: usize,
        page: u64,
    ) -> Moved;
    fn jibcradle_snapshot_read(
        store: *const Store,
        time: u64,
        page: u64,
        buffer: *mut u64,
        length: usize,
    ) -> Reply;
    fn jibcradle_clock_read(
        store: *const Store,
        tick: u64,
        page: u64,
        buffer: *mut u64,
        length: usize,
    ) -> Reply;
    fn jibcradle_current_read(
        store: *const Store,
        page: u64,
        buffer: *mut u64,
        length: usize,
    ) -> Reply;
    fn jibcradle_standing(store: *const Store) -> Report;
    fn jibcradle_known(store: *const Store) -> Knowledge;
    fn jibcradle_ask(store: *const Store, to: u64, buffer: *mut u8, length: usize) -> Reply;
    fn jibcradle_hear(
        store: *mut Store,
        journal: *mut u8,
        length: usize,
        used: usize,
        message: *const u8,
        message_length: usize,
    ) -> Moved;
    fn jibcradle_coordinator_fresh(state: *mut CoordinatorState) -> Reply;
    fn jibcradle_grant(state: *mut CoordinatorState, tick: u64, node: u64) -> Reply;
    fn jibcradle_message(
        state: *mut CoordinatorState,
        prev: u64,
        clock: u64,
        buffer: *mut u8,
        length: usize,
    ) -> Reply;
    fn jibcradle_serve(
        state: *mut CoordinatorState,
        request: *const u8,
        request_length: usize,
        buffer: *mut u8,
        length: usize,
    ) -> Reply;
    fn jibcradle_coordinator_keep(
        state: *const CoordinatorState,
        buffer: *mut u8,
        length: usize,
    ) -> Reply;
    fn jibcradle_coordinator_restart(
        state: *mut CoordinatorState,
        bytes: *const u8,
        length: usize,
    ) -> Reply;
}

extern "C" {
    /// The C library's: the group of a process, or a negative number.
    fn getpgid(process: i32) -> i32;
}

pub(crate) fn fresh(store: &mut Store) -> Moved {
    // SAFETY: the store is lent for writing, and it alone is touched.
    unsafe { jibcradle_fresh(store) }
}

pub(crate) fn restart(store: &mut Store, journal: &[u8]) -> Moved {
    // SAFETY: the store is lent for writing, the journal for reading, with its own length.
    unsafe { jibcradle_restart(store, journal.as_ptr(), journal.len()) }
}

pub(crate) fn commit(
    store: &mut Store,
    journal: &mut [u8],
    used: usize,
    t: u64,
    objects: &[u64],
    values: &[u64],
) -> Moved {
    // SAFETY: store and journal are lent for writing, the lists for reading, each slice with its
    // own length. A used length beyond the journal is refused by the library.
    unsafe {
        jibcradle_commit(
            store,
            journal.as_mut_ptr(),
            journal.len(),
            used,
            t,
            objects.as_ptr(),
            objects.len(),
            values.as_ptr(),
            values.len(),
        )
    }
}

pub(crate) fn gossip(
    store: &mut Store,
    journal: &mut [u8],
    used: usize,
    prev: u64,
    curr: u64,
    stamps: &[u64],
) -> Moved {
    // SAFETY: store and journal are lent for writing, the list for reading, each slice with its
    // own length. A used length beyond the journal is refused by the library.
    unsafe {
        jibcradle_gossip(
            store,
            journal.as_mut_ptr(),
            journal.len(),
            used,
            prev,
            curr,
            stamps.as_ptr(),
            stamps.len(),
        )
    }
}

pub(crate) fn flush(store: &mut Store, journal: &mut [u8], used: usize, page: u64) -> Moved {
    // SAFETY: store and journal are lent for writing, the journal with its own length. A used
    // length beyond it is refused by the library.
    unsafe { jibcradle_flush(store, journal.as_mut_ptr(), journal.len(), used, page) }
}

pub(crate) fn snapshot_read(store: &Store, time: u64, page: u64, buffer: &mut [u64]) -> Reply {
    // SAFETY: the store is lent for reading, the buffer for writing, with its own length.
    unsafe { jibcradle_snapshot_read(store, time, page, buffer.as_mut_ptr(), buffer.len()) }
}

pub(crate) fn clock_read(store: &Store, tick: u64, page: u64, buffer: &mut [u64]) -> Reply {
    // SAFETY: the store is lent for reading, the buffer for writing, with its own length.
    unsafe { jibcradle_clock_read(store, tick, page, buffer.as_mut_ptr(), buffer.len()) }
}

pub(crate) fn current_read(store: &Store, page: u64, buffer: &mut [u64]) -> Reply {
    // SAFETY: the store is lent for reading, the buffer for writing, with its own length.
    unsafe { jibcradle_current_read(store, page, buffer.as_mut_ptr(), buffer.len()) }
}

pub(crate) fn standing(store: &Store) -> Report {
    // SAFETY: the store is lent for reading, and it alone is touched.
    unsafe { jibcradle_standing(store) }
}

pub(crate) fn known(store: &Store) -> Knowledge {
    // SAFETY: the store is lent for reading, and it alone is touched.
    unsafe { jibcradle_known(store) }
}

pub(crate) fn ask(store: &Store, to: u64, buffer: &mut [u8]) -> Reply {
    // SAFETY: the store is lent for reading, the buffer for writing, with its own length.
    unsafe { jibcradle_ask(store, to, buffer.as_mut_ptr(), buffer.len()) }
}

pub(crate) fn hear(store: &mut Store, journal: &mut [u8], used: usize, message: &[u8]) -> Moved {
    // SAFETY: store and journal are lent for writing, the message for reading, each slice with its
    // own length. A used length beyond the journal is refused by the library.
    unsafe {
        jibcradle_hear(
            store,
            journal.as_mut_ptr(),
            journal.len(),
            used,
            message.as_ptr(),
            message.len(),
        )
    }
}

pub(crate) fn coordinator_fresh(state: &mut CoordinatorState) -> Reply {
    // SAFETY: the state is lent for writing, and it alone is touched.
    unsafe { jibcradle_coordinator_fresh(state) }
}

pub(crate) fn grant(state: &mut CoordinatorState, tick: u64, node: u64) -> Reply {
    // SAFETY: the state is lent for writing, and it alone is touched.
    unsafe { jibcradle_grant(state, tick, node) }
}

pub(crate) fn message(
    state: &mut CoordinatorState,
    prev: u64,
    clock: u64,
    buffer: &mut [u8],
) -> Reply {
    // SAFETY: state and buffer are lent for writing, the buffer with its own length.
    unsafe { jibcradle_message(state, prev, clock, buffer.as_mut_ptr(), buffer.len()) }
}

pub(crate) fn serve(state: &mut CoordinatorState, request: &[u8], buffer: &mut [u8]) -> Reply {
    // SAFETY: state and buffer are lent for writing, the request for reading, each slice with its
    // own length.
    unsafe {
        jibcradle_serve(state, request.as_ptr(), request.len(), buffer.as_mut_ptr(), buffer.len())
    }
}

pub(crate) fn coordinator_keep(state: &CoordinatorState, buffer: &mut [u8]) -> Reply {
    // SAFETY: the state is lent for reading, the buffer for writing, with its own length.
    unsafe { jibcradle_coordinator_keep(state, buffer.as_mut_ptr(), buffer.len()) }
}

pub(crate) fn coordinator_restart(state: &mut CoordinatorState, bytes: &[u8]) -> Reply {
    // SAFETY: the state is lent for writing, the bytes for reading, with their own length.
    unsafe { jibcradle_coordinator_restart(state, bytes.as_ptr(), bytes.len()) }
}

/// Whether there is a process with this number, one that isn't ours to look at too.
pub(crate) fn process_exists(process: i32) -> bool {
    const NO_SUCH_PROCESS: i32 = 3;
    // SAFETY: a number goes in and a number comes out.
    let group = unsafe { getpgid(process) };
    group >= 0 || std::io::Error::last_os_error().raw_os_error() != Some(NO_SUCH_PROCESS)
}
