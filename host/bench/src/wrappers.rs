//! The functions that are measured: for each call one over the proved store or coordinator and one
//! over the independent one. Both take the same arguments, are never inlined and only pass them on, so that
//! what they cost besides the call is the same. Callgrind knows them by their names.

use crate::ffi;
use independent::{Coordinator, Figures, Reply, Store};

#[no_mangle]
#[inline(never)]
pub fn measured_ours_commit(
    store: &mut ffi::Store,
    journal: &mut [u8],
    used: usize,
    t: u64,
    objects: &[u64],
    values: &[u64],
) -> ffi::Moved {
    let (j, n) = (journal.as_mut_ptr(), journal.len());
    let (o, v) = (objects.as_ptr(), values.as_ptr());
    unsafe { ffi::jibcradle_commit(store, j, n, used, t, o, objects.len(), v, values.len()) }
}

#[no_mangle]
#[inline(never)]
pub fn measured_theirs_commit(
    store: &mut Store,
    journal: &mut [u8],
    used: usize,
    t: u64,
    objects: &[u64],
    values: &[u64],
) -> Reply {
    store.commit(journal, used, t, objects, values)
}

#[no_mangle]
#[inline(never)]
pub fn measured_ours_gossip(
    store: &mut ffi::Store,
    journal: &mut [u8],
    used: usize,
    prev: u64,
    curr: u64,
    stamps: &[u64],
) -> ffi::Moved {
    let (j, n) = (journal.as_mut_ptr(), journal.len());
    unsafe { ffi::jibcradle_gossip(store, j, n, used, prev, curr, stamps.as_ptr(), stamps.len()) }
}

#[no_mangle]
#[inline(never)]
pub fn measured_theirs_gossip(
    store: &mut Store,
    journal: &mut [u8],
    used: usize,
    prev: u64,
    curr: u64,
    stamps: &[u64],
) -> Reply {
    store.gossip(journal, used, prev, curr, stamps)
}

#[no_mangle]
#[inline(never)]
pub fn measured_ours_flush(
    store: &mut ffi::Store,
    journal: &mut [u8],
    used: usize,
    page: u64,
) -> ffi::Moved {
    unsafe { ffi::jibcradle_flush(store, journal.as_mut_ptr(), journal.len(), used, page) }
}

#[no_mangle]
#[inline(never)]
pub fn measured_theirs_flush(
    store: &mut Store,
    journal: &mut [u8],
    used: usize,
    page: u64,
) -> Reply {
    store.flush(journal, used, page)
}

#[no_mangle]
#[inline(never)]
pub fn measured_ours_snapshot_read(
    store: &ffi::Store,
    time: u64,
    page: u64,
    buffer: &mut [u64],
) -> ffi::Reply {
    unsafe { ffi::jibcradle_snapshot_read(store, time, page, buffer.as_mut_ptr(), buffer.len()) }
}

#[no_mangle]
#[inline(never)]
pub fn measured_theirs_snapshot_read(
    store: &Store,
    time: u64,
    page: u64,
    buffer: &mut [u64],
) -> (u8, u64) {
    store.snapshot_read(time, page, buffer)
}

#[no_mangle]
#[inline(never)]
pub fn measured_ours_clock_read(
    store: &ffi::Store,
    tick: u64,
    page: u64,
    buffer: &mut [u64],
) -> ffi::Reply {
    unsafe { ffi::jibcradle_clock_read(store, tick, page, buffer.as_mut_ptr(), buffer.len()) }
}

#[no_mangle]
#[inline(never)]
pub fn measured_theirs_clock_read(
    store: &Store,
    tick: u64,
    page: u64,
    buffer: &mut [u64],
) -> (u8, u64) {
    store.clock_read(tick, page, buffer)
}

#[no_mangle]
#[inline(never)]
pub fn measured_ours_current_read(store: &ffi::Store, page: u64, buffer: &mut [u64]) -> ffi::Reply {
    unsafe { ffi::jibcradle_current_read(store, page, buffer.as_mut_ptr(), buffer.len()) }
}

#[no_mangle]
#[inline(never)]
pub fn measured_theirs_current_read(store: &Store, page: u64, buffer: &mut [u64]) -> (u8, u64) {
    store.current_read(page, buffer)
}

#[no_mangle]
#[inline(never)]
pub fn measured_ours_standing(store: &ffi::Store) -> ffi::Report {
    unsafe { ffi::jibcradle_standing(store) }
}

#[no_mangle]
#[inline(never)]
pub fn measured_theirs_standing(store: &Store) -> (u8, u64, Figures) {
    store.standing()
}

#[no_mangle]
#[inline(never)]
pub fn measured_ours_fresh(store: &mut ffi::Store) -> ffi::Moved {
    unsafe { ffi::jibcradle_fresh(store) }
}

#[no_mangle]
#[inline(never)]
pub fn measured_theirs_fresh(store: &mut Store) -> Reply {
    store.reset()
}

#[no_mangle]
#[inline(never)]
pub fn measured_ours_restart(store: &mut ffi::Store, journal: &[u8]) -> ffi::Moved {
    unsafe { ffi::jibcradle_restart(store, journal.as_ptr(), journal.len()) }
}

#[no_mangle]
#[inline(never)]
pub fn measured_theirs_restart(store: &mut Store, journal: &[u8]) -> Reply {
    store.restart(journal)
}

#[no_mangle]
#[inline(never)]
pub fn measured_ours_ask(store: &ffi::Store, to: u64, buffer: &mut [u8]) -> ffi::Reply {
    unsafe { ffi::jibcradle_ask(store, to, buffer.as_mut_ptr(), buffer.len()) }
}

#[no_mangle]
#[inline(never)]
pub fn measured_theirs_ask(store: &Store, to: u64, buffer: &mut [u8]) -> (u8, u64) {
    store.ask(to, buffer)
}

#[no_mangle]
#[inline(never)]
pub fn measured_ours_hear(
    store: &mut ffi::Store,
    journal: &mut [u8],
    used: usize,
    message: &[u8],
) -> ffi::Moved {
    let (j, n) = (journal.as_mut_ptr(), journal.len());
    unsafe { ffi::jibcradle_hear(store, j, n, used, message.as_ptr(), message.len()) }
}

#[no_mangle]
#[inline(never)]
pub fn measured_theirs_hear(
    store: &mut Store,
    journal: &mut [u8],
    used: usize,
    message: &[u8],
) -> Reply {
    store.hear(journal, used, message)
}

#[no_mangle]
#[inline(never)]
pub fn measured_ours_grant(state: &mut ffi::Coordinator, tick: u64, node: u64) -> ffi::Reply {
    unsafe { ffi::jibcradle_grant(state, tick, node) }
}

#[no_mangle]
#[inline(never)]
pub fn measured_theirs_grant(state: &mut Coordinator, tick: u64, node: u64) -> (u8, u64) {
    state.grant(tick, node)
}

#[no_mangle]
#[inline(never)]
pub fn measured_ours_message(
    state: &mut ffi::Coordinator,
    prev: u64,
    clock: u64,
    buffer: &mut [u8],
) -> ffi::Reply {
    unsafe { ffi::jibcradle_message(state, prev, clock, buffer.as_mut_ptr(), buffer.len()) }
}

#[no_mangle]
#[inline(never)]
pub fn measured_theirs_message(
    state: &mut Coordinator,
    prev: u64,
    clock: u64,
    buffer: &mut [u8],
) -> (u8, u64) {
    state.message(prev, clock, buffer)
}

#[no_mangle]
#[inline(never)]
pub fn measured_ours_serve(
    state: &mut ffi::Coordinator,
    request: &[u8],
    buffer: &mut [u8],
) -> ffi::Reply {
    let (b, n) = (buffer.as_mut_ptr(), buffer.len());
    unsafe { ffi::jibcradle_serve(state, request.as_ptr(), request.len(), b, n) }
}

#[no_mangle]
#[inline(never)]
pub fn measured_theirs_serve(
    state: &mut Coordinator,
    request: &[u8],
    buffer: &mut [u8],
) -> (u8, u64) {
    state.serve(request, buffer)
}

#[no_mangle]
#[inline(never)]
pub fn measured_ours_keep(state: &ffi::Coordinator, buffer: &mut [u8]) -> ffi::Reply {
    unsafe { ffi::jibcradle_coordinator_keep(state, buffer.as_mut_ptr(), buffer.len()) }
}

#[no_mangle]
#[inline(never)]
pub fn measured_theirs_keep(state: &Coordinator, buffer: &mut [u8]) -> (u8, u64) {
    state.keep(buffer)
}

#[no_mangle]
#[inline(never)]
pub fn measured_ours_coordinator_restart(state: &mut ffi::Coordinator, bytes: &[u8]) -> ffi::Reply {
    unsafe { ffi::jibcradle_coordinator_restart(state, bytes.as_ptr(), bytes.len()) }
}

#[no_mangle]
#[inline(never)]
pub fn measured_theirs_coordinator_restart(state: &mut Coordinator, bytes: &[u8]) -> (u8, u64) {
    state.restart(bytes)
}
