//! A small object repository, written from `01-scope.md` alone: a disk, a buffer of modified
//! objects, past values for undoing, a list of known snapshots, archived page copies and a
//! journal from which all of it can be rebuilt. Beside it, from the first request of
//! `02-change-requests.md`, the coordinator that grants the snapshots and tells of them.
//!
//! Every call takes every input without panicking and answers a [`code`] and a number. A changing
//! call first judges, reading only, and then writes; a refused one has changed nothing.
//!
//! * `tables`: the tables, the fresh store and the test for damage
//! * `rules`: what the tables say (live, mark, value as of a stamp, due)
//! * `calls`: the public calls, each a judgement followed by its writing
//! * `journal`: the bytes of the records
//! * `restart`: rebuilding a store from its journal
//! * `coordinator`: the coordinator, its calls and its kept bytes

#![forbid(unsafe_code)]
#![warn(missing_docs)]

mod calls;
pub mod code;
mod coordinator;
mod journal;
mod restart;
mod rules;
mod tables;

pub use calls::{Figures, Known, Reply};
pub use coordinator::Coordinator;
pub use tables::{Copy, Past, Pending, Store};

/// Number of pages.
pub const PAGES: usize = 32;
/// Objects in a page.
pub const SLOTS: usize = 16;
/// Number of objects.
pub const OBJECTS: usize = PAGES * SLOTS;
/// Most writes in a commit.
pub const WRITES: usize = 16;
/// Most stamps in a message.
pub const STAMPS: usize = 16;
/// Most pending entries.
pub const PENDING: usize = 128;
/// Most past values.
pub const PAST: usize = 256;
/// Most known snapshots.
pub const SNAPSHOTS: usize = 64;
/// Most archived copies.
pub const COPIES: usize = 128;
/// Longest journal, in bytes.
pub const JOURNAL: usize = 65_535;
/// The first byte of a journal, and of a coordinator's kept state.
pub const VERSION: u8 = 1;
/// Most snapshots a coordinator grants.
pub const GRANTS: usize = 64;
/// Bytes of the longest message.
pub const MESSAGE: usize = 148;
/// Bytes of a request for a message.
pub const REQUEST: usize = 19;
/// Bytes of a coordinator's longest kept state.
pub const KEPT: usize = 522;
