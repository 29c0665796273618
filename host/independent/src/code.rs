//! The codes answered.

/// The call did what it says.
pub const DONE: u8 = 0;
/// There was nothing to do.
pub const NOTHING: u8 = 1;
/// The tables aren't those of a store, or of a coordinator.
pub const DAMAGED: u8 = 2;
/// An argument is out of range.
pub const SHAPE: u8 = 3;
/// A commit names an object twice.
pub const TWICE: u8 = 4;
/// A commit isn't after the last commit and the horizon, or a grant not beyond every stamp granted
/// or sent.
pub const LATE: u8 = 5;
/// A message starts beyond the horizon.
pub const GAP: u8 = 6;
/// A message disagrees with the known snapshots.
pub const CONFLICT: u8 = 7;
/// No room for the pending entries.
pub const PENDING_FULL: u8 = 8;
/// No room for the past values.
pub const PAST_FULL: u8 = 9;
/// No room for the snapshots.
pub const SNAPSHOTS_FULL: u8 = 10;
/// No room for the copies.
pub const ARCHIVE_FULL: u8 = 11;
/// No room for the record.
pub const NO_JOURNAL_ROOM: u8 = 12;
/// The time read lies beyond the horizon.
pub const AHEAD: u8 = 13;
/// No known snapshot at or before the time read.
pub const NO_SNAPSHOT: u8 = 14;
/// The journal or the kept state has another version.
pub const VERSION: u8 = 15;
/// A record or a kept state isn't well formed.
pub const MALFORMED: u8 = 16;
/// A well-formed record isn't one the store would have written.
pub const CONTRADICTION: u8 = 17;
