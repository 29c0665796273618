//! Safe calls to a store that is proved in another language and linked as a static library: an
//! object repository with commits, gossip of snapshots, flushes of pages, and reads of any known
//! snapshot.
//!
//! * [`Catalogue::open`] gives a [`FileCatalogue`], whose journal is kept in a file: what is
//!   acknowledged is there for good, killed or not. It is what most programs want.
//! * [`Catalogue`] owns the store, its journal and the journal's place, all in memory.
//! * [`Store`] is the store's memory itself, with its calls as the library has them, for
//!   programs that keep the journal on their own.
//! * [`Coordinator`] grants snapshots and writes the messages that tell of them;
//!   [`Catalogue::hear`] takes one, and after a gap [`Catalogue::ask`] writes the request for what
//!   was missed.
//!
//! A call that the store refuses gives a [`Refusal`], with the scope document's code, number and
//! name. Calls that also need the file give an [`Error`], of which a refusal is one.
//!
//! A stamp is a clock tick (milliseconds) x 256 + a node number; 0 is before everything.
//!
//! ```
//! use jibcradle::{Catalogue, Change, Refusal};
//!
//! let mut catalogue = Catalogue::fresh();
//! assert_eq!(catalogue.commit(100, &[(0, 7)]), Ok(Change::Written(23)));
//! assert_eq!(catalogue.commit(100, &[(0, 7)]), Err(Refusal::Late { latest: 100 }));
//! catalogue.commit(120, &[(0, 9)])?;
//! catalogue.gossip(0, 110, &[105])?;
//!
//! let seen = catalogue.read(107, 0)?;
//! assert_eq!((seen.stamp, seen.values[0]), (105, 7));
//! assert_eq!(catalogue.now(0)?[0], 9);
//!
//! // What survives of the journal is enough to have the catalogue again.
//! let again = Catalogue::restart(catalogue.journal())?;
//! assert_eq!(again.store(), catalogue.store());
//! # Ok::<(), Refusal>(())
//! ```

#![deny(unsafe_code)]
#![warn(missing_docs)]

mod answers;
mod catalogue;
mod coordinator;
mod error;
mod ffi;
mod file_catalogue;
mod journal_file;
mod lock;
mod process;
mod refusal;
mod store;

pub use answers::{Change, Knowledge, Known, Moved, Reply, Report, Snapshot, Standing};
pub use catalogue::Catalogue;
pub use coordinator::{Coordinator, CoordinatorState};
pub use error::Error;
pub use file_catalogue::FileCatalogue;
pub use journal_file::Torn;
pub use refusal::Refusal;
pub use store::{Copied, Heads, Past, Pending, Store};

/// Number of pages.
pub const PAGES: usize = 32;
/// Objects in a page. An object's number is 16 x page + slot.
pub const SLOTS: usize = 16;
/// Number of objects.
pub const OBJECTS: usize = PAGES * SLOTS;
/// Most writes in a commit.
pub const WRITES: usize = 16;
/// Most stamps in a message.
pub const STAMPS: usize = 16;
/// Most pending entries.
pub const PENDING: usize = 128;
/// Most past values.
pub const PAST: usize = 256;
/// Most known snapshots.
pub const SNAPSHOTS: usize = 64;
/// Most archived copies.
pub const COPIES: usize = 128;
/// Longest journal, in bytes.
pub const JOURNAL: usize = 65_535;
/// Most snapshots of a coordinator.
pub const GRANTED: usize = 64;
/// Longest message of a coordinator, in bytes.
pub const MESSAGE: usize = 148;
/// A request to a coordinator, in bytes.
pub const REQUEST: usize = 19;
/// Longest coordinator kept as bytes.
pub const KEPT: usize = 522;
