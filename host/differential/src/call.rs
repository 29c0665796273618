//! A call with all of its arguments, so that it can be made again.

/// How a changing call is lent its journal.
#[derive(Clone, Debug, PartialEq)]
pub enum Lent {
    /// The run's own journal, at its place.
    Own,
    /// The run's own journal, cut so that this much room is left after its place.
    Room(usize),
    /// The run's own journal, told this used length.
    At(usize),
    /// Another journal: its length, the seed of its bytes, and the used length told.
    Strange {
        /// Its length.
        length: usize,
        /// The seed of its bytes.
        seed: u64,
        /// The used length told.
        used: usize,
    },
}

/// The bytes that a restart is lent.
#[derive(Clone, Debug, PartialEq)]
pub enum Surviving {
    /// The used part of the run's own journal, less so many bytes at its end.
    OwnLess(usize),
    /// These.
    Bytes(Vec<u8>),
}

/// One of the twelve calls on a store, or one on a coordinator. A buffer is given by its length.
#[derive(Clone, Debug, PartialEq)]
pub enum Call {
    Fresh,
    Restart(Surviving),
    Commit { lent: Lent, stamp: u64, objects: Vec<u64>, values: Vec<u64> },
    Gossip { lent: Lent, prev: u64, curr: u64, stamps: Vec<u64> },
    Flush { lent: Lent, page: u64 },
    SnapshotRead { time: u64, page: u64, buffer: usize },
    ClockRead { tick: u64, page: u64, buffer: usize },
    CurrentRead { page: u64, buffer: usize },
    Standing,
    Known,
    Ask { to: u64, buffer: usize },
    Hear { lent: Lent, message: Vec<u8> },
    Order(Order),
}

/// One of the six calls on a coordinator.
#[derive(Clone, Debug, PartialEq)]
pub enum Order {
    Fresh,
    Restart(Vec<u8>),
    Grant { tick: u64, node: u64 },
    Message { prev: u64, clock: u64, buffer: usize },
    Serve { request: Vec<u8>, buffer: usize },
    Keep { buffer: usize },
}

/// The names of the calls, in the order of [`Call::kind`]: those on a store, then those on a
/// coordinator.
pub const KINDS: [&str; ON_STORES + 6] = [
    "fresh",
    "restart",
    "commit",
    "gossip",
    "flush",
    "snapshot read",
    "clock read",
    "current read",
    "standing",
    "known",
    "ask",
    "hear",
    "coordinator fresh",
    "coordinator restart",
    "grant",
    "message",
    "serve",
    "keep",
];

/// How many of them are on a store.
pub const ON_STORES: usize = 12;

impl Call {
    /// Which call it is, as an index to [`KINDS`].
    pub fn kind(&self) -> usize {
        match self {
            Call::Fresh => 0,
            Call::Restart(_) => 1,
            Call::Commit { .. } => 2,
            Call::Gossip { .. } => 3,
            Call::Flush { .. } => 4,
            Call::SnapshotRead { .. } => 5,
            Call::ClockRead { .. } => 6,
            Call::CurrentRead { .. } => 7,
            Call::Standing => 8,
            Call::Known => 9,
            Call::Ask { .. } => 10,
            Call::Hear { .. } => 11,
            Call::Order(order) => ON_STORES + order.kind(),
        }
    }
}

impl Order {
    fn kind(&self) -> usize {
        match self {
            Order::Fresh => 0,
            Order::Restart(_) => 1,
            Order::Grant { .. } => 2,
            Order::Message { .. } => 3,
            Order::Serve { .. } => 4,
            Order::Keep { .. } => 5,
        }
    }
}
