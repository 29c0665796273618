//! The coordinator: it grants snapshots and writes the messages that tell of them.

use crate::answers::Reply;
use crate::{ffi, Refusal, GRANTED, KEPT, MESSAGE};

/// A coordinator's memory, in the library's layout, with the calls as the library has them.
///
/// Every call takes every state: the fields may be written freely, and one that isn't a
/// coordinator's is answered by code 2. Only the first `count` stamps are contents, and equality is
/// that of contents.
#[repr(C)]
#[derive(Clone, Debug)]
pub struct CoordinatorState {
    /// How many snapshots are granted.
    pub count: u64,
    /// The largest curr that was sent.
    pub sent: u64,
    /// The granted snapshots, strictly ascending.
    pub granted: [u64; GRANTED],
}

impl CoordinatorState {
    /// A fresh coordinator: nothing is granted, nothing sent.
    pub fn fresh() -> CoordinatorState {
        let mut state = CoordinatorState { count: 0, sent: 0, granted: [0; GRANTED] };
        // A fresh start is never refused.
        let _ = state.reset();
        state
    }

    /// Makes this a fresh coordinator, whatever it was.
    pub fn reset(&mut self) -> Reply {
        ffi::coordinator_fresh(self)
    }

    /// Grants the snapshot of stamp `256 * tick + node`, which is the number.
    pub fn grant(&mut self, tick: u64, node: u64) -> Reply {
        ffi::grant(self, tick, node)
    }

    /// Writes the message of all granted snapshots after `prev` up to the stamp `clock`, or the
    /// first sixteen of them, to the front of the buffer, which has 148 bytes or more. The number
    /// is the message's length. Refused, it leaves the buffer as it was.
    pub fn message(&mut self, prev: u64, clock: u64, buffer: &mut [u8]) -> Reply {
        ffi::message(self, prev, clock, buffer)
    }

    /// Writes the message that a request asks for, as [`CoordinatorState::message`] does.
    pub fn serve(&mut self, request: &[u8], buffer: &mut [u8]) -> Reply {
        ffi::serve(self, request, buffer)
    }

    /// Writes the state as bytes to the front of the buffer, which has 522 bytes or more. The
    /// number is how many they are.
    pub fn keep(&self, buffer: &mut [u8]) -> Reply {
        ffi::coordinator_keep(self, buffer)
    }

    /// Makes this the coordinator that was kept in the bytes; none at all are a fresh one. Refused,
    /// it leaves a fresh coordinator.
    pub fn restart(&mut self, bytes: &[u8]) -> Reply {
        ffi::coordinator_restart(self, bytes)
    }

    /// The granted snapshots; all rows where the count is over its limit.
    pub fn granted_rows(&self) -> &[u64] {
        let count = usize::try_from(self.count).unwrap_or(GRANTED);
        &self.granted[..count.min(GRANTED)]
    }
}

impl PartialEq for CoordinatorState {
    fn eq(&self, other: &CoordinatorState) -> bool {
        self.count == other.count
            && self.sent == other.sent
            && self.granted_rows() == other.granted_rows()
    }
}

impl Eq for CoordinatorState {}

/// Grants snapshots, and writes the messages that tell catalogues of them. All catalogues hear of
/// one coordinator, and it must not forget: what [`Coordinator::bytes`] gives has to last before
/// anybody is told of a grant or given a message, and [`Coordinator::restart`] takes it again.
///
/// ```
/// use jibcradle::{Catalogue, Change, Coordinator, Refusal};
///
/// let mut coordinator = Coordinator::fresh();
/// let mut catalogue = Catalogue::fresh();
/// assert_eq!(coordinator.grant(1, 5), Ok(261));
/// let lost = coordinator.message(0, 300)?;
/// assert_eq!(coordinator.grant(2, 0), Ok(512));
///
/// // The first message was lost, so the second leaves a gap; the reply to a request closes it.
/// let second = coordinator.message(300, 600)?;
/// assert_eq!(catalogue.hear(&second), Err(Refusal::Gap { horizon: 0 }));
/// let request = catalogue.ask(600)?;
/// let reply = coordinator.serve(&request)?;
/// assert!(matches!(catalogue.hear(&reply)?, Change::Written(_)));
/// assert_eq!(catalogue.known()?.snapshots, coordinator.granted());
///
/// // What was told stays true: no later snapshot lies up to 600.
/// assert_eq!(coordinator.grant(2, 88), Err(Refusal::Late { latest: 600 }));
/// // A message that comes late brings nothing new.
/// assert_eq!(catalogue.hear(&lost)?, Change::Nothing);
///
/// assert_eq!(Coordinator::restart(&coordinator.bytes())?, coordinator);
/// # Ok::<(), Refusal>(())
/// ```
#[derive(Clone, Debug, PartialEq, Eq)]
pub struct Coordinator {
    state: CoordinatorState,
}

impl Coordinator {
    /// A coordinator that has granted and sent nothing.
    pub fn fresh() -> Coordinator {
        Coordinator { state: CoordinatorState::fresh() }
    }

    /// The coordinator that [`Coordinator::bytes`] gave; no bytes at all are a fresh one.
    ///
    /// # Errors
    ///
    /// [`Refusal::Version`] where the first byte isn't 1, [`Refusal::Malformed`] at the first bad
    /// field.
    pub fn restart(bytes: &[u8]) -> Result<Coordinator, Refusal> {
        let mut coordinator = Coordinator::fresh();
        coordinator.state.restart(bytes).outcome()?;
        Ok(coordinator)
    }

    /// Grants the snapshot of stamp `256 * tick + node`, and gives the stamp.
    ///
    /// # Errors
    ///
    /// [`Refusal::Shape`] where the tick is over 2^56 - 1 or the node over 255; [`Refusal::Late`]
    /// where the stamp isn't beyond all granted and sent; [`Refusal::SnapshotsFull`] where 64 are
    /// granted.
    pub fn grant(&mut self, tick: u64, node: u64) -> Result<u64, Refusal> {
        self.state.grant(tick, node).outcome()
    }

    /// The message with all granted snapshots after `prev` up to the stamp `clock`, or the first
    /// sixteen of them. No later grant lies within what it tells.
    ///
    /// # Errors
    ///
    /// [`Refusal::Shape`] where `clock` lies before `prev`.
    pub fn message(&mut self, prev: u64, clock: u64) -> Result<Vec<u8>, Refusal> {
        let mut buffer = [0; MESSAGE];
        let reply = self.state.message(prev, clock, &mut buffer);
        written(reply, &buffer)
    }

    /// The message that a request of [`Catalogue::ask`](crate::Catalogue::ask) asks for.
    ///
    /// # Errors
    ///
    /// [`Refusal::Malformed`] where the bytes aren't exactly one request, [`Refusal::Shape`] where
    /// it asks for nothing that could be: its `to` lies before its `from`.
    pub fn serve(&mut self, request: &[u8]) -> Result<Vec<u8>, Refusal> {
        let mut buffer = [0; MESSAGE];
        let reply = self.state.serve(request, &mut buffer);
        written(reply, &buffer)
    }

    /// The granted snapshots, ascending, at most 64.
    pub fn granted(&self) -> &[u64] {
        self.state.granted_rows()
    }

    /// The largest curr that was sent.
    pub fn sent(&self) -> u64 {
        self.state.sent
    }

    /// All that there is to keep of it, at most 522 bytes.
    pub fn bytes(&self) -> Vec<u8> {
        let mut buffer = [0; KEPT];
        // A coordinator's state is never damaged, and the buffer is long enough.
        let reply = self.state.keep(&mut buffer);
        written(reply, &buffer).expect("a coordinator can be kept")
    }

    /// The state, to look at.
    pub fn state(&self) -> &CoordinatorState {
        &self.state
    }
}

impl Default for Coordinator {
    fn default() -> Coordinator {
        Coordinator::fresh()
    }
}

/// The bytes at the buffer's front that the answer counts.
fn written(reply: Reply, buffer: &[u8]) -> Result<Vec<u8>, Refusal> {
    let length = usize::try_from(reply.outcome()?).unwrap_or(buffer.len());
    Ok(buffer[..length.min(buffer.len())].to_vec())
}
