//! Wrong stores and coordinators, to test the comparison itself: each is the library with one small
//! fault laid on it. None is laid on it but by the tests and by the flag `--fault`.

use crate::call::{Call, Order, Surviving};
use crate::records::curr_of;
use crate::sides::{Outcome, Side};

/// A fault of the library's side.
#[derive(Clone, Copy, Debug, PartialEq)]
pub enum Fault {
    /// No fault.
    None,
    /// A clock read answers 15 in place of 14.
    Code,
    /// A conflict's number is the stamp after it.
    Number,
    /// A flush that finds nothing to do moves the place.
    Place,
    /// A change also writes the byte after its record.
    JournalByte,
    /// A refused read writes the buffer's last slot.
    Buffer,
    /// A lag below zero is one off.
    Lag,
    /// Known leaves out the last of 64 snapshots.
    LastKnown,
    /// A flush of the last page writes a bit of the last disk stamp.
    DiskStamp,
    /// A message that leaves two past values or more changes the order of the first two.
    PastOrder,
    /// A flush that leaves the archive full changes its last word.
    LastCopy,
    /// A commit that fills the pending table changes its last row.
    LastPending,
    /// A commit is late only when it is before the last commit or the horizon, not at them.
    LateMissed,
    /// A read is ahead only from the second stamp after the horizon on.
    AheadMissed,
    /// A restart from a journal of 65,535 bytes doesn't see the last.
    LongestCut,
    /// A message with one byte behind it is heard.
    TailHeard,
    /// A store asks for what is up to the stamp before its horizon.
    AskedBefore,
    /// A grant is late only when it isn't beyond the last one, whatever was sent.
    SentMissed,
    /// What was sent is the curr of the last message, not the largest.
    LastSent,
    /// A message of more than sixteen snapshots has the clock stamp as its curr.
    ClockTold,
    /// A coordinator of 64 snapshots is kept with another last byte.
    LastKept,
}

/// All faults, by name.
pub const FAULTS: [(&str, Fault); 20] = [
    ("code", Fault::Code),
    ("number", Fault::Number),
    ("place", Fault::Place),
    ("journal-byte", Fault::JournalByte),
    ("buffer", Fault::Buffer),
    ("lag", Fault::Lag),
    ("last-known", Fault::LastKnown),
    ("disk-stamp", Fault::DiskStamp),
    ("past-order", Fault::PastOrder),
    ("last-copy", Fault::LastCopy),
    ("last-pending", Fault::LastPending),
    ("late-missed", Fault::LateMissed),
    ("ahead-missed", Fault::AheadMissed),
    ("longest-cut", Fault::LongestCut),
    ("tail-heard", Fault::TailHeard),
    ("asked-before", Fault::AskedBefore),
    ("sent-missed", Fault::SentMissed),
    ("last-sent", Fault::LastSent),
    ("clock-told", Fault::ClockTold),
    ("last-kept", Fault::LastKept),
];

type Library = Side<jibcradle::Store>;

impl Fault {
    /// Makes the call on the library's side, with the fault.
    pub fn play(self, library: &mut Library, call: &Call) -> Outcome {
        if self == Fault::None {
            return library.play(call);
        }
        let turned = self.turn(library, call);
        let sent = library.coordinator.sent;
        if self == Fault::SentMissed && matches!(call, Call::Order(Order::Grant { .. })) {
            library.coordinator.sent = 0;
        }
        let mut outcome = library.play(turned.as_ref().unwrap_or(call));
        self.spoil_answer(call, &mut outcome);
        self.spoil_store(call, &outcome, library);
        self.spoil_coordinator(sent, call, &outcome, library);
        outcome
    }

    /// The call that the wrong store makes in place of this one.
    fn turn(self, library: &Library, call: &Call) -> Option<Call> {
        let heads = &library.store.heads;
        let mut turned = call.clone();
        match (self, &mut turned) {
            (Fault::LateMissed, Call::Commit { stamp, .. })
                if *stamp == heads.last.max(heads.horizon) =>
            {
                *stamp = stamp.checked_add(1)?;
            }
            (Fault::AheadMissed, Call::SnapshotRead { time, .. })
                if time.checked_sub(1) == Some(heads.horizon) =>
            {
                *time -= 1;
            }
            (Fault::LongestCut, Call::Restart(Surviving::Bytes(bytes)))
                if bytes.len() == jibcradle::JOURNAL =>
            {
                bytes.pop();
            }
            (Fault::TailHeard, Call::Hear { message, .. }) => {
                let told = message.first_chunk().map(|length| u16::from_be_bytes(*length))?;
                if message.len() == 3 + usize::from(told) {
                    message.pop();
                }
            }
            (Fault::AskedBefore, Call::Ask { to, .. })
                if to.checked_add(1) == Some(heads.horizon) =>
            {
                *to += 1;
            }
            _ => return None,
        }
        Some(turned)
    }

    fn spoil_answer(self, call: &Call, outcome: &mut Outcome) {
        match (self, call) {
            (Fault::Code, Call::ClockRead { .. }) if outcome.code == 14 => outcome.code = 15,
            (Fault::Number, Call::Gossip { .. }) if outcome.code == 7 => outcome.number += 1,
            (Fault::Place, Call::Flush { .. }) if outcome.code == 1 => {
                outcome.place = outcome.place.map(|place| place + 1);
            }
            (Fault::Buffer, _) if outcome.code >= 2 => {
                outcome.buffer.last_mut().into_iter().for_each(|slot| *slot = 0);
            }
            (Fault::Lag, Call::Standing) => {
                if let Some(figures) = outcome.figures.as_mut().filter(|figures| figures.lag < 0) {
                    figures.lag += 1;
                }
            }
            (Fault::LastKnown, Call::Known) => {
                if let Some(known) = outcome.known.as_mut().filter(|known| known.count == 64) {
                    known.stamps[63] = 0;
                }
            }
            (Fault::ClockTold, Call::Order(Order::Message { clock, .. })) if outcome.code == 0 => {
                outcome.bytes[11..19].copy_from_slice(&clock.to_be_bytes());
            }
            (Fault::LastKept, Call::Order(Order::Keep { .. })) if outcome.number == 522 => {
                outcome.bytes[521] ^= 1;
            }
            _ => {}
        }
    }

    fn spoil_store(self, call: &Call, outcome: &Outcome, library: &mut Library) {
        let Side { store, journal, place, .. } = library;
        let heads = store.heads;
        match (self, call) {
            _ if outcome.code != 0 => {}
            (Fault::JournalByte, Call::Commit { .. } | Call::Gossip { .. }) => {
                journal.get_mut(*place).into_iter().for_each(|byte| *byte ^= 1);
            }
            (Fault::DiskStamp, Call::Flush { page: 31, .. }) => store.dated[511] ^= 1 << 63,
            (Fault::PastOrder, Call::Gossip { .. }) if heads.past > 1 => store.past.swap(0, 1),
            (Fault::LastCopy, Call::Flush { .. }) if heads.copies == 128 => store.copied[2047] ^= 1,
            (Fault::LastPending, Call::Commit { .. }) if heads.pending == 128 => {
                store.pending[127].first ^= 1;
            }
            _ => {}
        }
    }

    fn spoil_coordinator(self, sent: u64, call: &Call, outcome: &Outcome, library: &mut Library) {
        let state = &mut library.coordinator;
        match (self, call) {
            (Fault::SentMissed, Call::Order(Order::Grant { .. })) => state.sent = sent,
            (Fault::LastSent, Call::Order(Order::Message { .. })) if outcome.code == 0 => {
                state.sent = curr_of(&outcome.bytes).unwrap_or(sent);
            }
            _ => {}
        }
    }
}

/// The fault of this name.
pub fn named(name: &str) -> Option<Fault> {
    FAULTS.iter().find(|(known, _)| *known == name).map(|&(_, fault)| fault)
}
