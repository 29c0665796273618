//! The coordinator: it grants the snapshots and writes the messages that tell of them. As with the
//! store, a call judges first and then writes; a refused one has changed nothing.

use crate::calls::{answer, Refusal, DAMAGED, MALFORMED, SHAPE};
use crate::journal::{self, put_stamps, u64_at};
use crate::tables::last_ascending;
use crate::{code, GRANTS, KEPT, MESSAGE, STAMPS, VERSION};

/// Ticks that fit a stamp, and nodes in one of them.
const TICKS: u64 = 1 << 56;
const NODES: u64 = 256;

/// Bytes of a kept state without stamps: the version, `sent` at 1 and the count at 9.
const HEAD: usize = 10;
const SENT: usize = 1;
const COUNT: usize = 9;

const _: () = assert!(HEAD + journal::STAMP * GRANTS == KEPT && GRANTS < 256);

/// The coordinator. Only the stamps below the count are contents, and equality is that of
/// contents.
#[derive(Clone, Debug)]
#[repr(C)]
pub struct Coordinator {
    /// Number of snapshots granted.
    pub count: u64,
    /// The largest `curr` of all messages written, 0 before the first.
    pub sent: u64,
    /// The snapshots granted, strictly ascending.
    pub granted: [u64; GRANTS],
}

impl Coordinator {
    /// The fresh coordinator.
    pub const fn fresh() -> Coordinator {
        Coordinator { count: 0, sent: 0, granted: [0; GRANTS] }
    }

    /// Makes this a fresh coordinator, whatever it was.
    pub fn reset(&mut self) -> (u8, u64) {
        self.count = 0;
        self.sent = 0;
        (code::DONE, 0)
    }

    /// Grants the snapshot `256 * tick + node`, which is the number answered.
    pub fn grant(&mut self, tick: u64, node: u64) -> (u8, u64) {
        answer(self.try_grant(tick, node))
    }

    fn try_grant(&mut self, tick: u64, node: u64) -> Result<u64, Refusal> {
        let last = self.sound()?;
        if tick >= TICKS || node >= NODES {
            return Err(SHAPE);
        }
        let stamp = tick * NODES + node;
        let top = last.max(self.sent);
        if stamp <= top {
            return Err(Refusal(code::LATE, top));
        }
        let room = self.granted.get_mut(self.count as usize);
        *room.ok_or(Refusal(code::SNAPSHOTS_FULL, 0))? = stamp;
        self.count += 1;
        Ok(stamp)
    }

    /// Writes the message for the snapshots beyond `prev` up to `clock`, or up to the sixteenth of
    /// them, at the buffer's front.
    pub fn message(&mut self, prev: u64, clock: u64, buffer: &mut [u8]) -> (u8, u64) {
        answer(self.sound().and_then(|_| self.tell(prev, clock, buffer)))
    }

    /// Writes the message that a store's request asks for.
    pub fn serve(&mut self, request: &[u8], buffer: &mut [u8]) -> (u8, u64) {
        answer(self.try_serve(request, buffer))
    }

    fn try_serve(&mut self, request: &[u8], buffer: &mut [u8]) -> Result<u64, Refusal> {
        self.sound()?;
        let (from, to) = journal::request_of(request).ok_or(MALFORMED)?;
        self.tell(from, to, buffer)
    }

    /// Writes a message, of a coordinator that has passed the test for damage; gives its size.
    fn tell(&mut self, prev: u64, clock: u64, buffer: &mut [u8]) -> Result<u64, Refusal> {
        if buffer.len() < MESSAGE || clock < prev {
            return Err(SHAPE);
        }
        let granted = self.granted();
        let after = &granted[granted.partition_point(|&stamp| stamp <= prev)..];
        let wanted = after.partition_point(|&stamp| stamp <= clock);
        // What a message can't hold is left to the next one, which starts at its end.
        let (stamps, curr) = if wanted > STAMPS {
            (&after[..STAMPS], after[STAMPS - 1])
        } else {
            (&after[..wanted], clock)
        };
        let size = journal::message_size(stamps.len());
        journal::put_message(&mut buffer[..size], prev, curr, stamps);
        self.sent = self.sent.max(curr);
        Ok(size as u64)
    }

    /// Writes the state's bytes at the buffer's front, from which [`Coordinator::restart`] makes it
    /// again; the number is theirs.
    pub fn keep(&self, buffer: &mut [u8]) -> (u8, u64) {
        answer(self.try_keep(buffer))
    }

    fn try_keep(&self, buffer: &mut [u8]) -> Result<u64, Refusal> {
        self.sound()?;
        if buffer.len() < KEPT {
            return Err(SHAPE);
        }
        let granted = self.granted();
        let size = HEAD + journal::STAMP * granted.len();
        let (head, stamps) = buffer[..size].split_at_mut(HEAD);
        head[0] = VERSION;
        head[SENT..COUNT].copy_from_slice(&self.sent.to_be_bytes());
        head[COUNT] = granted.len() as u8;
        put_stamps(stamps, granted);
        Ok(size as u64)
    }

    /// Makes this the coordinator whose state's bytes these are; what it was plays no part.
    /// Refused, it leaves a fresh coordinator.
    pub fn restart(&mut self, bytes: &[u8]) -> (u8, u64) {
        self.reset();
        answer(self.take(bytes))
    }

    /// Takes a state's bytes, of a fresh coordinator. Its count and `sent` are set last.
    fn take(&mut self, bytes: &[u8]) -> Result<u64, Refusal> {
        match bytes.first() {
            None => return Ok(0),
            Some(&VERSION) => {}
            Some(&found) => return Err(Refusal(code::VERSION, u64::from(found))),
        }
        let bad = |offset: usize| Refusal(code::MALFORMED, offset as u64);
        let (head, rest) = bytes.split_first_chunk::<HEAD>().ok_or(bad(SENT))?;
        let count = usize::from(head[COUNT]);
        if count > GRANTS || rest.len() != journal::STAMP * count {
            return Err(bad(COUNT));
        }
        let mut before = 0;
        for (number, (bytes, granted)) in
            rest.chunks_exact(journal::STAMP).zip(&mut self.granted).enumerate()
        {
            let stamp = u64_at(bytes).unwrap_or_default();
            if stamp <= before {
                return Err(bad(HEAD + journal::STAMP * number));
            }
            *granted = stamp;
            before = stamp;
        }
        self.count = count as u64;
        self.sent = u64_at(&head[SENT..]).unwrap_or_default();
        Ok(bytes.len() as u64)
    }

    /// The test for damage; gives the last snapshot granted, 0 if there is none.
    fn sound(&self) -> Result<u64, Refusal> {
        if self.count > GRANTS as u64 {
            return Err(DAMAGED);
        }
        last_ascending(self.granted()).ok_or(DAMAGED)
    }

    /// The snapshots granted, of a coordinator whose count is in range.
    fn granted(&self) -> &[u64] {
        &self.granted[..self.count as usize]
    }
}

impl Default for Coordinator {
    fn default() -> Coordinator {
        Coordinator::fresh()
    }
}

impl PartialEq for Coordinator {
    fn eq(&self, other: &Coordinator) -> bool {
        let rows = self.count.min(GRANTS as u64) as usize;
        self.count == other.count
            && self.sent == other.sent
            && self.granted[..rows] == other.granted[..rows]
    }
}

impl Eq for Coordinator {}
