//! What the calls answer: as the library hands it back, and as Rust would have it.

use crate::{Refusal, SLOTS, SNAPSHOTS};

/// What a change, a fresh start or a restart answers, as the library hands it back. It has to be
/// looked at, or passed over by name:
///
/// ```
/// #![deny(unused_must_use)]
/// let mut store = jibcradle::Store::fresh();
/// let _ = store.flush(&mut [0; 64], 0, 0);
/// ```
///
/// ```compile_fail
/// #![deny(unused_must_use)]
/// let mut store = jibcradle::Store::fresh();
/// store.flush(&mut [0; 64], 0, 0);
/// ```
#[repr(C)]
#[derive(Clone, Copy, Debug, Default, PartialEq, Eq)]
#[must_use = "the call may have been refused, and the next one needs the place"]
pub struct Moved {
    /// The code, 0 to 17.
    pub code: u64,
    /// The number that goes with it.
    pub number: u64,
    /// The journal's place for the next call.
    pub place: usize,
}

/// What a read answers, as the library hands it back.
#[repr(C)]
#[derive(Clone, Copy, Debug, Default, PartialEq, Eq)]
#[must_use = "the read may have been refused, and then the buffer is as it was"]
pub struct Reply {
    /// The code, 0 to 17.
    pub code: u64,
    /// The number that goes with it.
    pub number: u64,
}

/// What standing answers, as the library hands it back.
#[repr(C)]
#[derive(Clone, Copy, Debug, Default, PartialEq, Eq)]
#[must_use = "the call does nothing but answer"]
pub struct Report {
    /// The code, 0 or 2.
    pub code: u64,
    /// The number that goes with it.
    pub number: u64,
    /// Pending entries.
    pub pending: u64,
    /// Past values.
    pub past: u64,
    /// Known snapshots.
    pub snapshots: u64,
    /// Archived copies.
    pub copies: u64,
    /// Tick of the last commit minus tick of the horizon.
    pub lag: i64,
}

/// What known answers, as the library hands it back.
#[repr(C)]
#[derive(Clone, Copy, Debug, PartialEq, Eq)]
#[must_use = "the call does nothing but answer"]
pub struct Knowledge {
    /// The code, 0 or 2.
    pub code: u64,
    /// The number that goes with it.
    pub number: u64,
    /// The horizon: all snapshots up to here are known.
    pub horizon: u64,
    /// The stamp of the last commit.
    pub last: u64,
    /// How many snapshots are known.
    pub count: u64,
    /// The known snapshots, ascending; 0 from `count` on.
    pub stamps: [u64; SNAPSHOTS],
}

/// A change that wasn't refused.
#[derive(Clone, Copy, Debug, PartialEq, Eq)]
pub enum Change {
    /// Code 0: it is done and its record written. The journal's new used length.
    Written(usize),
    /// Code 1: there was nothing to do, and nothing was written.
    Nothing,
}

/// A page as of a known snapshot.
#[derive(Clone, Copy, Debug, PartialEq, Eq)]
pub struct Snapshot {
    /// The snapshot's stamp.
    pub stamp: u64,
    /// The values of the page's objects, by slot.
    pub values: [u64; SLOTS],
}

/// How the store stands.
#[derive(Clone, Copy, Debug, Default, PartialEq, Eq)]
pub struct Standing {
    /// Pending entries.
    pub pending: u64,
    /// Past values.
    pub past: u64,
    /// Known snapshots.
    pub snapshots: u64,
    /// Archived copies.
    pub copies: u64,
    /// Ticks that the last commit is ahead of the horizon; negative when gossip is ahead.
    pub lag: i64,
}

/// Which snapshots the store knows, and how far it knows them.
#[derive(Clone, Debug, Default, PartialEq, Eq)]
pub struct Known {
    /// The horizon: all snapshots up to here are known, and no commit is taken up to here.
    pub horizon: u64,
    /// The stamp of the last commit.
    pub last: u64,
    /// The known snapshots, ascending, at most 64.
    pub snapshots: Vec<u64>,
}

/// The refusal with this code. A code that no refusal has (0 and 1 too, where the call doesn't
/// have them) is [`Refusal::Unknown`].
fn refusal(code: u64, number: u64) -> Refusal {
    Refusal::of(code, number).unwrap_or(Refusal::Unknown { code, number })
}

impl Moved {
    /// The answer as a result.
    ///
    /// # Errors
    ///
    /// The refusal, where the code is from 2 up.
    pub fn outcome(self) -> Result<Change, Refusal> {
        match self.code {
            0 => Ok(Change::Written(self.place)),
            1 => Ok(Change::Nothing),
            code => Err(refusal(code, self.number)),
        }
    }
}

impl Reply {
    /// The answer as a result: the number, or a refusal.
    ///
    /// # Errors
    ///
    /// The refusal, where the code isn't 0.
    pub fn outcome(self) -> Result<u64, Refusal> {
        match self.code {
            0 => Ok(self.number),
            code => Err(refusal(code, self.number)),
        }
    }
}

impl Report {
    /// The answer as a result.
    ///
    /// # Errors
    ///
    /// The refusal, where the code isn't 0.
    pub fn outcome(self) -> Result<Standing, Refusal> {
        let Report { code, number, pending, past, snapshots, copies, lag } = self;
        match code {
            0 => Ok(Standing { pending, past, snapshots, copies, lag }),
            code => Err(refusal(code, number)),
        }
    }
}

impl Knowledge {
    /// The answer as a result.
    ///
    /// # Errors
    ///
    /// The refusal, where the code isn't 0.
    pub fn outcome(self) -> Result<Known, Refusal> {
        let Knowledge { code, number, horizon, last, count, stamps } = self;
        match code {
            0 => {
                // The library's count is at most 64; a program's own may be anything.
                let count = usize::try_from(count).unwrap_or(SNAPSHOTS).min(SNAPSHOTS);
                Ok(Known { horizon, last, snapshots: stamps[..count].to_vec() })
            }
            code => Err(refusal(code, number)),
        }
    }
}

#[cfg(test)]
mod tests {
    use super::*;

    /// Every code that a program can put into an answer has an outcome.
    #[test]
    fn no_code_makes_an_outcome_panic() {
        for code in (0..=20).chain([99, u64::MAX]) {
            let moved = Moved { code, number: 7, place: 7 }.outcome();
            let reply = Reply { code, number: 7 }.outcome();
            let report = Report { code, number: 7, ..Report::default() }.outcome();
            let stamps = [3; SNAPSHOTS];
            let known = Knowledge { code, number: 7, horizon: 9, last: 8, count: u64::MAX, stamps };
            let known = known.outcome();
            assert_eq!(moved.is_ok(), code <= 1);
            assert_eq!([reply.is_ok(), report.is_ok(), known.is_ok()], [code == 0; 3]);
            let refusals = [moved.err(), reply.err(), report.err(), known.err()];
            for refusal in refusals.into_iter().flatten() {
                assert_eq!(refusal.code(), code);
            }
        }
        let odd = Reply { code: 99, number: 7 }.outcome();
        assert_eq!(odd, Err(Refusal::Unknown { code: 99, number: 7 }));
        let odd = Reply { code: 1, number: 7 }.outcome();
        assert_eq!(odd, Err(Refusal::Unknown { code: 1, number: 7 }));
    }
}
