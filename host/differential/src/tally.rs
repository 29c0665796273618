//! How often each call answered each code.

use crate::call::{KINDS, ON_STORES};
use std::fmt;

/// One more than the largest code.
const CODES: usize = 18;

/// The codes that the documents allow for each call, in the order of [`KINDS`].
const ALLOWED: [&[u64]; KINDS.len()] = [
    &[0],
    &[0, 3, 15, 16, 17],
    &[0, 2, 3, 4, 5, 8, 9, 12],
    &[0, 1, 2, 3, 6, 7, 10, 12],
    &[0, 1, 2, 3, 9, 11, 12],
    &[0, 2, 3, 13, 14],
    &[0, 2, 3, 13, 14],
    &[0, 2, 3],
    &[0, 2],
    &[0, 2],
    &[0, 2, 3],
    &[0, 1, 2, 3, 6, 7, 10, 12, 16],
    &[0],
    &[0, 15, 16],
    &[0, 2, 3, 5, 10],
    &[0, 2, 3],
    &[0, 2, 3, 16],
    &[0, 2, 3],
];

/// How often each call answered each code.
#[derive(Default)]
pub struct Tally {
    met: [[u64; CODES]; KINDS.len()],
}

impl Tally {
    /// Counts an answer. False where the documents don't allow the code for the call.
    pub fn count(&mut self, kind: usize, code: u64) -> bool {
        let allowed = ALLOWED[kind].contains(&code);
        if allowed {
            self.met[kind][code as usize] += 1;
        }
        allowed
    }

    /// How many calls were made on stores, and how many on coordinators.
    pub fn of_each(&self) -> [u64; 2] {
        let (stores, coordinators) = self.met.split_at(ON_STORES);
        [stores, coordinators].map(|rows| rows.iter().flatten().sum())
    }

    /// The pairs of call and code that the documents allow and that were never met.
    pub fn missing(&self) -> Vec<String> {
        let never = |kind: usize| {
            let codes =
                ALLOWED[kind].iter().filter(move |&&code| self.met[kind][code as usize] == 0);
            codes.map(move |code| format!("{} {code}", KINDS[kind]))
        };
        (0..KINDS.len()).flat_map(never).collect()
    }
}

/// A line for each call: each code and how often it was met.
impl fmt::Display for Tally {
    fn fmt(&self, out: &mut fmt::Formatter<'_>) -> fmt::Result {
        for (kind, name) in KINDS.iter().enumerate() {
            write!(out, "{name:19} ")?;
            for &code in ALLOWED[kind] {
                write!(out, " {code}: {}", self.met[kind][code as usize])?;
            }
            writeln!(out)?;
        }
        Ok(())
    }
}
