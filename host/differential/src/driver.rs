//! Makes one run after another until the time is over, the calls are made, or the sides differ.

use crate::call::{Call, KINDS};
use crate::fault::Fault;
use crate::options::Options;
use crate::run::{Difference, Pair, Start};
use crate::schedule::Run;
use crate::shrink::Case;
use crate::tally::Tally;
use std::time::Instant;

/// The calls made so far.
pub struct Driver {
    options: Options,
    begun: Instant,
    /// The minute that was told last.
    minute: u64,
    pub runs: u64,
    pub calls: u64,
    pub tally: Tally,
}

/// A run after which the sides differ, or in which they agree on what may not be.
pub struct Finding {
    /// The run's number, and that of the last call in it.
    pub run: u64,
    pub call: usize,
    pub start: Start,
    pub calls: Vec<Call>,
    pub difference: Box<Difference>,
}

impl Driver {
    pub fn new(options: Options) -> Driver {
        let begun = Instant::now();
        Driver { options, begun, minute: 0, runs: 0, calls: 0, tally: Tally::default() }
    }

    /// Makes the runs. What was found, if anything was.
    pub fn drive(&mut self) -> Option<Box<Finding>> {
        while !self.over() {
            if let Some(finding) = self.run() {
                return Some(finding);
            }
            self.runs += 1;
            self.tell_minute();
        }
        None
    }

    /// Says once a minute how far it is.
    fn tell_minute(&mut self) {
        let minute = self.begun.elapsed().as_secs() / 60;
        if minute > self.minute {
            self.minute = minute;
            eprintln!("{minute} min: {} calls", self.calls);
        }
    }

    /// Whether all is done; the clock is looked at between runs.
    fn over(&self) -> bool {
        match self.options.calls {
            Some(calls) => self.calls >= calls,
            None => self.begun.elapsed() >= self.options.time,
        }
    }

    /// Makes the next run.
    fn run(&mut self) -> Option<Box<Finding>> {
        let mut run = Run::of(self.options.seed, self.runs);
        let mut pair = Pair::new(&run.start, self.options.fault);
        let mut made: Vec<Call> = Vec::new();
        while let Some(call) = run.next(&pair.view()) {
            if self.options.calls.is_some_and(|calls| self.calls >= calls) {
                break;
            }
            self.calls += 1;
            let outcome = self.count(&call, pair.play(&call)).and_then(|code| {
                let broken = run.broken(&pair.view(), &call, code);
                broken.map_or(Ok(()), |what| Err(Difference::agreed(what)))
            });
            made.push(call);
            if let Err(difference) = outcome {
                let (start, call) = (run.start, made.len() - 1);
                return Some(Box::new(Finding {
                    run: self.runs,
                    call,
                    start,
                    calls: made,
                    difference,
                }));
            }
        }
        None
    }

    /// Counts an answer; a code that isn't allowed is a difference from the documents.
    fn count(
        &mut self,
        call: &Call,
        outcome: Result<u64, Box<Difference>>,
    ) -> Result<u64, Box<Difference>> {
        let code = outcome?;
        if self.tally.count(call.kind(), code) {
            return Ok(code);
        }
        let what = format!("both answer {code} to a {}, which may not be", KINDS[call.kind()]);
        Err(Difference::agreed(what))
    }

    /// The finding made small.
    pub fn shrunk(&self, finding: Finding) -> Case {
        Case::shrunk(finding.start, finding.calls, self.fault())
    }

    /// The fault that is laid on the library's side.
    pub fn fault(&self) -> Fault {
        self.options.fault
    }
}
