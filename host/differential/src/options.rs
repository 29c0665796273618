//! The flags.

use crate::fault::{self, Fault};
use std::time::Duration;

/// What the command line asks for.
#[derive(Debug, PartialEq)]
pub struct Options {
    pub seed: u64,
    /// Stop after this time,
    pub time: Duration,
    /// or, where given, after so many calls instead.
    pub calls: Option<u64>,
    /// A fault on the library's side, to see the comparison fail.
    pub fault: Fault,
}

/// How the program is called.
pub const USAGE: &str = "\
differential [--seconds N] [--long] [--calls N] [--seed S]
  --seconds N  compare for N seconds (60)
  --long       compare for 30 minutes
  --calls N    make N calls, however long it takes; the same calls for the same seed
  --seed S     the seed of the calls (1)";

impl Options {
    /// Reads the flags, or says what is wrong with them.
    pub fn read(mut words: impl Iterator<Item = String>) -> Result<Options, String> {
        let minute = Duration::from_secs(60);
        let mut options = Options { seed: 1, time: minute, calls: None, fault: Fault::None };
        while let Some(word) = words.next() {
            let mut number = || {
                let value = words.next().and_then(|value| value.parse::<u64>().ok());
                value.ok_or_else(|| format!("{word} takes a number"))
            };
            match word.as_str() {
                "--seconds" => options.time = Duration::from_secs(number()?),
                "--long" => options.time = 30 * minute,
                "--calls" => options.calls = Some(number()?),
                "--seed" => options.seed = number()?,
                "--fault" => {
                    let name = words.next().unwrap_or_default();
                    options.fault = fault::named(&name).ok_or("no such fault")?;
                }
                _ => return Err(format!("unknown flag {word}")),
            }
        }
        Ok(options)
    }
}
