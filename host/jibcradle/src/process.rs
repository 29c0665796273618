//! Who holds a lock: the line in a lock file, and whether the process that it names still lives.
//!
//! The line is `PID START BOOT`: the process's number, its start in clock ticks since the machine
//! started, and the name of that start of the machine. A number alone is used again and again, the
//! three together never. Older locks have the number alone.

use crate::ffi;
use std::fs;

/// A process as a lock names it.
#[derive(Clone, Debug, PartialEq, Eq)]
pub(crate) struct Process {
    pub number: u32,
    /// Its start and the machine's, where they are known.
    since: Option<(u64, String)>,
}

/// How it is with a process.
#[derive(Clone, Copy, Debug, PartialEq, Eq)]
pub(crate) enum State {
    Living,
    /// It was killed or is at its end, but isn't dead yet.
    Dying,
    Gone,
}

/// What there is to read in a lock.
#[derive(Debug, PartialEq, Eq)]
pub(crate) enum Line {
    /// The line isn't whole: its process may be about to write it.
    Unfinished,
    /// A whole line that names no process.
    Nobody,
    /// A process.
    Of(Process),
}

/// The largest number that a process can have.
const LARGEST: u32 = i32::MAX as u32;

impl Line {
    /// The line at the start of a lock.
    pub fn read(lock: &[u8]) -> Line {
        let Some(end) = lock.iter().position(|&byte| byte == b'\n') else {
            return Line::Unfinished;
        };
        let text = std::str::from_utf8(&lock[..end]).ok();
        text.and_then(named).map_or(Line::Nobody, Line::Of)
    }

    /// The number of its process, where it names one.
    pub fn number(&self) -> Option<u32> {
        match self {
            Line::Of(process) => Some(process.number),
            Line::Unfinished | Line::Nobody => None,
        }
    }
}

/// The process that a line names.
fn named(line: &str) -> Option<Process> {
    let words: Vec<&str> = line.split(' ').collect();
    let number = decimal(words[0])?;
    let number = u32::try_from(number).ok().filter(|number| (1..=LARGEST).contains(number))?;
    match words[1..] {
        [] => Some(Process { number, since: None }),
        [start, boot] => Some(Process { number, since: Some((decimal(start)?, boot.into())) }),
        _ => None,
    }
}

/// A number of digits alone.
fn decimal(word: &str) -> Option<u64> {
    let digits = word.bytes().all(|byte| byte.is_ascii_digit());
    word.parse().ok().filter(|_| digits)
}

impl Process {
    /// This one.
    pub fn own() -> Process {
        let number = std::process::id();
        let since = told("self").map(|told| told.start).zip(boot());
        Process { number, since }
    }

    /// The line that names it in a lock.
    pub fn line(&self) -> String {
        match &self.since {
            Some((start, boot)) => format!("{} {start} {boot}\n", self.number),
            None => format!("{}\n", self.number),
        }
    }

    /// How it is with it now. A process that can't be looked at is judged by its number alone. One
    /// that was just killed may seem to live for some microseconds more.
    pub fn state(&self) -> State {
        if !i32::try_from(self.number).is_ok_and(ffi::process_exists) {
            return State::Gone;
        }
        if let (Some((_, then)), Some(now)) = (&self.since, boot()) {
            if *then != now {
                return State::Gone;
            }
        }
        let Some(told) = told(&self.number.to_string()) else {
            return State::Living;
        };
        if self.since.as_ref().is_some_and(|(start, _)| *start != told.start) {
            return State::Gone;
        }
        match told.state {
            'Z' | 'X' | 'x' => State::Gone,
            _ if told.exits || is_killed(self.number) => State::Dying,
            _ => State::Living,
        }
    }
}

/// The name of this start of the machine.
fn boot() -> Option<String> {
    let name = fs::read_to_string("/proc/sys/kernel/random/boot_id").ok()?;
    Some(name.trim_end().to_string()).filter(|name| !name.is_empty())
}

/// What the system tells of a process.
struct Told {
    state: char,
    exits: bool,
    start: u64,
}

/// Its fields 3, 9 and 22. The second is the program's name in brackets, which may hold anything,
/// so the others are counted behind the last bracket.
fn told(process: &str) -> Option<Told> {
    const EXITS: u64 = 4;
    let text = fs::read(format!("/proc/{process}/stat")).ok()?;
    let text = String::from_utf8_lossy(&text);
    let (_, rest) = text.rsplit_once(')')?;
    let fields: Vec<&str> = rest.split_ascii_whitespace().collect();
    let flags: u64 = fields.get(6)?.parse().ok()?;
    let start = fields.get(19)?.parse().ok()?;
    Some(Told { state: fields[0].chars().next()?, exits: flags & EXITS != 0, start })
}

/// Whether a signal that kills waits for the process.
fn is_killed(process: u32) -> bool {
    const KILL: u64 = 1 << 8;
    let text = fs::read_to_string(format!("/proc/{process}/status")).unwrap_or_default();
    let signals = |line: &str| {
        let mask = line.strip_prefix("SigPnd:").or(line.strip_prefix("ShdPnd:"))?;
        u64::from_str_radix(mask.trim(), 16).ok()
    };
    text.lines().filter_map(signals).any(|signals| signals & KILL != 0)
}

#[cfg(test)]
mod tests {
    use super::*;
    use std::process::Command;
    use std::time::{Duration, Instant};

    #[test]
    fn lines_of_locks() {
        for text in ["", "12", "12 34 ab"] {
            assert_eq!(Line::read(text.as_bytes()), Line::Unfinished, "{text:?}");
        }
        let nobody =
            " |0|-1|+1|rubbish|12 |12 34|12 34 ab c|12 x ab|2147483648|99999999999999999999";
        for text in nobody.split('|').chain(["", "\u{e9}"]) {
            let line = format!("{text}\n");
            assert_eq!(Line::read(line.as_bytes()), Line::Nobody, "{text:?}");
        }
        assert_eq!(Line::read(b"\xff\n"), Line::Nobody);
        let old = Process { number: 12, since: None };
        assert_eq!(Line::read(b"12\n"), Line::Of(old.clone()));
        assert_eq!(old.line(), "12\n");
        let new = Process { number: 12, since: Some((34, "ab".into())) };
        assert_eq!(Line::read(b"12 34 ab\nand more"), Line::Of(new.clone()));
        assert_eq!(new.line(), "12 34 ab\n");
        let own = Process::own();
        assert_eq!(Line::read(own.line().as_bytes()), Line::Of(own));
    }

    /// A process that sleeps, as a lock of its own would name it.
    fn sleeper() -> (std::process::Child, Process) {
        let child = Command::new("sleep").arg("60").spawn().unwrap();
        let start = told(&child.id().to_string()).unwrap().start;
        let process = Process { number: child.id(), since: Some((start, boot().unwrap())) };
        (child, process)
    }

    #[test]
    fn a_process_lives_until_it_is_dead() {
        assert_eq!(Process::own().state(), State::Living);
        let (mut child, process) = sleeper();
        assert_eq!(process.state(), State::Living);
        let old = Process { since: None, ..process.clone() };
        assert_eq!(old.state(), State::Living);
        let (start, boot) = process.since.clone().unwrap();
        let other = Process { since: Some((start + 1, boot)), ..process.clone() };
        assert_eq!(other.state(), State::Gone);
        let other = Process { since: Some((start, "another".into())), ..process.clone() };
        assert_eq!(other.state(), State::Gone);

        child.kill().unwrap();
        let killed = Instant::now();
        while process.state() != State::Gone {
            assert!(killed.elapsed() < Duration::from_secs(20), "{:?}", process.state());
        }
        // Dead, but nobody has waited for it.
        assert_eq!([process.state(), old.state()], [State::Gone; 2]);
        child.wait().unwrap();
        assert_eq!([process.state(), old.state()], [State::Gone; 2]);
    }
}
