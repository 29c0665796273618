//! Shared by the tests: comparing stores to the last byte, numbers by chance, and a second,
//! slow reading of the document over growing lists.
#![allow(dead_code)]

use independent::*;

/// The reply `code, number`, with the place that has to come with it.
pub fn reply(code: u8, number: u64, used: usize) -> Reply {
    Reply { code, number, place: if code == 0 { number as usize } else { used } }
}

/// Whether two stores agree in everything, also in rows past a count.
pub fn identical(one: &Store, two: &Store) -> bool {
    one.disk_values == two.disk_values
        && one.disk_stamps == two.disk_stamps
        && one.pending == two.pending
        && one.pending_count == two.pending_count
        && one.past == two.past
        && one.past_count == two.past_count
        && one.snapshots == two.snapshots
        && one.snapshot_count == two.snapshot_count
        && one.copies == two.copies
        && one.copy_count == two.copy_count
        && one.horizon == two.horizon
        && one.last == two.last
}

pub fn past(object: u64, from: u64, until: u64, value: u64) -> Past {
    Past { object, from, until, value }
}

pub fn pending(object: u64, first: u64, latest: u64, value: u64) -> Pending {
    Pending { object, first, latest, value }
}

pub fn copy(page: u64, stamp: u64, values: [u64; SLOTS]) -> Copy {
    Copy { page, stamp, values }
}

/// A store with these rows and a fresh disk.
pub fn store(
    pending: &[Pending],
    past: &[Past],
    snapshots: &[u64],
    copies: &[Copy],
    horizon: u64,
    last: u64,
) -> Box<Store> {
    let mut store = Box::new(Store::fresh());
    store.pending[..pending.len()].copy_from_slice(pending);
    store.pending_count = pending.len();
    store.past[..past.len()].copy_from_slice(past);
    store.past_count = past.len();
    store.snapshots[..snapshots.len()].copy_from_slice(snapshots);
    store.snapshot_count = snapshots.len();
    store.copies[..copies.len()].copy_from_slice(copies);
    store.copy_count = copies.len();
    store.horizon = horizon;
    store.last = last;
    store
}

/// The contents of a table.
pub fn pending_of(store: &Store) -> &[Pending] {
    &store.pending[..store.pending_count]
}

pub fn past_of(store: &Store) -> &[Past] {
    &store.past[..store.past_count]
}

pub fn snapshots_of(store: &Store) -> &[u64] {
    &store.snapshots[..store.snapshot_count]
}

pub fn copies_of(store: &Store) -> &[Copy] {
    &store.copies[..store.copy_count]
}

/// What `known` tells of these.
pub fn known(horizon: u64, last: u64, snapshots: &[u64]) -> Known {
    let mut known = Known { horizon, last, snapshots: [0; 64], snapshot_count: snapshots.len() };
    known.snapshots[..snapshots.len()].copy_from_slice(snapshots);
    known
}

/// A coordinator that has granted these stamps.
pub fn coordinator(granted: &[u64], sent: u64) -> Coordinator {
    let mut coordinator = Coordinator { sent, ..Coordinator::fresh() };
    coordinator.granted[..granted.len()].copy_from_slice(granted);
    coordinator.count = granted.len() as u64;
    coordinator
}

/// Whether two coordinators agree in everything, also in stamps past the count.
pub fn alike(one: &Coordinator, two: &Coordinator) -> bool {
    one.count == two.count && one.sent == two.sent && one.granted == two.granted
}

/// The bytes of a message.
pub fn message_bytes(prev: u64, curr: u64, stamps: &[u64]) -> Vec<u8> {
    let mut bytes = vec![0, 18 + 8 * stamps.len() as u8, 2];
    bytes.extend(prev.to_be_bytes());
    bytes.extend(curr.to_be_bytes());
    bytes.push(stamps.len() as u8);
    for stamp in stamps {
        bytes.extend(stamp.to_be_bytes());
    }
    bytes
}

/// The bytes of a request.
pub fn request_bytes(from: u64, to: u64) -> Vec<u8> {
    let mut bytes = vec![0, 17, 4];
    bytes.extend(from.to_be_bytes());
    bytes.extend(to.to_be_bytes());
    bytes
}

/// The number that these bytes are.
pub fn number(bytes: &[u8]) -> u64 {
    bytes.iter().fold(0, |n, &byte| n << 8 | u64::from(byte))
}

/// Sixteen values, of which those named differ from 0.
pub fn page_with(slots: &[(usize, u64)]) -> [u64; SLOTS] {
    let mut page = [0; SLOTS];
    for &(slot, value) in slots {
        page[slot] = value;
    }
    page
}

/// Numbers by chance (xorshift64*).
pub struct Chance(pub u64);

impl Chance {
    pub fn next(&mut self) -> u64 {
        self.0 ^= self.0 >> 12;
        self.0 ^= self.0 << 25;
        self.0 ^= self.0 >> 27;
        self.0.wrapping_mul(0x2545_F491_4F6C_DD1D)
    }

    pub fn below(&mut self, limit: u64) -> u64 {
        (self.next() >> 11) % limit
    }

    pub fn one_in(&mut self, limit: u64) -> bool {
        self.below(limit) == 0
    }

    pub fn pick<T: std::marker::Copy>(&mut self, from: &[T]) -> T {
        from[self.below(from.len() as u64) as usize]
    }
}

/// The slow reading: every rule as the document says it, with lists that grow and judged after
/// the fact.
#[derive(Clone, Debug, PartialEq)]
pub struct Model {
    pub disk: Vec<(u64, u64)>,
    pub pending: Vec<Pending>,
    pub past: Vec<Past>,
    pub snapshots: Vec<u64>,
    pub copies: Vec<Copy>,
    pub horizon: u64,
    pub last: u64,
    /// The count that is over its limit, if any.
    pub overcount: bool,
}

/// What a call of the model answers, and the record it writes.
pub struct Told {
    pub code: u8,
    pub number: u64,
    pub record: Vec<u8>,
}

fn told(code: u8, number: u64) -> Told {
    Told { code, number, record: Vec::new() }
}

impl Model {
    pub fn of(store: &Store) -> Model {
        Model {
            disk: store.disk_values.iter().copied().zip(store.disk_stamps).collect(),
            pending: store.pending[..store.pending_count.min(128)].to_vec(),
            past: store.past[..store.past_count.min(256)].to_vec(),
            snapshots: store.snapshots[..store.snapshot_count.min(64)].to_vec(),
            copies: store.copies[..store.copy_count.min(128)].to_vec(),
            horizon: store.horizon,
            last: store.last,
            overcount: store.pending_count > 128
                || store.past_count > 256
                || store.snapshot_count > 64
                || store.copy_count > 128,
        }
    }

    pub fn damaged(&self) -> bool {
        let doubled = (0..self.pending.len())
            .any(|i| (0..i).any(|k| self.pending[i].object == self.pending[k].object));
        self.overcount
            || self.pending.iter().any(|row| row.object > 511)
            || self.past.iter().any(|row| row.object > 511)
            || self.copies.iter().any(|row| row.page > 31)
            || doubled
            || self.snapshots.contains(&0)
            || self.snapshots.iter().any(|&s| s > self.horizon)
            || self.snapshots.windows(2).any(|pair| pair[0] >= pair[1])
    }

    fn mark(&self, page: u64) -> u64 {
        self.copies.iter().filter(|c| c.page == page).map(|c| c.stamp).max().unwrap_or(0)
    }

    fn live(&self, row: &Past) -> bool {
        let beyond_horizon = {
            let from = u128::from(row.from).max(u128::from(self.horizon) + 1);
            from < u128::from(row.until)
        };
        let mark = self.mark(row.object / 16);
        let holds = |s: u64| row.from <= s && s < row.until;
        beyond_horizon || self.snapshots.iter().any(|&s| holds(s) && s > mark)
    }

    /// The value of an object as of s, and its writing stamp where known.
    fn as_of(&self, object: u64, s: u64) -> (u64, Option<u64>) {
        let mut oldest: Option<&Copy> = None;
        for row in &self.copies {
            if row.page == object / 16 && row.stamp >= s {
                match oldest {
                    Some(other) if other.stamp <= row.stamp => {}
                    _ => oldest = Some(row),
                }
            }
        }
        if let Some(row) = oldest {
            return (row.values[object as usize % 16], None);
        }
        for row in &self.pending {
            if row.object == object && row.latest <= s {
                return (row.value, Some(row.latest));
            }
        }
        for row in &self.past {
            if row.object == object && row.from <= s && s < row.until {
                return (row.value, Some(row.from));
            }
        }
        let (value, stamp) = self.disk[object as usize];
        (value, Some(stamp))
    }

    fn current(&self, object: u64) -> (u64, u64) {
        for row in &self.pending {
            if row.object == object {
                return (row.value, row.latest);
            }
        }
        self.disk[object as usize]
    }

    fn finish(self, store: &mut Model, room: usize, used: usize, record: Vec<u8>) -> Told {
        let mut bytes = if used == 0 { vec![1] } else { vec![] };
        bytes.extend((record.len() as u16).to_be_bytes());
        bytes.extend(record);
        let reached = used + bytes.len();
        if reached > room {
            return told(12, reached as u64);
        }
        *store = self;
        Told { code: 0, number: reached as u64, record: bytes }
    }

    pub fn commit(
        &mut self,
        room: usize,
        used: usize,
        t: u64,
        objects: &[u64],
        values: &[u64],
    ) -> Told {
        if self.damaged() {
            return told(2, 0);
        }
        if objects.is_empty()
            || objects.len() > 16
            || objects.len() != values.len()
            || objects.iter().any(|&o| o > 511)
            || room > 65535
            || used > room
        {
            return told(3, 0);
        }
        if (0..objects.len()).any(|i| objects[..i].contains(&objects[i])) {
            return told(4, 0);
        }
        if t <= self.last || t <= self.horizon {
            return told(5, self.last.max(self.horizon));
        }
        let mut after = self.clone();
        for (&object, &value) in objects.iter().zip(values) {
            match after.pending.iter().position(|row| row.object == object) {
                Some(i) => {
                    let old = after.pending[i];
                    let row = past(object, old.latest, t, old.value);
                    if after.live(&row) {
                        after.past.push(row);
                    }
                    after.pending[i].latest = t;
                    after.pending[i].value = value;
                }
                None => after.pending.push(pending(object, t, t, value)),
            }
        }
        after.last = t;
        if after.pending.len() > 128 {
            return told(8, 0);
        }
        if after.past.len() > 256 {
            return told(9, 0);
        }
        let mut record = vec![1];
        record.extend(t.to_be_bytes());
        record.push(objects.len() as u8);
        for (&object, &value) in objects.iter().zip(values) {
            record.extend((object as u16).to_be_bytes());
            record.extend(value.to_be_bytes());
        }
        after.finish(self, room, used, record)
    }

    pub fn gossip(
        &mut self,
        room: usize,
        used: usize,
        prev: u64,
        curr: u64,
        stamps: &[u64],
    ) -> Told {
        if self.damaged() {
            return told(2, 0);
        }
        if stamps.len() > 16
            || prev > curr
            || stamps.windows(2).any(|pair| pair[0] >= pair[1])
            || stamps.iter().any(|&s| s <= prev || s > curr)
            || room > 65535
            || used > room
        {
            return told(3, 0);
        }
        if prev > self.horizon {
            return told(6, self.horizon);
        }
        let end = curr.min(self.horizon);
        let known = |s: u64| s > prev && s <= end && self.snapshots.contains(&s);
        let given = |s: u64| s <= end && stamps.contains(&s);
        let differing =
            stamps.iter().chain(&self.snapshots).copied().filter(|&s| known(s) != given(s)).min();
        if let Some(s) = differing {
            return told(7, s);
        }
        if curr <= self.horizon {
            return told(1, used as u64);
        }
        let mut after = self.clone();
        after.snapshots.extend(stamps.iter().filter(|&&s| s > self.horizon));
        after.horizon = curr;
        after.past = after.past.iter().filter(|row| after.live(row)).copied().collect();
        if after.snapshots.len() > 64 {
            return told(10, 0);
        }
        let mut record = vec![2];
        record.extend(prev.to_be_bytes());
        record.extend(curr.to_be_bytes());
        record.push(stamps.len() as u8);
        for &s in stamps {
            record.extend(s.to_be_bytes());
        }
        after.finish(self, room, used, record)
    }

    pub fn flush(&mut self, room: usize, used: usize, page: u64) -> Told {
        if self.damaged() {
            return told(2, 0);
        }
        if page > 31 || room > 65535 || used > room {
            return told(3, 0);
        }
        let objects = 16 * page..16 * page + 16;
        let mark = self.mark(page);
        let mut due = Vec::new();
        for (i, &s) in self.snapshots.iter().enumerate() {
            let late = |o: u64| {
                let written = match self.snapshots.get(i + 1) {
                    Some(&next) => self.as_of(o, next).1.expect("no copy beyond the mark"),
                    None => self.current(o).1,
                };
                written > s
            };
            if s > mark && objects.clone().any(late) {
                due.push(s);
            }
        }
        let here = |row: &&Pending| row.object / 16 == page;
        if due.is_empty() && !self.pending.iter().any(|row| here(&row)) {
            return told(1, used as u64);
        }
        let mut after = self.clone();
        for s in due {
            let mut values = [0; 16];
            for o in objects.clone() {
                values[o as usize % 16] = self.as_of(o, s).0;
            }
            after.copies.push(copy(page, s, values));
        }
        for row in self.pending.iter().filter(here) {
            let (value, stamp) = after.disk[row.object as usize];
            after.past.push(past(row.object, stamp, row.first, value));
            after.disk[row.object as usize] = (row.value, row.latest);
        }
        after.pending.retain(|row| row.object / 16 != page);
        after.past = after
            .past
            .iter()
            .filter(|row| row.object / 16 != page || after.live(row))
            .copied()
            .collect();
        if after.copies.len() > 128 {
            return told(11, 0);
        }
        if after.past.len() > 256 {
            return told(9, 0);
        }
        after.finish(self, room, used, vec![3, page as u8])
    }

    pub fn snapshot_read(&self, time: u64, page: u64, buffer: &mut [u64]) -> (u8, u64) {
        if self.damaged() {
            return (2, 0);
        }
        if page > 31 || buffer.len() != 16 {
            return (3, 0);
        }
        if time > self.horizon {
            return (13, self.horizon);
        }
        let Some(s) = self.snapshots.iter().copied().filter(|&s| s <= time).max() else {
            return (14, 0);
        };
        for (slot, value) in buffer.iter_mut().enumerate() {
            *value = self.as_of(16 * page + slot as u64, s).0;
        }
        (0, s)
    }

    pub fn clock_read(&self, tick: u64, page: u64, buffer: &mut [u64]) -> (u8, u64) {
        if self.damaged() {
            return (2, 0);
        }
        if tick > (1 << 56) - 1 {
            return (3, 0);
        }
        self.snapshot_read(256 * tick, page, buffer)
    }

    pub fn current_read(&self, page: u64, buffer: &mut [u64]) -> (u8, u64) {
        if self.damaged() {
            return (2, 0);
        }
        if page > 31 || buffer.len() != 16 {
            return (3, 0);
        }
        for (slot, value) in buffer.iter_mut().enumerate() {
            *value = self.current(16 * page + slot as u64).0;
        }
        (0, 0)
    }

    pub fn standing(&self) -> (u8, u64, Figures) {
        if self.damaged() {
            return (2, 0, Figures::default());
        }
        let lag = i128::from(self.last / 256) - i128::from(self.horizon / 256);
        let figures = Figures {
            pending: self.pending.len() as u64,
            past: self.past.len() as u64,
            snapshots: self.snapshots.len() as u64,
            copies: self.copies.len() as u64,
            lag: i64::try_from(lag).expect("ticks are below 2^56"),
        };
        (0, 0, figures)
    }

    pub fn known(&self) -> (u8, u64, Known) {
        if self.damaged() {
            return (2, 0, known(0, 0, &[]));
        }
        (0, 0, known(self.horizon, self.last, &self.snapshots))
    }

    pub fn restart(&mut self, journal: &[u8]) -> (u8, u64) {
        let fresh = Model::of(&Store::fresh());
        *self = fresh.clone();
        if journal.len() > 65535 {
            return (3, 0);
        }
        if journal.is_empty() {
            return (0, 0);
        }
        if journal[0] != 1 {
            return (15, u64::from(journal[0]));
        }
        let mut place = 1;
        loop {
            let rest = &journal[place..];
            if rest.len() < 2 {
                return (0, place as u64);
            }
            let length = number(&rest[..2]) as usize;
            let mut answer = 16;
            if (2..=170).contains(&length) {
                if rest.len() < 2 + length {
                    return (0, place as u64);
                }
                let record = &rest[2..2 + length];
                // The calls themselves tell: Shape and Twice are malformed, all else contradicts.
                let code = match record[0] {
                    1 if length >= 10 && length == 10 + 10 * usize::from(record[9]) => {
                        let writes: Vec<_> = record[10..].chunks(10).collect();
                        let objects: Vec<_> = writes.iter().map(|w| number(&w[..2])).collect();
                        let values: Vec<_> = writes.iter().map(|w| number(&w[2..])).collect();
                        self.commit(65535, 1, number(&record[1..9]), &objects, &values).code
                    }
                    2 if length >= 18 && length == 18 + 8 * usize::from(record[17]) => {
                        let stamps: Vec<_> = record[18..].chunks(8).map(number).collect();
                        let (prev, curr) = (number(&record[1..9]), number(&record[9..17]));
                        self.gossip(65535, 1, prev, curr, &stamps).code
                    }
                    3 if length == 2 => self.flush(65535, 1, u64::from(record[1])).code,
                    _ => 3,
                };
                answer = match code {
                    0 => 0,
                    3 | 4 => 16,
                    _ => 17,
                };
            }
            if answer != 0 {
                *self = fresh;
                return (answer, place as u64);
            }
            place += 2 + length;
        }
    }
}
