//! Rebuilding a store from its journal.

use crate::calls::{commit_in_shape, names_twice, page_in_shape, Reply};
use crate::journal::{self, u16_at, u64_at};
use crate::tables::{Rows, Store};
use crate::{code, JOURNAL, OBJECTS, STAMPS, VERSION, WRITES};

impl Store {
    /// Rebuilds the store from the surviving bytes of its journal; what it was plays no part. The
    /// number is the place after the last whole record. Refused, it leaves a fresh store.
    pub fn restart(&mut self, journal: &[u8]) -> Reply {
        self.empty();
        match self.replay(journal) {
            Ok(place) => Reply { code: code::DONE, number: place as u64, place },
            Err((code, number)) => {
                self.empty();
                Reply { code, number, place: 0 }
            }
        }
    }

    fn replay(&mut self, journal: &[u8]) -> Result<usize, (u8, u64)> {
        if journal.len() > JOURNAL {
            return Err((code::SHAPE, 0));
        }
        match journal.first() {
            None => return Ok(0),
            Some(&VERSION) => {}
            Some(&found) => return Err((code::VERSION, u64::from(found))),
        }
        // Kept up by the changes, so that no record has to fill it anew.
        let mut rows = [0; OBJECTS];
        let mut place = 1;
        while let Some(length) = u16_at(&journal[place..]) {
            let bad = |code| (code, place as u64);
            let length = usize::from(length);
            if !(journal::SHORTEST..=journal::LONGEST).contains(&length) {
                return Err(bad(code::MALFORMED));
            }
            let start = place + journal::LENGTH;
            let Some(record) = journal.get(start..start + length) else {
                break;
            };
            let body = &record[1..];
            match record[0] {
                journal::COMMIT => self.replay_commit(body, &mut rows),
                journal::GOSSIP => self.replay_gossip(body),
                journal::FLUSH => self.replay_flush(body, &mut rows),
                _ => Err(code::MALFORMED),
            }
            .map_err(bad)?;
            place = start + length;
        }
        Ok(place)
    }

    fn replay_commit(&mut self, body: &[u8], rows: &mut Rows) -> Result<(), u8> {
        let (t, count, writes) = commit_parts(body).ok_or(code::MALFORMED)?;
        let mut objects = [0; WRITES];
        let mut values = [0; WRITES];
        let (objects, values) = (&mut objects[..count], &mut values[..count]);
        for ((bytes, object), value) in
            writes.chunks_exact(journal::WRITE).zip(&mut *objects).zip(&mut *values)
        {
            *object = u64::from(u16_at(bytes).unwrap_or_default());
            *value = u64_at(&bytes[2..]).unwrap_or_default();
        }
        if !commit_in_shape(objects, values) || names_twice(objects) {
            return Err(code::MALFORMED);
        }
        let plan = self.judge_commit(t, objects, rows).map_err(|_| code::CONTRADICTION)?;
        self.apply_commit(&plan, t, objects, values, rows);
        Ok(())
    }

    fn replay_gossip(&mut self, body: &[u8]) -> Result<(), u8> {
        let mut stamps = [0; STAMPS];
        let (prev, curr, stamps) = journal::gossip_of(body, &mut stamps).ok_or(code::MALFORMED)?;
        let plan = self.judge_gossip(0, prev, curr, stamps).map_err(|_| code::CONTRADICTION)?;
        self.apply_gossip(&plan, curr);
        Ok(())
    }

    fn replay_flush(&mut self, body: &[u8], rows: &mut Rows) -> Result<(), u8> {
        let &[page] = body else {
            return Err(code::MALFORMED);
        };
        let page = page_in_shape(u64::from(page)).ok_or(code::MALFORMED)?;
        let plan = self.judge_flush(0, page, rows).map_err(|_| code::CONTRADICTION)?;
        self.apply_flush(&plan, page, rows);
        Ok(())
    }
}

/// A commit's stamp, count and writes, if the count is in range and they have its length.
fn commit_parts(body: &[u8]) -> Option<(u64, usize, &[u8])> {
    let t = u64_at(body)?;
    let count = usize::from(*body.get(8)?);
    let writes = &body[9..];
    (count <= WRITES && writes.len() == journal::WRITE * count).then_some((t, count, writes))
}
