//! The bytes of the records: a two-byte length of what follows, a kind byte and a body, all
//! numbers big-endian.

use crate::calls::{gossip_in_shape, Refusal};
use crate::{code, JOURNAL, MESSAGE, STAMPS, VERSION};

/// Kind byte of a commit.
pub(crate) const COMMIT: u8 = 1;
/// Kind byte of a gossip message.
pub(crate) const GOSSIP: u8 = 2;
/// Kind byte of a flush.
pub(crate) const FLUSH: u8 = 3;
/// Kind byte of a request for a message, which travels and never stands in a journal.
pub(crate) const REQUEST: u8 = 4;

/// Bytes of a record's length.
pub(crate) const LENGTH: usize = 2;
/// Length of a commit without writes, and what each write adds.
pub(crate) const COMMIT_HEAD: usize = 10;
pub(crate) const WRITE: usize = 10;
/// Length of a message without stamps, and what each stamp adds.
pub(crate) const GOSSIP_HEAD: usize = 18;
pub(crate) const STAMP: usize = 8;
/// Length of a flush.
pub(crate) const FLUSH_ALL: usize = 2;
/// Length of a request.
pub(crate) const REQUEST_ALL: usize = 17;
/// The lengths a record may have.
pub(crate) const SHORTEST: usize = 2;
pub(crate) const LONGEST: usize = 170;

const _: () = assert!(message_size(STAMPS) == MESSAGE && LENGTH + REQUEST_ALL == crate::REQUEST);

/// Bytes of a message with this many stamps.
pub(crate) const fn message_size(stamps: usize) -> usize {
    LENGTH + GOSSIP_HEAD + STAMP * stamps
}

/// Whether a call may be lent this journal with this used length.
pub(crate) fn in_shape(journal: &[u8], used: usize) -> bool {
    journal.len() <= JOURNAL && used <= journal.len()
}

/// Room at the end of the used part for a record of this many bytes, and the new used length. This
/// is the last of each call's tests, so it also writes the version byte of an empty journal.
fn room(journal: &mut [u8], used: usize, size: usize) -> Result<(&mut [u8], usize), Refusal> {
    let start = used.max(1);
    let end = start + size;
    if end > journal.len() {
        return Err(Refusal(code::NO_JOURNAL_ROOM, end as u64));
    }
    if used == 0 {
        journal[0] = VERSION;
    }
    Ok((&mut journal[start..end], end))
}

/// Writes the length and the kind of the record that fills these bytes; gives those of its body.
fn begin(record: &mut [u8], kind: u8) -> &mut [u8] {
    let length = record.len() - LENGTH;
    let (head, body) = record.split_at_mut(LENGTH + 1);
    head[..LENGTH].copy_from_slice(&(length as u16).to_be_bytes());
    head[LENGTH] = kind;
    body
}

/// Appends a commit; gives the new used length.
pub(crate) fn append_commit(
    journal: &mut [u8],
    used: usize,
    t: u64,
    objects: &[u64],
    values: &[u64],
) -> Result<usize, Refusal> {
    let (record, end) = room(journal, used, LENGTH + COMMIT_HEAD + WRITE * objects.len())?;
    let (head, writes) = begin(record, COMMIT).split_at_mut(9);
    head[..8].copy_from_slice(&t.to_be_bytes());
    head[8] = objects.len() as u8;
    for ((bytes, &object), &value) in writes.chunks_exact_mut(WRITE).zip(objects).zip(values) {
        bytes[..2].copy_from_slice(&(object as u16).to_be_bytes());
        bytes[2..].copy_from_slice(&value.to_be_bytes());
    }
    Ok(end)
}

/// Appends a gossip message; gives the new used length.
pub(crate) fn append_gossip(
    journal: &mut [u8],
    used: usize,
    prev: u64,
    curr: u64,
    stamps: &[u64],
) -> Result<usize, Refusal> {
    let (record, end) = room(journal, used, message_size(stamps.len()))?;
    put_message(record, prev, curr, stamps);
    Ok(end)
}

/// Appends a flush; gives the new used length.
pub(crate) fn append_flush(journal: &mut [u8], used: usize, page: usize) -> Result<usize, Refusal> {
    let (record, end) = room(journal, used, LENGTH + FLUSH_ALL)?;
    begin(record, FLUSH)[0] = page as u8;
    Ok(end)
}

/// Appends a record that has its bytes already; gives the new used length.
pub(crate) fn append_record(
    journal: &mut [u8],
    used: usize,
    bytes: &[u8],
) -> Result<usize, Refusal> {
    let (record, end) = room(journal, used, bytes.len())?;
    record.copy_from_slice(bytes);
    Ok(end)
}

/// Writes a message over bytes of its size.
pub(crate) fn put_message(record: &mut [u8], prev: u64, curr: u64, stamps: &[u64]) {
    let (head, rest) = begin(record, GOSSIP).split_at_mut(17);
    head[..8].copy_from_slice(&prev.to_be_bytes());
    head[8..16].copy_from_slice(&curr.to_be_bytes());
    head[16] = stamps.len() as u8;
    put_stamps(rest, stamps);
}

/// Writes a request over bytes of its size.
pub(crate) fn put_request(record: &mut [u8], from: u64, to: u64) {
    let body = begin(record, REQUEST);
    body[..8].copy_from_slice(&from.to_be_bytes());
    body[8..].copy_from_slice(&to.to_be_bytes());
}

/// Writes stamps over bytes of their size.
pub(crate) fn put_stamps(bytes: &mut [u8], stamps: &[u64]) {
    for (bytes, &stamp) in bytes.chunks_exact_mut(STAMP).zip(stamps) {
        bytes.copy_from_slice(&stamp.to_be_bytes());
    }
}

/// What [`gossip_of`] and [`message_of`] read: the bounds and the stamps.
pub(crate) type Message<'a> = (u64, u64, &'a [u64]);

/// Reads a message's body into the stamps lent, if it is well formed.
pub(crate) fn gossip_of<'a>(body: &[u8], stamps: &'a mut [u64; STAMPS]) -> Option<Message<'a>> {
    let prev = u64_at(body)?;
    let curr = u64_at(&body[8..])?;
    let count = usize::from(*body.get(16)?);
    let rest = &body[17..];
    let stamps = stamps.get_mut(..count)?;
    if rest.len() != STAMP * count {
        return None;
    }
    for (bytes, stamp) in rest.chunks_exact(STAMP).zip(&mut *stamps) {
        *stamp = u64_at(bytes).unwrap_or_default();
    }
    gossip_in_shape(prev, curr, stamps).then_some((prev, curr, stamps))
}

/// Reads a message, if the bytes are one and nothing else.
pub(crate) fn message_of<'a>(bytes: &[u8], stamps: &'a mut [u64; STAMPS]) -> Option<Message<'a>> {
    gossip_of(body_of(bytes, GOSSIP)?, stamps)
}

/// Reads a request's ends, if the bytes are one and nothing else.
pub(crate) fn request_of(bytes: &[u8]) -> Option<(u64, u64)> {
    let body = body_of(bytes, REQUEST)?;
    if body.len() != REQUEST_ALL - 1 {
        return None;
    }
    Some((u64_at(body)?, u64_at(&body[8..])?))
}

/// The body of the record that these bytes are, if they are one whole record of this kind.
fn body_of(bytes: &[u8], kind: u8) -> Option<&[u8]> {
    let (head, body) = bytes.split_first_chunk::<{ LENGTH + 1 }>()?;
    let length = usize::from(u16::from_be_bytes([head[0], head[1]]));
    (length == bytes.len() - LENGTH && head[LENGTH] == kind).then_some(body)
}

/// The first eight bytes as a number.
pub(crate) fn u64_at(bytes: &[u8]) -> Option<u64> {
    bytes.first_chunk().map(|bytes| u64::from_be_bytes(*bytes))
}

/// The first two bytes as a number.
pub(crate) fn u16_at(bytes: &[u8]) -> Option<u16> {
    bytes.first_chunk().map(|bytes| u16::from_be_bytes(*bytes))
}
