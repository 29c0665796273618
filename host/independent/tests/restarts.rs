//! Restart: what is malformed, what contradicts, and where.

mod common;
use common::*;
use independent::*;

fn record(kind: u8, body: &[u8]) -> Vec<u8> {
    let mut bytes = (1 + body.len() as u16).to_be_bytes().to_vec();
    bytes.push(kind);
    bytes.extend(body);
    bytes
}

fn commit(t: u64, count: u8, writes: &[(u16, u64)]) -> Vec<u8> {
    let mut body = t.to_be_bytes().to_vec();
    body.push(count);
    for (object, value) in writes {
        body.extend(object.to_be_bytes());
        body.extend(value.to_be_bytes());
    }
    record(1, &body)
}

fn gossip(prev: u64, curr: u64, count: u8, stamps: &[u64]) -> Vec<u8> {
    let mut body = prev.to_be_bytes().to_vec();
    body.extend(curr.to_be_bytes());
    body.push(count);
    for stamp in stamps {
        body.extend(stamp.to_be_bytes());
    }
    record(2, &body)
}

fn flush(page: u8) -> Vec<u8> {
    record(3, &[page])
}

fn journal(records: &[Vec<u8>]) -> Vec<u8> {
    let mut bytes = vec![1];
    bytes.extend(records.concat());
    bytes
}

/// Restarts a store full of other things; gives the reply and checks that a refusal left a fresh
/// store.
fn restart(bytes: &[u8]) -> Reply {
    let mut sample =
        store(&[pending(5, 5, 5, 5)], &[past(6, 6, 6, 6)], &[7], &[copy(8, 8, [8; 16])], 9, 9);
    sample.disk_values[3] = 3;
    sample.disk_stamps[3] = 3;
    let answer = sample.restart(bytes);
    if answer.code != 0 {
        assert_eq!(answer.place, 0);
        assert_eq!(*sample, Store::fresh());
    } else {
        assert_eq!(answer.place as u64, answer.number);
    }
    answer
}

/// After two good records (places 1 and 23) comes this one, at 27.
fn third(last: Vec<u8>, code: u8) {
    let good = [commit(100, 1, &[(0, 7)]), flush(0)];
    let whole = journal(&[good[0].clone(), good[1].clone(), last.clone()]);
    let end = whole.len() as u64;
    let number = if code == 0 { end } else { 27 };
    assert_eq!(restart(&whole), reply(code, number, 0), "{last:?}");
    // Whatever comes after it makes no difference, if it's bad.
    if code != 0 {
        for rest in [&flush(0)[..], &[0, 0], &[0xFF; 300], &[0]] {
            let mut more = whole.clone();
            more.extend(rest);
            assert_eq!(restart(&more), reply(code, 27, 0), "{last:?}");
        }
    }
    // A byte short, it isn't there: unless its length alone is wrong.
    let length = u16::from_be_bytes([last[0], last[1]]);
    let cut = restart(&whole[..whole.len() - 1]);
    if (2..=170).contains(&length) && last.len() == 2 + length as usize {
        assert_eq!(cut, reply(0, 27, 0), "{last:?}");
    }
}

#[test]
fn versions() {
    assert_eq!(restart(&[]), reply(0, 0, 0));
    assert_eq!(restart(&[1]), reply(0, 1, 0));
    for byte in (0..=255).filter(|&byte| byte != 1) {
        assert_eq!(restart(&[byte]), reply(15, u64::from(byte), 0));
        // Before any record.
        assert_eq!(restart(&[byte, 0, 0]), reply(15, u64::from(byte), 0));
    }
}

#[test]
fn too_long() {
    // Shape comes before Version.
    assert_eq!(restart(&[9; 65_536]), reply(3, 0, 0));
    assert_eq!(restart(&[1; 65_536]), reply(3, 0, 0));
    assert_eq!(restart(&[9; 65_535]), reply(15, 9, 0));
    // 0x0101 is a length over 170.
    assert_eq!(restart(&[1; 65_535]), reply(16, 1, 0));
}

#[test]
fn lengths() {
    // One byte of a length isn't enough to judge, two are.
    for first in 0..=255 {
        assert_eq!(restart(&[1, first]), reply(0, 1, 0));
    }
    for length in 0..=u16::MAX {
        let [high, low] = length.to_be_bytes();
        let code = if (2..=170).contains(&length) { 0 } else { 16 };
        assert_eq!(restart(&[1, high, low]), reply(code, 1, 0), "{length}");
    }
    third(vec![0, 0], 16);
    third(vec![0, 1, 3], 16);
    third(vec![0, 171, 1], 16);
    third(vec![1, 0], 16);
    third(vec![0xFF, 0xFF], 16);
}

#[test]
fn kinds() {
    for kind in (0..=255).filter(|kind| !(1..=3).contains(kind)) {
        third(record(kind, &[0]), 16);
        third(record(kind, &[0; 169]), 16);
    }
}

#[test]
fn commits() {
    let writes: Vec<(u16, u64)> = (0..17).map(|object| (object, 9)).collect();
    third(commit(101, 1, &writes[..1]), 0);
    third(commit(101, 16, &writes[..16]), 0);
    third(commit(u64::MAX, 1, &[(511, u64::MAX)]), 0);
    // Counts.
    third(commit(101, 0, &[]), 16);
    third(commit(101, 0, &writes[..1]), 16);
    third(commit(101, 1, &[]), 16);
    third(commit(101, 1, &writes[..2]), 16);
    third(commit(101, 2, &writes[..1]), 16);
    third(commit(101, 17, &writes[..16]), 16);
    third(commit(101, 17, &writes), 16); // length 180
    third(commit(101, 255, &writes[..16]), 16);
    // Lengths between.
    for length in 1..170 {
        let code = if length == 19 { 0 } else { 16 };
        let mut body = commit(101, 1, &writes[..1])[3..].to_vec();
        body.resize(length, 0);
        third(record(1, &body), code);
    }
    // Objects.
    third(commit(101, 1, &[(512, 9)]), 16);
    third(commit(101, 2, &[(3, 9), (65_535, 9)]), 16);
    third(commit(101, 2, &[(3, 9), (3, 9)]), 16);
    third(commit(101, 3, &[(3, 9), (4, 9), (3, 8)]), 16);
    // Late, stamp 0 too, isn't a matter of form; form comes first.
    third(commit(100, 1, &writes[..1]), 17);
    third(commit(0, 1, &writes[..1]), 17);
    third(commit(100, 1, &[(512, 9)]), 16);
    third(commit(0, 2, &[(3, 9), (3, 9)]), 16);
}

#[test]
fn messages() {
    let stamps: Vec<u64> = (1..20).collect();
    third(gossip(0, 50, 0, &[]), 0);
    third(gossip(0, 50, 16, &stamps[..16]), 0);
    third(gossip(0, u64::MAX, 1, &[u64::MAX]), 0);
    // Counts; 17 to 19 stamps would be within 170 bytes.
    third(gossip(0, 50, 17, &stamps[..17]), 16);
    third(gossip(0, 50, 19, &stamps), 16);
    third(gossip(0, 50, 16, &stamps[..17]), 16);
    third(gossip(0, 50, 1, &[]), 16);
    third(gossip(0, 50, 0, &[1]), 16);
    third(gossip(0, 50, 255, &stamps[..16]), 16);
    for length in 1..170 {
        let code = if length == 25 { 0 } else { 16 };
        let mut body = gossip(0, 50, 1, &[1])[3..].to_vec();
        body.resize(length, 0);
        third(record(2, &body), code);
    }
    // Stamps.
    third(gossip(2, 1, 0, &[]), 16);
    third(gossip(0, 50, 2, &[5, 5]), 16);
    third(gossip(0, 50, 2, &[6, 5]), 16);
    third(gossip(0, 50, 1, &[0]), 16);
    third(gossip(0, 50, 1, &[51]), 16);
    third(gossip(0, 50, 1, &[50]), 0);
    // Gap and Nothing contradict; form comes first.
    third(gossip(1, 50, 0, &[]), 17);
    third(gossip(0, 0, 0, &[]), 17);
    third(gossip(1, 50, 1, &[1]), 16);
    // Conflict.
    let told = [gossip(0, 50, 1, &[10]), gossip(0, 60, 1, &[11])];
    assert_eq!(restart(&journal(&told)), reply(17, 29, 0));
    let told = [gossip(0, 50, 1, &[10]), gossip(0, 60, 2, &[10, 51])];
    assert_eq!(restart(&journal(&told)), reply(0, 65, 0));
}

#[test]
fn flushes() {
    third(flush(0), 17); // just flushed: Nothing
    third(flush(31), 17);
    third(flush(32), 16);
    third(flush(255), 16);
    third(record(3, &[0, 0]), 16);
    for length in 2..170 {
        third(record(3, &vec![0; length]), 16);
    }
    let good = [commit(100, 1, &[(511, 7)]), flush(31)];
    assert_eq!(restart(&journal(&good)), reply(0, 27, 0));
}

/// Records that the rebuilt store has no room for.
#[test]
fn full_tables() {
    // Pending: eight commits of 16 objects fill it.
    let full = |more: &[Vec<u8>]| {
        let mut records: Vec<_> = (0..8)
            .map(|k| {
                let writes: Vec<_> = (0..16).map(|slot| (16 * k + slot, 1)).collect();
                commit(10 + u64::from(k), 16, &writes)
            })
            .collect();
        records.extend_from_slice(more);
        restart(&journal(&records))
    };
    let end = 1 + 8 * 172;
    assert_eq!(full(&[]), reply(0, end, 0));
    assert_eq!(full(&[commit(90, 1, &[(128, 1)])]), reply(17, end, 0));
    assert_eq!(full(&[commit(90, 1, &[(127, 1)])]), reply(0, end + 22, 0));

    // Past: 16 rewritings of 16 objects, each with a stamp beyond the horizon.
    let writes: Vec<_> = (0..16).map(|slot| (slot, 1)).collect();
    let records: Vec<_> = (0..18).map(|k| commit(10 + 2 * k, 16, &writes)).collect();
    assert_eq!(restart(&journal(&records[..17])), reply(0, 1 + 17 * 172, 0));
    assert_eq!(restart(&journal(&records)), reply(17, 1 + 17 * 172, 0));

    // Snapshots: four messages of 16.
    let records: Vec<_> = (0..5)
        .map(|k| {
            let stamps: Vec<_> = (1..=16).map(|n| 16 * k + n).collect();
            gossip(16 * k, 16 * k + 16, 16, &stamps)
        })
        .collect();
    assert_eq!(restart(&journal(&records[..4])), reply(0, 1 + 4 * 148, 0));
    assert_eq!(restart(&journal(&records)), reply(17, 1 + 4 * 148, 0));
}

/// A refusal far in leaves nothing of what was rebuilt before.
#[test]
fn refused_late() {
    let good = [
        commit(100, 1, &[(0, 7)]),
        gossip(0, 99, 1, &[50]),
        flush(0),
        commit(110, 2, &[(0, 7), (300, 8)]),
    ];
    let bytes = journal(&good);
    let end = bytes.len() as u64;
    assert_eq!(restart(&bytes), reply(0, end, 0));
    let mut bad = bytes.clone();
    bad.extend(flush(0));
    bad.extend(flush(0));
    assert_eq!(restart(&bad), reply(17, end + 4, 0));
    let mut bad = bytes;
    bad.extend([0, 200]);
    assert_eq!(restart(&bad), reply(16, end, 0));
}
