//! The contents of the two stores and coordinators, compared and copied. Rows past a count aren't
//! contents; where a count is over its limit, all rows of its table are.

use crate::chance::Chance;
use independent::{
    Coordinator, Copy, Past, Pending, COPIES, GRANTS, PAST, PENDING, SLOTS, SNAPSHOTS,
};
use jibcradle::CoordinatorState;

type Reference = independent::Store;
type Library = jibcradle::Store;

/// The rows of the independent store's pending table.
pub fn pending(store: &Reference) -> &[Pending] {
    &store.pending[..store.pending_count.min(PENDING)]
}

/// The rows of its past values.
pub fn past(store: &Reference) -> &[Past] {
    &store.past[..store.past_count.min(PAST)]
}

/// The rows of its snapshots.
pub fn snapshots(store: &Reference) -> &[u64] {
    &store.snapshots[..store.snapshot_count.min(SNAPSHOTS)]
}

/// The rows of its archive.
pub fn copies(store: &Reference) -> &[Copy] {
    &store.copies[..store.copy_count.min(COPIES)]
}

/// The stamps that the independent coordinator has granted.
pub fn granted(coordinator: &Coordinator) -> &[u64] {
    &coordinator.granted[..coordinator.count.min(GRANTS as u64) as usize]
}

/// The first thing that the contents of the coordinators differ in.
pub fn coordinators_differ(reference: &Coordinator, library: &CoordinatorState) -> Option<String> {
    let (ours, theirs) = ((reference.count, reference.sent), (library.count, library.sent));
    if ours != theirs {
        return Some(format!("count and sent: independent {ours:?}, library {theirs:?}"));
    }
    rows_differ("granted stamp", granted(reference), library.granted_rows())
}

/// The library's coordinator with these contents, the rows past its count by chance.
pub fn to_library_coordinator(of: &Coordinator, chance: &mut Chance) -> Box<CoordinatorState> {
    let mut made = CoordinatorState { count: of.count, sent: of.sent, granted: [0; GRANTS] };
    chance.fill(&mut made.granted);
    made.granted[..granted(of).len()].copy_from_slice(granted(of));
    Box::new(made)
}

/// The first thing that the contents of the stores differ in.
pub fn difference(reference: &Reference, library: &Library) -> Option<String> {
    heads_differ(reference, library)
        .or_else(|| rows_differ("disk value", &reference.disk_values, &library.disk))
        .or_else(|| rows_differ("disk stamp", &reference.disk_stamps, &library.dated))
        .or_else(|| rows_differ("snapshot", snapshots(reference), library.snapshot_rows()))
        .or_else(|| pending_differ(reference, library))
        .or_else(|| past_differ(reference, library))
        .or_else(|| copies_differ(reference, library))
}

fn heads_differ(reference: &Reference, library: &Library) -> Option<String> {
    let heads = jibcradle::Heads {
        pending: reference.pending_count,
        past: reference.past_count,
        snapshots: reference.snapshot_count,
        copies: reference.copy_count,
        horizon: reference.horizon,
        last: reference.last,
    };
    (heads != library.heads)
        .then(|| format!("heads: independent {heads:?}, library {:?}", library.heads))
}

/// Two lists of numbers, of one length.
fn rows_differ(name: &str, reference: &[u64], library: &[u64]) -> Option<String> {
    if reference == library {
        return None;
    }
    let row = reference.iter().zip(library).position(|(one, two)| one != two)?;
    Some(format!("{name} {row}: independent {}, library {}", reference[row], library[row]))
}

fn pending_differ(reference: &Reference, library: &Library) -> Option<String> {
    let same = |one: &Pending, two: &jibcradle::Pending| {
        (one.object, one.first, one.latest, one.value)
            == (two.object, two.first, two.latest, two.value)
    };
    let (ours, theirs) = (pending(reference), library.pending_rows());
    let row = ours.iter().zip(theirs).position(|(one, two)| !same(one, two))?;
    Some(format!("pending {row}: independent {:?}, library {:?}", ours[row], theirs[row]))
}

fn past_differ(reference: &Reference, library: &Library) -> Option<String> {
    let same = |one: &Past, two: &jibcradle::Past| {
        (one.object, one.from, one.until, one.value) == (two.object, two.from, two.until, two.value)
    };
    let (ours, theirs) = (past(reference), library.past_rows());
    let row = ours.iter().zip(theirs).position(|(one, two)| !same(one, two))?;
    Some(format!("past {row}: independent {:?}, library {:?}", ours[row], theirs[row]))
}

fn copies_differ(reference: &Reference, library: &Library) -> Option<String> {
    let values = library.copied_values().chunks_exact(SLOTS);
    let (ours, theirs) = (copies(reference), library.copy_rows());
    let row = ours.iter().zip(theirs).zip(values).position(|((one, two), values)| {
        (one.page, one.stamp) != (two.page, two.stamp) || one.values != values
    })?;
    let values = &library.copied_values()[row * SLOTS..][..SLOTS];
    let (one, two) = (&ours[row], &theirs[row]);
    Some(format!("copy {row}: independent {one:?}, library {two:?} {values:?}"))
}

/// The library's store with these contents. Its rows past a count are filled by chance, so that a
/// store which reads them is found out.
pub fn to_library(store: &Reference, chance: &mut Chance) -> Box<Library> {
    let mut made = Box::new(Library::fresh());
    made.disk = store.disk_values;
    made.dated = store.disk_stamps;
    made.heads = jibcradle::Heads {
        pending: store.pending_count,
        past: store.past_count,
        snapshots: store.snapshot_count,
        copies: store.copy_count,
        horizon: store.horizon,
        last: store.last,
    };
    scatter(&mut made, chance);
    for (row, of) in made.pending.iter_mut().zip(pending(store)) {
        let Pending { object, first, latest, value } = *of;
        *row = jibcradle::Pending { object, first, latest, value };
    }
    for (row, of) in made.past.iter_mut().zip(past(store)) {
        let Past { object, from, until, value } = *of;
        *row = jibcradle::Past { object, from, until, value };
    }
    made.snapshots[..snapshots(store).len()].copy_from_slice(snapshots(store));
    let rows = made.copies.iter_mut().zip(made.copied.chunks_exact_mut(SLOTS));
    for ((row, values), of) in rows.zip(copies(store)) {
        *row = jibcradle::Copied { page: of.page, stamp: of.stamp };
        values.copy_from_slice(&of.values);
    }
    made
}

/// Fills all rows of the library's tables by chance, some with small numbers.
fn scatter(store: &mut Library, chance: &mut Chance) {
    let limit = chance.pick(&[40, 600, u64::MAX]);
    for row in &mut store.pending {
        row.object = chance.below(limit);
        row.latest = chance.below(limit);
    }
    for row in &mut store.past {
        row.object = chance.below(limit);
        row.from = chance.below(limit);
        row.until = chance.below(limit);
    }
    for row in &mut store.copies {
        row.page = chance.below(limit);
        row.stamp = chance.below(limit);
    }
    for row in &mut store.snapshots {
        *row = chance.below(limit);
    }
}
