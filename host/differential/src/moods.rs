//! What a run tends to do: which calls, which objects, how far its stamps are apart. Moods by
//! chance leave tables small, fill them, and keep them full.

use crate::call::{KINDS, ON_STORES};
use crate::chance::Chance;

/// What a run tends to do.
pub struct Mood {
    /// How often each call is made, in the order of `call::KINDS`.
    pub weights: [u64; KINDS.len()],
    /// The objects that ordinary commits write.
    pub objects: Vec<u64>,
    /// Most writes of an ordinary commit.
    pub writes: u64,
    /// Most new snapshots of an ordinary message.
    pub snapshots: u64,
    /// Stamps are at most this far apart.
    pub step: u64,
    /// One argument in so many is out of the ordinary.
    pub odd: u64,
}

impl Mood {
    /// Any mood.
    pub fn by_chance(chance: &mut Chance) -> Mood {
        let often = |chance: &mut Chance| chance.pick(&[0, 1, 5, 20, 60]);
        let reads = chance.pick(&[1, 1, 8]);
        let weights = [
            u64::from(chance.one_in(20)),
            chance.pick(&[0, 0, 1, 3]),
            5 + often(chance),
            1 + often(chance),
            often(chance),
            3 * reads,
            reads,
            reads,
            reads,
            reads,
            reads,
            1 + often(chance),
        ];
        Mood {
            weights: on_stores(weights),
            objects: some_objects(chance),
            writes: chance.pick(&[1, 2, 4, 16]),
            snapshots: chance.pick(&[0, 1, 1, 2, 5, 16]),
            step: chance.pick(&[1, 3, 20, 20, 300, 300, 100_000, 1 << 40]),
            odd: chance.pick(&[3, 10, 50, 400]),
        }
    }

    /// A mood in which few calls are refused, for journals that are to grow.
    pub fn steady(chance: &mut Chance) -> Mood {
        let weights = on_stores([0, 0, 20, 8, 12, 0, 0, 0, 0, 0, 0, 4]);
        Mood { weights, odd: u64::MAX, ..Mood::by_chance(chance) }
    }

    /// A mood in which a journal of any length fills: one page, one snapshot in a while.
    pub fn filling(chance: &mut Chance) -> Mood {
        let weights = on_stores([0, 0, 30, 20, 10, 1, 1, 1, 1, 1, 1, 5]);
        let objects = (496..512).collect();
        Mood { weights, objects, writes: 16, snapshots: 0, step: 20, ..Mood::by_chance(chance) }
    }

    /// A mood with calls on the coordinator alone.
    pub fn ordering(chance: &mut Chance) -> Mood {
        let mut mood = Mood::by_chance(chance);
        mood.weights = [0; KINDS.len()];
        mood.weights[ON_STORES..].copy_from_slice(&[
            u64::from(chance.one_in(10)),
            chance.pick(&[0, 0, 1, 5]),
            chance.pick(&[1, 10, 40]),
            chance.pick(&[1, 10, 20]),
            chance.pick(&[1, 10, 20]),
            chance.pick(&[1, 5]),
        ]);
        mood
    }
}

/// Weights with no calls on the coordinator.
pub fn on_stores(weights: [u64; ON_STORES]) -> [u64; KINDS.len()] {
    let mut all = [0; KINDS.len()];
    all[..ON_STORES].copy_from_slice(&weights);
    all
}

/// The objects of some pages, all of their slots or few; often the last page is among them.
fn some_objects(chance: &mut Chance) -> Vec<u64> {
    let slots = chance.pick(&[1, 3, 16]);
    let pages = chance.pick(&[1, 1, 2, 4, 12, 32]);
    let first = if chance.one_in(2) { 32 - pages } else { chance.within(0, 32 - pages) };
    (first..first + pages)
        .flat_map(|page| (0..slots).map(move |slot| 16 * page + 15 - slot))
        .collect()
}
