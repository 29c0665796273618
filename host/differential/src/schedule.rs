//! Which runs there are: what each starts from, and which calls it makes. A run is determined by
//! the seed and its number.

use crate::call::{Call, Lent, Order, Surviving, KINDS, ON_STORES};
use crate::calls::{self, View};
use crate::chance::{self, Chance};
use crate::coordinators;
use crate::journals;
use crate::moods::{on_stores, Mood};
use crate::records::{self, GOSSIP, REQUEST};
use crate::run::Start;
use crate::stores;
use crate::worlds;
use independent::{Coordinator, Store, KEPT, MESSAGE};
use std::ops::Range;

/// Where the calls of a run come from.
enum Plan {
    /// So many calls by chance, in a mood.
    Mood(Mood, u64),
    /// A call by chance of each of these kinds, the last first.
    Kinds(Mood, Vec<usize>),
    /// These calls, the last first.
    Listed(Vec<Call>),
    /// So many calls in a world.
    World(Mood, u64),
}

/// A run that is to be made.
pub struct Run {
    pub start: Start,
    pub chance: Chance,
    plan: Plan,
    made: u64,
}

/// How often each kind of run is made; a kind of long runs is made seldom. The last are worlds.
pub const WEIGHTS: [u64; 15] = [500, 40, 1600, 600, 900, 4, 60, 20, 6, 4, 1200, 300, 4, 4, 300];

impl Run {
    /// The run of this number. The first ones are one of each kind.
    pub fn of(seed: u64, number: u64) -> Run {
        let mut chance = Chance::of_run(seed, number);
        let kinds = WEIGHTS.len() as u64;
        let kind = if number < kinds { number as usize } else { chance.weighted(&WEIGHTS) };
        let (start, plan) = match kind {
            0 => short(&mut chance),
            1 => long(&mut chance),
            2 => made(&mut chance),
            3 => bent(&mut chance),
            4 => damaged(number, &mut chance),
            5 => swept(&mut chance),
            6 => strange(&mut chance),
            7 => refused(&mut chance),
            8 => full_journal(&mut chance),
            9 => swept_messages(&mut chance),
            10 => ordered(&mut chance),
            11 => damaged_coordinator(number, &mut chance),
            12 => swept_requests(&mut chance),
            13 => swept_keeping(&mut chance),
            _ => world(&mut chance),
        };
        Run { start, chance, plan, made: 0 }
    }

    /// The next call, made for the store as it stands; none when the run is over.
    pub fn next(&mut self, view: &View) -> Option<Call> {
        self.made += 1;
        match &mut self.plan {
            Plan::Mood(_, calls) | Plan::World(_, calls) if *calls < self.made => None,
            Plan::Mood(mood, _) => Some(calls::next(view, mood, &mut self.chance)),
            Plan::World(mood, _) => Some(worlds::next(view, mood, &mut self.chance)),
            Plan::Kinds(mood, kinds) => {
                kinds.pop().map(|kind| calls::of_kind(kind, view, mood, &mut self.chance))
            }
            Plan::Listed(calls) => calls.pop(),
        }
    }

    /// What isn't as it is proved for runs of this kind, after a call that both sides answered by
    /// this code.
    pub fn broken(&self, view: &View, call: &Call, code: u64) -> Option<String> {
        match self.plan {
            Plan::World(..) => worlds::broken(view, call, code),
            _ => None,
        }
    }
}

/// These kinds once or twice. Made backwards, so that restart and fresh, which heal what is
/// damaged, come last.
fn each_kind(kinds: Range<usize>, chance: &mut Chance) -> Plan {
    let times = chance.within(1, 2) as usize;
    let all = kinds.clone().cycle().take(times * kinds.len()).collect();
    Plan::Kinds(Mood::by_chance(chance), all)
}

/// A restart from each of these journals.
fn restarts(journals: Vec<Vec<u8>>) -> Plan {
    let restart = |bytes: Vec<u8>| Call::Restart(Surviving::Bytes(bytes));
    Plan::Listed(journals.into_iter().map(restart).collect())
}

/// A start with this store and a journal of any bytes, some of it used.
fn start_with(store: Box<Store>, chance: &mut Chance) -> Start {
    let length = chance.pick(&[0, 1, 30, 200, 4096, 4096, 4096, 4096]);
    let journal = chance::bytes(length, chance.next());
    let used = chance.index(length + 1);
    let place = chance.pick(&[0, 0, 1, used, used, used]).min(length);
    Start { store, place, ..fresh_with(journal, chance) }
}

/// A fresh store with this journal, beside a fresh coordinator.
fn fresh_with(journal: Vec<u8>, chance: &mut Chance) -> Start {
    let (store, coordinator) = (Box::new(Store::fresh()), Box::new(Coordinator::fresh()));
    Start { store, junk: chance.next(), journal, place: 0, coordinator }
}

/// A fresh store and an empty journal, whose bytes don't matter.
fn fresh(lengths: &[usize], chance: &mut Chance) -> Start {
    let journal = chance::bytes(chance.pick(lengths), chance.next());
    fresh_with(journal, chance)
}

/// From a fresh store, few calls.
fn short(chance: &mut Chance) -> (Start, Plan) {
    let start = fresh(&[0, 1, 22, 23, 30, 100, 500, 4096, 4096, 4096, 4096], chance);
    (start, Plan::Mood(Mood::by_chance(chance), chance.within(1, 60)))
}

/// From a fresh store, so many calls that tables fill.
fn long(chance: &mut Chance) -> (Start, Plan) {
    let start = fresh(&[4096, 65_534, 65_535, 65_535, 65_535], chance);
    (start, Plan::Mood(Mood::by_chance(chance), chance.within(200, 1500)))
}

/// From a store that passes the test for damage and that no calls may reach.
fn made(chance: &mut Chance) -> (Start, Plan) {
    let start = start_with(stores::made(chance), chance);
    (start, Plan::Mood(Mood::by_chance(chance), chance.within(1, 30)))
}

/// A store reached by calls, with its journal.
fn reached(chance: &mut Chance) -> Start {
    let mood = Mood::by_chance(chance);
    let most = chance.pick(&[5, 30, 100, 300]);
    let side = journals::reach(&mood, 8192, most, chance);
    Start { store: side.store, place: side.place, ..fresh_with(side.journal, chance) }
}

/// From a store next to one reached by calls.
fn bent(chance: &mut Chance) -> (Start, Plan) {
    let mut start = reached(chance);
    stores::bend(&mut start.store, chance);
    (start, Plan::Mood(Mood::by_chance(chance), chance.within(1, 30)))
}

/// From a damaged store, each kind of damage in turn.
fn damaged(number: u64, chance: &mut Chance) -> (Start, Plan) {
    let mut start =
        if chance.one_in(3) { reached(chance) } else { start_with(stores::made(chance), chance) };
    stores::damage(&mut start.store, number % stores::DAMAGES, chance);
    (start, each_kind(0..ON_STORES, chance))
}

/// Restarts from every cut of a journal and from every change of a byte.
fn swept(chance: &mut Chance) -> (Start, Plan) {
    let start = start_with(stores::made(chance), chance);
    let journal = journals::grown(chance.pick(&[60, 150, 300, 700]), chance);
    (start, restarts(records::sweep(&journal, chance)))
}

/// Restarts from journals that no store has written.
fn strange(chance: &mut Chance) -> (Start, Plan) {
    let start = start_with(stores::made(chance), chance);
    let journal = journals::grown(chance.pick(&[300, 3000]), chance);
    let journals = (0..30).map(|_| journals::strange(&journal, chance)).collect();
    (start, restarts(journals))
}

/// Restarts from journals whose last record the store would mostly have refused.
fn refused(chance: &mut Chance) -> (Start, Plan) {
    let start = start_with(stores::made(chance), chance);
    (start, restarts(journals::with_one_more(chance)))
}

/// From a store whose journal of full length is nearly full.
fn full_journal(chance: &mut Chance) -> (Start, Plan) {
    let mood = Mood::filling(chance);
    let room = chance.pick(&[65_535, 65_535, 65_500]);
    let side = journals::reach(&mood, room, 1200, chance);
    let start = Start { store: side.store, place: side.place, ..fresh_with(side.journal, chance) };
    let weights = on_stores([0, 4, 30, 20, 10, 1, 1, 1, 1, 1, 1, 10]);
    (start, Plan::Mood(Mood { weights, ..mood }, 200))
}

/// Hears every cut of a message and every change of a byte, and bytes of every length. Some are
/// lent no room, so that the store stays as it is.
fn swept_messages(chance: &mut Chance) -> (Start, Plan) {
    let start = if chance.one_in(2) {
        start_with(stores::made(chance), chance)
    } else {
        Start { place: 0, ..reached(chance) }
    };
    let from = start.store.horizon;
    let step = chance.pick(&[1, 2, 300]);
    let count = chance.pick(&[0, 1, 2, 15, 16]);
    let stamps: Vec<u64> = (1..=count).map(|row| from.saturating_add(step * row)).collect();
    let message = records::message(from, from.saturating_add(step * count + 1), &stamps);
    let mut all = records::sweep(&message, chance);
    all.extend(records::of_all_lengths(220, GOSSIP, chance));
    all.push(message);
    let roomy = chance.one_in(2);
    let hear = |message: Vec<u8>| {
        let lent = if roomy { Lent::Own } else { Lent::Room(chance.index(3)) };
        Call::Hear { lent, message }
    };
    let calls = all.into_iter().map(hear).collect();
    (start, Plan::Listed(calls))
}

/// A start with this coordinator, of whose store nothing is asked.
fn beside(coordinator: Box<Coordinator>, chance: &mut Chance) -> Start {
    Start { coordinator, ..fresh_with(Vec::new(), chance) }
}

/// Calls on a coordinator that passes the test for damage.
fn ordered(chance: &mut Chance) -> (Start, Plan) {
    let coordinator =
        if chance.one_in(3) { Box::new(Coordinator::fresh()) } else { coordinators::made(chance) };
    let start = beside(coordinator, chance);
    (start, Plan::Mood(Mood::ordering(chance), chance.within(10, 150)))
}

/// Calls on a damaged coordinator, each kind of damage in turn.
fn damaged_coordinator(number: u64, chance: &mut Chance) -> (Start, Plan) {
    let mut coordinator = coordinators::made(chance);
    coordinators::damage(&mut coordinator, number % coordinators::DAMAGES, chance);
    let start = beside(coordinator, chance);
    (start, each_kind(ON_STORES..KINDS.len(), chance))
}

/// Serves every cut of a request and every change of a byte, and bytes of every length.
fn swept_requests(chance: &mut Chance) -> (Start, Plan) {
    let coordinator = coordinators::made(chance);
    let to = chance.pick(&[coordinator.sent, u64::MAX, 300]);
    let request = records::request(chance.within(0, to), to);
    let mut all = records::sweep(&request, chance);
    all.extend(records::of_all_lengths(220, REQUEST, chance));
    let serve = |request: Vec<u8>| Call::Order(Order::Serve { request, buffer: MESSAGE });
    let calls = all.into_iter().map(serve).collect();
    (beside(coordinator, chance), Plan::Listed(calls))
}

/// Restarts from every cut of a coordinator's bytes and every change of one, and from bytes of
/// every length; a state that they leave is kept at once.
fn swept_keeping(chance: &mut Chance) -> (Start, Plan) {
    let coordinator = coordinators::made(chance);
    let mut all = records::sweep(&coordinators::bytes_of(&coordinator), chance);
    all.extend((0..=KEPT + 20).map(|length| chance::bytes(length, chance.next())));
    let restart = |bytes: Vec<u8>| {
        [Call::Order(Order::Keep { buffer: KEPT }), Call::Order(Order::Restart(bytes))]
    };
    let calls = all.into_iter().flat_map(restart).collect();
    (beside(coordinators::made(chance), chance), Plan::Listed(calls))
}

/// A fresh coordinator and a fresh store that hears of it.
fn world(chance: &mut Chance) -> (Start, Plan) {
    let mood = Mood { odd: u64::MAX, ..Mood::by_chance(chance) };
    (fresh(&[200, 1000, 4096, 4096], chance), Plan::World(mood, chance.within(20, 200)))
}
