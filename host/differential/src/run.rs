//! A run: both sides from one start, call by call, everything compared after each.

use crate::call::Call;
use crate::calls::View;
use crate::chance::Chance;
use crate::contents;
use crate::fault::Fault;
use crate::sides::{Outcome, Post, Side};

/// What both sides of a run start from.
#[derive(Clone)]
pub struct Start {
    pub store: Box<independent::Store>,
    /// The seed of the rows past a count on the library's side.
    pub junk: u64,
    pub journal: Vec<u8>,
    pub place: usize,
    pub coordinator: Box<independent::Coordinator>,
}

/// Both sides.
pub struct Pair {
    reference: Side<independent::Store>,
    library: Side<jibcradle::Store>,
    fault: Fault,
}

/// What both sides answered to a call after which they differ, and in what.
#[derive(Debug)]
pub struct Difference {
    pub what: String,
    pub reference: Outcome,
    pub library: Outcome,
}

impl Difference {
    /// What may not be, and both sides agree on.
    pub fn agreed(what: String) -> Box<Difference> {
        let (reference, library) = Default::default();
        Box::new(Difference { what, reference, library })
    }
}

impl Pair {
    /// Both sides at their start. The fault is laid on the library's side.
    pub fn new(start: &Start, fault: Fault) -> Pair {
        let Start { store, junk, journal, place, coordinator } = start.clone();
        let mut junk = Chance::of(junk);
        let library = Side {
            store: contents::to_library(&store, &mut junk),
            journal: journal.clone(),
            place,
            coordinator: contents::to_library_coordinator(&coordinator, &mut junk),
            post: Post::default(),
        };
        let reference = Side { store, journal, place, coordinator, post: Post::default() };
        Pair { reference, library, fault }
    }

    /// What the next call may be made for.
    pub fn view(&self) -> View<'_> {
        self.reference.view()
    }

    /// Makes a call on both sides. The code they agree on, or what they differ in.
    pub fn play(&mut self, call: &Call) -> Result<u64, Box<Difference>> {
        let reference = self.reference.play(call);
        let library = self.fault.play(&mut self.library, call);
        match self.difference(&reference, &library) {
            None => Ok(reference.code),
            Some(what) => Err(Box::new(Difference { what, reference, library })),
        }
    }

    fn difference(&self, reference: &Outcome, library: &Outcome) -> Option<String> {
        let (ours, theirs) = (&self.reference, &self.library);
        bytes_differ("lent journal", &reference.strange, &library.strange)
            .or_else(|| bytes_differ("buffer", &reference.bytes, &library.bytes))
            .or_else(|| (reference != library).then(|| "the answers".to_string()))
            .or_else(|| bytes_differ("journal", &ours.journal, &theirs.journal))
            .or_else(|| contents::difference(&ours.store, &theirs.store))
            .or_else(|| contents::coordinators_differ(&ours.coordinator, &theirs.coordinator))
    }
}

/// Two journals or buffers, of one length.
fn bytes_differ(name: &str, reference: &[u8], library: &[u8]) -> Option<String> {
    if reference == library {
        return None;
    }
    let place = reference.iter().zip(library).position(|(one, two)| one != two)?;
    let (one, two) = (reference[place], library[place]);
    Some(format!("{name}, byte {place}: independent {one}, library {two}"))
}

/// Makes the calls again from the start. The number of the first after which the sides differ.
pub fn replay(start: &Start, calls: &[Call], fault: Fault) -> Option<(usize, Box<Difference>)> {
    let mut pair = Pair::new(start, fault);
    calls
        .iter()
        .enumerate()
        .find_map(|(number, call)| pair.play(call).err().map(|difference| (number, difference)))
}
