//! Rows of the exchange between a store and a coordinator, on both ends.

use crate::rows::{message, nothing_new, On, Row, EMPTY, FAR_PAST, FULL, HALF, JUST_PAST};
use crate::sides::{Call, Order};
use crate::states::{build, Fill, State};
use independent::{Coordinator, KEPT, REQUEST};
use std::rc::Rc;

/// The call that hears a message as bytes.
fn hear(message: &Call) -> Call {
    let Call::Gossip { prev, curr, stamps } = message else {
        unreachable!("only a message is heard");
    };
    let mut bytes = ((18 + 8 * stamps.len()) as u16).to_be_bytes().to_vec();
    bytes.push(2);
    bytes.extend([*prev, *curr].map(u64::to_be_bytes).concat());
    bytes.push(stamps.len() as u8);
    bytes.extend(stamps.iter().flat_map(|stamp| stamp.to_be_bytes()));
    Call::Hear { message: bytes }
}

/// The store's end: messages as bytes, and requests for them.
pub fn exchanges(rows: &mut Vec<Row>) {
    let brim = Fill { snapshots: 48, ..FULL };
    for (fill, rows_wanted) in [("empty", EMPTY), ("half", HALF), ("full", brim)] {
        let state = Rc::new(build(rows_wanted));
        let mut on = On { rows, fill, state: state.clone() };
        let horizon = state.store.horizon;
        on.heard((JUST_PAST, horizon + 100), 0);
        on.heard((JUST_PAST, horizon + 100), 16);
        if rows_wanted.past != 0 {
            on.heard((FAR_PAST, state.store.last + 100), 16);
        }
        on.add("hear, nothing new", 1, hear(&nothing_new(&state)));
        let (prev, curr) = (horizon + 1, horizon + 100);
        on.add("hear, Gap", 6, hear(&Call::Gossip { prev, curr, stamps: vec![] }));
        on.add("hear, Malformed", 16, Call::Hear { message: vec![0; 148] });
        on.add("ask", 0, Call::Ask { to: horizon + 100 });
    }
}

/// How full a coordinator is, by its grants.
const GRANTED: [(&str, usize); 3] = [("empty", 0), ("part", 16), ("full", 64)];

/// The coordinator's end. At "full" a grant has just the room that it needs.
pub fn orders(rows: &mut Vec<Row>) {
    for (fill, held) in GRANTED {
        let state = Rc::new(State::granting(held.min(63)));
        let stamp = State::clone(&state).stamp();
        let grant = Order::Grant { tick: stamp / 256, node: stamp % 256 };
        On { rows, fill, state }.order("grant", 0, grant);
    }
    for (fill, held) in GRANTED {
        let state = Rc::new(State::granting(held));
        let mut on = On { rows, fill, state: state.clone() };
        let clock = State::clone(&state).stamp();
        let last = clock - 4 * 256;
        on.order("grant, Late", 5, Order::Grant { tick: 0, node: 0 });
        on.order("message of 0 stamps", 0, Order::Message { prev: last, clock });
        if held != 0 {
            on.order("message of 1 stamp", 0, Order::Message { prev: last - 1, clock });
            on.order("message of 16 stamps", 0, Order::Message { prev: 0, clock });
        }
        let request = request(&state, clock);
        on.order(format!("serve {} stamps", held.min(16)), 0, Order::Serve { request });
        on.order("serve, Malformed", 16, Order::Serve { request: vec![0; REQUEST] });
        let bytes = kept(&state.coordinator);
        let size = bytes.len();
        on.order(format!("coordinator keep, {size} bytes"), 0, Order::Keep);
        on.order(format!("coordinator restart, {size} bytes"), 0, Order::Restart { bytes });
    }
}

impl On<'_> {
    /// A message up to a stamp, as bytes; the row's name is that of gossip's.
    fn heard(&mut self, (end, curr): (&str, u64), count: u64) {
        let call = message(&self.state, curr, count);
        let dropped = self.dropped(&call);
        self.add(format!("hear {count} stamps {end}, drops {dropped}"), 0, hear(&call));
    }

    fn order(&mut self, name: impl Into<String>, code: u64, order: Order) {
        self.add(name, code, Call::Order(order));
    }
}

/// The request of a fresh store.
fn request(state: &State, to: u64) -> Vec<u8> {
    let mut request = vec![0; REQUEST];
    assert_eq!(state.store.ask(to, &mut request), (0, REQUEST as u64));
    request
}

/// The bytes of a coordinator.
fn kept(coordinator: &Coordinator) -> Vec<u8> {
    let mut bytes = vec![0; KEPT];
    let (_, length) = coordinator.keep(&mut bytes);
    bytes.truncate(length as usize);
    bytes
}
