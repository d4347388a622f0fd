//! The refusals of a call that has been read, in document 01's order.

use crate::bytes::Call;
use crate::Store;
use std::collections::BTreeSet;

/// 10 and 27 have no call on a list: 10 is of final writes, and a take's
/// output always suffices.
const ORDER: [u8; 13] = [20, 1, 2, 6, 7, 8, 9, 21, 22, 26, 25, 24, 23];

/// The capacity that the program `calls` lends store bytes for.
const LENT_RECORDS: u64 = 256;
const MOST_AWAITING: usize = 64;
const MOST_READS: u64 = 4_294_967_295;

/// The first that applies.
pub fn refusal(call: &Call, store: Option<&Store>) -> Option<u8> {
    ORDER
        .into_iter()
        .find(|number| applies(*number, call, store))
}

/// Whether a refusal's condition holds, where none earlier in the order does.
fn applies(number: u8, call: &Call, store: Option<&Store>) -> bool {
    match (number, call, store) {
        (20, Call::Open { .. }, _) => false,
        (20, _, store) => store.is_none(),
        (1, Call::Open { capacity, .. }, _) => *capacity == 0 || *capacity > 4_096,
        (
            2,
            Call::Open {
                shape: Some(shape), ..
            },
            _,
        ) => shape.depth > 255,
        (6, Call::Advance(advance), _) => advance.skip != 0 && !advance.writes.is_empty(),
        (7, Call::Advance(advance), _) => advance.skip > 3,
        (8, Call::Answer(_, round), _) => {
            let slots = round.slots();
            let distinct: BTreeSet<_> = slots.iter().map(|(slot, _)| slot).collect();
            distinct.len() < slots.len()
        }
        (9, Call::Open { capacity, .. }, _) => *capacity > LENT_RECORDS,
        (21, call, Some(store)) => call.anchor().is_some() && store.ledger.anchor.is_none(),
        (22, call, Some(store)) => call.anchor().is_some() && call.anchor() != store.ledger.anchor,
        (26, Call::Answer(_, round), Some(store)) => {
            let taken = |slot| {
                store
                    .ledger
                    .awaiting
                    .get(slot)
                    .is_some_and(|found| found.taken)
            };
            !round.slots().iter().all(|(slot, _)| taken(slot))
        }
        (25, Call::Read(..), Some(store)) => store.totals.accepted == MOST_READS,
        (24, Call::Read(_, slot), Some(store)) => {
            let awaiting = &store.ledger.awaiting;
            let new = store.ledger.served(slot).is_none() && !awaiting.contains_key(slot);
            new && awaiting.len() == MOST_AWAITING
        }
        (23, Call::Open { .. }, _) => false,
        (23, call, Some(store)) => {
            let (after, _, _) = store.clone().after(call);
            after.layers.records() as u64 > store.capacity
        }
        _ => false,
    }
}
