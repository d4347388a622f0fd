//! Short lists, all of them: every list of a few bytes, and every sequence of
//! a few calls from a fixed choice.

use crate::calls::{write_list, Advance, Call, Round, Shape};
use crate::cases::word;
use crate::driver::Driver;
use crate::sim::evm2::delta_snapshot::{Retention, Slot};
use crate::sim::evm2::read_hub::oracle_access as reads;
use crate::sim::storage_memo::ReadAnchor;
use alloy::primitives::{Address, B256};

pub fn every_byte() -> Vec<u8> {
    (0..=255).collect()
}

/// Every list of up to `most` of the given bytes, shorter ones first.
pub fn byte_lists(most: usize, bytes: &[u8]) -> impl Iterator<Item = Vec<u8>> + use<> {
    let bytes = bytes.to_vec();
    (0..=most).flat_map(move |length| {
        let bytes = bytes.clone();
        let lists = bytes.len().pow(length as u32);
        (0..lists).map(move |number| digits(number, length, &bytes))
    })
}

/// The number's digits, highest first, as the given bytes.
fn digits(mut number: usize, length: usize, bytes: &[u8]) -> Vec<u8> {
    let mut list = vec![0; length];
    for place in list.iter_mut().rev() {
        *place = bytes[number % bytes.len()];
        number /= bytes.len();
    }
    list
}

/// The stores that sequences start from: capacity, depth limit, retention.
const STORES: [(u64, u64, Retention); 4] = [
    (8, 1, Retention::IdleBlocks(1)),
    (2, 1, Retention::IdleBlocks(0)),
    (3, 1, Retention::Unbounded),
    (8, 2, Retention::IdleBlocks(2)),
];

/// A call of the choice; its anchor is the installed one when it is made.
#[derive(Clone, Copy)]
enum Pick {
    PutP,
    PutQ,
    LookP,
    GetP,
    ReadP,
    Take,
    AnswerValue,
    AnswerRefused,
    Quiet,
    WriteP,
    SeedP,
    SeedBoth,
    Sibling,
}

const PICKS: [Pick; 13] = [
    Pick::PutP,
    Pick::PutQ,
    Pick::LookP,
    Pick::GetP,
    Pick::ReadP,
    Pick::Take,
    Pick::AnswerValue,
    Pick::AnswerRefused,
    Pick::Quiet,
    Pick::WriteP,
    Pick::SeedP,
    Pick::SeedBoth,
    Pick::Sibling,
];

/// How many sequences of exactly `length` calls there are.
pub fn sequences(length: usize) -> usize {
    STORES.len() * PICKS.len().pow(length as u32)
}

/// One of them: an open, an install and `length` calls.
pub fn sequence(length: usize, number: usize) -> Vec<u8> {
    let (capacity, depth, retention) = STORES[number % STORES.len()];
    let mut rest = number / STORES.len();
    let mut driver = Driver::default();
    let mut calls = Vec::new();
    let mut make = |driver: &mut Driver, call: Call| {
        let _ = driver.run(&call);
        calls.push(call);
    };
    let shape = Some(Shape { depth, retention });
    make(&mut driver, Call::Open { capacity, shape });
    make(&mut driver, Call::Install(anchor(10)));
    for _ in 0..length {
        let call = resolve(PICKS[rest % PICKS.len()], &driver);
        make(&mut driver, call);
        rest /= PICKS.len();
    }
    write_list(&calls)
}

fn anchor(number: u64) -> ReadAnchor {
    ReadAnchor::identified(number, B256([number as u8; 32]))
}

fn resolve(pick: Pick, driver: &Driver) -> Call {
    let p: Slot = (Address([1; 20]), word(1));
    let q: Slot = (Address([2; 20]), word(1));
    let generation = driver.generation().expect("installed at the start");
    let at = generation.anchor();
    let advance = |values: &[(Slot, u8)], relevant: bool| Advance {
        child: anchor(at.number + 1),
        parent_hash: at.hash.expect("every anchor has one"),
        skip: 0,
        relevance: if relevant { vec![p.0] } else { Vec::new() },
        writes: values
            .iter()
            .map(|(slot, value)| (slot.0, slot.1, word(*value)))
            .collect(),
    };
    let taken = || {
        let lane = generation.read_hub();
        let mut slots = reads::awaiting_slots(lane);
        slots.retain(|slot| reads::awaiting(lane, slot).is_some_and(|found| found.taken));
        slots
    };
    let answer = |value: Option<u8>| {
        let members = taken().into_iter().map(|slot| (slot, value.map(word)));
        Call::Answer(at, Round::Members(members.collect()))
    };
    match pick {
        Pick::PutP => Call::Put(at, p, word(1)),
        Pick::PutQ => Call::Put(at, q, word(2)),
        Pick::LookP => Call::Look(at, p),
        Pick::GetP => Call::Get(at, p),
        Pick::ReadP => Call::Read(at, p),
        Pick::Take => Call::Take(at),
        Pick::AnswerValue => answer(Some(3)),
        Pick::AnswerRefused => answer(None),
        Pick::Quiet => Call::Advance(advance(&[], false)),
        Pick::WriteP => Call::Advance(advance(&[(p, 4)], false)),
        Pick::SeedP => Call::Advance(advance(&[(p, 5)], true)),
        Pick::SeedBoth => Call::Advance(advance(&[(q, 6), (p, 7), (p, 8)], true)),
        Pick::Sibling => {
            let mut sibling = advance(&[(p, 9)], true);
            sibling.parent_hash = B256([0; 32]);
            Call::Advance(sibling)
        }
    }
}
