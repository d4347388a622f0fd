//! Lists written by hand: the whole case of document 01, small lists for
//! points that it names, lists at the limit of a list's bytes, and lists for
//! orders of refusals and for single rules that the lists before them miss.

use crate::calls::{write_list, Advance, Call, Round, Shape, Write, LIST_LIMIT};
use crate::sim::evm2::delta_snapshot::{Retention, Slot};
use crate::sim::storage_memo::ReadAnchor;
use alloy::primitives::{Address, B256, U256};

/// The listing that document 01 gives for the whole case.
pub const WHOLE_CASE_LISTING: &str = "\
open
anchor fresh
put
carried 1 1 1 0 1 1 0 0 0
value 0000000000000000000000000000000000000000000000000000000000000002
carried 1 0 0 1 1 0 0 0 0
none
wait 1
carried 0 0 0 0 0 0 2 0 1
no 22
";

/// Document 01's whole case.
pub fn whole_case() -> Vec<u8> {
    write_list(&[
        open(4, 1, Some(1)),
        Call::Install(block(10)),
        Call::Put(block(10), P, word(1)),
        linked(11, &[write(P, 2)], &[]),
        Call::Look(block(11), P),
        linked(12, &[write(P, 3)], &[]),
        Call::Get(block(12), P),
        Call::Read(block(12), P),
        linked(13, &[], &[]),
        Call::Answer(block(12), valued(P, 3)),
    ])
}

/// Small lists, each for one point.
pub fn small_cases() -> Vec<(&'static str, Vec<u8>)> {
    let largest = ReadAnchor::identified(u64::MAX, B256([0xee; 32]));
    let bare = ReadAnchor::at(10);
    let mut after_largest = linked(0, &[write(P, 2)], &[P.0]);
    if let Call::Advance(advance) = &mut after_largest {
        advance.parent_hash = B256([0xee; 32]);
    }
    vec![
        ("idle-1", idle_case(1)),
        ("idle-5", idle_case(5)),
        (
            "sibling",
            write_list(&[
                open(4, 1, Some(1)),
                Call::Install(block(10)),
                Call::Put(block(10), P, word(1)),
                advance(
                    block(11),
                    B256([0; 32]),
                    0,
                    &[write(P, 2), write(Q, 3)],
                    &[Q.0],
                ),
                Call::Look(block(11), P),
                Call::Look(block(11), Q),
            ]),
        ),
        (
            "lineage-2-largest",
            write_list(&[
                open(4, 1, Some(1)),
                Call::Install(largest),
                Call::Put(largest, P, word(1)),
                after_largest,
                Call::Look(block(0), P),
            ]),
        ),
        (
            "lineage-3",
            write_list(&[
                open(4, 1, Some(1)),
                Call::Install(bare),
                Call::Put(bare, P, word(1)),
                linked(11, &[write(P, 2)], &[]),
                Call::Look(block(11), P),
            ]),
        ),
        (
            "hashless-child",
            write_list(&[
                open(4, 1, None),
                Call::Install(block(9)),
                Call::Put(block(9), P, word(1)),
                advance(bare, block(9).hash.unwrap_or_default(), 0, &[], &[]),
                Call::Look(bare, P),
                linked(11, &[], &[]),
            ]),
        ),
        (
            "use-kept",
            write_list(&[
                open(8, 1, Some(1)),
                Call::Install(block(10)),
                Call::Put(block(10), P, word(1)),
                linked(11, &[], &[]),
                Call::Get(block(11), P),
                linked(12, &[write(P, 2)], &[]),
                Call::Look(block(12), P),
            ]),
        ),
        (
            "get-renews-write",
            write_list(&[
                open(8, 1, Some(1)),
                Call::Install(block(10)),
                Call::Put(block(10), P, word(1)),
                linked(11, &[write(P, 2)], &[]),
                Call::Get(block(11), P),
                linked(12, &[], &[]),
            ]),
        ),
        (
            "fold-to-void",
            write_list(&[
                open(8, 1, Some(0)),
                Call::Install(block(10)),
                Call::Put(block(10), P, word(1)),
                linked(11, &[], &[]),
                linked(12, &[], &[]),
                linked(13, &[], &[]),
                linked(14, &[], &[]),
                linked(15, &[], &[]),
            ]),
        ),
        (
            "carry-drops-awaiting",
            write_list(&[
                open(8, 1, None),
                Call::Install(block(10)),
                Call::Read(block(10), P),
                Call::Read(block(10), P),
                Call::Take(block(10)),
                linked(11, &[], &[]),
                Call::Take(block(11)),
                Call::Answer(block(11), Round::Failed(vec![P])),
                Call::Read(block(11), P),
            ]),
        ),
        (
            "full-get",
            write_list(&[
                open(1, 1, None),
                Call::Install(block(10)),
                Call::Put(block(10), P, word(1)),
                linked(11, &[], &[]),
                Call::Get(block(11), P),
                Call::Read(block(11), P),
                Call::Look(block(11), P),
                linked(12, &[write(P, 2)], &[]),
            ]),
        ),
        (
            "full-freed",
            write_list(&[
                open(2, 1, Some(0)),
                Call::Install(block(10)),
                Call::Put(block(10), P, word(1)),
                linked(11, &[], &[]),
                linked(12, &[], &[]),
                linked(13, &[write(P, 2), write(Q, 3)], &[P.0, Q.0]),
            ]),
        ),
        (
            "put-on-awaiting",
            write_list(&[
                open(4, 1, None),
                Call::Install(bare),
                Call::Read(bare, P),
                Call::Put(bare, P, word(1)),
                Call::Read(bare, P),
                Call::Take(bare),
                Call::Answer(bare, valued(P, 2)),
                Call::Look(bare, P),
            ]),
        ),
        (
            "round-failed",
            write_list(&[
                open(4, 1, None),
                Call::Install(bare),
                Call::Read(bare, Q),
                Call::Read(bare, P),
                Call::Read(bare, P),
                Call::Take(bare),
                Call::Answer(bare, Round::Failed(vec![P, P])),
                Call::Answer(bare, Round::Failed(vec![P])),
                Call::Answer(bare, valued(P, 1)),
                Call::Answer(bare, Round::Members(vec![(Q, None)])),
            ]),
        ),
        (
            "order",
            write_list(&[
                Call::Look(bare, P),
                open(0, 256, None),
                open(4_096, 256, None),
                open(257, 255, None),
                open(1, 0, Some(0)),
                Call::Answer(bare, Round::Failed(vec![P, P])),
                Call::Take(bare),
                Call::Install(bare),
                advance(bare, B256([0; 32]), 9, &[write(P, 1)], &[]),
                advance(bare, B256([0; 32]), 9, &[], &[]),
                Call::Answer(block(10), Round::Members(vec![(P, None)])),
            ]),
        ),
        (
            "empty-answer",
            write_list(&[
                open(4, 1, None),
                Call::Answer(bare, Round::Members(Vec::new())),
                Call::Install(bare),
                Call::Install(bare),
                Call::Answer(bare, Round::Members(Vec::new())),
                Call::Answer(bare, Round::Failed(Vec::new())),
                Call::Take(bare),
                advance(bare, B256([0; 32]), 0, &[], &[]),
            ]),
        ),
    ]
}

/// Put at 0, a relevant write at 5: at 6 idle 1 serves and idle 5 does not.
fn idle_case(idle: u64) -> Vec<u8> {
    let mut calls = vec![
        open(8, 8, Some(idle)),
        Call::Install(block(0)),
        Call::Put(block(0), P, word(1)),
    ];
    calls.extend((1..5).map(|number| linked(number, &[], &[])));
    calls.push(linked(5, &[write(P, 2)], &[P.0]));
    calls.push(linked(6, &[], &[]));
    write_list(&calls)
}

/// Lists at the limits of bytes, layers and records.
pub fn large_cases() -> Vec<(&'static str, Vec<u8>)> {
    vec![
        ("limit-whole", list_of(LIST_LIMIT)),
        (
            "limit-ignored",
            [&list_of(LIST_LIMIT)[..], &[0, 255]].concat(),
        ),
        ("limit-cut", list_of(LIST_LIMIT + 1)),
        ("depth-255", deepest()),
        ("records-256", fullest()),
    ]
}

/// 256 sealed layers, and the advance after them, which folds; some layers
/// have a use alone.
fn deepest() -> Vec<u8> {
    let mut calls = vec![
        open(256, 255, Some(9)),
        Call::Install(block(0)),
        Call::Put(block(0), P, word(1)),
        Call::Put(block(0), Q, word(2)),
    ];
    for number in 1..=259 {
        calls.push(linked(number, &[], &[]));
        if number % 9 == 0 {
            calls.push(Call::Get(block(number), P));
        }
    }
    write_list(&calls)
}

/// 257 records are turned down, 256 are not, and then no more fit.
fn fullest() -> Vec<u8> {
    let bare = ReadAnchor::at(1);
    let slot = |at: u16| {
        let mut index = [0; 32];
        index[30..].copy_from_slice(&at.to_be_bytes());
        (P.0, U256(index))
    };
    let writes =
        |count: u16| -> Vec<Write> { (0..count).map(|at| write(slot(at), at as u8)).collect() };
    let mut again = writes(256);
    again.push(write(slot(3), 9));
    let seed = |writes: &[Write]| advance(bare, B256([0; 32]), 0, writes, &[P.0]);
    write_list(&[
        Call::Open {
            capacity: 256,
            shape: None,
        },
        seed(&writes(257)),
        Call::Look(bare, slot(0)),
        seed(&again),
        Call::Put(bare, slot(256), word(1)),
        Call::Put(bare, slot(255), word(1)),
        Call::Get(bare, slot(3)),
        Call::Read(bare, slot(256)),
        seed(&[]),
    ])
}

/// Lists for orders of refusals, for faults of the bytes, and for single rules.
/// They are recorded after all others.
pub fn later_cases() -> Vec<(&'static str, Vec<u8>)> {
    vec![
        ("order-20", no_store()),
        ("order-open", opens()),
        ("order-8", named_twice()),
        ("order-23", full_store()),
        ("order-24", full_queue()),
        ("cut-value", faulty(&cut_value())),
        ("form-advance", faulty(&[3, 5, 2])),
        ("form-take", faulty(&[8, 5, 2])),
        ("form-answer", faulty(&[9, 5, 2])),
        ("tenth-byte-2", faulty(&tenth_bytes())),
        ("default-depth", default_depth()),
        ("install-drops-awaiting", dropped_by_install()),
        ("written-twice", written_twice()),
        ("parts", two_parts()),
        (
            "limit-rest",
            [list_of(LIST_LIMIT), installs(1_000)].concat(),
        ),
        ("code-10", faulty(&[10, 5, 0])),
    ]
}

/// The calls that 6, 7, 8 and 21 turn down, without a store and with one.
fn no_store() -> Vec<u8> {
    let bare = ReadAnchor::at(5);
    let refused = [
        advance(bare, B256([0; 32]), 1, &[write(P, 1)], &[]),
        advance(bare, B256([0; 32]), 4, &[], &[]),
        Call::Answer(bare, Round::Failed(vec![P, P])),
        Call::Answer(bare, Round::Members(vec![(P, None), (P, None)])),
        Call::Look(bare, P),
        Call::Take(bare),
    ];
    let calls = [&refused[..], &[open(1, 1, None)], &refused].concat();
    write_list(&calls)
}

/// 1 before 2 and 9, 2 before 9, and the largest that is lent for.
fn opens() -> Vec<u8> {
    write_list(&[
        open(4_097, 256, None),
        open(4_097, 255, None),
        open(0, 0, None),
        open(257, 256, None),
        open(257, 255, None),
        open(256, 255, None),
        Call::Install(ReadAnchor::at(1)),
        open(4_096, 1, None),
        Call::Install(ReadAnchor::at(1)),
    ])
}

/// A slot named twice, before each refusal that comes later.
fn named_twice() -> Vec<u8> {
    let members =
        |slots: &[Slot]| Round::Members(slots.iter().map(|slot| (*slot, Some(word(9)))).collect());
    let failed = |slots: &[Slot]| Round::Failed(slots.to_vec());
    let twice = |at: ReadAnchor| {
        [
            Call::Answer(at, members(&[P, P])),
            Call::Answer(at, failed(&[P, Q, P])),
        ]
    };
    let mut calls = vec![open(1, 1, None)];
    calls.extend(twice(block(10))); // before 21
    calls.push(Call::Install(block(10)));
    calls.push(Call::Put(block(10), Q, word(1)));
    calls.extend(twice(block(11))); // before 22
    calls.extend(twice(block(10))); // before 26
    calls.push(Call::Read(block(10), P));
    calls.extend(twice(block(10)));
    calls.push(Call::Take(block(10)));
    calls.extend(twice(block(10))); // before 23
    calls.push(Call::Answer(block(11), members(&[P])));
    calls.push(Call::Answer(block(10), members(&[P, Q])));
    calls.push(Call::Answer(block(10), members(&[P])));
    calls.push(Call::Answer(block(10), failed(&[P])));
    write_list(&calls)
}

/// 6, 22 and 26 before 23, and 23.
fn full_store() -> Vec<u8> {
    let both = [write(P, 2), write(Q, 3)];
    let skipped = advance(block(11), block_hash(10), 1, &both, &[P.0, Q.0]);
    write_list(&[
        open(1, 1, None),
        Call::Install(block(10)),
        Call::Put(block(10), P, word(1)),
        skipped,
        linked(11, &both, &[P.0, Q.0]),
        Call::Put(block(9), Q, word(2)),
        Call::Put(block(10), Q, word(2)),
        Call::Read(block(10), Q),
        Call::Answer(block(10), valued(Q, 3)),
        Call::Take(block(10)),
        Call::Answer(block(9), valued(Q, 3)),
        Call::Answer(block(10), valued(Q, 3)),
        Call::Answer(block(10), Round::Members(vec![(Q, None)])),
        linked(11, &[], &[]),
        Call::Get(block(10), P),
        Call::Get(block(11), P),
        Call::Read(block(10), P),
        Call::Read(block(11), P),
        Call::Look(block(11), P),
    ])
}

/// 22 before 24; the 65th slot; the 64th again; 64 slots taken and answered.
fn full_queue() -> Vec<u8> {
    let (bare, other) = (ReadAnchor::at(5), ReadAnchor::at(6));
    let slot = |at: u8| (P.0, word(at));
    let mut calls = vec![open(1, 1, None), Call::Install(bare)];
    calls.extend((0..64).map(|at| Call::Read(bare, slot(at))));
    calls.extend([
        Call::Read(other, slot(64)),
        Call::Read(bare, slot(64)),
        Call::Read(bare, slot(63)),
        Call::Take(bare),
        Call::Answer(bare, Round::Failed((0..64).map(slot).collect())),
    ]);
    write_list(&calls)
}

/// Bytes that are no call, after an open store with a taken slot.
fn faulty(bytes: &[u8]) -> Vec<u8> {
    let bare = ReadAnchor::at(5);
    let good = write_list(&[
        open(4, 1, None),
        Call::Install(bare),
        Call::Read(bare, P),
        Call::Take(bare),
    ]);
    [&good[..], bytes].concat()
}

/// An answer whose second member's value lacks its last byte.
fn cut_value() -> Vec<u8> {
    let members = vec![(Q, None), (P, Some(word(1)))];
    let mut bytes = write_list(&[Call::Answer(ReadAnchor::at(5), Round::Members(members))]);
    bytes.pop();
    bytes
}

/// A number with a tenth byte of 1, and one with 2.
fn tenth_bytes() -> Vec<u8> {
    let nine = [0x80; 9];
    [&[2][..], &nine, &[1, 0, 2], &nine, &[2, 0]].concat()
}

/// The ninth layer over the first folds: depth 8.
fn default_depth() -> Vec<u8> {
    let mut calls = vec![
        Call::Open {
            capacity: 4,
            shape: None,
        },
        Call::Install(block(0)),
        Call::Put(block(0), P, word(1)),
    ];
    calls.extend((1..=10).map(|number| linked(number, &[], &[])));
    write_list(&calls)
}

/// Another anchor drops what awaits, taken or not; the same one does not.
fn dropped_by_install() -> Vec<u8> {
    let (here, there) = (ReadAnchor::at(5), ReadAnchor::at(6));
    write_list(&[
        open(4, 1, None),
        Call::Install(here),
        Call::Read(here, P),
        Call::Take(here),
        Call::Read(here, Q),
        Call::Install(here),
        Call::Install(there),
        Call::Take(there),
        Call::Answer(there, Round::Failed(vec![P])),
        Call::Read(there, P),
        Call::Take(there),
        Call::Answer(there, valued(P, 1)),
        Call::Read(there, P),
    ])
}

/// A slot written twice in a list: a served one keeps its use, which lapses
/// with the next block; one that is new has the child's number.
fn written_twice() -> Vec<u8> {
    let twice = [write(P, 2), write(Q, 3), write(P, 4), write(Q, 5)];
    write_list(&[
        open(8, 8, Some(1)),
        Call::Install(block(10)),
        Call::Put(block(10), P, word(1)),
        linked(11, &twice, &[Q.0]),
        Call::Look(block(11), P),
        linked(12, &[], &[]),
        Call::Look(block(12), P),
        Call::Look(block(12), Q),
    ])
}

/// A listing of more than one part of 58,299 bytes: a put in the first part is
/// looked up in the second.
fn two_parts() -> Vec<u8> {
    let mut calls = vec![
        open(1, 1, None),
        Call::Install(block(10)),
        Call::Put(block(10), P, word(1)),
    ];
    calls.extend(vec![Call::Take(ReadAnchor::at(6)); 9_800]);
    calls.push(Call::Look(block(10), P));
    write_list(&calls)
}

fn installs(count: usize) -> Vec<u8> {
    write_list(&vec![Call::Install(ReadAnchor::at(7)); count])
}

/// A list of whole calls of so many bytes. A long list of addresses takes most
/// of them, installs of 3 and 4 bytes the rest.
fn list_of(bytes: usize) -> Vec<u8> {
    let (bare, other) = (ReadAnchor::at(1), ReadAnchor::at(200));
    let look = Call::Look(bare, P);
    let mut calls = vec![
        Call::Open {
            capacity: 256,
            shape: None,
        },
        advance(bare, B256([0; 32]), 0, &[write(P, 1)], &[P.0; 3_262]),
    ];
    let last = [Call::Install(bare), look];
    let rest = bytes - write_list(&calls).len() - write_list(&last).len();
    let fours = rest % 3;
    calls.extend(vec![Call::Install(other); fours]);
    calls.extend(vec![Call::Install(bare); (rest - 4 * fours) / 3]);
    calls.extend(last);
    let list = write_list(&calls);
    assert_eq!(list.len(), bytes);
    list
}

const P: Slot = (Address([0x11; 20]), U256([0x07; 32]));
const Q: Slot = (Address([0x22; 20]), U256([0x03; 32]));

pub fn word(value: u8) -> U256 {
    let mut bytes = [0; 32];
    bytes[31] = value;
    U256(bytes)
}

fn block_hash(number: u64) -> B256 {
    B256([(number % 256) as u8 ^ 0xa0; 32])
}

fn block(number: u64) -> ReadAnchor {
    ReadAnchor::identified(number, block_hash(number))
}

fn write(slot: Slot, value: u8) -> Write {
    (slot.0, slot.1, word(value))
}

fn valued(slot: Slot, value: u8) -> Round {
    Round::Members(vec![(slot, Some(word(value)))])
}

fn open(capacity: u64, depth: u64, idle: Option<u64>) -> Call {
    let retention = idle.map_or(Retention::Unbounded, Retention::IdleBlocks);
    Call::Open {
        capacity,
        shape: Some(Shape { depth, retention }),
    }
}

fn advance(
    child: ReadAnchor,
    parent_hash: B256,
    skip: u64,
    writes: &[Write],
    relevance: &[Address],
) -> Call {
    Call::Advance(Advance {
        child,
        parent_hash,
        skip,
        relevance: relevance.to_vec(),
        writes: writes.to_vec(),
    })
}

/// An advance to a block on the one below it.
fn linked(number: u64, writes: &[Write], relevance: &[Address]) -> Call {
    let below = block_hash(number.wrapping_sub(1));
    advance(block(number), below, 0, writes, relevance)
}
