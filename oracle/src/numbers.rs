//! A number in forms around its limits, at every place that a call list has
//! for one.

use crate::calls::Writer;
use crate::sim::storage_memo::ReadAnchor;
use alloy::primitives::B256;

const SLOT: [u8; 52] = [7; 52];
const HASH: [u8; 32] = [9; 32];
/// A ten-group number: the installed one.
const INSTALLED: u64 = 1 << 63;

/// 384 forms of one to twelve bytes. Among them are 2^63, 2^64 - 1 and 2^64, numbers of
/// nine, ten and eleven groups, long forms of smaller ones, and numbers that
/// have no last group.
pub fn forms() -> Vec<Vec<u8>> {
    let mut forms = Vec::new();
    for last in [0, 1, 2, 0x7f, 0x80, 0xff] {
        forms.push(vec![last]);
        for first in [0x80, 0x81, 0xff] {
            forms.push(vec![first, last]);
            for middle in [0x80, 0xff] {
                forms.extend((1..=10).map(|length| {
                    let middles = vec![middle; length];
                    [&[first][..], &middles, &[last]].concat()
                }));
            }
        }
    }
    forms
}

/// For each place of a number: the bytes of its call before it and after it.
fn places() -> Vec<(Vec<u8>, Vec<u8>)> {
    let hashed = [&[1][..], &HASH].concat();
    let child = [&[3, 5][..], &hashed, &HASH].concat();
    let answer = [&[9][..], &installed()].concat();
    let write = [&SLOT[..], &HASH].concat();
    let place = |before: &[&[u8]], after: &[&[u8]]| (before.concat(), after.concat());
    vec![
        // Open: capacity, depth, idle.
        place(&[&[1]], &[&[0]]),
        place(&[&[1, 4, 1]], &[&[0]]),
        place(&[&[1, 4, 1, 8, 1]], &[&[2], &installed()]),
        // An anchor's number, codes 2 to 9.
        place(&[&[2]], &[&hashed]),
        place(&[&[3]], &[&hashed, &HASH, &[0, 0, 0]]),
        place(&[&[4]], &[&hashed, &SLOT]),
        place(&[&[5]], &[&hashed, &SLOT]),
        place(&[&[6]], &[&hashed, &SLOT, &HASH]),
        place(&[&[7]], &[&hashed, &SLOT]),
        place(&[&[8]], &[&hashed]),
        place(&[&[9]], &[&hashed, &[0, 0]]),
        // Advance: skip, addresses, writes.
        place(&[&child], &[&[0, 0]]),
        place(&[&child, &[0]], &[&SLOT[..20], &[0]]),
        place(&[&child, &[0, 0]], &[&write]),
        // Answer: members, slots of a failed round.
        place(&[&answer, &[0]], &[&SLOT, &[0]]),
        place(&[&answer, &[1]], &[&SLOT]),
    ]
}

/// The installed anchor.
fn installed() -> Vec<u8> {
    let mut writer = Writer::default();
    writer.anchor(ReadAnchor::identified(INSTALLED, B256(HASH)));
    writer.bytes
}

/// Every form at every place, on a store with a value: the whole call, and the
/// list that ends with the number.
pub fn lists() -> impl Iterator<Item = Vec<u8>> {
    let put = [&[6][..], &installed(), &SLOT, &HASH].concat();
    let start = [&[1, 4, 0, 2][..], &installed(), &put].concat();
    places().into_iter().flat_map(move |(before, after)| {
        let start = start.clone();
        forms().into_iter().flat_map(move |form| {
            let ended = [&start[..], &before, &form].concat();
            [[&ended[..], &after].concat(), ended]
        })
    })
}
