//! Lists that are no call list: single faults of the bytes, and damaged
//! copies of good lists.

use super::rng::Rng;
use crate::calls::Writer;
use crate::sim::storage_memo::ReadAnchor;

/// How many faults `fault` knows.
pub const FAULTS: usize = 34;

const NINE: [u8; 9] = [0x80; 9];
const HUGE: [u8; 10] = [0xff, 0xff, 0xff, 0xff, 0xff, 0xff, 0xff, 0xff, 0xff, 0x01];

/// The bytes of one call with a fault, to stand at the end of a good list.
/// Some of them are whole calls with the largest numbers.
pub fn fault(which: usize, rng: &mut Rng) -> Vec<u8> {
    let anchor = [5, 0];
    let slot = [7; 52];
    let hash = [9; 32];
    let nine = |last: &[u8]| [&NINE[..], last].concat();
    match which % FAULTS {
        0 => vec![0],
        1 => vec![10],
        2 => vec![*rng.pick(&[11, 12, 127, 128, 129, 255])],
        // Numbers: a last group of 0, the tenth byte, an end inside.
        3 => vec![1, 0x84, 0, 0],
        4 => [&[1][..], &HUGE, &[0]].concat(),
        5 => [&[1][..], &nine(&[2]), &[0]].concat(),
        6 => [&[1][..], &nine(&[0]), &[0]].concat(),
        7 => [&[1][..], &nine(&[1]), &[0]].concat(),
        8 => [&[1][..], &nine(&[0x82])].concat(),
        9 => [&[1][..], &nine(&[])].concat(),
        10 => vec![1, 0x80],
        11 => vec![1, 4, 1, 0x81, 0, 0],
        12 => vec![1, 4, 1, 8, 1, 0xff, 0],
        13 => [&[1, 4, 1, 8, 1][..], &HUGE].concat(),
        14 => [&[2, 0x80, 0x80, 0, 0][..]].concat(),
        15 => [&[4][..], &nine(&[0x81]), &[0], &slot].concat(),
        // Form bytes.
        16 => vec![1, 4, 2],
        17 => vec![1, 4, 1, 8, *rng.pick(&[2, 128, 255])],
        18 => vec![2, 5, *rng.pick(&[2, 3, 255])],
        19 => [&[9][..], &anchor, &[2, 0]].concat(),
        20 => [&[9][..], &anchor, &[0, 1], &slot, &[2]].concat(),
        // A fault of an earlier byte decides.
        21 => [&[9][..], &anchor, &[2, 0x80, 0]].concat(),
        22 => vec![1, 0x80, 0, 2],
        // Counts that are not met.
        23 => [&[3][..], &anchor, &hash, &[0], &HUGE, &[1; 50]].concat(),
        24 => [&[3][..], &anchor, &hash, &[0, 0], &HUGE, &[1; 100]].concat(),
        25 => [&[9][..], &anchor, &[0], &HUGE, &slot, &[0], &slot].concat(),
        26 => [&[9][..], &anchor, &[0], &HUGE, &slot, &[0], &slot, &[3, 1]].concat(),
        27 => [&[9][..], &anchor, &[1], &HUGE, &slot, &slot[..51]].concat(),
        28 => [&[9][..], &anchor, &[1, 0x82, 0], &slot, &slot].concat(),
        // An advance's skip and counts in long form.
        29 => [&[3][..], &anchor, &hash, &[0x80, 0, 0, 0]].concat(),
        30 => [&[3][..], &anchor, &hash, &[0, 0x80, 0, 0]].concat(),
        31 => [&[3][..], &anchor, &hash, &[0, 0, 0x80, 0]].concat(),
        // Bytes that end inside.
        32 => vec![rng.between(1, 9) as u8],
        _ => cut_call(rng),
    }
}

/// A good call without its last bytes.
fn cut_call(rng: &mut Rng) -> Vec<u8> {
    let mut writer = Writer::default();
    writer.bytes.push(*rng.pick(&[4, 5, 6, 7]));
    writer.anchor(ReadAnchor::at(300));
    writer.bytes.extend([3; 52]);
    if writer.bytes[0] == 6 {
        writer.bytes.extend([4; 32]);
    }
    let keep = rng.between(1, writer.bytes.len() - 1);
    writer.bytes.truncate(keep);
    writer.bytes
}

/// Damage a good list in one to three places. `starts` are the places where
/// its calls begin; half of the damage falls on the bytes there.
pub fn damage(list: &mut Vec<u8>, starts: &[usize], rng: &mut Rng) {
    for _ in 0..rng.between(1, 3) {
        if list.is_empty() {
            return;
        }
        let at = if rng.chance(50) && !starts.is_empty() {
            (rng.pick(starts) + rng.below(4)).min(list.len() - 1)
        } else {
            rng.below(list.len())
        };
        match rng.below(7) {
            0 => list[at] ^= 1 << rng.below(8),
            1 => list[at] = rng.draw() as u8,
            2 => drop(list.remove(at)),
            3 => list.insert(at, *rng.pick(&[0, 1, 2, 4, 127, 128, 255])),
            4 => list.truncate(at),
            5 => {
                let end = (at + rng.between(1, 90)).min(list.len());
                let copy = list[at..end].to_vec();
                list.splice(at..at, copy);
            }
            _ => {
                let end = (at + rng.between(1, 60)).min(list.len());
                list.drain(at..end);
            }
        }
    }
}
