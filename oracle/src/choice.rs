//! Which lists are recorded.

use crate::cases;
use crate::generate;
use crate::tally::features;
use crate::voucher::Voucher;
use std::collections::BTreeSet;

/// Seeds that are looked at for each kind.
const SMALL_SEEDS: u64 = 600;
const SEEDS: u64 = 250;
/// Lists that are recorded for each kind. Of `parse` every fault is recorded.
const SMALL_LISTS: usize = 3;
const LISTS: usize = 13;

/// The origin of a list written by hand.
pub const BY_HAND: &str = "by hand";

/// A list to record.
pub struct Entry {
    pub kind: String,
    pub origin: String,
    pub voucher: Voucher,
    pub list: Vec<u8>,
}

/// The whole case, small lists, lists of every kind, lists at the limits, and
/// those by hand that came later.
pub fn entries() -> Vec<Entry> {
    let mut entries = vec![by_hand("whole-case", cases::whole_case())];
    for (name, list) in cases::small_cases() {
        entries.push(by_hand(&format!("small-{name}"), list));
    }
    let mut seen = BTreeSet::new();
    for kind in generate::kinds() {
        entries.extend(choose(kind, SMALL_SEEDS, SMALL_LISTS, true, &mut seen));
    }
    let mut seen = BTreeSet::new();
    for kind in generate::kinds() {
        if kind == "parse" {
            entries.extend((0..generate::FAULTS as u64).map(|seed| made(kind, seed, false)));
        } else {
            entries.extend(choose(kind, SEEDS, LISTS, false, &mut seen));
        }
    }
    for (name, list) in cases::large_cases().into_iter().chain(cases::later_cases()) {
        entries.push(by_hand(name, list));
    }
    entries
}

fn by_hand(kind: &str, list: Vec<u8>) -> Entry {
    Entry {
        kind: kind.into(),
        origin: BY_HAND.into(),
        voucher: Voucher::Rust,
        list,
    }
}

fn made(kind: &str, seed: u64, small: bool) -> Entry {
    let list = generate::list(kind, seed, small).expect("a known kind");
    let (name, option) = if small {
        (format!("small-{kind}"), " --small")
    } else {
        (kind.to_string(), "")
    };
    Entry {
        kind: name,
        origin: format!("gen {kind} {seed}{option}"),
        voucher: Voucher::Rust,
        list,
    }
}

/// From the first seeds of a kind, the lists that together show the most: each
/// time the one with the most that no list before it showed.
fn choose(
    kind: &str,
    seeds: u64,
    lists: usize,
    small: bool,
    seen: &mut BTreeSet<String>,
) -> Vec<Entry> {
    let mut left: Vec<(Entry, BTreeSet<String>)> = (0..seeds)
        .map(|seed| made(kind, seed, small))
        .map(|entry| {
            let shown = features(&entry.list);
            (entry, shown)
        })
        .collect();
    let mut chosen = Vec::new();
    while chosen.len() < lists && !left.is_empty() {
        let gain = |shown: &BTreeSet<String>| shown.difference(seen).count();
        let mut best = 0;
        for at in 1..left.len() {
            if gain(&left[at].1) > gain(&left[best].1) {
                best = at;
            }
        }
        let (entry, shown) = left.remove(best);
        seen.extend(shown);
        chosen.push(entry);
    }
    chosen
}
