//! Random calls to the crate and to the original: values, lists, counts and refusals are equal.
//!
//! `BESIDE_SEEDS` sets how many seeds are tried (default 1000).

use beside::convert::{account, ours, slot, write};
use beside::random::{list_and_plan, Calls};
use beside::{Both, Got};
use oracle::calls::Reader;
use oracle::sim::evm2::bal_prefetch::oracle_access::fold_accounts;
use poxilme::{seed_from_accounts, AccountChanges, BalPlan, BalSeed, DeltaSnapshotCache, SlotChanges, StorageChange};
use std::collections::BTreeMap;

fn seeds() -> u64 {
    std::env::var("BESIDE_SEEDS").map_or(1000, |seeds| seeds.parse().expect("BESIDE_SEEDS is a number"))
}

/// How often each kind of answer was seen.
#[derive(Default)]
struct Seen(BTreeMap<String, u64>);

impl Seen {
    fn count(&mut self, got: &Got, said: bool) {
        let not = if said { "" } else { " (no such call)" };
        *self.0.entry(got.kind() + not).or_default() += 1;
    }

    fn total(&self) -> u64 {
        self.0.values().sum()
    }

    fn expect(&self, kinds: &[&str]) {
        println!("{} calls: {:?}", self.total(), self.0);
        for kind in kinds {
            assert!(self.0.contains_key(*kind), "no answer was {kind}");
        }
    }
}

const KINDS: [&str; 25] = [
    "opened",
    "installed Fresh",
    "installed Same",
    "current",
    "carried",
    "carried, folded",
    "cold",
    "value",
    "nothing",
    "waiting",
    "put",
    "taken",
    "round",
    "refused 1",
    "refused 2",
    "refused 8",
    "refused 20",
    "refused 21",
    "refused 22",
    "refused 23",
    "refused 24",
    "refused 26",
    "refused 6 (no such call)",
    "refused 7 (no such call)",
    "refused 9 (no such call)",
];

/// Calls of a generator of this package. Now and then the store is taken out as bytes and put back.
#[test]
fn random_calls() {
    let mut seen = Seen::default();
    for seed in 0..seeds() {
        let mut both = Both::default();
        let mut calls = Calls::new(seed);
        for step in 0..500 {
            let call = calls.call();
            let (got, said) = both.call(&call);
            calls.saw(&call, &got);
            seen.count(&got, said);
            if step % 50 == 49 {
                if let Some(cache) = &mut both.ours.cache {
                    *cache = DeltaSnapshotCache::from_bytes(cache.as_bytes()).expect("a store");
                }
            }
        }
    }
    // Nothing is called before an open here: the recorded kinds below have 20.
    seen.expect(&KINDS.iter().copied().filter(|kind| *kind != "refused 20").collect::<Vec<_>>());
}

/// The lists of the oracle's generator, of every kind that has calls.
#[test]
fn generated_lists() {
    let mut seen = Seen::default();
    for kind in oracle::generate::kinds() {
        for seed in 0..seeds() / 4 {
            let list = oracle::generate::list(kind, seed, false).expect("a kind");
            let mut both = Both::default();
            let mut reader = Reader::new(&list);
            while let Some(Ok(call)) = reader.next_call() {
                let (got, said) = both.call(&call);
                seen.count(&got, said);
            }
        }
    }
    seen.expect(&KINDS);
}

/// Final writes: the same writes, reads and counts.
#[test]
fn final_writes() {
    let (mut writes, mut reads, mut filtered, mut capped, mut named_none) = (0, 0, 0, 0, 0);
    for seed in 0..20 * seeds() {
        let (list, plan) = list_and_plan(seed);
        let expected = fold_accounts(&list, &plan);
        let expected = BalSeed {
            writes: expected.writes.iter().map(write).collect(),
            reads: expected.reads.iter().map(slot).collect(),
            filtered_entries: expected.filtered_entries,
            capped_entries: expected.capped_entries,
        };
        let list: Vec<AccountChanges> = list.iter().map(our_account).collect();
        let plan = BalPlan {
            addresses: plan.addresses.map(|addresses| addresses.iter().map(account).collect()),
            max_write_seeds: plan.max_write_seeds,
            max_read_prefetches: plan.max_read_prefetches,
        };
        let seed_of_list = seed_from_accounts(&list, &plan);
        assert_eq!(seed_of_list, expected, "seed {seed}: {list:?} {plan:?}");
        writes += expected.writes.len();
        reads += expected.reads.len();
        filtered += expected.filtered_entries;
        capped += expected.capped_entries;
        named_none += usize::from(plan.addresses.is_some_and(|addresses| addresses.is_empty()));
    }
    println!("{writes} writes, {reads} reads, {filtered} filtered, {capped} capped, {named_none} plans that name none");
    assert!([writes, reads, filtered, capped, named_none].iter().all(|count| *count > 0));
}

fn our_account(from: &alloy_eip7928::AccountChanges) -> AccountChanges {
    let change = |change: &alloy_eip7928::StorageChange| StorageChange {
        block_access_index: change.block_access_index,
        new_value: ours(change.new_value),
    };
    AccountChanges {
        address: account(&from.address),
        storage_changes: from
            .storage_changes
            .iter()
            .map(|listed| SlotChanges { slot: ours(listed.slot), changes: listed.changes.iter().map(change).collect() })
            .collect(),
        storage_reads: from.storage_reads.iter().map(|index| ours(*index)).collect(),
    }
}
