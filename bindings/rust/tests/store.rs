//! What the crate adds to the calls: its own bytes, equality, copies, refusals as errors, plans.

use poxilme::{
    seed_from_accounts, AccountChanges, Address, BalPlan, BalSeed, BalSkip, CarryOutcome, CarryRefusal,
    DeltaSnapshotCache, PreparedBal, Read, ReadAnchor, Refusal, RelevanceSet, Retention, SlotChanges, StorageChange,
    B256, U256,
};
use std::error::Error;

fn slot(index: u64) -> (Address, U256) {
    (Address([0x11; 20]), U256::from(index))
}

/// A store with values, a fold's worth of layers and reads that wait.
fn filled() -> DeltaSnapshotCache {
    let mut cache = DeltaSnapshotCache::with_max_depth_and_retention(64, 2, Retention::IdleBlocks(9)).unwrap();
    let block = |number: u64| ReadAnchor::identified(number, B256([number as u8; 32]));
    cache.for_anchor(block(1)).unwrap();
    for number in 1..=6 {
        cache.put(block(number), slot(number), U256::from(10 * number)).unwrap();
        let list = PreparedBal::decoded(&[(slot(1).0, slot(1).1, U256::from(number))]);
        let parent = block(number).hash.unwrap();
        cache.apply_prepared(block(number + 1), parent, &RelevanceSet::default(), &list).unwrap();
    }
    assert_eq!(cache.read(block(7), slot(99)), Ok(Read::Waiting { waiters: 1 }));
    assert_eq!(cache.read(block(7), slot(99)), Ok(Read::Waiting { waiters: 2 }));
    cache
}

#[test]
fn bytes_taken_out_and_put_back() {
    let mut cache = filled();
    let mut longer = cache.as_bytes().to_vec();
    longer.extend([1; 100]);
    let mut back = DeltaSnapshotCache::from_bytes(&longer).expect("they begin with a store");
    assert_eq!(back, cache);
    assert_eq!(back.as_bytes().len(), 7_360 + 112 * 64);
    assert_eq!((back.capacity(), back.max_depth(), back.retention()), (64, 2, Retention::IdleBlocks(9)));
    let anchor = back.anchor().expect("one is installed");
    assert_eq!(back.take_queued(anchor), Ok(vec![slot(99)]));
    assert_ne!(back, cache);
    assert_eq!(cache.take_queued(anchor), Ok(vec![slot(99)]));
    assert_eq!(back, cache);
    assert_eq!(&*back.clone().into_bytes(), cache.as_bytes());
}

#[test]
fn other_bytes_are_refused() {
    let cache = filled();
    let bytes = cache.as_bytes();
    for length in [0, 1, 15, 16, 7_359, bytes.len() - 1] {
        assert_eq!(DeltaSnapshotCache::from_bytes(&bytes[..length]), Err(Refusal::NotAStore), "{length}");
    }
    let changed_at = |place: usize| {
        let mut changed = bytes.to_vec();
        changed[place] ^= 0x80;
        DeltaSnapshotCache::from_bytes(&changed)
    };
    // The first word, the word "installed", the depth, the totals, the first layer's end, a record's unused word, and bytes that no
    // record uses.
    let unused = 7_360 + 112 * cache.records()..bytes.len();
    let told = [0..8, 40..48, 96..104, 120..128, 192..200, 7_464..7_472, unused];
    for place in told.into_iter().flatten() {
        assert_eq!(changed_at(place), Err(Refusal::NotAStore), "byte {place}");
    }
    // A value's byte makes another store.
    assert_ne!(changed_at(7_360 + 72).expect("a store"), cache);
    assert_eq!(DeltaSnapshotCache::from_bytes(&[0; 10_000]), Err(Refusal::NotAStore));
    assert_eq!(DeltaSnapshotCache::from_bytes(&[0xff; 10_000]), Err(Refusal::NotAStore));
}

#[test]
fn a_copy_is_a_store_of_its_own() {
    let cache = filled();
    let mut copy = cache.clone();
    let anchor = copy.anchor().unwrap();
    copy.put(anchor, slot(50), U256::from(1)).unwrap();
    assert_eq!(cache.snapshot_value(anchor, slot(50)), Ok(None));
    assert_eq!(copy.snapshot_value(anchor, slot(50)), Ok(Some(U256::from(1))));
    assert_eq!(copy.records(), cache.records() + 1);
}

#[test]
fn looks_from_several_threads() {
    let cache = filled();
    let anchor = cache.anchor().unwrap();
    std::thread::scope(|scope| {
        for _ in 0..4 {
            scope.spawn(|| {
                for _ in 0..1000 {
                    assert_eq!(cache.snapshot_value(anchor, slot(1)), Ok(Some(U256::from(6))));
                }
            });
        }
    });
}

#[test]
fn refusals_are_errors() {
    let numbers: Vec<u64> = Refusal::ALL.iter().map(|refusal| refusal.number()).collect();
    assert_eq!(numbers, [1, 2, 3, 4, 5, 6, 7, 8, 9, 10, 20, 21, 22, 23, 24, 25, 26, 27]);
    for refusal in Refusal::ALL {
        assert_eq!(Refusal::from_number(refusal.number()), Some(*refusal));
    }
    assert_eq!(Refusal::from_number(0), None);
    let error: Box<dyn Error> = DeltaSnapshotCache::new(0).unwrap_err().into();
    assert_eq!(error.to_string(), "refused by 1: the capacity is 0 or above 4,096 records");
}

#[test]
fn each_refusal_that_a_store_can_meet() {
    let at = ReadAnchor::at;
    let mut cache = DeltaSnapshotCache::new(1).unwrap();
    assert_eq!(DeltaSnapshotCache::new(4_097).unwrap_err(), Refusal::CapacityOutOfRange);
    assert_eq!(DeltaSnapshotCache::with_max_depth(1, 256).unwrap_err(), Refusal::DepthLimitTooLarge);
    assert_eq!(cache.get(at(1), slot(1)), Err(Refusal::NothingInstalled));
    assert_eq!(cache.read_totals(), Err(Refusal::NothingInstalled));
    cache.for_anchor(at(1)).unwrap();
    assert_eq!(cache.get(at(2), slot(1)), Err(Refusal::OtherAnchor));
    cache.put(at(1), slot(1), U256::from(1)).unwrap();
    assert_eq!(cache.put(at(1), slot(2), U256::from(1)), Err(Refusal::StoreFull));
    assert_eq!(cache.answer(at(1), &[(slot(2), None), (slot(2), None)]), Err(Refusal::SlotTwice));
    assert_eq!(cache.answer_failed(at(1), &[slot(2)]), Err(Refusal::NotTaken));
    for index in 2..=65 {
        assert_eq!(cache.read(at(1), slot(index)), Ok(Read::Waiting { waiters: 1 }));
    }
    assert_eq!(cache.read(at(1), slot(66)), Err(Refusal::QueueFull));
    let taken = cache.take_queued(at(1)).unwrap();
    assert_eq!(taken, (2..=65).map(slot).collect::<Vec<_>>());
    let round = cache.answer_failed(at(1), &taken).unwrap();
    assert_eq!((round.storage_members, round.storage_member_errors, round.woken), (64, 0, 64));
}

#[test]
fn cold_for_two_reasons() {
    let mut cache = DeltaSnapshotCache::new(4).unwrap();
    let list = PreparedBal::skipped(BalSkip::NoAnchorHash);
    let report = cache.apply_prepared(ReadAnchor::at(5), B256::ZERO, &RelevanceSet::default(), &list).unwrap();
    let cold = |lineage, bal| CarryOutcome::Cold { lineage, bal };
    assert_eq!(report.outcome, cold(Some(CarryRefusal::NoParent), Some(BalSkip::NoAnchorHash)));
    let list = PreparedBal::decoded(&[]);
    let report = cache.apply_prepared(ReadAnchor::at(6), B256::ZERO, &RelevanceSet::default(), &list).unwrap();
    assert_eq!(report.outcome, cold(Some(CarryRefusal::ParentHashUnknown), None));
    assert_eq!(
        cache.apply_prepared(ReadAnchor::at(6), B256::ZERO, &RelevanceSet::default(), &list).unwrap().outcome,
        CarryOutcome::AlreadyCurrent
    );
}

fn account(byte: u8) -> AccountChanges {
    let change = |index, value: u64| StorageChange { block_access_index: index, new_value: U256::from(value) };
    AccountChanges {
        address: Address([byte; 20]),
        storage_changes: vec![
            SlotChanges { slot: U256::from(1), changes: vec![change(0, 5), change(3, 6)] },
            SlotChanges { slot: U256::from(2), changes: vec![] },
            SlotChanges { slot: U256::from(3), changes: vec![change(1, 7)] },
        ],
        storage_reads: vec![U256::from(4)],
    }
}

#[test]
fn plans() {
    let list = [account(1), account(2)];
    let all = seed_from_accounts(&list, &BalPlan::default());
    assert_eq!((all.writes.len(), all.reads.len(), all.filtered_entries, all.capped_entries), (4, 2, 0, 0));
    assert_eq!(PreparedBal::from_accounts(&list).final_writes().collect::<Vec<_>>(), all.writes);

    let named =
        BalPlan { addresses: Some(vec![Address([2; 20])]), max_write_seeds: Some(1), max_read_prefetches: Some(0) };
    let seed = seed_from_accounts(&list, &named);
    let expected = BalSeed {
        writes: vec![(Address([2; 20]), U256::from(1), U256::from(6))],
        reads: vec![],
        filtered_entries: 3,
        capped_entries: 2,
    };
    assert_eq!(seed, expected);

    // A plan that names no account at all.
    let none = BalPlan { addresses: Some(vec![]), max_write_seeds: Some(1), max_read_prefetches: None };
    assert_eq!(seed_from_accounts(&list, &none), BalSeed { filtered_entries: 6, ..BalSeed::default() });
    assert_eq!(seed_from_accounts(&[], &none), BalSeed::default());
}

/// The calls that need the most stack, on the deepest store, in a thread with little more than docs/USING.md says (272 KB).
#[test]
fn stack_of_the_largest_calls() {
    let calls = || {
        let block = |number: u64| ReadAnchor::identified(number, B256(U256::from(number).0));
        let mut cache = DeltaSnapshotCache::with_max_depth(4_096, 255).unwrap();
        cache.for_anchor(block(0)).unwrap();
        let relevance = RelevanceSet::from_slice(&[slot(0).0]);
        for number in 0..300 {
            cache.put(block(number), slot(number), U256::from(number)).unwrap();
            assert_eq!(cache.get(block(number), slot(0)), Ok(Some(U256::from(0))));
            assert_eq!(cache.read(block(number), slot(10_000)), Ok(Read::Waiting { waiters: 1 }));
            let writes: Vec<_> =
                (0..8).map(|i| (slot(0).0, U256::from(1_000 + 8 * number + i), U256::from(7))).collect();
            let (child, parent) = (block(number + 1), block(number).hash.unwrap());
            let report = cache.apply_prepared(child, parent, &relevance, &PreparedBal::decoded(&writes)).unwrap();
            assert_eq!(report.compaction.is_some(), number == 256);
            assert_eq!(DeltaSnapshotCache::from_bytes(cache.as_bytes()).as_ref(), Ok(&cache));
        }
    };
    std::thread::Builder::new().stack_size(288 * 1024).spawn(calls).unwrap().join().unwrap();
}

/// docs/USING.md: with s slots in all, t touched in a block and depth limit d there are at most s + (d + 1) t records, and that many
/// there can be; the first fold comes with advance d + 2, the others every d blocks.
#[test]
fn records_and_folds() {
    let (s, t) = (40, 7);
    for d in [1, 2, 8] {
        let block = |number: u64| ReadAnchor::identified(number, B256(U256::from(number).0));
        let mut cache = DeltaSnapshotCache::with_max_depth(4_096, d as u32).unwrap();
        cache.for_anchor(block(0)).unwrap();
        let (mut most, mut folds) = (0, Vec::new());
        for number in 0..200 {
            for i in 0..t {
                cache.put(block(number), slot((number * t + i) % s), U256::from(1)).unwrap();
            }
            most = most.max(cache.records());
            let (child, parent) = (block(number + 1), block(number).hash.unwrap());
            let list = PreparedBal::decoded(&[]);
            let report = cache.apply_prepared(child, parent, &RelevanceSet::default(), &list).unwrap();
            if report.compaction.is_some() {
                folds.push(number + 1);
            }
        }
        assert_eq!(most as u64, s + (d + 1) * t);
        let expected: Vec<u64> = (d + 2..=200).step_by(d as usize).collect();
        assert_eq!(folds, expected, "depth limit {d}");
    }
}
