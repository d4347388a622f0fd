//! The whole case of the scope paper (examples/whole-case.txt), call by call through `DeltaSnapshotCache`, and every example
//! and recorded list through `run_list`.

use poxilme::{
    run_list, Address, CarryOutcome, CompactionReport, DeltaReport, DeltaSnapshotCache, Installed, PreparedBal, Read,
    ReadAnchor, ReadTotals, Refusal, RelevanceSet, Retention, B256, U256,
};
use std::fs;
use std::path::{Path, PathBuf};

const P: (Address, U256) = (Address([0x11; 20]), U256([0x07; 32]));

fn hash(byte: u8) -> B256 {
    B256([byte; 32])
}

fn block(number: u64, byte: u8) -> ReadAnchor {
    ReadAnchor::identified(number, hash(byte))
}

fn advance(cache: &mut DeltaSnapshotCache, number: u64, byte: u8, write: Option<u64>) -> DeltaReport {
    let writes: Vec<_> = write.map(|value| (P.0, P.1, U256::from(value))).into_iter().collect();
    let list = PreparedBal::decoded(&writes);
    let child = block(number, byte);
    cache.apply_prepared(child, hash(byte - 1), &RelevanceSet::default(), &list).expect("it is accepted")
}

/// Document 01's ten lines.
#[test]
fn whole_case() -> Result<(), Refusal> {
    let mut cache = DeltaSnapshotCache::with_max_depth_and_retention(4, 1, Retention::IdleBlocks(1))?;
    assert_eq!(cache.anchor(), None);
    assert_eq!(cache.for_anchor(block(10, 0xaa))?, Installed::Fresh);
    cache.put(block(10, 0xaa), P, U256::from(1))?;

    let report = advance(&mut cache, 11, 0xab, Some(2));
    assert_eq!(report.outcome, CarryOutcome::Carried { carried_values: 1 });
    assert_eq!((report.writes, report.writes_overwritten, report.writes_skipped), (vec![P], 1, 0));
    assert_eq!((report.held, report.live, report.compaction), (1, 1, None));
    assert_eq!(cache.snapshot_value(block(11, 0xab), P)?, Some(U256::from(2)));

    let report = advance(&mut cache, 12, 0xac, Some(3));
    assert_eq!(report.outcome, CarryOutcome::Carried { carried_values: 1 });
    assert_eq!((report.writes, report.writes_overwritten, report.writes_skipped), (vec![], 0, 1));
    assert_eq!((report.held, report.live, report.compaction), (1, 0, None));
    assert_eq!(cache.get(block(12, 0xac), P)?, None);
    assert_eq!(cache.read(block(12, 0xac), P)?, Read::Waiting { waiters: 1 });
    let totals = ReadTotals { accepted: 1, waiting: 1, ..ReadTotals::default() };
    assert_eq!(cache.read_totals()?, totals);

    let report = advance(&mut cache, 13, 0xad, None);
    assert_eq!(report.outcome, CarryOutcome::Carried { carried_values: 0 });
    assert_eq!((report.held, report.live), (0, 0));
    let fold = CompactionReport { nodes_merged: 2, entries: 0, dropped: 1 };
    assert_eq!(report.compaction, Some(fold));
    let late = cache.answer(block(12, 0xac), &[(P, Some(U256::from(3)))]);
    assert_eq!(late, Err(Refusal::OtherAnchor));
    assert_eq!(cache.anchor(), Some(block(13, 0xad)));
    Ok(())
}

fn repository() -> PathBuf {
    Path::new(env!("CARGO_MANIFEST_DIR")).join("../..")
}

/// The lists of a folder with their listings, by name.
fn lists(folder: &str) -> Vec<(String, Vec<u8>, String)> {
    let mut found = Vec::new();
    for entry in fs::read_dir(repository().join(folder)).expect("the folder is there") {
        let path = entry.expect("an entry").path();
        if path.extension().is_some_and(|extension| extension == "calls") {
            let name = path.file_stem().unwrap().to_string_lossy().into_owned();
            let list = fs::read(&path).unwrap();
            let listing = fs::read_to_string(path.with_extension("listing")).unwrap();
            found.push((name, list, listing));
        }
    }
    found
}

fn compare(folder: &str, at_least: usize) {
    let lists = lists(folder);
    assert!(lists.len() >= at_least, "{folder} has {} lists", lists.len());
    for (name, list, listing) in lists {
        // The program `calls` reads this many bytes.
        let list = &list[..list.len().min(65_536)];
        let run = run_list(list, 256).expect("256 records");
        assert!(run.text == listing, "{name}: another listing");
        let last = listing.lines().last().unwrap_or_default();
        let ends = run.fault.map(|fault| format!("no {}", fault.refusal.number()));
        assert!(ends.is_none_or(|line| line == last), "{name}: another fault");
    }
}

#[test]
fn examples() {
    compare("examples", 4);
}

#[test]
fn recorded_lists() {
    compare("oracle/recorded", 315);
}
