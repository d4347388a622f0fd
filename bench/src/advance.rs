//! Times of an advance beside the reference's `apply_prepared`, on the same states and lists.
use crate::abi::word;
use crate::state::*;
use alloy::primitives::{Address, B256, U256};
use oracle::sim::evm2::delta_snapshot::oracle_access as layers;
use oracle::sim::evm2::delta_snapshot::{DeltaReport, RelevanceSet, Retention};
use oracle::sim::evm2::read_hub::oracle_access::prepared;
use oracle::sim::evm2::read_hub::CarryOutcome;
use std::time::Instant;

const RUNS: usize = 21;

type Write = (Address, U256, U256);

/// The relevant addresses, one for two writes, and the writes: half of them to served slots, half to new slots of relevant addresses.
fn lists(shape: Shape, count: usize, rising: bool) -> (Vec<Address>, Vec<Write>) {
    let mut addresses: Vec<Address> = (0..count)
        .map(|i| Address(bytes(5 << 32 | i as u64)))
        .collect();
    let mut writes: Vec<Write> = (0..count)
        .map(|i| {
            let at = if i % 2 == 0 {
                slot(shape.spread, i * 7919 % shape.records)
            } else {
                (addresses[i], slot(Spread::Many, 3_000_000 + i).1)
            };
            (at.0, at.1, value(9_000_000 + i))
        })
        .collect();
    addresses.sort();
    writes.sort();
    if !rising {
        crate::shuffle(&mut addresses);
        crate::shuffle(&mut writes);
    }
    (addresses, writes)
}

fn counts_of(report: &DeltaReport) -> [usize; 8] {
    let fold = report
        .compaction
        .as_ref()
        .map_or([0; 3], |c| [c.nodes_merged as usize, c.entries, c.dropped]);
    [
        report.writes.len(),
        report.writes_overwritten,
        report.writes_skipped,
        report.held,
        report.live,
        fold[0],
        fold[1],
        fold[2],
    ]
}

fn time_of(run: impl FnOnce()) -> f64 {
    let start = Instant::now();
    run();
    start.elapsed().as_nanos() as f64 / 1000.0
}

/// Medians in microseconds.
fn row(shape: Shape, count: usize, rising: bool) -> (f64, f64) {
    let (addresses, writes) = lists(shape, count, rising);
    let address_bytes: Vec<u8> = addresses.iter().flat_map(|a| a.0).collect();
    let write_bytes: Vec<u8> = writes
        .iter()
        .flat_map(|w| w.0 .0.into_iter().chain(w.1 .0).chain(w.2 .0))
        .collect();
    let before = store(shape);
    let mut o = before.clone();
    let (cache, _) = reference(shape);
    let child = anchor(NUMBER + 1);
    let list = prepared(child, writes, None);
    let relevance = RelevanceSet::from_slice(&addresses);
    let (mut ours, mut theirs) = (Vec::new(), Vec::new());
    for _ in 0..RUNS {
        o.s.copy_from_slice(&before.s);
        (o.number, o.hash) = (before.number, before.hash);
        ours.push(time_of(|| {
            assert_eq!(o.advance(&address_bytes, &write_bytes), 0)
        }));
        let saved = layers::save(&cache);
        let mut done = None;
        theirs.push(time_of(|| {
            done = Some(layers::advance(
                &cache,
                child,
                B256(hash(NUMBER)),
                &relevance,
                &list,
            ))
        }));
        let report = done.unwrap().1;
        assert!(matches!(report.outcome, CarryOutcome::Carried { .. }));
        layers::restore(&cache, saved);
        assert_eq!(
            std::array::from_fn(|i| word(&o.reply, 4 + i) as usize),
            counts_of(&report)
        );
    }
    assert!(o.is_store());
    (crate::median(ours), crate::median(theirs))
}

pub fn table() {
    println!("Microseconds of one advance: ours / the reference's, and the ratio. Half of the writes go to served slots, half to new slots of relevant addresses.\n");
    println!("| records | depth | retention | no writes | 100, rising | 100, shuffled | 1,400, rising | 1,400, shuffled |");
    println!("|---|---|---|---|---|---|---|---|");
    for records in [256, 2696] {
        for (name, depth, limit) in [
            ("0", 0, 255),
            ("8", 8, 255),
            ("8 layers, folded", 7, 7),
            ("254", 254, 255),
        ] {
            for (kept, retention) in [
                ("unbounded", Retention::Unbounded),
                ("idle", Retention::IdleBlocks(64)),
            ] {
                let shape = Shape {
                    records,
                    depth,
                    limit,
                    retention,
                    spread: Spread::Many,
                };
                let cells: Vec<String> = [
                    (0, true),
                    (100, true),
                    (100, false),
                    (1400, true),
                    (1400, false),
                ]
                .into_iter()
                .map(|(count, rising)| {
                    let (a, b) = row(shape, count, rising);
                    format!("{a:.0} / {b:.0}: {:.2}", a / b)
                })
                .collect();
                println!("| {records} | {name} | {kept} | {} |", cells.join(" | "));
            }
        }
    }
}
