//! Times of the calls on a slot, an owner's beside the reference's.
use crate::abi::word;
use crate::state::*;
use alloy::primitives::U256;
use oracle::sim::evm2::delta_snapshot::oracle_access as layers;
use oracle::sim::evm2::delta_snapshot::{Retention, Slot};
use oracle::sim::evm2::read_hub::oracle_access as reads;
use oracle::sim::evm2::storage_view::StorageView;
use std::cell::{Cell, RefCell};
use std::future::Future;
use std::hint::black_box;
use std::pin::Pin;
use std::task::{Context, Waker};
use std::time::Instant;

const CALLS: usize = 4096;
const NEW: usize = 32;
const RUNS: usize = 21;

/// The median over runs of the time of one call in nanoseconds; `prepare` is not timed.
fn time(runs: usize, calls: usize, mut prepare: impl FnMut(), mut call: impl FnMut(usize)) -> f64 {
    let times = (0..runs)
        .map(|_| {
            prepare();
            let start = Instant::now();
            for i in 0..calls {
                call(i);
            }
            start.elapsed().as_nanos() as f64 / calls as f64
        })
        .collect();
    crate::median(times)
}

const COLUMNS: [&str; 7] = [
    "look, found",
    "look, not found",
    "get, in the top",
    "get, from below",
    "put, known",
    "put, new",
    "read to answer",
];

/// Each column's time of ours and of the reference; then the check, and a look with its check, in microseconds.
fn row(shape: Shape) -> (Vec<(f64, f64)>, f64, f64) {
    let base = store(shape);
    let (cache, hub) = reference(shape);
    let mut order: Vec<usize> = (0..shape.records).collect();
    crate::shuffle(&mut order);
    let q = order.len();
    let found: Vec<Slot> = order.iter().map(|&i| slot(shape.spread, i)).collect();
    let missing: Vec<Slot> = order
        .iter()
        .map(|i| slot(shape.spread, 1_000_000 + i * 16))
        .collect();
    let ids = parts(shape).pop().unwrap();
    let top: Vec<Slot> = (0..q)
        .map(|i| slot(shape.spread, ids[mixed(i as u64) as usize % ids.len()]))
        .collect();
    let below: Vec<Slot> = order
        .iter()
        .filter(|i| !ids.contains(i))
        .take(NEW)
        .map(|&i| slot(shape.spread, i))
        .collect();
    let new: Vec<Slot> = (0..NEW)
        .map(|i| {
            slot(
                shape.spread,
                2_000_000 + mixed(i as u64) as usize % 10_000_000,
            )
        })
        .collect();
    let v = value(5);
    let entries = |l: &[Slot]| -> Vec<[u8; 52]> { l.iter().map(entry).collect() };
    let (ef, em, et, eb, en) = (
        entries(&found),
        entries(&missing),
        entries(&top),
        entries(&below),
        entries(&new),
    );
    let o = RefCell::new(base.clone());
    let reset = || o.borrow_mut().s.copy_from_slice(&base.s);
    let served = |o: &Owned| word(&o.reply, 0) == 1;
    let mut columns = Vec::new();

    let ours = time(RUNS, CALLS, reset, |i| {
        let mut o = o.borrow_mut();
        assert!(o.look(&ef[i % q]) == 0 && served(&o))
    });
    let theirs = time(
        RUNS,
        CALLS,
        || (),
        |i| assert!(black_box(hub.snapshot_value(found[i % q].0, found[i % q].1)).is_some()),
    );
    columns.push((ours, theirs));
    let ours = time(RUNS, CALLS, reset, |i| {
        let mut o = o.borrow_mut();
        assert!(o.look(&em[i % q]) == 0 && !served(&o))
    });
    let theirs = time(
        RUNS,
        CALLS,
        || (),
        |i| assert!(black_box(hub.snapshot_value(missing[i % q].0, missing[i % q].1)).is_none()),
    );
    columns.push((ours, theirs));
    let ours = time(RUNS, CALLS, reset, |i| {
        let mut o = o.borrow_mut();
        assert!(o.get(&et[i % q]) == 0 && served(&o))
    });
    let theirs = time(
        RUNS,
        CALLS,
        || (),
        |i| assert!(black_box(StorageView::get(&*hub, top[i % q].0, top[i % q].1)).is_some()),
    );
    columns.push((ours, theirs));

    let saved = RefCell::new(Some(layers::save(&cache)));
    let again = || {
        let mut saved = saved.borrow_mut();
        layers::restore(&cache, saved.take().unwrap());
        *saved = Some(layers::save(&cache));
    };
    let ours = time(RUNS * 5, NEW, reset, |i| {
        let mut o = o.borrow_mut();
        assert!(o.get(&eb[i]) == 0 && served(&o))
    });
    let theirs = time(RUNS * 5, NEW, again, |i| {
        assert!(black_box(StorageView::get(&*hub, below[i].0, below[i].1)).is_some())
    });
    columns.push((ours, theirs));
    again();
    let ours = time(RUNS, CALLS, reset, |i| {
        assert_eq!(o.borrow_mut().put(&et[i % q], &v.0), 0)
    });
    let theirs = time(
        RUNS,
        CALLS,
        || (),
        |i| StorageView::put(&*hub, top[i % q].0, top[i % q].1, black_box(v)),
    );
    columns.push((ours, theirs));
    again();
    let ours = time(RUNS * 5, NEW, reset, |i| {
        assert_eq!(o.borrow_mut().put(&en[i], &v.0), 0)
    });
    let theirs = time(RUNS * 5, NEW, again, |i| {
        StorageView::put(&*hub, new[i].0, new[i].1, black_box(v))
    });
    columns.push((ours, theirs));
    again();

    let members: Vec<Vec<u8>> = en
        .iter()
        .map(|e| [&e[..], &[1], &v.0[..]].concat())
        .collect();
    let ours = time(RUNS * 5, NEW, reset, |i| {
        let mut o = o.borrow_mut();
        assert_eq!((o.read(&en[i]), o.take(), o.answer(&members[i])), (0, 0, 0));
    });
    assert!(o.borrow().is_store());
    // The reference's hub keeps what it has read, so its slots are new each time.
    let count = Cell::new(0usize);
    let theirs = time(RUNS * 5, NEW, again, |_| {
        let k = count.replace(count.get() + 1);
        let (address, index) = slot(shape.spread, 20_000_000 + k * 16);
        read_to_answer(&hub, address, index, v);
    });
    columns.push((ours, theirs));
    let check = time(RUNS, 20, reset, |_| assert!(o.borrow().is_store()));
    let checked = time(RUNS, 20, reset, |i| {
        assert_eq!(o.borrow_mut().look_checked(&ef[i % q]), 0)
    });
    (columns, check / 1000.0, checked / 1000.0)
}

fn read_to_answer(
    hub: &oracle::sim::evm2::delta_snapshot::DeltaHub,
    address: alloy::primitives::Address,
    index: U256,
    v: U256,
) {
    let mut read = hub.read_storage_handle(address, index);
    let mut context = Context::from_waker(Waker::noop());
    assert!(Pin::new(&mut read).poll(&mut context).is_pending());
    let slots = reads::take_queued(hub.read_hub());
    black_box(reads::settle_round(hub.read_hub(), &slots, Ok(vec![Ok(v)])));
    assert!(Pin::new(&mut read).poll(&mut context).is_ready());
}

pub fn table() {
    println!("Nanoseconds of one call: ours / the reference's, and the ratio. The last two columns are ours alone, in microseconds.\n");
    println!(
        "| slots | records | depth | retention | {} | check | look with its check |",
        COLUMNS.join(" | ")
    );
    println!("|---|---|---|---|{}---|---|", "---|".repeat(COLUMNS.len()));
    let mut ratios = vec![Vec::new(); COLUMNS.len()];
    for (name, spread) in [("one address", Spread::One), ("many", Spread::Many)] {
        for records in [256, CAPACITY as usize - NEW] {
            for depth in [0, 8, 255] {
                for (kept, retention) in [
                    ("unbounded", Retention::Unbounded),
                    ("idle", Retention::IdleBlocks(1000)),
                ] {
                    let (columns, check, checked) = row(Shape {
                        records,
                        depth,
                        limit: 255,
                        retention,
                        spread,
                    });
                    let cells: Vec<String> = columns
                        .iter()
                        .map(|(a, b)| format!("{a:.0} / {b:.0}: {:.2}", a / b))
                        .collect();
                    for (all, (a, b)) in ratios.iter_mut().zip(&columns) {
                        all.push(a / b);
                    }
                    println!("| {name} | {records} | {depth} | {kept} | {} | {check:.1} | {checked:.1} |", cells.join(" | "));
                }
            }
        }
    }
    println!(
        "\n| | {} |\n|---|{}",
        COLUMNS.join(" | "),
        "---|".repeat(COLUMNS.len())
    );
    let line = |f: &dyn Fn(&Vec<f64>) -> f64| {
        ratios
            .iter()
            .map(|r| format!("{:.2}", f(r)))
            .collect::<Vec<_>>()
            .join(" | ")
    };
    println!(
        "| geometric mean of the ratios | {} |",
        line(&|r| (r.iter().map(|x| x.ln()).sum::<f64>() / r.len() as f64).exp())
    );
    println!(
        "| highest | {} |",
        line(&|r| r.iter().copied().fold(0.0, f64::max))
    );
}
