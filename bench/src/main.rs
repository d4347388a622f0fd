//! Times of the store's calls beside the reference's, through the static library; memory of both.
use std::alloc::{GlobalAlloc, Layout, System};
use std::sync::atomic::{AtomicUsize, Ordering};

mod abi;
mod advance;
mod calls;
mod state;

/// The system's allocator, with the bytes that are allocated counted.
struct Counted;

static ALLOCATED: AtomicUsize = AtomicUsize::new(0);

unsafe impl GlobalAlloc for Counted {
    unsafe fn alloc(&self, layout: Layout) -> *mut u8 {
        ALLOCATED.fetch_add(layout.size(), Ordering::Relaxed);
        unsafe { System.alloc(layout) }
    }

    unsafe fn dealloc(&self, place: *mut u8, layout: Layout) {
        ALLOCATED.fetch_sub(layout.size(), Ordering::Relaxed);
        unsafe { System.dealloc(place, layout) }
    }
}

#[global_allocator]
static COUNTED: Counted = Counted;

fn median(mut times: Vec<f64>) -> f64 {
    times.sort_by(f64::total_cmp);
    times[times.len() / 2]
}

fn shuffle<T>(list: &mut [T]) {
    for i in (1..list.len()).rev() {
        list.swap(i, (state::mixed(i as u64) % (i as u64 + 1)) as usize);
    }
}

fn memory() {
    println!("Bytes a record: ours for a store of as many records as its capacity, with the work area that an advance is lent; the reference's as allocated.\n");
    println!("| records | depth | ours | with the work area | reference |\n|---|---|---|---|---|");
    for records in [256, 4096] {
        let size = unsafe { abi::poxilme_store_size(records as u64) } as f64 / records as f64;
        for depth in [0, 8, 255] {
            let retention = oracle::sim::evm2::delta_snapshot::Retention::Unbounded;
            let before = ALLOCATED.load(Ordering::Relaxed);
            let made = state::reference(state::Shape {
                records,
                depth,
                limit: 255,
                retention,
                spread: state::Spread::Many,
            });
            let theirs = (ALLOCATED.load(Ordering::Relaxed) - before) as f64 / records as f64;
            drop(made);
            println!(
                "| {records} | {depth} | {size:.0} | {:.0} | {theirs:.0} |",
                2.0 * size
            );
        }
    }
}

fn main() {
    let words: Vec<String> = std::env::args().skip(1).collect();
    for (name, table) in [
        ("calls", calls::table as fn()),
        ("advance", advance::table),
        ("memory", memory),
    ] {
        if words.is_empty() || words.iter().any(|w| w == name) {
            table();
            println!();
        }
    }
}
