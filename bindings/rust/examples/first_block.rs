//! The first carried block: a pool's reserve and fee, from block 100 to block 101. `cargo run --example first_block`.

use poxilme::{Address, DeltaSnapshotCache, PreparedBal, Read, ReadAnchor, Refusal, RelevanceSet, Slot, B256, U256};

/// The node of this example: the slots' values at block 100.
fn ask_node(slot: Slot) -> U256 {
    if slot.1 == U256::from(8) {
        U256::from(0x1000)
    } else {
        U256::from(0x30)
    }
}

fn main() -> Result<(), Refusal> {
    let block_100 = ReadAnchor::identified(100, B256([0xa0; 32]));
    let block_101 = ReadAnchor::identified(101, B256([0xa1; 32]));
    let pool = Address([0xc0; 20]);
    let (reserve, fee) = ((pool, U256::from(8)), (pool, U256::from(3)));

    // A store for 256 records, with nothing installed; then block 100.
    let mut cache = DeltaSnapshotCache::new(256)?;
    cache.for_anchor(block_100)?;

    // Reads of slots that are not served wait; the queue is taken, the node asked, and the answer given.
    for slot in [reserve, fee] {
        if let Read::Waiting { waiters } = cache.read(block_100, slot)? {
            println!("waits: index {}, {waiters} waiter", slot.1);
        }
    }
    let asked = cache.take_queued(block_100)?;
    let members: Vec<_> = asked.iter().map(|slot| (*slot, Some(ask_node(*slot)))).collect();
    let round = cache.answer(block_100, &members)?;
    println!("answered: {} slots, {} waiters woken", round.storage_members, round.woken);

    // Block 101 names block 100 as its parent. Its block access list has one final write: a swap changed the reserve.
    let list = PreparedBal::decoded(&[(pool, reserve.1, U256::from(0x1111))]);
    let report = cache.apply_prepared(block_101, B256([0xa0; 32]), &RelevanceSet::default(), &list)?;
    println!("block 101: {:?}, {} applied, {} live", report.outcome, report.writes.len(), report.live);

    for slot in [reserve, fee] {
        let value = cache.get(block_101, slot)?.expect("it is served");
        println!("served at 101: index {} value {value}", slot.1);
    }

    // Who still works at block 100 is refused.
    let late = cache.get(block_100, fee).unwrap_err();
    println!("at block 100: {late}");
    Ok(())
}
