//! Final writes: account changes and a plan, folded by the reference.
//!
//! The input has numbers, form bytes, addresses and words as call lists have:
//! count and addresses of the plan (none: the plan names no addresses); byte
//! 0, or 1 and a number, for the cap on writes, and the same for the cap on
//! reads; count and accounts, each with its address, count and slots (index,
//! count and changes, each a number and a value), count and reads (index).

use crate::calls::{Parsed, Reader, Writer};
use crate::generate::rng::Rng;
use crate::generate::{address, index};
use crate::listing::{hex, slot_hex};
use crate::sim::evm2::bal_prefetch::oracle_access::fold_accounts;
use crate::sim::evm2::bal_prefetch::{BalPlan, BalSeed};
use alloy::primitives::{Address, U256};
use alloy_eip7928::{AccountChanges, SlotChanges, StorageChange};
use std::fmt::Write as _;

/// The reference's seed of an input, as text, or `no` and 3, 4 or 5.
pub fn seed_text(bytes: &[u8]) -> String {
    match read_input(&mut Reader::new(bytes)) {
        Ok((plan, accounts)) => text(&fold_accounts(&accounts, &plan)),
        Err(refusal) => format!("no {refusal}\n"),
    }
}

fn text(seed: &BalSeed) -> String {
    let mut text = String::new();
    for (address, index, value) in &seed.writes {
        let _ = writeln!(
            text,
            "write {} {}",
            slot_hex(&(*address, *index)),
            hex(value)
        );
    }
    for slot in &seed.reads {
        let _ = writeln!(text, "read {}", slot_hex(slot));
    }
    let _ = writeln!(text, "filtered {}", seed.filtered_entries);
    let _ = writeln!(text, "capped {}", seed.capped_entries);
    text
}

fn read_input(reader: &mut Reader) -> Parsed<(BalPlan, Vec<AccountChanges>)> {
    let addresses = reader.counted(|reader| Ok(Address(reader.array()?)))?;
    let plan = BalPlan {
        addresses: (!addresses.is_empty()).then_some(addresses),
        max_write_seeds: cap(reader)?,
        max_read_prefetches: cap(reader)?,
    };
    Ok((plan, reader.counted(account)?))
}

fn cap(reader: &mut Reader) -> Parsed<Option<usize>> {
    Ok(if reader.flag()? {
        Some(usize::try_from(reader.number()?).expect("64 bits"))
    } else {
        None
    })
}

fn account(reader: &mut Reader) -> Parsed<AccountChanges> {
    Ok(AccountChanges {
        address: Address(reader.array()?),
        storage_changes: reader.counted(|reader| {
            Ok(SlotChanges {
                slot: reader.word()?,
                changes: reader.counted(change)?,
            })
        })?,
        storage_reads: reader.counted(Reader::word)?,
    })
}

fn change(reader: &mut Reader) -> Parsed<StorageChange> {
    Ok(StorageChange {
        block_access_index: reader.number()?,
        new_value: reader.word()?,
    })
}

/// The input of a seed: few accounts and slots, so that plans and caps bite;
/// slots without a change, slots listed twice and indices out of order.
pub fn input(seed: u64) -> Vec<u8> {
    let mut rng = Rng::for_list("finals", seed);
    let mut writer = Writer::default();
    let named = rng.pick(&[0, 0, 1, 2]).to_owned();
    writer.number(named);
    for _ in 0..named {
        writer.bytes.extend(address(rng.below(3)).0);
    }
    for _ in 0..2 {
        let capped = rng.chance(50);
        writer.bytes.push(u8::from(capped));
        if capped {
            writer.number(*rng.pick(&[0, 1, 2, 3, u64::MAX]));
        }
    }
    let accounts = rng.between(0, 4);
    writer.number(accounts as u64);
    for _ in 0..accounts {
        write_account(&mut writer, &mut rng);
    }
    if rng.chance(8) {
        let keep = rng.below(writer.bytes.len());
        writer.bytes.truncate(keep);
    }
    writer.bytes
}

fn write_account(writer: &mut Writer, rng: &mut Rng) {
    writer.bytes.extend(address(rng.below(4)).0);
    let slots = rng.between(0, 3);
    writer.number(slots as u64);
    for _ in 0..slots {
        writer.bytes.extend(index(rng.below(4)).0);
        let changes = rng.between(0, 3);
        writer.number(changes as u64);
        for _ in 0..changes {
            writer.number(*rng.pick(&[0, 1, 2, 2, 7, u64::MAX]));
            let mut value = [0; 32];
            value[31] = rng.below(4) as u8;
            writer.bytes.extend(U256(value).0);
        }
    }
    let reads = rng.between(0, 3);
    writer.number(reads as u64);
    for _ in 0..reads {
        writer.bytes.extend(index(rng.below(4)).0);
    }
}
