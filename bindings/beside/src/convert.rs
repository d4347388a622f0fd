//! The original's types as the crate's.

use oracle::calls::Write;
use oracle::sim::evm2::bal_prefetch as bal;
use oracle::sim::evm2::delta_snapshot as delta;
use oracle::sim::evm2::read_hub as hub;
use oracle::sim::storage_memo::ReadAnchor;
use poxilme::{Address, BalSkip, CarryOutcome, CarryRefusal, CompactionReport, Retention, Slot, B256, U256};

pub fn ours(word: alloy::primitives::U256) -> U256 {
    U256(word.0)
}

pub fn account(address: &alloy::primitives::Address) -> Address {
    Address(address.0)
}

pub fn slot(slot: &delta::Slot) -> Slot {
    (account(&slot.0), ours(slot.1))
}

pub fn write(write: &Write) -> (Address, U256, U256) {
    (account(&write.0), ours(write.1), ours(write.2))
}

pub fn anchor(anchor: ReadAnchor) -> poxilme::ReadAnchor {
    poxilme::ReadAnchor { number: anchor.number, hash: anchor.hash.map(|hash| B256(hash.0)) }
}

pub fn retention(retention: delta::Retention) -> Retention {
    match retention {
        delta::Retention::Unbounded => Retention::Unbounded,
        delta::Retention::IdleBlocks(idle) => Retention::IdleBlocks(idle),
    }
}

pub fn compaction(report: &delta::CompactionReport) -> CompactionReport {
    CompactionReport { nodes_merged: report.nodes_merged, entries: report.entries, dropped: report.dropped }
}

pub fn outcome(outcome: &hub::CarryOutcome) -> CarryOutcome {
    match outcome {
        hub::CarryOutcome::AlreadyCurrent => CarryOutcome::AlreadyCurrent,
        hub::CarryOutcome::Carried { carried_values } => CarryOutcome::Carried { carried_values: *carried_values },
        hub::CarryOutcome::Cold { lineage, bal } => {
            CarryOutcome::Cold { lineage: lineage.as_ref().map(refusal), bal: bal.as_ref().map(skip) }
        }
    }
}

fn refusal(refusal: &hub::CarryRefusal) -> CarryRefusal {
    match refusal {
        hub::CarryRefusal::NoParent => CarryRefusal::NoParent,
        hub::CarryRefusal::NotConsecutive => CarryRefusal::NotConsecutive,
        hub::CarryRefusal::ParentHashUnknown => CarryRefusal::ParentHashUnknown,
        hub::CarryRefusal::ParentHashMismatch => CarryRefusal::ParentHashMismatch,
    }
}

fn skip(skip: &bal::BalSkip) -> BalSkip {
    match skip {
        bal::BalSkip::NoAnchorHash => BalSkip::NoAnchorHash,
        bal::BalSkip::Rpc(_) => BalSkip::Rpc,
        bal::BalSkip::Decode(_) => BalSkip::Decode,
    }
}
