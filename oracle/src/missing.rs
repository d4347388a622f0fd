//! Modules of the reference that are not at hand, as far as its sources name
//! them.

pub mod storage_view {
    use alloy::primitives::{Address, StorageValue, U256};

    pub trait StorageView {
        fn get(&self, address: Address, index: U256) -> Option<StorageValue>;
        fn put(&self, address: Address, index: U256, value: StorageValue);
    }
}

/// Only named by a reexport; nothing of it runs.
pub mod head_lifecycle {
    macro_rules! named_only {
        ($($name:ident),*) => { $(pub struct $name;)* };
    }
    named_only!(
        BalHeadDriver,
        HeadCold,
        HeadCompletion,
        HeadOutcome,
        HeadReadiness,
        HeadStats,
        HeadTicket,
        HeadView
    );
}
