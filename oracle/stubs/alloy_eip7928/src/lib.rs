//! Stand-in for `alloy_eip7928`: account changes as plain lists. Decoding RLP
//! or JSON is not part of it.

use alloy::primitives::{Address, U256};

/// One change of a slot: its index in the block and the new value.
#[derive(Clone, Copy, Debug, Default, PartialEq, Eq)]
pub struct StorageChange {
    pub block_access_index: u64,
    pub new_value: U256,
}

/// One listed slot with its changes, in list order.
#[derive(Clone, Debug, Default, PartialEq, Eq)]
pub struct SlotChanges {
    pub slot: U256,
    pub changes: Vec<StorageChange>,
}

/// One account's storage changes and reads, in list order.
#[derive(Clone, Debug, Default, PartialEq, Eq)]
pub struct AccountChanges {
    pub address: Address,
    pub storage_changes: Vec<SlotChanges>,
    pub storage_reads: Vec<U256>,
}

impl AccountChanges {
    /// Each listed slot that has a change, in list order, with its last listed
    /// change (document 01, "Final writes").
    pub fn storage_post_states(&self) -> impl Iterator<Item = (U256, U256)> + '_ {
        self.storage_changes
            .iter()
            .filter_map(|listed| Some((listed.slot, listed.changes.last()?.new_value)))
    }

    pub fn storage_reads(&self) -> &[U256] {
        &self.storage_reads
    }
}

pub mod bal {
    use super::AccountChanges;
    use alloy::primitives::Bytes;
    use serde_json::{Error, Value};

    #[derive(Clone, Debug, Default, PartialEq, Eq)]
    pub struct Bal(pub Vec<AccountChanges>);

    impl std::ops::Deref for Bal {
        type Target = [AccountChanges];
        fn deref(&self) -> &[AccountChanges] {
            &self.0
        }
    }

    impl serde::Deserialize for Bal {
        fn deserialize(_value: &Value) -> Result<Self, Error> {
            Err(Error("JSON lists are not decoded here".into()))
        }
    }

    pub struct DecodedBal<T>(T);

    impl DecodedBal<Bal> {
        pub fn from_rlp_bytes_as<T>(_raw: Bytes) -> Result<DecodedBal<T>, Error> {
            Err(Error("RLP lists are not decoded here".into()))
        }

        pub fn as_bal(&self) -> &Bal {
            &self.0
        }
    }
}
