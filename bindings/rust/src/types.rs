//! The types of calls and their answers, with the names of the source.

use std::fmt;

macro_rules! bytes_type {
    ($(#[$doc:meta])* $name:ident, $width:literal) => {
        $(#[$doc])*
        #[derive(Clone, Copy, Default, PartialEq, Eq, PartialOrd, Ord, Hash)]
        pub struct $name(pub [u8; $width]);

        impl $name {
            /// All bytes 0.
            pub const ZERO: Self = Self([0; $width]);
        }

        impl From<[u8; $width]> for $name {
            fn from(bytes: [u8; $width]) -> Self {
                Self(bytes)
            }
        }

        impl From<$name> for [u8; $width] {
            fn from(from: $name) -> Self {
                from.0
            }
        }

        impl AsRef<[u8]> for $name {
            fn as_ref(&self) -> &[u8] {
                &self.0
            }
        }

        impl fmt::Display for $name {
            fn fmt(&self, f: &mut fmt::Formatter<'_>) -> fmt::Result {
                f.write_str("0x")?;
                self.0.iter().try_for_each(|byte| write!(f, "{byte:02x}"))
            }
        }

        impl fmt::Debug for $name {
            fn fmt(&self, f: &mut fmt::Formatter<'_>) -> fmt::Result {
                fmt::Display::fmt(self, f)
            }
        }
    };
}

bytes_type!(
    /// A contract's address: 20 bytes, the highest first.
    Address,
    20
);
bytes_type!(
    /// A block's hash.
    B256,
    32
);
bytes_type!(
    /// A number of 32 bytes, the highest first: the index of a slot, or its value.
    U256,
    32
);

impl From<u64> for U256 {
    fn from(number: u64) -> Self {
        let mut bytes = [0; 32];
        bytes[24..].copy_from_slice(&number.to_be_bytes());
        Self(bytes)
    }
}

/// A slot's value.
pub type StorageValue = U256;

/// One word of one contract's storage: its address and index.
pub type Slot = (Address, U256);

/// The block that values belong to: its number, and its hash if it is known. Two anchors are equal if both parts are.
#[derive(Clone, Copy, Debug, PartialEq, Eq, Hash)]
pub struct ReadAnchor {
    /// The block's number.
    pub number: u64,
    /// The block's hash, if it is known.
    pub hash: Option<B256>,
}

impl ReadAnchor {
    /// The anchor of `number`, with no hash. Its child starts empty, since the link to it cannot be compared.
    #[must_use]
    pub const fn at(number: u64) -> Self {
        Self { number, hash: None }
    }

    /// The anchor of `number` with its hash.
    #[must_use]
    pub const fn identified(number: u64, hash: B256) -> Self {
        Self { number, hash: Some(hash) }
    }
}

/// How long a slot is served without a use.
#[derive(Clone, Copy, Debug, Default, PartialEq, Eq, Hash)]
pub enum Retention {
    /// Always.
    #[default]
    Unbounded,
    /// Up to this many blocks after its last use: with 1, a use at block 10 serves at 11 and not at 12.
    IdleBlocks(u64),
}

/// Why the child's list of changed slots was not read.
#[derive(Clone, Copy, Debug, PartialEq, Eq, Hash)]
pub enum BalSkip {
    /// The child's hash is not known, so the list could not be asked for.
    NoAnchorHash,
    /// The request failed.
    Rpc,
    /// The list was not decoded.
    Decode,
}

impl BalSkip {
    pub(crate) const fn number(skip: Option<Self>) -> u64 {
        match skip {
            None => 0,
            Some(Self::NoAnchorHash) => 1,
            Some(Self::Rpc) => 2,
            Some(Self::Decode) => 3,
        }
    }

    pub(crate) fn from_number(number: u64) -> Option<Self> {
        [Self::NoAnchorHash, Self::Rpc, Self::Decode].into_iter().find(|skip| Self::number(Some(*skip)) == number)
    }
}

/// Why a child is not linked to the installed block.
#[derive(Clone, Copy, Debug, PartialEq, Eq, Hash)]
pub enum CarryRefusal {
    /// Nothing is installed.
    NoParent,
    /// The child's number is not the installed one plus 1.
    NotConsecutive,
    /// The installed anchor has no hash.
    ParentHashUnknown,
    /// The installed anchor's hash is not the child's parent hash: the child of a sibling.
    ParentHashMismatch,
}

impl CarryRefusal {
    pub(crate) const fn from_number(number: u64) -> Option<Self> {
        match number {
            1 => Some(Self::NoParent),
            2 => Some(Self::NotConsecutive),
            3 => Some(Self::ParentHashUnknown),
            4 => Some(Self::ParentHashMismatch),
            _ => None,
        }
    }
}

/// What an advance did with the values of the parent.
#[derive(Clone, Copy, Debug, PartialEq, Eq, Hash)]
pub enum CarryOutcome {
    /// The child was installed already: nothing has changed.
    AlreadyCurrent,
    /// The child is linked to the installed block, and its values were carried.
    Carried {
        /// The distinct slots with a value in the sealed layers.
        carried_values: usize,
    },
    /// The child starts empty.
    Cold {
        /// Why it is not linked; none if the list alone is missing.
        lineage: Option<CarryRefusal>,
        /// Why its list was not read; none if it was.
        bal: Option<BalSkip>,
    },
}

/// A fold of layers into one.
#[derive(Clone, Copy, Debug, PartialEq, Eq, Hash)]
pub struct CompactionReport {
    /// The layers merged.
    pub nodes_merged: usize,
    /// The distinct slots left.
    pub entries: usize,
    /// The slots dropped because they had lapsed.
    pub dropped: usize,
}

/// What an advance did.
#[derive(Clone, Debug, PartialEq, Eq)]
pub struct DeltaReport {
    /// What became of the parent's values.
    pub outcome: CarryOutcome,
    /// The slots of the writes that were applied, in order. A slot written twice stands twice.
    pub writes: Vec<Slot>,
    /// How many of them replaced a served value, or one applied earlier in the list.
    pub writes_overwritten: usize,
    /// The writes that were skipped: slots that are not served, of addresses that are not relevant.
    pub writes_skipped: usize,
    /// The fold, if one was due.
    pub compaction: Option<CompactionReport>,
    /// The distinct slots with a value after the advance, lapsed ones included.
    pub held: usize,
    /// Those of them that are served.
    pub live: usize,
}

/// What `for_anchor` found.
#[derive(Clone, Copy, Debug, PartialEq, Eq, Hash)]
pub enum Installed {
    /// The anchor was installed already; nothing has changed.
    Same,
    /// Another was, or none: the anchor starts empty.
    Fresh,
}

/// What a read found.
#[derive(Clone, Copy, Debug, PartialEq, Eq, Hash)]
pub enum Read {
    /// The slot is served with this value.
    Value(StorageValue),
    /// The slot awaits an answer.
    Waiting {
        /// Its waiters, this read included.
        waiters: u64,
    },
}

/// What an answer did.
#[derive(Clone, Copy, Debug, Default, PartialEq, Eq, Hash)]
pub struct RoundReport {
    /// The slots answered.
    pub storage_members: usize,
    /// Those of them that were refused. Of a round that failed as a whole none is counted.
    pub storage_member_errors: usize,
    /// The waiters woken, with a value or refused.
    pub woken: u64,
}

/// The totals of a generation's reads. `accepted` is the sum of the four after it.
#[derive(Clone, Copy, Debug, Default, PartialEq, Eq, Hash)]
pub struct ReadTotals {
    /// Accepted reads.
    pub accepted: u64,
    /// Reads that were served at once.
    pub served: u64,
    /// Reads that wait.
    pub waiting: u64,
    /// Waiters woken with a value.
    pub woken_with_value: u64,
    /// Waiters woken refused.
    pub woken_refused: u64,
    /// Answers that were not empty.
    pub rounds: u64,
    /// Slots answered.
    pub members: u64,
    /// Slots answered by a refusal, in rounds that did not fail as a whole.
    pub member_errors: u64,
    /// Reads of a slot that awaited already.
    pub coalesced: u64,
}

#[cfg(test)]
mod tests {
    use super::*;

    /// docs/REFERENCE.md's numbers.
    #[test]
    fn numbers_of_skips_and_lineages() {
        let skips = [None, Some(BalSkip::NoAnchorHash), Some(BalSkip::Rpc), Some(BalSkip::Decode)];
        for (number, skip) in skips.into_iter().enumerate() {
            assert_eq!(BalSkip::number(skip), number as u64);
            assert_eq!(BalSkip::from_number(number as u64), skip);
        }
        let lineages = [
            None,
            Some(CarryRefusal::NoParent),
            Some(CarryRefusal::NotConsecutive),
            Some(CarryRefusal::ParentHashUnknown),
            Some(CarryRefusal::ParentHashMismatch),
        ];
        for (number, lineage) in lineages.into_iter().enumerate() {
            assert_eq!(CarryRefusal::from_number(number as u64), lineage);
        }
    }
}
