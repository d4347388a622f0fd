//! Who vouches for a listing: the Rust or the ledger.

use crate::listing;

#[derive(Clone, Copy, Debug, PartialEq, Eq)]
pub enum Voucher {
    /// The Rust, compiled unchanged. The ledger has to agree with it.
    Rust,
    /// The ledger alone, for lists that the Rust can't run or that a request
    /// holds to the ledger.
    Ledger,
}

/// A list's listing and its detail.
#[derive(Clone, Debug, PartialEq, Eq)]
pub struct Printed {
    pub listing: String,
    pub detail: String,
}

impl Voucher {
    pub fn name(self) -> &'static str {
        match self {
            Self::Rust => "rust",
            Self::Ledger => "ledger",
        }
    }

    pub fn named(name: &str) -> Option<Self> {
        [Self::Rust, Self::Ledger]
            .into_iter()
            .find(|voucher| voucher.name() == name)
    }

    pub fn listing(self, list: &[u8]) -> String {
        match self {
            Self::Rust => listing::listing(list),
            Self::Ledger => ledger::listing(list),
        }
    }

    pub fn detail(self, list: &[u8]) -> String {
        match self {
            Self::Rust => listing::detail(list),
            Self::Ledger => ledger::detail(list),
        }
    }

    pub fn print(self, list: &[u8]) -> Printed {
        Printed {
            listing: self.listing(list),
            detail: self.detail(list),
        }
    }

    /// What it vouches for; nothing if it is the Rust and the ledger disagrees.
    pub fn vouched(self, list: &[u8]) -> Option<Printed> {
        match self {
            Self::Rust => agreed(list),
            Self::Ledger => Some(self.print(list)),
        }
    }
}

/// What the Rust and the ledger both print; nothing if they differ.
pub fn agreed(list: &[u8]) -> Option<Printed> {
    let printed = Voucher::Rust.print(list);
    (printed == Voucher::Ledger.print(list)).then_some(printed)
}
