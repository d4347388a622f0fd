//! Poxilme keeps storage values of contracts at one block, and carries them to the next block when that block's list of changed
//! slots says what is still right. It is a port of degenbot's `DeltaSnapshotCache`, with its names; what each call answers is
//! proved (docs/TOUR.md), by `tools/prove poxilme`, which makes the library that this crate links.
//!
//! [`DeltaSnapshotCache`] has the calls. It owns its memory and fetches nothing: between [`DeltaSnapshotCache::take_queued`] and
//! [`DeltaSnapshotCache::answer`] the caller asks its node, and before [`DeltaSnapshotCache::apply_prepared`] it fetches the block
//! access list, which [`PreparedBal::from_accounts`] turns into final writes.
//!
//! ```
//! use poxilme::{Address, DeltaSnapshotCache, PreparedBal, Read, ReadAnchor, Refusal, RelevanceSet, B256, U256};
//!
//! # fn main() -> Result<(), Refusal> {
//! let hash = |byte| B256([byte; 32]);
//! let (parent, child) = (ReadAnchor::identified(100, hash(0xa0)), ReadAnchor::identified(101, hash(0xa1)));
//! let fee = (Address([0x11; 20]), U256::from(3));
//!
//! let mut cache = DeltaSnapshotCache::new(1024)?;
//! cache.for_anchor(parent)?;
//! if let Read::Waiting { .. } = cache.read(parent, fee)? {
//!     let asked = cache.take_queued(parent)?;
//!     // Ask the node for these slots at block 100; then:
//!     let answers: Vec<_> = asked.into_iter().map(|slot| (slot, Some(U256::from(30)))).collect();
//!     cache.answer(parent, &answers)?;
//! }
//! let list = PreparedBal::decoded(&[]); // block 101 wrote nothing
//! cache.apply_prepared(child, hash(0xa0), &RelevanceSet::default(), &list)?;
//! assert_eq!(cache.get(child, fee)?, Some(U256::from(30)));
//!
//! // A call that still works at block 100 is refused, and has changed nothing.
//! assert_eq!(cache.get(parent, fee), Err(Refusal::OtherAnchor));
//! # Ok(())
//! # }
//! ```
//!
//! docs/USING.md has a first program, the life of a block, what to do about each refusal, and sizes.

#![deny(missing_docs)]
#![deny(unsafe_code)]
#![forbid(unsafe_op_in_unsafe_fn)]

// The library is built for x86-64.
const _: () = assert!(usize::BITS == 64);

// The programs of the page are tested.
#[cfg(doctest)]
#[doc = include_str!("../../../docs/USING.md")]
struct Using;

mod bal;
mod cache;
mod listing;
#[allow(unsafe_code)]
mod raw;
mod refusal;
mod types;

pub use bal::{
    seed_from_accounts, AccountChanges, BalPlan, BalSeed, PreparedBal, RelevanceSet, SlotChanges, StorageChange,
};
pub use cache::{DeltaSnapshotCache, Member, DEFAULT_MAX_DEPTH, MAX_AWAITING};
pub use listing::{run_list, Fault, Listing};
pub use refusal::Refusal;
pub use types::{
    Address, BalSkip, CarryOutcome, CarryRefusal, CompactionReport, DeltaReport, Installed, Read, ReadAnchor,
    ReadTotals, Retention, RoundReport, Slot, StorageValue, B256, U256,
};
