//! Block access lists (EIP-7928): the writes of an advance.

use crate::raw::{self, CHANGED_SLOT_SIZE, LISTED_READ_SIZE, SLOT_SIZE, WRITE_SIZE};
use crate::types::{Address, BalSkip, Slot, U256};

/// One change of a slot.
#[derive(Clone, Copy, Debug, Default, PartialEq, Eq)]
pub struct StorageChange {
    /// The place of the change in the block.
    pub block_access_index: u64,
    /// The value after it.
    pub new_value: U256,
}

/// A slot with its changes, in list order.
#[derive(Clone, Debug, Default, PartialEq, Eq)]
pub struct SlotChanges {
    /// The slot's index.
    pub slot: U256,
    /// Its changes.
    pub changes: Vec<StorageChange>,
}

/// An account of a block access list: its changed slots, and those that were read and not changed.
#[derive(Clone, Debug, Default, PartialEq, Eq)]
pub struct AccountChanges {
    /// The account's address.
    pub address: Address,
    /// Its changed slots.
    pub storage_changes: Vec<SlotChanges>,
    /// The indices of the slots that were read and not changed.
    pub storage_reads: Vec<U256>,
}

/// Which entries of a list are taken: by address, and up to a number. The default takes all.
#[derive(Clone, Debug, Default, PartialEq, Eq)]
pub struct BalPlan {
    /// If given, only these accounts' entries are taken; the others are counted as filtered.
    pub addresses: Option<Vec<Address>>,
    /// The most writes.
    pub max_write_seeds: Option<usize>,
    /// The most reads.
    pub max_read_prefetches: Option<usize>,
}

/// What a plan took of a list.
#[derive(Clone, Debug, Default, PartialEq, Eq)]
pub struct BalSeed {
    /// The final writes, in list order: address, index, value after the block.
    pub writes: Vec<(Address, U256, U256)>,
    /// The slots that were read and not changed, in list order.
    pub reads: Vec<Slot>,
    /// Changed slots and reads of accounts that the plan does not name.
    pub filtered_entries: usize,
    /// Those over a cap.
    pub capped_entries: usize,
}

/// Turns a decoded block access list into final writes and reads.
///
/// A slot's final value is that of its last listed change; a slot without a change gives no write.
///
/// ```
/// use poxilme::{seed_from_accounts, AccountChanges, Address, BalPlan, SlotChanges, StorageChange, U256};
///
/// let change = |index, value: u64| StorageChange { block_access_index: index, new_value: U256::from(value) };
/// let pool = AccountChanges {
///     address: Address([0x11; 20]),
///     storage_changes: vec![SlotChanges { slot: U256::from(8), changes: vec![change(1, 5), change(4, 6)] }],
///     storage_reads: vec![U256::from(3)],
/// };
/// let seed = seed_from_accounts(&[pool], &BalPlan::default());
/// assert_eq!(seed.writes, [(Address([0x11; 20]), U256::from(8), U256::from(6))]);
/// assert_eq!(seed.reads, [(Address([0x11; 20]), U256::from(3))]);
/// ```
#[must_use]
pub fn seed_from_accounts(accounts: &[AccountChanges], plan: &BalPlan) -> BalSeed {
    if plan.addresses.as_ref().is_some_and(Vec::is_empty) {
        return seed_of_none(accounts);
    }
    let addresses = plan.addresses.iter().flatten();
    let mut flat = Flat::of(accounts);
    let reply = flat.seed(&raw::Plan {
        addresses: &addresses.flat_map(|address| address.0).collect::<Vec<u8>>(),
        max_writes: cap(plan.max_write_seeds),
        max_reads: cap(plan.max_read_prefetches),
    });
    BalSeed {
        writes: flat.writes_out.chunks_exact(WRITE_SIZE).take(reply.count(0)).map(write_of).collect(),
        reads: flat.reads_out.chunks_exact(SLOT_SIZE).take(reply.count(1)).map(slot_of).collect(),
        filtered_entries: reply.count(2),
        capped_entries: reply.count(3),
    }
}

/// A plan that names no account at all: the library takes an empty list of addresses for all of them. With caps of 0 it
/// counts every entry as capped; here they are filtered.
fn seed_of_none(accounts: &[AccountChanges]) -> BalSeed {
    let reply = Flat::of(accounts).seed(&raw::Plan { addresses: &[], max_writes: 0, max_reads: 0 });
    BalSeed { filtered_entries: reply.count(3), ..BalSeed::default() }
}

/// A cap as a number; the largest is none (`POXILME_UNLIMITED`).
fn cap(cap: Option<usize>) -> u64 {
    cap.map_or(u64::MAX, |cap| cap as u64)
}

/// A list as the library takes it, with outputs that hold all its entries.
struct Flat {
    accounts: Vec<u8>,
    slots: Vec<u8>,
    changes: Vec<u8>,
    reads: Vec<u8>,
    writes_out: Vec<u8>,
    reads_out: Vec<u8>,
}

impl Flat {
    fn of(list: &[AccountChanges]) -> Self {
        let (mut accounts, mut slots, mut changes, mut reads) = (vec![], vec![], vec![], vec![]);
        for account in list {
            accounts.extend(account.address.0);
            accounts.extend((account.storage_changes.len() as u64).to_be_bytes());
            accounts.extend((account.storage_reads.len() as u64).to_be_bytes());
            for slot in &account.storage_changes {
                slots.extend(slot.slot.0);
                slots.extend((slot.changes.len() as u64).to_be_bytes());
                for change in &slot.changes {
                    changes.extend(change.block_access_index.to_be_bytes());
                    changes.extend(change.new_value.0);
                }
            }
            reads.extend(account.storage_reads.iter().flat_map(|index| index.0));
        }
        let writes_out = vec![0; slots.len() / CHANGED_SLOT_SIZE * WRITE_SIZE];
        let reads_out = vec![0; reads.len() / LISTED_READ_SIZE * SLOT_SIZE];
        Self { accounts, slots, changes, reads, writes_out, reads_out }
    }

    fn seed(&mut self, plan: &raw::Plan<'_>) -> raw::Reply {
        let lists =
            raw::Lists { accounts: &self.accounts, slots: &self.slots, changes: &self.changes, reads: &self.reads };
        raw::final_writes(lists, *plan, &mut self.writes_out, &mut self.reads_out)
            .expect("the counts are those of the lists, and the outputs have room for every entry")
    }
}

fn address_of(bytes: &[u8]) -> Address {
    let mut address = Address::ZERO;
    address.0.copy_from_slice(&bytes[..20]);
    address
}

fn u256_of(bytes: &[u8]) -> U256 {
    let mut number = U256::ZERO;
    number.0.copy_from_slice(&bytes[..32]);
    number
}

/// The slot that an entry begins with.
pub(crate) fn slot_of(entry: &[u8]) -> Slot {
    (address_of(entry), u256_of(&entry[20..]))
}

fn write_of(entry: &[u8]) -> (Address, U256, U256) {
    (address_of(entry), u256_of(&entry[20..]), u256_of(&entry[SLOT_SIZE..]))
}

/// The addresses whose slots an advance takes in where they are not served. It is made once and used for many advances.
#[derive(Clone, Debug, Default, PartialEq, Eq)]
pub struct RelevanceSet {
    /// The addresses' bytes, rising.
    bytes: Vec<u8>,
}

impl RelevanceSet {
    /// The set of these addresses, in any order; an address may stand twice.
    #[must_use]
    pub fn from_slice(addresses: &[Address]) -> Self {
        addresses.iter().copied().collect()
    }

    pub(crate) fn as_bytes(&self) -> &[u8] {
        &self.bytes
    }
}

impl FromIterator<Address> for RelevanceSet {
    fn from_iter<I: IntoIterator<Item = Address>>(addresses: I) -> Self {
        let mut addresses: Vec<Address> = addresses.into_iter().collect();
        addresses.sort_unstable();
        addresses.dedup();
        Self { bytes: addresses.iter().flat_map(|address| address.0).collect() }
    }
}

/// What is known of the child's list of changed slots: its final writes, or why it was not read.
///
/// Final writes have to be those of the whole list: a write that is left out is not noticed, and its slot is served with an old
/// value. So make them with no plan, by [`PreparedBal::from_accounts`].
#[derive(Clone, Debug, PartialEq, Eq)]
pub struct PreparedBal {
    /// The writes' entries: address, index, value. Empty with a skip.
    writes: Vec<u8>,
    skip: Option<BalSkip>,
}

impl PreparedBal {
    /// A list that was read, with its final writes in order.
    #[must_use]
    pub fn decoded(final_writes: &[(Address, U256, U256)]) -> Self {
        let mut writes = Vec::with_capacity(WRITE_SIZE * final_writes.len());
        for (address, index, value) in final_writes {
            writes.extend_from_slice(&address.0);
            writes.extend_from_slice(&index.0);
            writes.extend_from_slice(&value.0);
        }
        Self { writes, skip: None }
    }

    /// A list that was read: all its final writes.
    #[must_use]
    pub fn from_accounts(accounts: &[AccountChanges]) -> Self {
        Self::decoded(&seed_from_accounts(accounts, &BalPlan::default()).writes)
    }

    /// A list that was not read.
    #[must_use]
    pub const fn skipped(skip: BalSkip) -> Self {
        Self { writes: Vec::new(), skip: Some(skip) }
    }

    /// Why the list was not read; none if it was.
    #[must_use]
    pub const fn skip(&self) -> Option<BalSkip> {
        self.skip
    }

    /// Whether the list was read.
    #[must_use]
    pub const fn is_decoded(&self) -> bool {
        self.skip.is_none()
    }

    /// The final writes, in order.
    pub fn final_writes(&self) -> impl ExactSizeIterator<Item = (Address, U256, U256)> + '_ {
        self.writes.chunks_exact(WRITE_SIZE).map(write_of)
    }

    pub(crate) fn writes(&self) -> &[u8] {
        &self.writes
    }
}
