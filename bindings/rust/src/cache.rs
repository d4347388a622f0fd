//! The store.

use std::fmt;

use crate::bal::{slot_of, PreparedBal, RelevanceSet};
use crate::raw::{self, word_at, Block, Prepared, Reply, SlotBytes, Store, MEMBER_SIZE, SLOT_SIZE, WRITE_SIZE};
use crate::refusal::Refusal;
use crate::types::{
    BalSkip, CarryOutcome, CarryRefusal, CompactionReport, DeltaReport, Installed, Read, ReadAnchor, ReadTotals,
    Retention, RoundReport, Slot, StorageValue, B256, U256,
};

/// The depth limit of [`DeltaSnapshotCache::new`].
pub const DEFAULT_MAX_DEPTH: u32 = 8;

/// The most slots that await an answer at a time.
pub const MAX_AWAITING: usize = raw::MAX_AWAITING;

/// What a slot is answered with: its value, or none where the node refused it.
pub type Member = (Slot, Option<StorageValue>);

/// A store of slots' values at one block, which is its installed anchor. It is carried from block to block.
///
/// One owner makes the calls, each of which names the anchor that it works at; where another one is installed, it is refused by
/// [`Refusal::OtherAnchor`]. A refused call has changed nothing. Two stores are equal if they have the same state.
///
/// The memory is allocated once: the store's bytes ([`DeltaSnapshotCache::as_bytes`]), and as many for the work of advances.
///
/// ```
/// use poxilme::{Address, CarryOutcome, DeltaSnapshotCache, PreparedBal, ReadAnchor, RelevanceSet, B256, U256};
///
/// # fn main() -> Result<(), poxilme::Refusal> {
/// let block_100 = ReadAnchor::identified(100, B256([0xa0; 32]));
/// let block_101 = ReadAnchor::identified(101, B256([0xa1; 32]));
/// let reserve = (Address([0x11; 20]), U256::from(8));
///
/// let mut cache = DeltaSnapshotCache::new(64)?;
/// cache.for_anchor(block_100)?;
/// cache.put(block_100, reserve, U256::from(1000))?;
///
/// // Block 101 names block 100 as its parent and writes the reserve.
/// let list = PreparedBal::decoded(&[(reserve.0, reserve.1, U256::from(1111))]);
/// let report = cache.apply_prepared(block_101, B256([0xa0; 32]), &RelevanceSet::default(), &list)?;
/// assert_eq!(report.outcome, CarryOutcome::Carried { carried_values: 1 });
/// assert_eq!(cache.snapshot_value(block_101, reserve)?, Some(U256::from(1111)));
/// # Ok(())
/// # }
/// ```
#[derive(Clone)]
pub struct DeltaSnapshotCache {
    store: Store,
}

impl PartialEq for DeltaSnapshotCache {
    fn eq(&self, other: &Self) -> bool {
        self.as_bytes() == other.as_bytes()
    }
}

impl Eq for DeltaSnapshotCache {}

impl fmt::Debug for DeltaSnapshotCache {
    fn fmt(&self, f: &mut fmt::Formatter<'_>) -> fmt::Result {
        f.debug_struct("DeltaSnapshotCache")
            .field("capacity", &self.capacity())
            .field("max_depth", &self.max_depth())
            .field("retention", &self.retention())
            .field("anchor", &self.anchor())
            .finish_non_exhaustive()
    }
}

/// Making a store, and its bytes.
impl DeltaSnapshotCache {
    /// A store for `capacity` records, with [`DEFAULT_MAX_DEPTH`] and [`Retention::Unbounded`]. Nothing is installed.
    ///
    /// A record is a slot's entry in one layer; a slot can have several. So a store for 500 slots with 8 layers may need more
    /// than 500 records: docs/USING.md has a section on sizes.
    ///
    /// ```
    /// use poxilme::{DeltaSnapshotCache, Retention};
    ///
    /// let cache = DeltaSnapshotCache::new(256)?;
    /// assert_eq!((cache.max_depth(), cache.retention()), (8, Retention::Unbounded));
    /// assert_eq!((cache.anchor(), cache.records()), (None, 0));
    /// # Ok::<(), poxilme::Refusal>(())
    /// ```
    ///
    /// # Errors
    ///
    /// [`Refusal::CapacityOutOfRange`] unless it is 1 to 4,096.
    pub fn new(capacity: usize) -> Result<Self, Refusal> {
        Self::with_max_depth(capacity, DEFAULT_MAX_DEPTH)
    }

    /// A store with a depth limit and [`Retention::Unbounded`].
    ///
    /// # Errors
    ///
    /// As [`DeltaSnapshotCache::with_max_depth_and_retention`].
    pub fn with_max_depth(capacity: usize, max_depth: u32) -> Result<Self, Refusal> {
        Self::with_max_depth_and_retention(capacity, max_depth, Retention::Unbounded)
    }

    /// A store with a retention and [`DEFAULT_MAX_DEPTH`].
    ///
    /// # Errors
    ///
    /// As [`DeltaSnapshotCache::with_max_depth_and_retention`].
    pub fn with_retention(capacity: usize, retention: Retention) -> Result<Self, Refusal> {
        Self::with_max_depth_and_retention(capacity, DEFAULT_MAX_DEPTH, retention)
    }

    /// A store for `capacity` records whose layers are folded into one when more than `max_depth` would stand above the lowest.
    /// A limit of 0 is taken as 1.
    ///
    /// ```
    /// use poxilme::{DeltaSnapshotCache, Refusal, Retention};
    ///
    /// let cache = DeltaSnapshotCache::with_max_depth_and_retention(256, 8, Retention::IdleBlocks(100))?;
    /// assert_eq!(cache.as_bytes().len(), 36_032);
    /// assert_eq!(DeltaSnapshotCache::new(5000), Err(Refusal::CapacityOutOfRange));
    /// # Ok::<(), Refusal>(())
    /// ```
    ///
    /// # Errors
    ///
    /// [`Refusal::CapacityOutOfRange`], [`Refusal::DepthLimitTooLarge`].
    pub fn with_max_depth_and_retention(
        capacity: usize,
        max_depth: u32,
        retention: Retention,
    ) -> Result<Self, Refusal> {
        let (bounded, idle) = match retention {
            Retention::Unbounded => (0, 0),
            Retention::IdleBlocks(idle) => (1, idle),
        };
        let store = Store::open(capacity as u64, u64::from(max_depth), bounded, idle)?;
        Ok(Self { store })
    }

    /// The store's bytes, to be kept over a restart or sent elsewhere: [`DeltaSnapshotCache::from_bytes`] takes them back.
    /// docs/LAYOUT.md says what stands where.
    ///
    /// ```
    /// use poxilme::{DeltaSnapshotCache, ReadAnchor};
    ///
    /// let mut cache = DeltaSnapshotCache::new(16)?;
    /// cache.for_anchor(ReadAnchor::at(7))?;
    /// let file = std::env::temp_dir().join(format!("poxilme-{}", std::process::id()));
    /// std::fs::write(&file, cache.as_bytes()).unwrap();
    ///
    /// let back = DeltaSnapshotCache::from_bytes(&std::fs::read(&file).unwrap())?;
    /// assert_eq!(back, cache);
    /// # std::fs::remove_file(&file).unwrap();
    /// # Ok::<(), poxilme::Refusal>(())
    /// ```
    #[must_use]
    pub fn as_bytes(&self) -> &[u8] {
        self.store.bytes()
    }

    /// The store's bytes.
    #[must_use]
    pub fn into_bytes(self) -> Box<[u8]> {
        self.store.into_bytes()
    }

    /// The store that the bytes begin with. They are checked; bytes past the store are not looked at. The check is of the form
    /// and no checksum: bytes in which only a value was damaged pass it.
    ///
    /// That bytes are a store says nothing about the chain: go on with an advance from [`DeltaSnapshotCache::anchor`], which
    /// carries the values only if the next block is its child.
    ///
    /// ```
    /// use poxilme::{DeltaSnapshotCache, ReadAnchor, Refusal};
    ///
    /// let mut cache = DeltaSnapshotCache::new(16)?;
    /// cache.for_anchor(ReadAnchor::at(7))?;
    /// let kept = cache.as_bytes().to_vec();
    ///
    /// let back = DeltaSnapshotCache::from_bytes(&kept)?;
    /// assert_eq!(back, cache);
    /// assert_eq!(back.anchor(), Some(ReadAnchor::at(7)));
    /// assert_eq!(DeltaSnapshotCache::from_bytes(&kept[1..]), Err(Refusal::NotAStore));
    /// # Ok::<(), Refusal>(())
    /// ```
    ///
    /// # Errors
    ///
    /// [`Refusal::NotAStore`].
    pub fn from_bytes(bytes: &[u8]) -> Result<Self, Refusal> {
        let store = Store::from_bytes(bytes)?;
        Ok(Self { store })
    }

    /// The capacity in records.
    #[must_use]
    pub fn capacity(&self) -> usize {
        self.header(1) as usize
    }

    /// The depth limit.
    #[must_use]
    pub fn max_depth(&self) -> u32 {
        self.header(2) as u32
    }

    /// The retention.
    #[must_use]
    pub fn retention(&self) -> Retention {
        match self.header(3) {
            0 => Retention::Unbounded,
            _ => Retention::IdleBlocks(self.header(4)),
        }
    }

    /// The installed anchor, if there is one.
    #[must_use]
    pub fn anchor(&self) -> Option<ReadAnchor> {
        if self.header(5) == 0 {
            return None;
        }
        let number = self.header(6);
        if self.header(7) == 0 {
            return Some(ReadAnchor::at(number));
        }
        let mut hash = B256::ZERO;
        hash.0.copy_from_slice(&self.as_bytes()[64..96]);
        Some(ReadAnchor::identified(number, hash))
    }

    /// How many records there are, of [`DeltaSnapshotCache::capacity`].
    #[must_use]
    pub fn records(&self) -> usize {
        self.header(13) as usize
    }

    /// A word of the store's header (docs/LAYOUT.md).
    fn header(&self, word: usize) -> u64 {
        word_at(self.as_bytes(), word)
    }
}

/// Blocks.
impl DeltaSnapshotCache {
    /// Installs an anchor. The installed one again changes nothing; another starts empty, and what was held, awaited or counted
    /// is gone. To carry values to a child use [`DeltaSnapshotCache::apply_prepared`].
    ///
    /// ```
    /// use poxilme::{DeltaSnapshotCache, Installed, ReadAnchor};
    ///
    /// let mut cache = DeltaSnapshotCache::new(16)?;
    /// assert_eq!(cache.for_anchor(ReadAnchor::at(7))?, Installed::Fresh);
    /// assert_eq!(cache.for_anchor(ReadAnchor::at(7))?, Installed::Same);
    /// # Ok::<(), poxilme::Refusal>(())
    /// ```
    ///
    /// # Errors
    ///
    /// None: a store can always install an anchor.
    pub fn for_anchor(&mut self, anchor: ReadAnchor) -> Result<Installed, Refusal> {
        let reply = self.store.install(block(&anchor))?;
        Ok(if reply.word(0) == 0 { Installed::Same } else { Installed::Fresh })
    }

    /// Goes to the block `child`, whose header names `child_parent_hash` as its parent.
    ///
    /// If the installed anchor is that parent, by number and hash, and the child's list was read, all values are carried and the
    /// list's writes applied; else the child starts empty. In both cases a write to a served slot replaces its value, one to
    /// another slot is taken in where its address is in `relevance`, and any other is skipped. If `child` is installed already,
    /// nothing changes.
    ///
    /// What is served is only as true as the lists: see [`PreparedBal`].
    ///
    /// ```
    /// use poxilme::{
    ///     BalSkip, CarryOutcome, CarryRefusal, DeltaSnapshotCache, PreparedBal, ReadAnchor, RelevanceSet, B256,
    /// };
    ///
    /// let hash = |byte| B256([byte; 32]);
    /// let mut cache = DeltaSnapshotCache::new(16)?;
    /// cache.for_anchor(ReadAnchor::identified(100, hash(0xa0)))?;
    ///
    /// // The child of a sibling of block 100, whose list could not be fetched.
    /// let child = ReadAnchor::identified(101, hash(0xb1));
    /// let list = PreparedBal::skipped(BalSkip::Rpc);
    /// let report = cache.apply_prepared(child, hash(0xb0), &RelevanceSet::default(), &list)?;
    /// let expected = CarryOutcome::Cold { lineage: Some(CarryRefusal::ParentHashMismatch), bal: Some(BalSkip::Rpc) };
    /// assert_eq!(report.outcome, expected);
    /// # Ok::<(), poxilme::Refusal>(())
    /// ```
    ///
    /// # Errors
    ///
    /// [`Refusal::StoreFull`].
    pub fn apply_prepared(
        &mut self,
        child: ReadAnchor,
        child_parent_hash: B256,
        relevance: &RelevanceSet,
        prepared: &PreparedBal,
    ) -> Result<DeltaReport, Refusal> {
        let given = Prepared {
            parent_hash: &child_parent_hash.0,
            skip: BalSkip::number(prepared.skip()),
            addresses: relevance.as_bytes(),
            writes: prepared.writes(),
        };
        let mut applied = vec![0; given.writes.len() / WRITE_SIZE * SLOT_SIZE];
        let reply = self.store.advance(block(&child), given, &mut applied)?;
        Ok(report(&reply, &applied))
    }
}

fn report(reply: &Reply, applied: &[u8]) -> DeltaReport {
    let outcome = match reply.word(0) {
        0 => CarryOutcome::AlreadyCurrent,
        1 => CarryOutcome::Carried { carried_values: reply.count(1) },
        _ => CarryOutcome::Cold {
            lineage: CarryRefusal::from_number(reply.word(2)),
            bal: BalSkip::from_number(reply.word(3)),
        },
    };
    // A fold merges at least one layer.
    let compaction = (reply.word(9) > 0).then(|| CompactionReport {
        nodes_merged: reply.count(9),
        entries: reply.count(10),
        dropped: reply.count(11),
    });
    DeltaReport {
        outcome,
        writes: applied.chunks_exact(SLOT_SIZE).take(reply.count(4)).map(slot_of).collect(),
        writes_overwritten: reply.count(5),
        writes_skipped: reply.count(6),
        compaction,
        held: reply.count(7),
        live: reply.count(8),
    }
}

/// Values.
impl DeltaSnapshotCache {
    /// The value that a slot is served with. It changes nothing, and needs no exclusive borrow.
    ///
    /// ```
    /// use poxilme::{Address, DeltaSnapshotCache, ReadAnchor, Refusal, U256};
    ///
    /// let (anchor, slot) = (ReadAnchor::at(7), (Address([0x11; 20]), U256::from(8)));
    /// let mut cache = DeltaSnapshotCache::new(16)?;
    /// cache.for_anchor(anchor)?;
    /// assert_eq!(cache.snapshot_value(anchor, slot)?, None);
    /// cache.put(anchor, slot, U256::from(5))?;
    /// assert_eq!(cache.snapshot_value(anchor, slot)?, Some(U256::from(5)));
    /// assert_eq!(cache.snapshot_value(ReadAnchor::at(6), slot), Err(Refusal::OtherAnchor));
    /// # Ok::<(), Refusal>(())
    /// ```
    ///
    /// # Errors
    ///
    /// [`Refusal::NothingInstalled`], [`Refusal::OtherAnchor`].
    pub fn snapshot_value(&self, anchor: ReadAnchor, slot: Slot) -> Result<Option<StorageValue>, Refusal> {
        let reply = self.store.look(block(&anchor), &slot_bytes(slot))?;
        Ok(value(&reply))
    }

    /// As [`DeltaSnapshotCache::snapshot_value`], and a served slot's last use is set to the installed number: under
    /// [`Retention::IdleBlocks`] a slot stays served that somebody gets.
    ///
    /// ```
    /// use poxilme::{Address, DeltaSnapshotCache, PreparedBal, ReadAnchor, RelevanceSet, Retention, B256, U256};
    ///
    /// let block = |n: u8| ReadAnchor::identified(u64::from(n), B256([n; 32]));
    /// let (used, unused) = ((Address([0x11; 20]), U256::from(8)), (Address([0x11; 20]), U256::from(9)));
    /// let mut cache = DeltaSnapshotCache::with_retention(16, Retention::IdleBlocks(1))?;
    /// cache.for_anchor(block(7))?;
    /// cache.put(block(7), used, U256::from(5))?;
    /// cache.put(block(7), unused, U256::from(6))?;
    ///
    /// for n in 8..10 {
    ///     cache.apply_prepared(block(n), B256([n - 1; 32]), &RelevanceSet::default(), &PreparedBal::decoded(&[]))?;
    ///     assert_eq!(cache.get(block(n), used)?, Some(U256::from(5)));
    /// }
    /// assert_eq!(cache.get(block(9), unused)?, None);
    /// # Ok::<(), poxilme::Refusal>(())
    /// ```
    ///
    /// # Errors
    ///
    /// [`Refusal::NothingInstalled`], [`Refusal::OtherAnchor`], [`Refusal::StoreFull`] (a use takes a record of its own if the
    /// slot has none in the installed generation).
    pub fn get(&mut self, anchor: ReadAnchor, slot: Slot) -> Result<Option<StorageValue>, Refusal> {
        let reply = self.store.get(block(&anchor), &slot_bytes(slot))?;
        Ok(value(&reply))
    }

    /// Sets a slot's value, and its last use to the installed number.
    ///
    /// ```
    /// use poxilme::{Address, DeltaSnapshotCache, ReadAnchor, U256};
    ///
    /// let (anchor, slot) = (ReadAnchor::at(7), (Address([0x11; 20]), U256::from(8)));
    /// let mut cache = DeltaSnapshotCache::new(16)?;
    /// cache.for_anchor(anchor)?;
    /// assert_eq!(cache.get(anchor, slot)?, None);
    /// cache.put(anchor, slot, U256::from(5))?;
    /// assert_eq!(cache.get(anchor, slot)?, Some(U256::from(5)));
    /// # Ok::<(), poxilme::Refusal>(())
    /// ```
    ///
    /// # Errors
    ///
    /// [`Refusal::NothingInstalled`], [`Refusal::OtherAnchor`], [`Refusal::StoreFull`].
    pub fn put(&mut self, anchor: ReadAnchor, slot: Slot, value: StorageValue) -> Result<(), Refusal> {
        self.store.put(block(&anchor), &slot_bytes(slot), &value.0).map(|_| ())
    }

    /// The source's inner name for [`DeltaSnapshotCache::put`].
    ///
    /// # Errors
    ///
    /// As `put`.
    pub fn settle(&mut self, anchor: ReadAnchor, slot: Slot, value: StorageValue) -> Result<(), Refusal> {
        self.put(anchor, slot, value)
    }
}

/// Reads that wait for an answer.
impl DeltaSnapshotCache {
    /// Reads a slot: its value as [`DeltaSnapshotCache::get`], or else the slot awaits an answer with one more waiter.
    ///
    /// ```
    /// use poxilme::{Address, DeltaSnapshotCache, Read, ReadAnchor, U256};
    ///
    /// let (anchor, slot) = (ReadAnchor::at(7), (Address([0x11; 20]), U256::from(8)));
    /// let mut cache = DeltaSnapshotCache::new(16)?;
    /// cache.for_anchor(anchor)?;
    /// assert_eq!(cache.read(anchor, slot)?, Read::Waiting { waiters: 1 });
    /// assert_eq!(cache.take_queued(anchor)?, [slot]);
    /// // The node is asked for the slot at the anchor, and says 5.
    /// let round = cache.answer(anchor, &[(slot, Some(U256::from(5)))])?;
    /// assert_eq!((round.storage_members, round.woken), (1, 1));
    /// assert_eq!(cache.read(anchor, slot)?, Read::Value(U256::from(5)));
    /// # Ok::<(), poxilme::Refusal>(())
    /// ```
    ///
    /// # Errors
    ///
    /// [`Refusal::NothingInstalled`], [`Refusal::OtherAnchor`], [`Refusal::TooManyReads`], [`Refusal::QueueFull`],
    /// [`Refusal::StoreFull`].
    pub fn read(&mut self, anchor: ReadAnchor, slot: Slot) -> Result<Read, Refusal> {
        let reply = self.store.read(block(&anchor), &slot_bytes(slot))?;
        Ok(match value(&reply) {
            Some(value) => Read::Value(value),
            None => Read::Waiting { waiters: reply.word(1) },
        })
    }

    /// The slots that were queued since the last take, rising; they are taken now.
    ///
    /// ```
    /// use poxilme::{Address, DeltaSnapshotCache, ReadAnchor, U256};
    ///
    /// let (anchor, pool) = (ReadAnchor::at(7), Address([0x11; 20]));
    /// let mut cache = DeltaSnapshotCache::new(16)?;
    /// cache.for_anchor(anchor)?;
    /// for index in [9, 8, 9] {
    ///     cache.read(anchor, (pool, U256::from(index)))?;
    /// }
    /// assert_eq!(cache.take_queued(anchor)?, [(pool, U256::from(8)), (pool, U256::from(9))]);
    /// assert_eq!(cache.take_queued(anchor)?, []);
    /// # Ok::<(), poxilme::Refusal>(())
    /// ```
    ///
    /// # Errors
    ///
    /// [`Refusal::NothingInstalled`], [`Refusal::OtherAnchor`].
    pub fn take_queued(&mut self, anchor: ReadAnchor) -> Result<Vec<Slot>, Refusal> {
        let mut taken = [0; SLOT_SIZE * MAX_AWAITING];
        let reply = self.store.take(block(&anchor), &mut taken)?;
        Ok(taken.chunks_exact(SLOT_SIZE).take(reply.count(0)).map(slot_of).collect())
    }

    /// The answer to taken slots, some or all. A value is put and wakes the slot's waiters; a refusal wakes them refused. In
    /// both cases the slot no longer awaits. Who waits is yours to know: the report counts them.
    ///
    /// ```
    /// use poxilme::{Address, DeltaSnapshotCache, ReadAnchor, Refusal, U256};
    ///
    /// let (anchor, pool) = (ReadAnchor::at(7), Address([0x11; 20]));
    /// let mut cache = DeltaSnapshotCache::new(16)?;
    /// cache.for_anchor(anchor)?;
    /// for index in [8, 9, 9] {
    ///     cache.read(anchor, (pool, U256::from(index)))?;
    /// }
    /// let slots = cache.take_queued(anchor)?;
    /// // The node gave a value for the first slot and an error for the second, which two reads wait for.
    /// let round = cache.answer(anchor, &[(slots[0], Some(U256::from(5))), (slots[1], None)])?;
    /// assert_eq!((round.storage_members, round.storage_member_errors, round.woken), (2, 1, 3));
    /// assert_eq!(cache.answer(anchor, &[(slots[0], None)]), Err(Refusal::NotTaken));
    /// # Ok::<(), Refusal>(())
    /// ```
    ///
    /// # Errors
    ///
    /// [`Refusal::SlotTwice`], [`Refusal::NothingInstalled`], [`Refusal::OtherAnchor`], [`Refusal::NotTaken`],
    /// [`Refusal::StoreFull`].
    pub fn answer(&mut self, anchor: ReadAnchor, members: &[Member]) -> Result<RoundReport, Refusal> {
        let mut bytes = Vec::with_capacity(MEMBER_SIZE * members.len());
        for (slot, value) in members {
            bytes.extend_from_slice(&slot_bytes(*slot));
            bytes.push(u8::from(value.is_some()));
            bytes.extend_from_slice(&value.unwrap_or_default().0);
        }
        let reply = self.store.answer(block(&anchor), &bytes)?;
        Ok(round(&reply))
    }

    /// The answer of a round that failed as a whole: its taken slots no longer await, and their waiters are woken refused.
    ///
    /// ```
    /// use poxilme::{Address, DeltaSnapshotCache, Read, ReadAnchor, U256};
    ///
    /// let (anchor, slot) = (ReadAnchor::at(7), (Address([0x11; 20]), U256::from(8)));
    /// let mut cache = DeltaSnapshotCache::new(16)?;
    /// cache.for_anchor(anchor)?;
    /// cache.read(anchor, slot)?;
    /// let slots = cache.take_queued(anchor)?;
    /// assert_eq!(cache.answer_failed(anchor, &slots)?.woken, 1);
    /// assert_eq!(cache.read(anchor, slot)?, Read::Waiting { waiters: 1 });
    /// # Ok::<(), poxilme::Refusal>(())
    /// ```
    ///
    /// # Errors
    ///
    /// [`Refusal::SlotTwice`], [`Refusal::NothingInstalled`], [`Refusal::OtherAnchor`], [`Refusal::NotTaken`].
    pub fn answer_failed(&mut self, anchor: ReadAnchor, slots: &[Slot]) -> Result<RoundReport, Refusal> {
        let bytes: Vec<u8> = slots.iter().flat_map(|slot| slot_bytes(*slot)).collect();
        let reply = self.store.answer_failed(block(&anchor), &bytes)?;
        Ok(round(&reply))
    }

    /// The totals of the installed generation's reads. Another anchor starts them at 0.
    ///
    /// ```
    /// use poxilme::{Address, DeltaSnapshotCache, ReadAnchor, U256};
    ///
    /// let (anchor, slot) = (ReadAnchor::at(7), (Address([0x11; 20]), U256::from(8)));
    /// let mut cache = DeltaSnapshotCache::new(16)?;
    /// cache.for_anchor(anchor)?;
    /// cache.read(anchor, slot)?;
    /// cache.read(anchor, slot)?;
    /// let totals = cache.read_totals()?;
    /// assert_eq!((totals.accepted, totals.served, totals.waiting, totals.coalesced), (2, 0, 2, 1));
    /// # Ok::<(), poxilme::Refusal>(())
    /// ```
    ///
    /// # Errors
    ///
    /// [`Refusal::NothingInstalled`].
    pub fn read_totals(&self) -> Result<ReadTotals, Refusal> {
        let reply = self.store.read_totals()?;
        Ok(ReadTotals {
            accepted: reply.word(0),
            served: reply.word(1),
            waiting: reply.word(2),
            woken_with_value: reply.word(3),
            woken_refused: reply.word(4),
            rounds: reply.word(5),
            members: reply.word(6),
            member_errors: reply.word(7),
            coalesced: reply.word(8),
        })
    }
}

fn block(anchor: &ReadAnchor) -> Block<'_> {
    let hash = anchor.hash.as_ref().map_or(&[][..], |hash| &hash.0);
    Block { number: anchor.number, hash }
}

fn slot_bytes(slot: Slot) -> SlotBytes {
    let mut bytes = [0; SLOT_SIZE];
    bytes[..20].copy_from_slice(&slot.0 .0);
    bytes[20..].copy_from_slice(&slot.1 .0);
    bytes
}

/// The value of a reply that has one.
fn value(reply: &Reply) -> Option<StorageValue> {
    (reply.word(0) == 1).then(|| U256(reply.value()))
}

fn round(reply: &Reply) -> RoundReport {
    RoundReport { storage_members: reply.count(0), storage_member_errors: reply.count(1), woken: reply.word(2) }
}
