//! Drives the reference: refusals are decided here, from document 01;
//! everything else that an answer says comes from the reference.

use crate::calls::{Advance, Call, Round, Shape};
use crate::sim::evm2::bal_prefetch::BalSkip;
use crate::sim::evm2::delta_snapshot::oracle_access as layers;
use crate::sim::evm2::delta_snapshot::{
    DeltaHub, DeltaRead, DeltaReport, DeltaSnapshotCache, RelevanceSet, Slot,
};
use crate::sim::evm2::read_hub::oracle_access as reads;
use crate::sim::evm2::read_hub::{CarryOutcome, CarryRefusal, ReadHubStats, RoundReport};
use crate::sim::evm2::storage_view::StorageView;
use crate::sim::storage_memo::ReadAnchor;
use alloy::primitives::StorageValue;
use degenbot_core::errors::ProviderError;
use degenbot_rpc::provider::AlloyProvider;
use std::collections::HashSet;
use std::future::Future;
use std::pin::Pin;
use std::sync::Arc;
use std::task::{Context, Poll, Waker};

/// The largest capacity that the program `calls` lends store bytes for.
pub const LENT_RECORDS: u64 = 256;
const LARGEST_CAPACITY: u64 = 4_096;
const LARGEST_DEPTH: u64 = 255;
const LARGEST_SKIP: u64 = 3;
const MOST_AWAITING: usize = 64;

/// A refusal's number.
pub type Refusal = u8;

#[derive(Clone, Debug, PartialEq, Eq)]
pub enum Answer {
    Open,
    AnchorSame,
    AnchorFresh,
    Advanced(DeltaReport),
    Value(StorageValue),
    None,
    Wait(usize),
    Put,
    Take(Vec<Slot>),
    Round { report: RoundReport, woken: usize },
}

/// The lent store: nothing before the first accepted open.
#[derive(Default)]
pub struct Driver {
    store: Option<Store>,
}

impl Driver {
    pub fn run(&mut self, call: &Call) -> Result<Answer, Refusal> {
        if let Call::Open { capacity, shape } = call {
            self.store = Some(Store::open(*capacity, *shape)?);
            return Ok(Answer::Open);
        }
        self.store.as_mut().ok_or(20)?.run(call)
    }

    /// The installed generation.
    pub fn generation(&self) -> Option<&DeltaHub> {
        Some(&*self.store.as_ref()?.installed.as_ref()?.hub)
    }

    /// The totals that the hub of the installed generation counts.
    pub fn stats(&self) -> Option<ReadHubStats> {
        Some(self.generation()?.read_stats())
    }

    /// What became of the reads of the installed generation.
    pub fn reads(&self) -> Option<Reads> {
        Some(self.store.as_ref()?.installed.as_ref()?.reads())
    }
}

/// What became of a generation's reads, counted from their futures.
#[derive(Clone, Copy, Debug, Default, PartialEq, Eq)]
pub struct Reads {
    /// Futures made.
    pub accepted: usize,
    /// Ready at the first poll.
    pub served: usize,
    /// Still pending.
    pub waiting: usize,
    /// Woken with a value.
    pub valued: usize,
    /// Woken with an error.
    pub refused: usize,
}

/// A read that has no answer yet.
struct Waiter {
    slot: Slot,
    read: DeltaRead<'static>,
}

/// The installed generation with its reads.
struct Installed {
    /// Declared before `hub`, so that they are dropped before it.
    waiters: Vec<Waiter>,
    /// The reads that have ended; those that wait are `waiters`.
    ended: Reads,
    hub: Arc<DeltaHub>,
}

impl Installed {
    fn new(hub: Arc<DeltaHub>) -> Self {
        Self {
            waiters: Vec::new(),
            ended: Reads::default(),
            hub,
        }
    }

    fn reads(&self) -> Reads {
        Reads {
            waiting: self.waiters.len(),
            ..self.ended
        }
    }

    /// Start a read. It stays in this struct or ends before it.
    fn read(&mut self, slot: &Slot) -> DeltaRead<'static> {
        self.ended.accepted += 1;
        // SAFETY: the hub is on the heap, held by the `Arc` beside the reads,
        // and outlives them.
        let hub: &'static DeltaHub = unsafe { &*Arc::as_ptr(&self.hub) };
        hub.read_storage_handle(slot.0, slot.1)
    }

    /// Poll every waiter after an answer and count what it wakes with, which
    /// has to be what the answer has for its slot. Yields how many woke.
    fn poll_waiters(&mut self, round: &Round) -> usize {
        let before = self.waiters.len();
        let ended = &mut self.ended;
        self.waiters.retain_mut(|waiter| {
            let Poll::Ready(outcome) = poll(&mut waiter.read) else {
                return true;
            };
            assert!(round.slots().contains(&waiter.slot));
            assert_eq!(outcome.as_ref().ok(), round.value_of(&waiter.slot));
            match outcome {
                Ok(_) => ended.valued += 1,
                Err(_) => ended.refused += 1,
            }
            false
        });
        before - self.waiters.len()
    }
}

fn poll(read: &mut DeltaRead<'static>) -> Poll<<DeltaRead<'static> as Future>::Output> {
    Pin::new(read).poll(&mut Context::from_waker(Waker::noop()))
}

/// An opened store.
struct Store {
    capacity: usize,
    cache: DeltaSnapshotCache,
    installed: Option<Installed>,
}

impl Store {
    fn open(capacity: u64, shape: Option<Shape>) -> Result<Self, Refusal> {
        if capacity == 0 || capacity > LARGEST_CAPACITY {
            return Err(1);
        }
        if shape.is_some_and(|shape| shape.depth > LARGEST_DEPTH) {
            return Err(2);
        }
        if capacity > LENT_RECORDS {
            return Err(9);
        }
        let provider = AlloyProvider;
        let cache = match shape {
            None => DeltaSnapshotCache::new(&provider),
            Some(Shape { depth, retention }) => {
                let depth = u32::try_from(depth).expect("at most 255");
                DeltaSnapshotCache::with_max_depth_and_retention(&provider, depth, retention)
            }
        };
        Ok(Self {
            capacity: usize::try_from(capacity).expect("at most 256"),
            cache,
            installed: None,
        })
    }

    fn run(&mut self, call: &Call) -> Result<Answer, Refusal> {
        self.refuse(call)?;
        let expected = call.anchor().map(|_| self.records() + self.added_by(call));
        let answer = match call {
            Call::Open { .. } => unreachable!("an open makes a new store"),
            Call::Install(anchor) => self.install(*anchor),
            Call::Advance(advance) => return self.advance(advance),
            Call::Look(_, slot) => found(self.hub().snapshot_value(slot.0, slot.1)),
            Call::Get(_, slot) => found(StorageView::get(self.hub(), slot.0, slot.1)),
            Call::Put(_, slot, value) => self.put(slot, *value),
            Call::Read(_, slot) => self.read(slot),
            Call::Take(_) => self.take(),
            Call::Answer(_, round) => self.answer(round),
        };
        assert!(expected.is_none_or(|expected| expected == self.records()));
        self.check();
        Ok(answer)
    }

    /// The refusals in document 01's order, all but an advance's 23.
    fn refuse(&self, call: &Call) -> Result<(), Refusal> {
        if let Call::Advance(advance) = call {
            refuse_if(6, advance.skip != 0 && !advance.writes.is_empty())?;
            refuse_if(7, advance.skip > LARGEST_SKIP)?;
        }
        if let Call::Answer(_, round) = call {
            refuse_if(8, names_twice(&round.slots()))?;
        }
        let Some(anchor) = call.anchor() else {
            return Ok(());
        };
        let installed = self.cache.anchor().ok_or(21)?;
        refuse_if(22, installed != anchor)?;
        if let Call::Answer(_, round) = call {
            refuse_if(26, !round.slots().iter().all(|slot| self.taken(slot)))?;
        }
        if let Call::Read(_, slot) = call {
            refuse_if(24, self.crowded_out(slot))?;
        }
        refuse_if(23, self.records() + self.added_by(call) > self.capacity)
    }

    fn hub(&self) -> &DeltaHub {
        &self.installed.as_ref().expect("tested by 21").hub
    }

    fn records(&self) -> usize {
        let installed = self.installed.as_ref();
        installed.map_or(0, |installed| layers::records(&installed.hub))
    }

    fn serves(&self, slot: &Slot) -> bool {
        self.hub().snapshot_value(slot.0, slot.1).is_some()
    }

    fn taken(&self, slot: &Slot) -> bool {
        reads::awaiting(self.hub().read_hub(), slot).is_some_and(|awaiting| awaiting.taken)
    }

    /// Whether a read of the slot would make it the 65th that awaits.
    fn crowded_out(&self, slot: &Slot) -> bool {
        let lane = self.hub().read_hub();
        let joins = reads::awaiting(lane, slot).is_some();
        !self.serves(slot) && !joins && reads::awaiting_slots(lane).len() >= MOST_AWAITING
    }

    /// The records that a call with code 4 to 9 adds to the top: one for each
    /// slot that it uses or values and that has none there.
    fn added_by(&self, call: &Call) -> usize {
        let added = |slot: &Slot| usize::from(!layers::in_top(self.hub(), slot));
        match call {
            Call::Get(_, slot) | Call::Read(_, slot) if self.serves(slot) => added(slot),
            Call::Put(_, slot, _) => added(slot),
            Call::Answer(_, Round::Members(members)) => {
                let valued = members.iter().filter(|(_, value)| value.is_some());
                valued.map(|(slot, _)| added(slot)).sum()
            }
            _ => 0,
        }
    }

    fn install(&mut self, anchor: ReadAnchor) -> Answer {
        let hub = self.cache.for_anchor(anchor);
        if self.replace(hub) {
            Answer::AnchorFresh
        } else {
            Answer::AnchorSame
        }
    }

    /// Keep `hub` as the installed generation; whether it is another one.
    fn replace(&mut self, hub: Arc<DeltaHub>) -> bool {
        let same = self
            .installed
            .as_ref()
            .is_some_and(|installed| Arc::ptr_eq(&installed.hub, &hub));
        if !same {
            self.installed = Some(Installed::new(hub));
        }
        !same
    }

    /// Run the advance, and take it back where it leaves too many records.
    fn advance(&mut self, advance: &Advance) -> Result<Answer, Refusal> {
        let prepared =
            reads::prepared(advance.child, advance.writes.clone(), skip_of(advance.skip));
        let relevance = RelevanceSet::from_slice(&advance.relevance);
        let before = self.records();
        let saved = layers::save(&self.cache);
        let (hub, report) = layers::advance(
            &self.cache,
            advance.child,
            advance.parent_hash,
            &relevance,
            &prepared,
        );
        if layers::records(&hub) > self.capacity {
            layers::restore(&self.cache, saved);
            assert_eq!(self.records(), before);
            self.check();
            return Err(23);
        }
        self.replace(hub);
        self.check();
        Ok(Answer::Advanced(report))
    }

    fn put(&self, slot: &Slot, value: StorageValue) -> Answer {
        StorageView::put(self.hub(), slot.0, slot.1, value);
        Answer::Put
    }

    /// A served read ends at once; any other is kept and polled after answers.
    fn read(&mut self, slot: &Slot) -> Answer {
        let installed = self.installed.as_mut().expect("tested by 21");
        let mut read = installed.read(slot);
        match poll(&mut read) {
            Poll::Ready(outcome) => {
                installed.ended.served += 1;
                Answer::Value(outcome.expect("a served read has a value"))
            }
            Poll::Pending => {
                installed.waiters.push(Waiter { slot: *slot, read });
                let awaiting = reads::awaiting(installed.hub.read_hub(), slot);
                Answer::Wait(awaiting.expect("the slot awaits").waiters)
            }
        }
    }

    fn take(&self) -> Answer {
        let mut slots = reads::take_queued(self.hub().read_hub());
        slots.sort_unstable();
        Answer::Take(slots)
    }

    fn answer(&mut self, round: &Round) -> Answer {
        let slots = round.slots();
        if slots.is_empty() {
            let report = RoundReport::default();
            return Answer::Round { report, woken: 0 };
        }
        let refused = || ProviderError("refused".into());
        let outcome = match round {
            Round::Members(members) => Ok(members
                .iter()
                .map(|(_, value)| value.ok_or_else(refused))
                .collect()),
            Round::Failed(_) => Err(refused()),
        };
        let installed = self.installed.as_mut().expect("tested by 21");
        let report = reads::settle_round(installed.hub.read_hub(), &slots, outcome);
        let woken = installed.poll_waiters(round);
        Answer::Round { report, woken }
    }

    /// What must hold after every accepted call, and after one taken back.
    fn check(&self) {
        let Some(installed) = &self.installed else {
            assert!(self.cache.anchor().is_none());
            return;
        };
        assert_eq!(self.cache.anchor(), Some(installed.hub.anchor()));
        assert!(layers::records(&installed.hub) <= self.capacity);
        // Every waiter is polled as soon as its slot is answered, so the layers
        // hold what the hub's memo holds, and the memo is never asked.
        assert_eq!(installed.hub.read_stats().memo_hits, 0);
        assert_eq!(
            reads::waiters(installed.hub.read_hub()),
            installed.waiters.len()
        );
        if let Some(breach) = layers::breach(&installed.hub) {
            panic!("not well formed: {breach}");
        }
    }
}

fn refuse_if(refusal: Refusal, condition: bool) -> Result<(), Refusal> {
    if condition {
        Err(refusal)
    } else {
        Ok(())
    }
}

fn names_twice(slots: &[Slot]) -> bool {
    let mut seen = HashSet::new();
    !slots.iter().all(|slot| seen.insert(slot))
}

fn found(value: Option<StorageValue>) -> Answer {
    value.map_or(Answer::None, Answer::Value)
}

fn skip_of(number: u64) -> Option<BalSkip> {
    match number {
        0 => None,
        1 => Some(BalSkip::NoAnchorHash),
        2 => Some(BalSkip::Rpc(String::new())),
        3 => Some(BalSkip::Decode(String::new())),
        _ => unreachable!("tested by 7"),
    }
}

/// Document 01's number of a skip.
pub fn skip_number(skip: Option<&BalSkip>) -> u8 {
    match skip {
        None => 0,
        Some(BalSkip::NoAnchorHash) => 1,
        Some(BalSkip::Rpc(_)) => 2,
        Some(BalSkip::Decode(_)) => 3,
    }
}

/// Document 01's number of a lineage.
pub fn lineage_number(lineage: Option<&CarryRefusal>) -> u8 {
    match lineage {
        None => 0,
        Some(CarryRefusal::NoParent) => 1,
        Some(CarryRefusal::NotConsecutive) => 2,
        Some(CarryRefusal::ParentHashUnknown) => 3,
        Some(CarryRefusal::ParentHashMismatch) => 4,
    }
}

/// The line of an advance.
pub fn advance_line(report: &DeltaReport) -> String {
    let applied = report.writes.len();
    let (overwritten, skipped) = (report.writes_overwritten, report.writes_skipped);
    let (held, live) = (report.held, report.live);
    match &report.outcome {
        CarryOutcome::AlreadyCurrent => format!("current {held} {live}"),
        CarryOutcome::Carried { carried_values } => {
            let (merged, left, dropped) = report.compaction.map_or((0, 0, 0), |fold| {
                (fold.nodes_merged, fold.entries, fold.dropped)
            });
            format!(
                "carried {carried_values} {applied} {overwritten} {skipped} {held} {live} \
                 {merged} {left} {dropped}"
            )
        }
        CarryOutcome::Cold { lineage, bal } => format!(
            "cold {} {} {applied} {overwritten} {skipped} {held} {live}",
            lineage_number(lineage.as_ref()),
            skip_number(bal.as_ref()),
        ),
    }
}
