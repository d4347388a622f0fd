//! The crate `poxilme` beside the original: one call goes to both, and what they answer is compared as one type.
//!
//! The original is driven by `oracle::driver`, whose refusals are document 01's own; every value, list and count is the
//! original's.

pub mod convert;
pub mod random;

use convert::{account, anchor, compaction, ours, outcome, slot, write};
use oracle::calls::{Advance, Call, Round, Shape};
use oracle::driver::{Answer, Driver, LENT_RECORDS};
use poxilme::{
    BalSkip, DeltaReport, DeltaSnapshotCache, Installed, Member, PreparedBal, Read, ReadTotals, Refusal, RelevanceSet,
    Slot, StorageValue,
};

/// What a call answered.
#[derive(Clone, Debug, PartialEq, Eq)]
pub enum Got {
    Refused(u64),
    Opened,
    Installed(Installed),
    Advanced(DeltaReport),
    Value(StorageValue),
    Nothing,
    Waiting(u64),
    Put,
    Taken(Vec<Slot>),
    Round { members: usize, errors: usize, woken: u64 },
}

impl Got {
    /// A name for counting.
    pub fn kind(&self) -> String {
        match self {
            Self::Refused(number) => format!("refused {number}"),
            Self::Installed(installed) => format!("installed {installed:?}"),
            Self::Advanced(report) => {
                let folded = if report.compaction.is_some() { ", folded" } else { "" };
                match report.outcome {
                    poxilme::CarryOutcome::AlreadyCurrent => "current".to_string(),
                    poxilme::CarryOutcome::Carried { .. } => format!("carried{folded}"),
                    poxilme::CarryOutcome::Cold { .. } => "cold".to_string(),
                }
            }
            Self::Opened => "opened".to_string(),
            Self::Value(_) => "value".to_string(),
            Self::Nothing => "nothing".to_string(),
            Self::Waiting(_) => "waiting".to_string(),
            Self::Put => "put".to_string(),
            Self::Taken(_) => "taken".to_string(),
            Self::Round { .. } => "round".to_string(),
        }
    }
}

/// What the original answered.
pub fn theirs(answer: Result<Answer, u8>) -> Got {
    match answer {
        Err(number) => Got::Refused(u64::from(number)),
        Ok(Answer::Open) => Got::Opened,
        Ok(Answer::AnchorSame) => Got::Installed(Installed::Same),
        Ok(Answer::AnchorFresh) => Got::Installed(Installed::Fresh),
        Ok(Answer::Advanced(report)) => Got::Advanced(DeltaReport {
            outcome: outcome(&report.outcome),
            writes: report.writes.iter().map(slot).collect(),
            writes_overwritten: report.writes_overwritten,
            writes_skipped: report.writes_skipped,
            compaction: report.compaction.as_ref().map(compaction),
            held: report.held,
            live: report.live,
        }),
        Ok(Answer::Value(value)) => Got::Value(ours(value)),
        Ok(Answer::None) => Got::Nothing,
        Ok(Answer::Wait(waiters)) => Got::Waiting(waiters as u64),
        Ok(Answer::Put) => Got::Put,
        Ok(Answer::Take(slots)) => Got::Taken(slots.iter().map(slot).collect()),
        Ok(Answer::Round { report, woken }) => {
            Got::Round { members: report.storage_members, errors: report.storage_member_errors, woken: woken as u64 }
        }
    }
}

/// The original's totals of the installed generation.
pub fn their_totals(driver: &Driver) -> Option<ReadTotals> {
    let (stats, reads) = (driver.stats()?, driver.reads()?);
    Some(ReadTotals {
        accepted: reads.accepted as u64,
        served: reads.served as u64,
        waiting: reads.waiting as u64,
        woken_with_value: reads.valued as u64,
        woken_refused: reads.refused as u64,
        rounds: stats.rounds,
        members: stats.storage_members,
        member_errors: stats.storage_member_errors,
        coalesced: stats.coalesced,
    })
}

/// The crate's store: none before the first accepted open.
#[derive(Default)]
pub struct Ours {
    pub cache: Option<DeltaSnapshotCache>,
}

/// Whether the original's driver refuses an open by 9: it lends bytes for 256 records. The crate allocates what is asked for.
fn lent_too_short(capacity: u64, shape: Option<&Shape>) -> bool {
    (LENT_RECORDS + 1..=4_096).contains(&capacity) && shape.is_none_or(|shape| shape.depth <= 255)
}

impl Ours {
    /// The call through the crate; none if the crate has no way to say it.
    pub fn run(&mut self, call: &Call) -> Option<Got> {
        match call {
            Call::Open { capacity, shape } if lent_too_short(*capacity, shape.as_ref()) => None,
            Call::Advance(advance) if advance.skip > 3 || (advance.skip != 0 && !advance.writes.is_empty()) => None,
            _ => Some(self.made(call).unwrap_or_else(|refusal| Got::Refused(refusal.number()))),
        }
    }

    fn made(&mut self, call: &Call) -> Result<Got, Refusal> {
        if let Call::Open { capacity, shape } = call {
            self.cache = Some(open(*capacity, shape.as_ref())?);
            return Ok(Got::Opened);
        }
        let cache = self.cache.as_mut().ok_or(Refusal::NotAStore)?;
        Ok(match call {
            Call::Open { .. } => unreachable!(),
            Call::Install(at) => Got::Installed(cache.for_anchor(anchor(*at))?),
            Call::Advance(given) => Got::Advanced(advance(cache, given)?),
            Call::Look(at, key) => value(cache.snapshot_value(anchor(*at), slot(key))?),
            Call::Get(at, key) => value(cache.get(anchor(*at), slot(key))?),
            Call::Put(at, key, value) => {
                cache.put(anchor(*at), slot(key), ours(*value))?;
                Got::Put
            }
            Call::Read(at, key) => match cache.read(anchor(*at), slot(key))? {
                Read::Value(value) => Got::Value(value),
                Read::Waiting { waiters } => Got::Waiting(waiters),
            },
            Call::Take(at) => Got::Taken(cache.take_queued(anchor(*at))?),
            Call::Answer(at, round) => {
                let report = match round {
                    Round::Members(members) => {
                        let members: Vec<Member> =
                            members.iter().map(|(key, value)| (slot(key), value.map(ours))).collect();
                        cache.answer(anchor(*at), &members)?
                    }
                    Round::Failed(slots) => {
                        cache.answer_failed(anchor(*at), &slots.iter().map(slot).collect::<Vec<_>>())?
                    }
                };
                Got::Round {
                    members: report.storage_members,
                    errors: report.storage_member_errors,
                    woken: report.woken,
                }
            }
        })
    }
}

fn open(capacity: u64, shape: Option<&Shape>) -> Result<DeltaSnapshotCache, Refusal> {
    let capacity = capacity as usize;
    match shape {
        None => DeltaSnapshotCache::new(capacity),
        Some(shape) => {
            // A depth that is no u32 is above 255 in any case.
            let depth = u32::try_from(shape.depth).unwrap_or(u32::MAX);
            DeltaSnapshotCache::with_max_depth_and_retention(capacity, depth, convert::retention(shape.retention))
        }
    }
}

fn advance(cache: &mut DeltaSnapshotCache, given: &Advance) -> Result<DeltaReport, Refusal> {
    let relevance: RelevanceSet = given.relevance.iter().map(account).collect();
    let list = match given.skip {
        0 => PreparedBal::decoded(&given.writes.iter().map(write).collect::<Vec<_>>()),
        1 => PreparedBal::skipped(BalSkip::NoAnchorHash),
        2 => PreparedBal::skipped(BalSkip::Rpc),
        _ => PreparedBal::skipped(BalSkip::Decode),
    };
    cache.apply_prepared(anchor(given.child), poxilme::B256(given.parent_hash.0), &relevance, &list)
}

fn value(value: Option<StorageValue>) -> Got {
    value.map_or(Got::Nothing, Got::Value)
}

/// Both sides of one store.
#[derive(Default)]
pub struct Both {
    pub ours: Ours,
    pub theirs: Driver,
}

impl Both {
    /// One call to both. Yields the answer and whether the crate could say the call; panics where they differ.
    pub fn call(&mut self, call: &Call) -> (Got, bool) {
        let expected = theirs(self.theirs.run(call));
        let Some(got) = self.ours.run(call) else {
            assert!(matches!(expected, Got::Refused(6 | 7 | 9 | 20)), "{call:?}: {expected:?}");
            return (expected, false);
        };
        assert_eq!(got, expected, "{call:?}");
        if let Some(cache) = &self.ours.cache {
            assert_eq!(cache.read_totals().ok(), their_totals(&self.theirs), "totals after {call:?}");
            let installed = self.theirs.generation().map(|hub| anchor(hub.anchor()));
            assert_eq!(cache.anchor(), installed, "anchor after {call:?}");
        }
        (got, true)
    }
}
