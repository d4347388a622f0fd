// Child module of `read_hub`: builds the prepared list and the round guard,
// and looks at what awaits an answer.

use super::{
    Address, BalSkip, Duration, PreparedBal, ProviderResult, ReadAnchor, ReadHub, RoundGuard,
    RoundReport, Slot, StorageValue, U256,
};

/// A prepared list as `PreparedBal::prepare` would yield it, without a fetch.
pub fn prepared(
    anchor: ReadAnchor,
    final_writes: Vec<(Address, U256, U256)>,
    skip: Option<BalSkip>,
) -> PreparedBal {
    PreparedBal {
        anchor,
        final_writes,
        skip,
        latency: Duration::ZERO,
    }
}

/// What awaits an answer for one slot.
#[derive(Clone, Copy, Debug, PartialEq, Eq)]
pub struct Awaiting {
    pub waiters: usize,
    pub taken: bool,
}

pub fn awaiting(hub: &ReadHub, slot: &Slot) -> Option<Awaiting> {
    let state = hub.state.lock();
    let pending = state.storage_pending.get(slot)?;
    Some(Awaiting {
        waiters: pending.waiters.len(),
        taken: pending.dispatched,
    })
}

/// The waiters of all awaiting slots.
pub fn waiters(hub: &ReadHub) -> usize {
    let state = hub.state.lock();
    let pending = state.storage_pending.values();
    pending.map(|pending| pending.waiters.len()).sum()
}

/// The awaiting slots, rising.
pub fn awaiting_slots(hub: &ReadHub) -> Vec<Slot> {
    let state = hub.state.lock();
    let mut slots: Vec<Slot> = state.storage_pending.keys().copied().collect();
    slots.sort_unstable();
    slots
}

/// The queued slots, which become taken, in the reference's order.
pub fn take_queued(hub: &ReadHub) -> Vec<Slot> {
    let (slots, accounts) = hub.take_queued();
    assert!(accounts.is_empty(), "no account is ever read");
    slots
}

/// Settle one round over `slots` with the given outcome.
pub fn settle_round(
    hub: &ReadHub,
    slots: &[Slot],
    outcome: ProviderResult<Vec<ProviderResult<StorageValue>>>,
) -> RoundReport {
    let round = RoundGuard {
        hub,
        storage: slots,
        accounts: &[],
        settled: false,
    };
    round.settle(outcome, Ok(Vec::new()))
}
