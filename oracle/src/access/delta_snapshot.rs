// Child module of `delta_snapshot`: runs the transition, counts records, and
// takes an advance back.

use super::{
    Arc, DeltaHub, DeltaReport, DeltaSnapshot, DeltaSnapshotCache, GenState, HashMap, PreparedBal,
    ReadAnchor, RelevanceSet, Slot, StorageValue, B256,
};

/// `apply_prepared`, the transition without the fetch.
pub fn advance(
    cache: &DeltaSnapshotCache,
    child: ReadAnchor,
    parent_hash: B256,
    relevance: &RelevanceSet,
    prepared: &PreparedBal,
) -> (Arc<DeltaHub>, DeltaReport) {
    cache.apply_prepared(child, parent_hash, relevance, prepared)
}

/// The layers below the top, topmost first.
fn layers(state: &GenState) -> impl Iterator<Item = &DeltaSnapshot> {
    std::iter::successors(Some(&*state.node), |node| node.parent.as_deref())
}

/// The records of the generation: one for each slot's entry in the top or in a
/// layer. Every value has a use beside it, so the uses count them.
pub fn records(hub: &DeltaHub) -> usize {
    let state = hub.state.lock();
    state.used.len() + layers(&state).map(|node| node.used.len()).sum::<usize>()
}

/// Whether the top has a record of the slot.
pub fn in_top(hub: &DeltaHub, slot: &Slot) -> bool {
    hub.state.lock().used.contains_key(slot)
}

/// A parent's state from before an advance.
pub struct Saved {
    current: Option<(ReadAnchor, Arc<DeltaHub>)>,
    values: HashMap<Slot, StorageValue>,
    used: HashMap<Slot, u64>,
    node: Option<Arc<DeltaSnapshot>>,
    sealed: bool,
    new_keys: usize,
}

pub fn save(cache: &DeltaSnapshotCache) -> Saved {
    let current = cache.current.lock().clone();
    let Some((anchor, hub)) = current else {
        return Saved {
            current: None,
            values: HashMap::new(),
            used: HashMap::new(),
            node: None,
            sealed: false,
            new_keys: 0,
        };
    };
    let state = hub.state.lock();
    Saved {
        values: state.values.clone(),
        used: state.used.clone(),
        node: Some(Arc::clone(&state.node)),
        sealed: state.sealed,
        new_keys: state.new_keys,
        current: Some((anchor, Arc::clone(&hub))),
    }
}

pub fn restore(cache: &DeltaSnapshotCache, saved: Saved) {
    if let (Some((_, hub)), Some(node)) = (&saved.current, saved.node) {
        *hub.state.lock() = GenState {
            values: saved.values,
            used: saved.used,
            node,
            sealed: saved.sealed,
            new_keys: saved.new_keys,
        };
    }
    *cache.current.lock() = saved.current;
}

/// Document 01's rule of well-formed records, as far as the reference's state
/// shows it. Yields the first breach.
pub fn breach(hub: &DeltaHub) -> Option<&'static str> {
    let state = hub.state.lock();
    let now = hub.anchor.number;
    if state.sealed {
        return Some("the installed generation is sealed");
    }
    if state
        .values
        .keys()
        .any(|slot| !state.used.contains_key(slot))
    {
        return Some("a value in the top has no use");
    }
    let below: Vec<&DeltaSnapshot> = layers(&state).collect();
    for (slot, &used) in &state.used {
        if used > now {
            return Some("a use exceeds the installed number");
        }
        if !state.values.contains_key(slot) {
            let Some(base) = state.node.freshest_use(slot) else {
                return Some("a use alone in the top has no value below");
            };
            if !state.node.holds(slot) || !hub.retention.serves(base, now) {
                return Some("a use alone in the top is not served by the base");
            }
        }
        if state
            .node
            .freshest_use(slot)
            .is_some_and(|base| base > used)
        {
            return Some("a use falls in the top");
        }
    }
    for node in &below {
        if let Some(breach) = layer_breach(node, now) {
            return Some(breach);
        }
    }
    None
}

fn layer_breach(node: &DeltaSnapshot, now: u64) -> Option<&'static str> {
    if node.delta.keys().any(|slot| !node.used.contains_key(slot)) {
        return Some("a value in a layer has no use");
    }
    for (slot, &used) in &node.used {
        let below = node.parent.as_ref();
        if used > now {
            return Some("a use exceeds the installed number");
        }
        if !node.delta.contains_key(slot) && !below.is_some_and(|parent| parent.holds(slot)) {
            return Some("a use alone in a layer has no value below");
        }
        let base = below.and_then(|parent| parent.freshest_use(slot));
        if base.is_some_and(|base| base > used) {
            return Some("a use falls from a layer to the next above");
        }
    }
    None
}

/// Slots with a value anywhere, rising; for choosing calls, not for listings.
pub fn held_slots(hub: &DeltaHub) -> Vec<Slot> {
    let state = hub.state.lock();
    let mut slots = super::HashSet::new();
    slots.extend(state.values.keys().copied());
    state.node.collect_value_keys(&mut slots);
    let mut slots: Vec<Slot> = slots.into_iter().collect();
    slots.sort_unstable();
    slots
}
