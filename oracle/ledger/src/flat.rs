//! The flat ledger of document 01: one map from slots to value and last use,
//! one anchor, the slots that await an answer.

use crate::bytes::{Advance, Anchor, Call, Round, Slot, Word};
use std::collections::{BTreeMap, BTreeSet};

#[derive(Clone, Copy)]
pub enum Retention {
    Unbounded,
    IdleBlocks(u64),
}

impl Retention {
    pub fn serves(self, last_use: u64, now: u64) -> bool {
        match self {
            Retention::Unbounded => true,
            Retention::IdleBlocks(idle) => now.saturating_sub(last_use) <= idle,
        }
    }
}

#[derive(Clone, Copy)]
pub struct Entry {
    pub value: Word,
    pub last_use: u64,
}

#[derive(Clone, Copy)]
pub struct Awaiting {
    pub waiters: u64,
    pub taken: bool,
}

#[derive(Clone)]
pub struct Ledger {
    retention: Retention,
    pub anchor: Option<Anchor>,
    map: BTreeMap<Slot, Entry>,
    pub awaiting: BTreeMap<Slot, Awaiting>,
}

/// What the writes of an advance did.
#[derive(Default)]
pub struct Writes {
    pub applied: Vec<Slot>,
    pub overwritten: usize,
    pub skipped: usize,
}

/// What an accepted call answers, as far as the ledger knows it.
pub enum Answer {
    Open,
    AnchorSame,
    AnchorFresh,
    AlreadyCurrent {
        live: usize,
    },
    /// Carried where both numbers are 0, else cold.
    Advanced {
        lineage: u8,
        skip: u64,
        writes: Writes,
        live: usize,
    },
    Value(Word),
    None,
    Wait {
        waiters: u64,
    },
    Put,
    Take(Vec<Slot>),
    Round {
        members: u64,
        errors: u64,
        valued: u64,
        refused: u64,
    },
}

impl Ledger {
    pub fn new(retention: Retention) -> Self {
        Self {
            retention,
            anchor: None,
            map: BTreeMap::new(),
            awaiting: BTreeMap::new(),
        }
    }

    pub fn served(&self, slot: &Slot) -> Option<Word> {
        let entry = self.map.get(slot)?;
        let serves = self.retention.serves(entry.last_use, self.now());
        serves.then_some(entry.value)
    }

    pub fn served_slots(&self) -> BTreeMap<Slot, Word> {
        let served = |slot: &Slot| Some((*slot, self.served(slot)?));
        self.map.keys().filter_map(served).collect()
    }

    pub fn entry(&self, slot: &Slot) -> Entry {
        self.map[slot]
    }

    /// Run a call that isn't refused.
    pub fn run(&mut self, call: &Call) -> Answer {
        match call {
            Call::Open { .. } => unreachable!("an open starts a new ledger"),
            Call::Install(anchor) => self.install(*anchor),
            Call::Advance(advance) => self.advance(advance),
            Call::Look(_, slot) => found(self.served(slot)),
            Call::Get(_, slot) => found(self.get(slot)),
            Call::Put(_, slot, value) => {
                self.put(slot, *value);
                Answer::Put
            }
            Call::Read(_, slot) => self.read(slot),
            Call::Take(_) => Answer::Take(self.take()),
            Call::Answer(_, round) => self.answer(round),
        }
    }

    fn now(&self) -> u64 {
        self.anchor.expect("only asked once installed").number
    }

    fn live(&self) -> usize {
        self.served_slots().len()
    }

    fn install(&mut self, anchor: Anchor) -> Answer {
        if self.anchor == Some(anchor) {
            return Answer::AnchorSame;
        }
        self.map.clear();
        self.awaiting.clear();
        self.anchor = Some(anchor);
        Answer::AnchorFresh
    }

    fn put(&mut self, slot: &Slot, value: Word) {
        let last_use = self.now();
        self.map.insert(*slot, Entry { value, last_use });
    }

    fn get(&mut self, slot: &Slot) -> Option<Word> {
        let value = self.served(slot)?;
        self.put(slot, value);
        Some(value)
    }

    fn read(&mut self, slot: &Slot) -> Answer {
        if let Some(value) = self.get(slot) {
            return Answer::Value(value);
        }
        let awaiting = self.awaiting.entry(*slot).or_insert(Awaiting {
            waiters: 0,
            taken: false,
        });
        awaiting.waiters += 1;
        Answer::Wait {
            waiters: awaiting.waiters,
        }
    }

    fn take(&mut self) -> Vec<Slot> {
        let mut queued = Vec::new();
        for (slot, awaiting) in &mut self.awaiting {
            if !awaiting.taken {
                awaiting.taken = true;
                queued.push(*slot);
            }
        }
        queued
    }

    fn answer(&mut self, round: &Round) -> Answer {
        let (mut members, mut errors, mut valued, mut refused) = (0, 0, 0, 0);
        for (slot, value) in round.slots() {
            let waiters = self.awaiting.remove(&slot).expect("tested by 26").waiters;
            members += 1;
            match value {
                Some(value) => {
                    valued += waiters;
                    self.put(&slot, value);
                }
                None => {
                    refused += waiters;
                    errors += u64::from(matches!(round, Round::Members(_)));
                }
            }
        }
        Answer::Round {
            members,
            errors,
            valued,
            refused,
        }
    }

    fn advance(&mut self, advance: &Advance) -> Answer {
        if self.anchor == Some(advance.child) {
            return Answer::AlreadyCurrent { live: self.live() };
        }
        let lineage = lineage(self.anchor, advance);
        if lineage != 0 || advance.skip != 0 {
            self.map.clear();
        }
        self.awaiting.clear();
        self.anchor = Some(advance.child);
        let writes = self.seed(advance);
        Answer::Advanced {
            lineage,
            skip: advance.skip,
            writes,
            live: self.live(),
        }
    }

    fn seed(&mut self, advance: &Advance) -> Writes {
        let mut writes = Writes::default();
        let mut written = BTreeSet::new();
        for (slot, value) in &advance.writes {
            if self.served(slot).is_some() || written.contains(slot) {
                writes.overwritten += 1;
                let entry = self.map.get_mut(slot).expect("served or written");
                entry.value = *value;
            } else if advance.relevance.contains(&slot.0) {
                self.put(slot, *value);
            } else {
                writes.skipped += 1;
                continue;
            }
            written.insert(*slot);
            writes.applied.push(*slot);
        }
        writes
    }
}

fn found(value: Option<Word>) -> Answer {
    value.map_or(Answer::None, Answer::Value)
}

/// The first of 1 to 4 that applies, else 0 (`classify_link`).
fn lineage(installed: Option<Anchor>, advance: &Advance) -> u8 {
    let Some(parent) = installed else {
        return 1;
    };
    if parent.number.checked_add(1) != Some(advance.child.number) {
        return 2;
    }
    match parent.hash {
        None => 3,
        Some(hash) if hash != advance.parent_hash => 4,
        Some(_) => 0,
    }
}
