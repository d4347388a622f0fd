//! The layers beside the ledger: records, values held and carried, folds. They
//! take from the ledger what a call did and keep it as document 01 says.

use crate::bytes::{Call, Slot, Word};
use crate::flat::{Answer, Entry, Ledger, Retention};
use std::collections::BTreeMap;

/// A slot's entry in a layer or the top.
#[derive(Clone, Copy)]
struct Record {
    value: Option<Word>,
    last_use: u64,
}

type Layer = BTreeMap<Slot, Record>;

#[derive(Clone)]
pub struct Layers {
    depth_limit: usize,
    retention: Retention,
    /// The installed number.
    number: u64,
    /// The base, lowest layer first; none where it is void.
    base: Vec<Layer>,
    top: Layer,
}

/// Layers merged, slots left and slots dropped by a fold.
#[derive(Clone, Copy, Default)]
pub struct Fold {
    pub merged: usize,
    pub left: usize,
    pub dropped: usize,
}

/// What the layers report of a call; carried values and the fold are 0 for
/// all but a carry.
#[derive(Default)]
pub struct Kept {
    pub held: usize,
    pub carried_values: usize,
    pub fold: Fold,
}

impl Layers {
    pub fn new(depth_limit: u64, retention: Retention) -> Self {
        Self {
            depth_limit: usize::try_from(depth_limit.max(1)).expect("tested by 2"),
            retention,
            number: 0,
            base: Vec::new(),
            top: Layer::new(),
        }
    }

    pub fn records(&self) -> usize {
        self.base.iter().map(Layer::len).sum::<usize>() + self.top.len()
    }

    /// The slots that the layers serve at a number.
    pub fn served(&self, now: u64) -> BTreeMap<Slot, Word> {
        let all = self.all().into_iter();
        let served = all.filter(|(_, record)| self.retention.serves(record.last_use, now));
        served
            .filter_map(|(slot, record)| Some((slot, record.value?)))
            .collect()
    }

    /// Keep what an accepted call did.
    pub fn follow(&mut self, call: &Call, answer: &Answer, ledger: &Ledger) -> Kept {
        let (mut carried_values, mut fold) = (0, Fold::default());
        match (call, answer) {
            (Call::Install(anchor), Answer::AnchorFresh) => self.start(anchor.number),
            (Call::Get(_, slot) | Call::Read(_, slot), Answer::Value(_)) => self.touch(slot),
            (Call::Put(_, slot, _), _) => self.settle(slot, ledger.entry(slot)),
            (Call::Answer(_, round), _) => {
                for (slot, value) in round.slots() {
                    if value.is_some() {
                        self.settle(&slot, ledger.entry(&slot));
                    }
                }
            }
            (
                Call::Advance(advance),
                Answer::Advanced {
                    lineage,
                    skip,
                    writes,
                    ..
                },
            ) => {
                if *lineage == 0 && *skip == 0 {
                    fold = self.seal();
                    carried_values = values(&newest(&self.base));
                    self.number = advance.child.number;
                } else {
                    self.start(advance.child.number);
                }
                for slot in &writes.applied {
                    self.settle(slot, ledger.entry(slot));
                }
            }
            _ => {}
        }
        Kept {
            held: values(&self.all()),
            carried_values,
            fold,
        }
    }

    fn all(&self) -> Layer {
        let mut layers = self.base.clone();
        layers.push(self.top.clone());
        newest(&layers)
    }

    fn start(&mut self, number: u64) {
        self.number = number;
        self.base.clear();
        self.top.clear();
    }

    fn settle(&mut self, slot: &Slot, entry: Entry) {
        let Entry { value, last_use } = entry;
        let value = Some(value);
        self.top.insert(*slot, Record { value, last_use });
    }

    fn touch(&mut self, slot: &Slot) {
        let value = self.top.get(slot).and_then(|record| record.value);
        let last_use = self.number;
        self.top.insert(*slot, Record { value, last_use });
    }

    /// Fold the base if one more layer exceeds the limit, at the number that is
    /// still the parent's, and make the top a layer.
    fn seal(&mut self) -> Fold {
        let mut fold = Fold::default();
        let base_depth = self.base.len().saturating_sub(1);
        if base_depth + 1 > self.depth_limit {
            fold = self.compact();
        }
        let void = self.base.len() == 1 && self.base[0].is_empty();
        if void {
            self.base.clear();
        }
        self.base.push(std::mem::take(&mut self.top));
        fold
    }

    fn compact(&mut self) -> Fold {
        let all = newest(&self.base);
        let mut left = all.clone();
        left.retain(|_, record| self.retention.serves(record.last_use, self.number));
        let fold = Fold {
            merged: self.base.len(),
            left: left.len(),
            dropped: all.len() - left.len(),
        };
        self.base = vec![left];
        fold
    }
}

/// Every slot of the layers, lowest first, with its newest value and its
/// freshest use.
fn newest(layers: &[Layer]) -> Layer {
    let mut all = Layer::new();
    for (slot, record) in layers.iter().flatten() {
        let below = all.get(slot).copied().unwrap_or(*record);
        let value = record.value.or(below.value);
        let last_use = record.last_use.max(below.last_use);
        all.insert(*slot, Record { value, last_use });
    }
    all
}

fn values(layer: &Layer) -> usize {
    let valued = layer.values().filter(|record| record.value.is_some());
    valued.count()
}
