//! Random calls, the same ones for the same seed.

use crate::Got;
use alloy::primitives::{Address, B256, U256};
use alloy_eip7928::{AccountChanges, SlotChanges, StorageChange};
use oracle::calls::{Advance, Call, Round, Shape};
use oracle::sim::evm2::bal_prefetch::BalPlan;
use oracle::sim::evm2::delta_snapshot::{Retention, Slot};
use oracle::sim::storage_memo::ReadAnchor;

/// xorshift64*.
pub struct Random(u64);

impl Random {
    pub fn new(seed: u64) -> Self {
        // 0 is the one state that xorshift does not leave.
        let mut random = Self(seed.wrapping_mul(0x9e37_79b9_7f4a_7c15) | 1);
        random.draw();
        random
    }

    fn draw(&mut self) -> u64 {
        self.0 ^= self.0 >> 12;
        self.0 ^= self.0 << 25;
        self.0 ^= self.0 >> 27;
        self.0.wrapping_mul(0x2545_f491_4f6c_dd1d)
    }

    /// A number below `limit`, which is not 0.
    pub fn below(&mut self, limit: u64) -> u64 {
        (self.draw() >> 16) % limit
    }

    /// True in `percent` of 100 cases.
    pub fn chance(&mut self, percent: u64) -> bool {
        self.below(100) < percent
    }

    pub fn pick<T: Copy>(&mut self, from: &[T]) -> T {
        from[self.below(from.len() as u64) as usize]
    }
}

/// 32 bytes for a number, no two words of them alike; other bytes for another number.
fn word(number: u64) -> U256 {
    let mut bytes = [0; 32];
    for (place, part) in bytes.chunks_exact_mut(8).enumerate() {
        part.copy_from_slice(&Random::new(number.wrapping_mul(4).wrapping_add(place as u64)).draw().to_be_bytes());
    }
    U256(bytes)
}

/// The first 20 of them.
fn account(number: u64) -> Address {
    let mut address = Address([0; 20]);
    address.0.copy_from_slice(&word(number).0[..20]);
    address
}

fn hash(number: u64) -> B256 {
    B256(word(number).0)
}

/// Makes calls that are mostly accepted: it follows the installed anchor and the slots taken.
pub struct Calls {
    random: Random,
    addresses: u64,
    indices: u64,
    at: ReadAnchor,
    taken: Vec<Slot>,
    opened: bool,
    /// Many reads at one block, so that the queue fills.
    reads: bool,
}

impl Calls {
    pub fn new(seed: u64) -> Self {
        let mut random = Random::new(seed);
        let reads = random.chance(10);
        let (addresses, indices) = (1 + random.below(4), if reads { 200 } else { 1 + random.below(40) });
        let number = random.pick(&[0, 1, 100, 1 << 40, u64::MAX - 20]);
        let at = ReadAnchor::identified(number, hash(number));
        Self { random, addresses, indices, at, taken: Vec::new(), opened: false, reads }
    }

    /// What the call answered: where the store is now.
    pub fn saw(&mut self, call: &Call, got: &Got) {
        match (call, got) {
            (Call::Open { .. }, Got::Opened) => self.opened = true,
            (Call::Install(anchor), Got::Installed(poxilme::Installed::Fresh)) => self.arrive(*anchor),
            (Call::Advance(advance), Got::Advanced(_)) if advance.child != self.at => self.arrive(advance.child),
            (Call::Take(_), Got::Taken(slots)) => {
                self.taken.extend(slots.iter().map(|slot| (Address(slot.0 .0), U256(slot.1 .0))));
            }
            (Call::Answer(_, round), Got::Round { .. }) => {
                let slots = round.slots();
                self.taken.retain(|slot| !slots.contains(slot));
            }
            _ => {}
        }
    }

    fn arrive(&mut self, anchor: ReadAnchor) {
        self.at = anchor;
        self.taken.clear();
    }

    pub fn call(&mut self) -> Call {
        if !self.opened || self.random.below(400) == 0 {
            return self.open();
        }
        if self.reads && self.random.chance(90) {
            return Call::Read(self.named(), self.slot());
        }
        match self.random.below(100) {
            0..=9 => Call::Look(self.named(), self.slot()),
            10..=22 => Call::Get(self.named(), self.slot()),
            23..=37 => Call::Put(self.named(), self.slot(), self.value()),
            38..=58 => Call::Read(self.named(), self.slot()),
            59..=65 => Call::Take(self.named()),
            66..=77 => Call::Answer(self.named(), self.round()),
            78..=79 => Call::Install(self.next()),
            _ => Call::Advance(self.advance()),
        }
    }

    fn open(&mut self) -> Call {
        let capacity = match self.random.below(12) {
            0 => self.random.pick(&[0, 257, 4_096, 4_097, u64::MAX]),
            1..=4 => 1 + self.random.below(8),
            _ => 1 + self.random.below(256),
        };
        let depth = if self.random.chance(3) { self.random.pick(&[255, 256, u64::MAX]) } else { self.random.below(5) };
        let retention = if self.random.chance(40) {
            Retention::Unbounded
        } else {
            Retention::IdleBlocks(self.random.pick(&[0, 1, 1, 2, 3, 5, u64::MAX]))
        };
        let shape = (!self.random.chance(15)).then_some(Shape { depth, retention });
        Call::Open { capacity, shape }
    }

    /// The installed anchor, or now and then another.
    fn named(&mut self) -> ReadAnchor {
        if self.random.chance(96) {
            return self.at;
        }
        self.next()
    }

    /// The child of the installed block, mostly.
    fn next(&mut self) -> ReadAnchor {
        let number = match self.random.below(40) {
            0 => self.at.number,
            1 => self.at.number.wrapping_sub(1),
            2 => self.at.number.wrapping_add(2),
            _ => self.at.number.wrapping_add(1),
        };
        match self.random.below(30) {
            0 => ReadAnchor::at(number),
            1 => ReadAnchor::identified(number, hash(!number)),
            _ => ReadAnchor::identified(number, hash(number)),
        }
    }

    fn slot(&mut self) -> Slot {
        let address = account(self.random.below(self.addresses));
        let mut index = word(self.random.below(self.indices));
        // Some indices differ in their last byte alone.
        index.0[31] ^= self.random.pick(&[0, 0, 0, 1]);
        (address, index)
    }

    fn value(&mut self) -> U256 {
        word(self.random.draw())
    }

    fn round(&mut self) -> Round {
        let keep = self.random.below(100);
        let mut slots = self.taken.clone();
        slots.retain(|_| self.random.below(100) <= keep);
        if self.random.chance(4) {
            slots.push(self.slot());
        }
        if self.random.chance(2) {
            slots.extend(slots.first().copied());
        }
        if self.random.chance(20) {
            return Round::Failed(slots);
        }
        let member = |slot| (slot, (!self.random.chance(25)).then(|| self.value()));
        Round::Members(slots.into_iter().map(member).collect())
    }

    fn advance(&mut self) -> Advance {
        let child = if self.random.chance(4) { self.at } else { self.next() };
        let parent = self.at.hash.unwrap_or_default();
        let parent_hash = if self.random.chance(94) { parent } else { hash(7) };
        let skip = if self.random.chance(92) { 0 } else { self.random.below(6) };
        let most = self.random.pick(&[0, 1, 4, 12, 40]);
        let count = if skip == 0 || self.random.chance(5) { self.random.below(most + 1) } else { 0 };
        let writes = (0..count)
            .map(|_| {
                let slot = self.slot();
                (slot.0, slot.1, self.value())
            })
            .collect();
        let relevance = (0..self.random.below(3)).map(|_| self.slot().0).collect();
        Advance { child, parent_hash, skip, relevance, writes }
    }
}

/// A block access list and a plan.
pub fn list_and_plan(seed: u64) -> (Vec<AccountChanges>, BalPlan) {
    let mut random = Random::new(seed);
    let address = |random: &mut Random| account(random.below(4));
    let cap = |random: &mut Random| match random.below(3) {
        0 => None,
        1 => Some(random.below(6) as usize),
        _ => Some(random.pick(&[0, usize::MAX, usize::MAX - 1])),
    };
    let addresses = match random.below(3) {
        0 => None,
        _ => Some((0..random.below(3)).map(|_| address(&mut random)).collect()),
    };
    let plan = BalPlan { addresses, max_write_seeds: cap(&mut random), max_read_prefetches: cap(&mut random) };
    let accounts = (0..random.below(5))
        .map(|_| AccountChanges {
            address: address(&mut random),
            storage_changes: (0..random.below(4))
                .map(|_| SlotChanges {
                    slot: word(random.below(5)),
                    changes: (0..random.below(4))
                        .map(|_| StorageChange { block_access_index: random.below(9), new_value: word(random.draw()) })
                        .collect(),
                })
                .collect(),
            storage_reads: (0..random.below(4)).map(|_| word(random.below(5))).collect(),
        })
        .collect();
    (accounts, plan)
}
