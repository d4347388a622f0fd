//! Builds one list call by call. Every call is run at once, so that the next
//! is chosen knowing what is installed, held and awaited.

use super::profile::{Move, Profile};
use super::rng::Rng;
use crate::calls::{write_list, Advance, Call, Round, Shape, Write};
use crate::driver::{Answer, Driver, Refusal};
use crate::sim::evm2::delta_snapshot::oracle_access as layers;
use crate::sim::evm2::delta_snapshot::{Retention, Slot};
use crate::sim::evm2::read_hub::oracle_access as reads;
use crate::sim::storage_memo::ReadAnchor;
use alloy::primitives::{Address, B256, U256};

pub struct Maker<'a> {
    pub rng: Rng,
    pub list: Vec<u8>,
    /// Where each call begins.
    pub starts: Vec<usize>,
    profile: &'a Profile,
    driver: Driver,
    /// The idle number of the open store.
    idle: Option<u64>,
    /// Most bytes; a call that would pass them ends the list.
    budget: usize,
    full: bool,
    addresses: usize,
    indexes: usize,
    /// The slot that was named last.
    recent: Option<Slot>,
}

impl<'a> Maker<'a> {
    pub fn new(profile: &'a Profile, rng: Rng, budget: usize, small: bool) -> Self {
        Self {
            rng,
            list: Vec::new(),
            starts: Vec::new(),
            profile,
            driver: Driver::default(),
            idle: None,
            budget,
            full: false,
            addresses: if small { 2 } else { profile.addresses },
            indexes: if small { 1 } else { profile.indexes },
            recent: None,
        }
    }

    /// The opening calls, then as many moves as the profile says.
    pub fn fill(&mut self) {
        let (low, high) = self.profile.moves;
        let moves = self.rng.between(low, high);
        self.begin();
        for _ in 0..moves {
            if self.full {
                return;
            }
            let next = self.rng.weighted(self.profile.steps);
            self.make(next);
        }
    }

    /// Now and then a call before the open or before the first install.
    fn begin(&mut self) {
        if self.rng.chance(6) {
            self.stray();
        }
        self.make(Move::Open);
        if self.rng.chance(8) {
            self.stray();
        }
        let first = [(Move::Install, 84), (Move::Linked, 11), (Move::Skip, 5)];
        let first = self.rng.weighted(&first);
        self.make(first);
    }

    fn stray(&mut self) {
        let anchor = self.new_anchor();
        let slot = self.slot();
        let call = match self.rng.below(6) {
            0 => Call::Look(anchor, slot),
            1 => Call::Get(anchor, slot),
            2 => Call::Put(anchor, slot, self.value()),
            3 => Call::Read(anchor, slot),
            4 => Call::Take(anchor),
            _ => Call::Answer(anchor, Round::Failed(Vec::new())),
        };
        self.emit(call);
    }

    fn emit(&mut self, call: Call) -> Option<Result<Answer, Refusal>> {
        let bytes = write_list(std::slice::from_ref(&call));
        if self.list.len() + bytes.len() > self.budget {
            self.full = true;
            return None;
        }
        self.starts.push(self.list.len());
        self.list.extend(bytes);
        let answer = self.driver.run(&call);
        if let (Call::Open { shape, .. }, Ok(_)) = (&call, &answer) {
            self.idle = match shape {
                Some(Shape {
                    retention: Retention::IdleBlocks(idle),
                    ..
                }) => Some(*idle),
                _ => None,
            };
        }
        Some(answer)
    }

    // ---- what is known of the store ----

    fn installed(&self) -> Option<ReadAnchor> {
        Some(self.driver.generation()?.anchor())
    }

    /// The installed anchor, or any where there is none.
    fn anchor(&mut self) -> ReadAnchor {
        match self.installed() {
            Some(anchor) => anchor,
            None => self.new_anchor(),
        }
    }

    fn held(&self) -> Vec<Slot> {
        self.driver
            .generation()
            .map_or_else(Vec::new, layers::held_slots)
    }

    /// The awaiting slots that are taken, or those that are not.
    fn awaiting(&self, taken: bool) -> Vec<Slot> {
        let Some(generation) = self.driver.generation() else {
            return Vec::new();
        };
        let lane = generation.read_hub();
        let mut slots = reads::awaiting_slots(lane);
        slots.retain(|slot| reads::awaiting(lane, slot).is_some_and(|found| found.taken == taken));
        slots
    }

    fn unserved(&self) -> Vec<Slot> {
        let mut slots = self.all_slots();
        if let Some(generation) = self.driver.generation() {
            slots.retain(|slot| generation.snapshot_value(slot.0, slot.1).is_none());
        }
        slots
    }

    fn all_slots(&self) -> Vec<Slot> {
        let pairs = (0..self.addresses).flat_map(|a| (0..self.indexes).map(move |i| (a, i)));
        pairs.map(|(a, i)| (address(a), index(i))).collect()
    }

    // ---- choices ----

    fn new_anchor(&mut self) -> ReadAnchor {
        let number = *self.rng.pick(self.profile.starts);
        self.anchor_at(number)
    }

    fn anchor_at(&mut self, number: u64) -> ReadAnchor {
        if self.rng.chance(self.profile.hashless) {
            return ReadAnchor::at(number);
        }
        let branch = if self.rng.chance(85) {
            0
        } else {
            self.rng.between(1, 3)
        };
        ReadAnchor::identified(number, hash(number, branch))
    }

    /// Mostly the slot named last or one that is held.
    fn slot(&mut self) -> Slot {
        let choice = self.rng.below(10);
        let held = self.held();
        let slot = match (choice, self.recent) {
            (0..=2, Some(recent)) => recent,
            (3..=6, _) if !held.is_empty() => *self.rng.pick(&held),
            _ => *self.rng.pick(&self.all_slots()),
        };
        self.recent = Some(slot);
        slot
    }

    fn value(&mut self) -> U256 {
        let mut bytes = [0; 32];
        match self.rng.below(12) {
            0 => {}
            1 => bytes = [0xff; 32],
            2 => bytes[0] = 0x80,
            _ => bytes[31] = self.rng.between(1, 5) as u8,
        }
        U256(bytes)
    }

    fn write(&mut self) -> Write {
        let (address, index) = self.slot();
        (address, index, self.value())
    }

    fn writes(&mut self, low: usize, high: usize) -> Vec<Write> {
        let count = self.rng.between(low, high);
        (0..count).map(|_| self.write()).collect()
    }

    fn relevance(&mut self) -> Vec<Address> {
        let mut addresses = Vec::new();
        for at in 0..self.addresses {
            if self.rng.chance(40) {
                addresses.push(address(at));
                if self.rng.chance(15) {
                    addresses.push(address(at));
                }
            }
        }
        if self.rng.chance(20) {
            addresses.reverse();
        }
        addresses
    }

    /// An advance onto the child, with the hash that links where there is one.
    fn advance_to(&mut self, child: ReadAnchor, writes: Vec<Write>) -> Advance {
        let parent = self.installed().and_then(|anchor| anchor.hash);
        let parent_hash = match parent {
            Some(hash) => hash,
            None => hash(child.number.wrapping_sub(1), 0),
        };
        Advance {
            child,
            parent_hash,
            skip: 0,
            relevance: if writes.is_empty() {
                Vec::new()
            } else {
                self.relevance()
            },
            writes,
        }
    }

    /// The anchor one above the installed one.
    fn child(&mut self) -> ReadAnchor {
        let number = match self.installed() {
            Some(anchor) => anchor.number.wrapping_add(1),
            None => *self.rng.pick(self.profile.starts),
        };
        self.anchor_at(number)
    }

    /// A linked advance; false where it was not carried.
    fn carry(&mut self, writes: Vec<Write>, relevance: Option<Vec<Address>>) -> bool {
        let child = self.child();
        let mut advance = self.advance_to(child, writes);
        if let Some(relevance) = relevance {
            advance.relevance = relevance;
        }
        matches!(
            self.emit(Call::Advance(advance)),
            Some(Ok(Answer::Advanced(_)))
        )
    }

    // ---- moves ----

    pub fn make(&mut self, next: Move) {
        match next {
            Move::Open => {
                self.open();
                if self.starts.len() > 2 && self.rng.chance(75) {
                    self.install();
                }
            }
            Move::OpenOdd => self.open_odd(),
            Move::Install => self.install(),
            Move::InstallSame => {
                let anchor = self.anchor();
                self.emit(Call::Install(anchor));
            }
            Move::Look => {
                let (anchor, slot) = (self.anchor(), self.slot());
                self.emit(Call::Look(anchor, slot));
            }
            Move::Get => {
                let (anchor, slot) = (self.anchor(), self.slot());
                self.emit(Call::Get(anchor, slot));
            }
            Move::Put => {
                let (anchor, slot, value) = (self.anchor(), self.slot(), self.value());
                self.emit(Call::Put(anchor, slot, value));
            }
            Move::Read => self.read(),
            Move::Take => {
                let anchor = self.anchor();
                self.emit(Call::Take(anchor));
            }
            Move::Answer => self.answer(),
            Move::AnswerEmpty => {
                let anchor = self.anchor();
                let round = if self.rng.chance(50) {
                    Round::Members(Vec::new())
                } else {
                    Round::Failed(Vec::new())
                };
                self.emit(Call::Answer(anchor, round));
            }
            Move::AnswerBad => self.answer_bad(),
            Move::Linked => {
                let writes = self.writes(1, 3);
                self.carry(writes, None);
            }
            Move::Quiet => {
                self.carry(Vec::new(), None);
            }
            Move::Sibling => self.sibling(),
            Move::Gap => self.gap(),
            Move::Wrap => self.wrap(),
            Move::Current => {
                let anchor = self.anchor();
                let writes = self.writes(0, 1);
                let advance = self.advance_to(anchor, writes);
                self.emit(Call::Advance(advance));
            }
            Move::Skip => self.skip(),
            Move::SkipBad => self.skip_bad(),
            Move::Stale => self.stale(),
            Move::Lapse => {
                self.lapse();
            }
            Move::Reseed => self.reseed(),
            Move::UseAlone => self.use_alone(),
            Move::Twice => self.twice(),
            Move::Fill => self.fill_store(),
            Move::Crowd => self.crowd(),
            Move::Settle => self.settle(),
        }
    }

    fn open(&mut self) {
        let capacity = *self.rng.pick(self.profile.capacities);
        let shape = if self.rng.chance(8) {
            None
        } else {
            Some(self.shape())
        };
        self.emit(Call::Open { capacity, shape });
    }

    fn shape(&mut self) -> Shape {
        Shape {
            depth: *self.rng.pick(self.profile.depths),
            retention: match *self.rng.pick(self.profile.idles) {
                None => Retention::Unbounded,
                Some(idle) => Retention::IdleBlocks(idle),
            },
        }
    }

    /// Capacities and depths at and past their limits.
    fn open_odd(&mut self) {
        let capacity =
            *self
                .rng
                .pick(&[0, 1, 256, 256, 257, 4_096, 4_097, 0x1_0000_0001, u64::MAX]);
        let mut shape = self.shape();
        shape.depth = *self
            .rng
            .pick(&[0, 1, 255, 255, 256, 0x1_0000_0001, u64::MAX]);
        let shape = self.rng.chance(80).then_some(shape);
        self.emit(Call::Open { capacity, shape });
    }

    fn install(&mut self) {
        let anchor = match self.installed() {
            Some(anchor) if self.rng.chance(50) => self.anchor_at(anchor.number),
            _ => self.new_anchor(),
        };
        self.emit(Call::Install(anchor));
    }

    /// Mostly of a slot that is not served.
    fn read(&mut self) {
        let anchor = self.anchor();
        let unserved = self.unserved();
        let slot = if !unserved.is_empty() && self.rng.chance(60) {
            *self.rng.pick(&unserved)
        } else {
            self.slot()
        };
        self.recent = Some(slot);
        self.emit(Call::Read(anchor, slot));
    }

    /// An answer to some of the taken slots; takes first where there are none.
    fn answer(&mut self) {
        let anchor = self.anchor();
        if self.awaiting(true).is_empty() {
            if self.awaiting(false).is_empty() {
                self.read();
            }
            self.emit(Call::Take(anchor));
        }
        let mut slots = self.awaiting(true);
        let keep = self.rng.between(1, 100);
        let all = slots.clone();
        slots.retain(|_| self.rng.chance(keep.max(30)));
        if slots.is_empty() {
            slots = all;
        }
        if self.rng.chance(40) {
            slots.reverse();
        }
        let round = self.round(slots);
        self.emit(Call::Answer(anchor, round));
    }

    fn round(&mut self, slots: Vec<Slot>) -> Round {
        if self.rng.chance(15) {
            return Round::Failed(slots);
        }
        let members = slots.into_iter().map(|slot| {
            let value = self.rng.chance(75).then(|| self.value());
            (slot, value)
        });
        Round::Members(members.collect())
    }

    fn answer_bad(&mut self) {
        let anchor = self.anchor();
        let mut slots = self.awaiting(true);
        slots.truncate(2);
        let extra = match self.rng.below(3) {
            0 => slots.first().copied().unwrap_or_else(|| self.slot()),
            1 => self
                .awaiting(false)
                .first()
                .copied()
                .unwrap_or_else(|| self.slot()),
            _ => self.slot(),
        };
        let at = self.rng.between(0, slots.len());
        slots.insert(at, extra);
        if self.rng.chance(30) {
            slots.push(extra);
        }
        let round = self.round(slots);
        let anchor = if self.rng.chance(15) {
            self.other_anchor()
        } else {
            anchor
        };
        self.emit(Call::Answer(anchor, round));
    }

    fn sibling(&mut self) {
        let child = self.child();
        let writes = self.writes(0, 2);
        let mut advance = self.advance_to(child, writes);
        let branch = self.rng.between(1, 3);
        advance.parent_hash = flipped(advance.parent_hash, branch);
        self.emit(Call::Advance(advance));
    }

    fn gap(&mut self) {
        let anchor = self.anchor();
        let far = *self.rng.pick(&[0, 2, 2, u64::MAX]);
        let mut child = self.anchor_at(anchor.number.wrapping_add(far));
        if child == anchor {
            let branch = self.rng.between(1, 3);
            child.hash = child.hash.map(|hash| flipped(hash, branch));
        }
        let writes = self.writes(0, 2);
        let advance = self.advance_to(child, writes);
        self.emit(Call::Advance(advance));
    }

    fn wrap(&mut self) {
        let near = [u64::MAX - 2, u64::MAX - 1, u64::MAX, 0];
        if self.rng.chance(50) {
            let number = *self.rng.pick(&near);
            let anchor = self.anchor_at(number);
            self.emit(Call::Install(anchor));
            if self.rng.chance(60) {
                self.make(Move::Put);
            }
        }
        let child = if self.rng.chance(60) {
            self.child()
        } else {
            let number = *self.rng.pick(&near);
            self.anchor_at(number)
        };
        let writes = self.writes(0, 2);
        let advance = self.advance_to(child, writes);
        self.emit(Call::Advance(advance));
    }

    fn skip(&mut self) {
        let child = if self.rng.chance(70) {
            self.child()
        } else if self.rng.chance(50) {
            self.anchor()
        } else {
            self.new_anchor()
        };
        let mut advance = self.advance_to(child, Vec::new());
        advance.skip = self.rng.between(1, 3) as u64;
        if self.rng.chance(20) {
            advance.parent_hash = flipped(advance.parent_hash, 1);
        }
        if self.rng.chance(30) {
            advance.relevance = self.relevance();
        }
        self.emit(Call::Advance(advance));
    }

    /// A skip with writes, or above 3.
    fn skip_bad(&mut self) {
        let child = if self.rng.chance(70) {
            self.child()
        } else {
            self.anchor()
        };
        let writes = self.writes(0, 2);
        let mut advance = self.advance_to(child, writes);
        advance.skip = if advance.writes.is_empty() {
            *self
                .rng
                .pick(&[4, 5, 255, 256, 257, 0x1_0000_0000, u64::MAX])
        } else {
            *self.rng.pick(&[1, 2, 3, 4, 256, u64::MAX])
        };
        self.emit(Call::Advance(advance));
    }

    /// An anchor near the installed one, but another.
    fn other_anchor(&mut self) -> ReadAnchor {
        let anchor = self.anchor();
        match (self.rng.below(3), anchor.hash) {
            (0, _) => ReadAnchor {
                number: anchor.number.wrapping_sub(1),
                ..anchor
            },
            (1, Some(_)) => ReadAnchor::at(anchor.number),
            (_, Some(hash)) => {
                let branch = self.rng.between(1, 3);
                ReadAnchor::identified(anchor.number, flipped(hash, branch))
            }
            (_, None) => ReadAnchor::identified(anchor.number, B256([0; 32])),
        }
    }

    fn stale(&mut self) {
        let anchor = self.other_anchor();
        let slot = self.slot();
        let call = match self.rng.below(6) {
            0 => Call::Look(anchor, slot),
            1 => Call::Get(anchor, slot),
            2 => Call::Put(anchor, slot, self.value()),
            3 => Call::Read(anchor, slot),
            4 => Call::Take(anchor),
            _ => {
                let slots = self.awaiting(true);
                Call::Answer(anchor, self.round(slots))
            }
        };
        self.emit(call);
    }

    /// A slot is put and lapses; then a probe. Yields the slot.
    fn lapse(&mut self) -> Slot {
        let slot = self.slot();
        let (anchor, value) = (self.anchor(), self.value());
        self.emit(Call::Put(anchor, slot, value));
        let quiet = self.idle.map_or(1, |idle| idle.min(4) + 1);
        for step in 0..quiet {
            // A write on the way keeps the use, so the slot lapses all the same.
            let writes = if step + 1 < quiet && self.rng.chance(30) {
                vec![(slot.0, slot.1, self.value())]
            } else {
                Vec::new()
            };
            if !self.carry(writes, None) {
                return slot;
            }
        }
        let anchor = self.anchor();
        match self.rng.below(5) {
            0 => drop(self.emit(Call::Look(anchor, slot))),
            1 => drop(self.emit(Call::Get(anchor, slot))),
            2 => drop(self.emit(Call::Read(anchor, slot))),
            3 => {
                let writes = vec![(slot.0, slot.1, self.value())];
                self.carry(writes, Some(Vec::new()));
                let anchor = self.anchor();
                self.emit(Call::Look(anchor, slot));
            }
            _ => {}
        }
        slot
    }

    fn reseed(&mut self) {
        let slot = self.lapse();
        let mut writes = vec![(slot.0, slot.1, self.value())];
        if self.rng.chance(30) {
            writes.push((slot.0, slot.1, self.value()));
        }
        if self.rng.chance(30) {
            writes.insert(0, self.write());
        }
        self.carry(writes, Some(vec![slot.0]));
        let anchor = self.anchor();
        match self.rng.below(4) {
            0 => drop(self.emit(Call::Look(anchor, slot))),
            1 => drop(self.emit(Call::Get(anchor, slot))),
            2 => drop(self.carry(Vec::new(), None)),
            _ => {}
        }
        self.recent = Some(slot);
    }

    /// A value in a lower layer, then uses alone in the layers above it.
    fn use_alone(&mut self) {
        let held = self.held();
        let slot = if held.is_empty() || self.rng.chance(30) {
            let (anchor, slot, value) = (self.anchor(), self.slot(), self.value());
            self.emit(Call::Put(anchor, slot, value));
            slot
        } else {
            *self.rng.pick(&held)
        };
        for _ in 0..self.rng.between(1, 3) {
            let writes = if self.rng.chance(15) {
                vec![(slot.0, slot.1, self.value())]
            } else {
                Vec::new()
            };
            self.carry(writes, None);
            let anchor = self.anchor();
            if self.rng.chance(70) {
                self.emit(Call::Get(anchor, slot));
            } else {
                self.emit(Call::Read(anchor, slot));
            }
        }
        self.recent = Some(slot);
    }

    fn twice(&mut self) {
        let slot = self.slot();
        let mut writes = self.writes(0, 1);
        for _ in 0..self.rng.between(2, 3) {
            let at = self.rng.between(0, writes.len());
            writes.insert(at, (slot.0, slot.1, self.value()));
        }
        let relevance = match self.rng.below(3) {
            0 => Some(vec![slot.0, slot.0]),
            1 => Some(Vec::new()),
            _ => None,
        };
        self.carry(writes, relevance);
        self.recent = Some(slot);
    }

    /// Puts of slots until one is turned down, in stores of few records.
    fn fill_store(&mut self) {
        let anchor = self.anchor();
        for slot in self.all_slots().into_iter().take(7) {
            let value = self.value();
            if self.emit(Call::Put(anchor, slot, value)) != Some(Ok(Answer::Put)) {
                return;
            }
        }
    }

    /// Reads of slots that are not served; mostly until one is turned down.
    fn crowd(&mut self) {
        let anchor = self.anchor();
        let mut slots = self.unserved();
        let awaiting = self.awaiting(false).len() + self.awaiting(true).len();
        let most = if self.rng.chance(70) {
            66
        } else {
            self.rng.between(1, 12)
        };
        let from = self.rng.below(slots.len().max(1));
        slots.rotate_left(from);
        for slot in slots
            .into_iter()
            .take(most.max(awaiting) - awaiting.min(most))
        {
            if let Some(Err(_)) = self.emit(Call::Read(anchor, slot)) {
                return;
            }
        }
    }

    fn settle(&mut self) {
        for _ in 0..self.rng.between(1, 3) {
            self.read();
        }
        let anchor = self.anchor();
        self.emit(Call::Take(anchor));
        let slots = self.awaiting(true);
        let round = self.round(slots);
        self.emit(Call::Answer(anchor, round));
    }
}

/// Addresses whose order as big-endian numbers is not the order of their
/// places or of their last bytes.
pub fn address(at: usize) -> Address {
    let mut bytes = [0; 20];
    match at {
        0 => bytes[19] = 2,
        1 => bytes[18] = 1,
        2 => bytes[0] = 1,
        3 => bytes = [0xff; 20],
        _ => bytes[10] = at as u8,
    }
    Address(bytes)
}

/// Indexes, likewise.
pub fn index(at: usize) -> U256 {
    let mut bytes = [0; 32];
    match at {
        0 => bytes[31] = 1,
        1 => bytes[30] = 1,
        2 => bytes[0] = 0x80,
        3 => bytes = [0xff; 32],
        4 => {}
        _ => bytes[16] = at as u8,
    }
    U256(bytes)
}

/// The hash of a block; branches differ in one byte.
pub fn hash(number: u64, branch: usize) -> B256 {
    let mut bytes = [0x55; 32];
    bytes[12..20].copy_from_slice(&number.to_be_bytes());
    flipped(B256(bytes), branch)
}

/// The hash with one byte changed: the first, the last or one between.
fn flipped(mut hash: B256, branch: usize) -> B256 {
    match branch {
        0 => {}
        1 => hash.0[0] ^= 1,
        2 => hash.0[31] ^= 1,
        _ => hash.0[15] ^= 0x80,
    }
    hash
}
