//! One state on both sides: in a store's bytes, made by the library's own calls, and in the reference.
use crate::abi::*;
use alloy::primitives::{Address, B256, U256};
use degenbot_rpc::provider::AlloyProvider;
use oracle::sim::evm2::delta_snapshot::oracle_access as layers;
use oracle::sim::evm2::delta_snapshot::{
    DeltaHub, DeltaSnapshotCache, RelevanceSet, Retention, Slot,
};
use oracle::sim::evm2::read_hub::oracle_access::prepared;
use oracle::sim::evm2::storage_view::StorageView;
use oracle::sim::storage_memo::ReadAnchor;
use std::sync::Arc;

pub const CAPACITY: u64 = 4096;
pub const NUMBER: u64 = 1000;

pub fn mixed(x: u64) -> u64 {
    let x = (x ^ (x >> 30)).wrapping_mul(0xbf58_476d_1ce4_e5b9);
    let x = (x ^ (x >> 27)).wrapping_mul(0x94d0_49bb_1331_11eb);
    x ^ (x >> 31)
}

pub fn bytes<const N: usize>(seed: u64) -> [u8; N] {
    std::array::from_fn(|i| mixed(seed.wrapping_mul(64) + i as u64 / 8).to_be_bytes()[i % 8])
}

/// How slots lie: small indexes of one address, or hashed indexes of some thousand addresses.
#[derive(Clone, Copy, PartialEq)]
pub enum Spread {
    One,
    Many,
}

pub fn slot(spread: Spread, i: usize) -> Slot {
    match spread {
        Spread::One => {
            let mut index = [0u8; 32];
            index[24..].copy_from_slice(&(i as u64).to_be_bytes());
            (Address(bytes(77)), U256(index))
        }
        Spread::Many => (
            Address(bytes(1 << 32 | (mixed(i as u64) % 997))),
            U256(bytes(2 << 32 | i as u64)),
        ),
    }
}

pub fn value(i: usize) -> U256 {
    U256(bytes(3 << 32 | i as u64))
}

pub fn hash(number: u64) -> [u8; 32] {
    bytes(4 << 32 | number)
}

pub fn anchor(number: u64) -> ReadAnchor {
    ReadAnchor::identified(number, B256(hash(number)))
}

/// A slot's entry of 52 bytes.
pub fn entry(slot: &Slot) -> [u8; 52] {
    let mut e = [0; 52];
    e[..20].copy_from_slice(&slot.0 .0);
    e[20..].copy_from_slice(&slot.1 .0);
    e
}

/// Records spread evenly over `depth` + 1 layers and the top, installed at NUMBER.
#[derive(Clone, Copy)]
pub struct Shape {
    pub records: usize,
    pub depth: usize,
    pub limit: u32,
    pub retention: Retention,
    pub spread: Spread,
}

/// The slots of each layer, the lowest first, and of the top.
pub fn parts(shape: Shape) -> Vec<Vec<usize>> {
    let n = shape.depth + 2;
    let mut parts = vec![Vec::new(); n];
    for i in 0..shape.records {
        parts[n - 1 - i % n].push(i);
    }
    parts
}

pub fn reference(shape: Shape) -> (DeltaSnapshotCache, Arc<DeltaHub>) {
    let cache = DeltaSnapshotCache::with_max_depth_and_retention(
        &AlloyProvider,
        shape.limit,
        shape.retention,
    );
    let first = NUMBER - shape.depth as u64 - 1;
    let mut hub = cache.for_anchor(anchor(first));
    for (k, part) in parts(shape).iter().enumerate() {
        if 0 < k {
            let child = anchor(first + k as u64);
            let parent = B256(hash(child.number - 1));
            hub = layers::advance(
                &cache,
                child,
                parent,
                &RelevanceSet::from_slice(&[]),
                &prepared(child, Vec::new(), None),
            )
            .0;
        }
        for &i in part {
            let (address, index) = slot(shape.spread, i);
            StorageView::put(&*hub, address, index, value(i));
        }
    }
    assert_eq!(layers::records(&hub), shape.records);
    (cache, hub)
}

/// A store and what an owner keeps beside it.
#[derive(Clone)]
pub struct Owned {
    pub s: Vec<u8>,
    pub work: Vec<u8>,
    pub out: Vec<u8>,
    pub reply: [u8; REPLY],
    pub number: u64,
    pub hash: [u8; 32],
}

impl Owned {
    pub fn put(&mut self, slot: &[u8; 52], value: &[u8; 32]) -> u64 {
        let (s, h, r) = (&mut self.s, &self.hash, &mut self.reply);
        unsafe {
            poxilme_put_unchecked(
                s.as_mut_ptr(),
                s.len(),
                self.number,
                h.as_ptr(),
                32,
                slot.as_ptr(),
                52,
                value.as_ptr(),
                32,
                r.as_mut_ptr(),
                REPLY,
            )
        }
    }

    pub fn look(&mut self, slot: &[u8; 52]) -> u64 {
        let (s, h, r) = (&self.s, &self.hash, &mut self.reply);
        unsafe {
            poxilme_look_unchecked(
                s.as_ptr(),
                s.len(),
                self.number,
                h.as_ptr(),
                32,
                slot.as_ptr(),
                52,
                r.as_mut_ptr(),
                REPLY,
            )
        }
    }

    pub fn look_checked(&mut self, slot: &[u8; 52]) -> u64 {
        let (s, h, r) = (&self.s, &self.hash, &mut self.reply);
        unsafe {
            poxilme_look(
                s.as_ptr(),
                s.len(),
                self.number,
                h.as_ptr(),
                32,
                slot.as_ptr(),
                52,
                r.as_mut_ptr(),
                REPLY,
            )
        }
    }

    pub fn get(&mut self, slot: &[u8; 52]) -> u64 {
        let (s, h, r) = (&mut self.s, &self.hash, &mut self.reply);
        unsafe {
            poxilme_get_unchecked(
                s.as_mut_ptr(),
                s.len(),
                self.number,
                h.as_ptr(),
                32,
                slot.as_ptr(),
                52,
                r.as_mut_ptr(),
                REPLY,
            )
        }
    }

    pub fn read(&mut self, slot: &[u8; 52]) -> u64 {
        let (s, h, r) = (&mut self.s, &self.hash, &mut self.reply);
        unsafe {
            poxilme_read_unchecked(
                s.as_mut_ptr(),
                s.len(),
                self.number,
                h.as_ptr(),
                32,
                slot.as_ptr(),
                52,
                r.as_mut_ptr(),
                REPLY,
            )
        }
    }

    pub fn take(&mut self) -> u64 {
        let (s, h, r, o) = (&mut self.s, &self.hash, &mut self.reply, &mut self.out);
        unsafe {
            poxilme_take_unchecked(
                s.as_mut_ptr(),
                s.len(),
                self.number,
                h.as_ptr(),
                32,
                o.as_mut_ptr(),
                o.len(),
                r.as_mut_ptr(),
                REPLY,
            )
        }
    }

    pub fn answer(&mut self, members: &[u8]) -> u64 {
        let (s, h, r) = (&mut self.s, &self.hash, &mut self.reply);
        unsafe {
            poxilme_answer_unchecked(
                s.as_mut_ptr(),
                s.len(),
                self.number,
                h.as_ptr(),
                32,
                members.as_ptr(),
                members.len(),
                r.as_mut_ptr(),
                REPLY,
            )
        }
    }

    /// To the next block, with the parent's hash as it is.
    pub fn advance(&mut self, addresses: &[u8], writes: &[u8]) -> u64 {
        let (number, child) = (self.number + 1, hash(self.number + 1));
        let (s, h, r, o, w) = (
            &mut self.s,
            &self.hash,
            &mut self.reply,
            &mut self.out,
            &mut self.work,
        );
        let refused = unsafe {
            poxilme_advance_unchecked(
                s.as_mut_ptr(),
                s.len(),
                number,
                child.as_ptr(),
                32,
                h.as_ptr(),
                32,
                0,
                addresses.as_ptr(),
                addresses.len(),
                writes.as_ptr(),
                writes.len(),
                w.as_mut_ptr(),
                w.len(),
                o.as_mut_ptr(),
                o.len(),
                r.as_mut_ptr(),
                REPLY,
            )
        };
        if refused == 0 {
            (self.number, self.hash) = (number, child);
        }
        refused
    }

    pub fn is_store(&self) -> bool {
        unsafe { poxilme_is_store(self.s.as_ptr(), self.s.len()) }
    }
}

/// The same state in a store's bytes.
pub fn store(shape: Shape) -> Owned {
    let size = unsafe { poxilme_store_size(CAPACITY) } as usize;
    let number = NUMBER - shape.depth as u64 - 1;
    let mut o = Owned {
        s: vec![0; size],
        work: vec![0; size],
        out: vec![0; 52 * 2048],
        reply: [0; REPLY],
        number,
        hash: hash(number),
    };
    let (bounded, idle) = match shape.retention {
        Retention::Unbounded => (0, 0),
        Retention::IdleBlocks(n) => (1, n),
    };
    unsafe {
        assert_eq!(
            poxilme_open(
                o.s.as_mut_ptr(),
                size,
                CAPACITY,
                u64::from(shape.limit),
                bounded,
                idle,
                o.reply.as_mut_ptr(),
                REPLY
            ),
            0
        );
        assert_eq!(
            poxilme_install(
                o.s.as_mut_ptr(),
                size,
                number,
                o.hash.as_ptr(),
                32,
                o.reply.as_mut_ptr(),
                REPLY
            ),
            0
        );
    }
    for (k, part) in parts(shape).iter().enumerate() {
        if 0 < k {
            assert_eq!(o.advance(&[], &[]), 0);
        }
        for &i in part {
            assert_eq!(o.put(&entry(&slot(shape.spread, i)), &value(i).0), 0);
        }
    }
    assert!(o.is_store());
    o
}
