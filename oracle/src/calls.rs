//! Call lists: the calls, their bytes, and the refusals 3, 4 and 5 of bytes
//! that are no call.

use crate::sim::evm2::delta_snapshot::{Retention, Slot};
use crate::sim::storage_memo::ReadAnchor;
use alloy::primitives::{Address, StorageValue, B256, U256};

/// A list's bytes past this many are not read.
pub const LIST_LIMIT: usize = 65_536;

pub const UNKNOWN_FORM: u8 = 3;
pub const BAD_NUMBER: u8 = 4;
pub const CUT_SHORT: u8 = 5;

pub type Write = (Address, U256, U256);

#[derive(Clone, Debug, PartialEq, Eq)]
pub struct Advance {
    pub child: ReadAnchor,
    pub parent_hash: B256,
    pub skip: u64,
    pub relevance: Vec<Address>,
    pub writes: Vec<Write>,
}

#[derive(Clone, Debug, PartialEq, Eq)]
pub enum Round {
    /// Each slot with its value, or none for a refused member.
    Members(Vec<(Slot, Option<StorageValue>)>),
    Failed(Vec<Slot>),
}

impl Round {
    pub fn slots(&self) -> Vec<Slot> {
        match self {
            Self::Members(members) => members.iter().map(|(slot, _)| *slot).collect(),
            Self::Failed(slots) => slots.clone(),
        }
    }

    /// The value that it has for a slot.
    pub fn value_of(&self, slot: &Slot) -> Option<&StorageValue> {
        let Self::Members(members) = self else {
            return None;
        };
        let member = members.iter().find(|(named, _)| named == slot)?;
        member.1.as_ref()
    }
}

/// What an open asks for beside the capacity, unless it takes the defaults.
#[derive(Clone, Copy, Debug, PartialEq, Eq)]
pub struct Shape {
    pub depth: u64,
    pub retention: Retention,
}

#[derive(Clone, Debug, PartialEq, Eq)]
pub enum Call {
    Open { capacity: u64, shape: Option<Shape> },
    Install(ReadAnchor),
    Advance(Advance),
    Look(ReadAnchor, Slot),
    Get(ReadAnchor, Slot),
    Put(ReadAnchor, Slot, StorageValue),
    Read(ReadAnchor, Slot),
    Take(ReadAnchor),
    Answer(ReadAnchor, Round),
}

impl Call {
    pub fn code(&self) -> u8 {
        match self {
            Self::Open { .. } => 1,
            Self::Install(_) => 2,
            Self::Advance(_) => 3,
            Self::Look(..) => 4,
            Self::Get(..) => 5,
            Self::Put(..) => 6,
            Self::Read(..) => 7,
            Self::Take(_) => 8,
            Self::Answer(..) => 9,
        }
    }

    /// The anchor that a call with code 4 to 9 names.
    pub fn anchor(&self) -> Option<ReadAnchor> {
        match self {
            Self::Open { .. } | Self::Install(_) | Self::Advance(_) => None,
            Self::Look(anchor, _)
            | Self::Get(anchor, _)
            | Self::Put(anchor, _, _)
            | Self::Read(anchor, _)
            | Self::Take(anchor)
            | Self::Answer(anchor, _) => Some(*anchor),
        }
    }
}

/// Reads calls off a list, one by one.
pub struct Reader<'a> {
    bytes: &'a [u8],
    at: usize,
}

pub(crate) type Parsed<T> = Result<T, u8>;

impl<'a> Reader<'a> {
    pub fn new(list: &'a [u8]) -> Self {
        let end = list.len().min(LIST_LIMIT);
        Self {
            bytes: &list[..end],
            at: 0,
        }
    }

    /// The next call, none at the end of the list, or the refusal that ends it.
    pub fn next_call(&mut self) -> Option<Parsed<Call>> {
        (self.at < self.bytes.len()).then(|| self.call())
    }

    /// Where the byte of the fault stands that `next_call` met last; for an end
    /// inside a call, where the list ends.
    pub fn fault_place(&self, refusal: u8) -> usize {
        if refusal == CUT_SHORT {
            self.bytes.len()
        } else {
            self.at - 1
        }
    }

    fn call(&mut self) -> Parsed<Call> {
        Ok(match self.byte()? {
            1 => self.open()?,
            2 => Call::Install(self.anchor()?),
            3 => Call::Advance(self.advance()?),
            4 => Call::Look(self.anchor()?, self.slot()?),
            5 => Call::Get(self.anchor()?, self.slot()?),
            6 => Call::Put(self.anchor()?, self.slot()?, self.word()?),
            7 => Call::Read(self.anchor()?, self.slot()?),
            8 => Call::Take(self.anchor()?),
            9 => Call::Answer(self.anchor()?, self.round()?),
            _ => return Err(UNKNOWN_FORM),
        })
    }

    fn open(&mut self) -> Parsed<Call> {
        let capacity = self.number()?;
        if !self.flag()? {
            return Ok(Call::Open {
                capacity,
                shape: None,
            });
        }
        let depth = self.number()?;
        let retention = if self.flag()? {
            Retention::IdleBlocks(self.number()?)
        } else {
            Retention::Unbounded
        };
        Ok(Call::Open {
            capacity,
            shape: Some(Shape { depth, retention }),
        })
    }

    fn advance(&mut self) -> Parsed<Advance> {
        Ok(Advance {
            child: self.anchor()?,
            parent_hash: B256(self.array()?),
            skip: self.number()?,
            relevance: self.counted(|list| Ok(Address(list.array()?)))?,
            writes: self.counted(|list| {
                let (address, index) = list.slot()?;
                Ok((address, index, list.word()?))
            })?,
        })
    }

    fn round(&mut self) -> Parsed<Round> {
        if self.flag()? {
            return Ok(Round::Failed(self.counted(Self::slot)?));
        }
        let members = self.counted(|list| {
            let slot = list.slot()?;
            let value = if list.flag()? {
                Some(list.word()?)
            } else {
                None
            };
            Ok((slot, value))
        })?;
        Ok(Round::Members(members))
    }

    fn anchor(&mut self) -> Parsed<ReadAnchor> {
        let number = self.number()?;
        Ok(if self.flag()? {
            ReadAnchor::identified(number, B256(self.array()?))
        } else {
            ReadAnchor::at(number)
        })
    }

    fn slot(&mut self) -> Parsed<Slot> {
        Ok((Address(self.array()?), self.word()?))
    }

    pub(crate) fn word(&mut self) -> Parsed<U256> {
        Ok(U256(self.array()?))
    }

    /// A count and its entries. The count is not compared with what is left.
    pub(crate) fn counted<T>(
        &mut self,
        mut entry: impl FnMut(&mut Self) -> Parsed<T>,
    ) -> Parsed<Vec<T>> {
        let count = self.number()?;
        let mut entries = Vec::new();
        for _ in 0..count {
            entries.push(entry(self)?);
        }
        Ok(entries)
    }

    /// Groups of seven bits, lowest first, in shortest form and below 2^64.
    pub(crate) fn number(&mut self) -> Parsed<u64> {
        let mut value = 0;
        for group in 0..10 {
            let byte = self.byte()?;
            if group == 9 && byte > 1 {
                return Err(BAD_NUMBER);
            }
            value |= u64::from(byte & 127) << (7 * group);
            if byte < 128 {
                let shortest = byte != 0 || group == 0;
                return if shortest { Ok(value) } else { Err(BAD_NUMBER) };
            }
        }
        unreachable!("the tenth byte ends a number")
    }

    /// A form byte: 0 or 1.
    pub(crate) fn flag(&mut self) -> Parsed<bool> {
        match self.byte()? {
            0 => Ok(false),
            1 => Ok(true),
            _ => Err(UNKNOWN_FORM),
        }
    }

    fn byte(&mut self) -> Parsed<u8> {
        Ok(self.array::<1>()?[0])
    }

    pub(crate) fn array<const N: usize>(&mut self) -> Parsed<[u8; N]> {
        let rest = &self.bytes[self.at..];
        let bytes = rest.first_chunk::<N>().ok_or(CUT_SHORT)?;
        self.at += N;
        Ok(*bytes)
    }
}

/// Writes calls to a list; the reader's inverse.
#[derive(Clone, Debug, Default)]
pub struct Writer {
    pub bytes: Vec<u8>,
}

impl Writer {
    pub fn call(&mut self, call: &Call) {
        self.bytes.push(call.code());
        match call {
            Call::Open { capacity, shape } => self.open(*capacity, *shape),
            Call::Install(anchor) | Call::Take(anchor) => self.anchor(*anchor),
            Call::Advance(advance) => self.advance(advance),
            Call::Look(anchor, slot) | Call::Get(anchor, slot) | Call::Read(anchor, slot) => {
                self.anchor(*anchor);
                self.slot(slot);
            }
            Call::Put(anchor, slot, value) => {
                self.anchor(*anchor);
                self.slot(slot);
                self.bytes.extend(value.0);
            }
            Call::Answer(anchor, round) => {
                self.anchor(*anchor);
                self.round(round);
            }
        }
    }

    pub fn number(&mut self, mut value: u64) {
        while value >= 128 {
            self.bytes.push((value % 128) as u8 + 128);
            value /= 128;
        }
        self.bytes.push(value as u8);
    }

    pub fn anchor(&mut self, anchor: ReadAnchor) {
        self.number(anchor.number);
        self.bytes.push(u8::from(anchor.hash.is_some()));
        if let Some(hash) = anchor.hash {
            self.bytes.extend(hash.0);
        }
    }

    pub fn slot(&mut self, slot: &Slot) {
        self.bytes.extend(slot.0 .0);
        self.bytes.extend(slot.1 .0);
    }

    fn open(&mut self, capacity: u64, shape: Option<Shape>) {
        self.number(capacity);
        self.bytes.push(u8::from(shape.is_some()));
        let Some(shape) = shape else { return };
        self.number(shape.depth);
        match shape.retention {
            Retention::Unbounded => self.bytes.push(0),
            Retention::IdleBlocks(idle) => {
                self.bytes.push(1);
                self.number(idle);
            }
        }
    }

    fn advance(&mut self, advance: &Advance) {
        self.anchor(advance.child);
        self.bytes.extend(advance.parent_hash.0);
        self.number(advance.skip);
        self.number(advance.relevance.len() as u64);
        for address in &advance.relevance {
            self.bytes.extend(address.0);
        }
        self.number(advance.writes.len() as u64);
        for (address, index, value) in &advance.writes {
            self.slot(&(*address, *index));
            self.bytes.extend(value.0);
        }
    }

    fn round(&mut self, round: &Round) {
        match round {
            Round::Members(members) => {
                self.bytes.push(0);
                self.number(members.len() as u64);
                for (slot, value) in members {
                    self.slot(slot);
                    self.bytes.push(u8::from(value.is_some()));
                    self.bytes.extend(value.iter().flat_map(|value| value.0));
                }
            }
            Round::Failed(slots) => {
                self.bytes.push(1);
                self.number(slots.len() as u64);
                for slot in slots {
                    self.slot(slot);
                }
            }
        }
    }
}

/// A list's bytes.
pub fn write_list(calls: &[Call]) -> Vec<u8> {
    let mut writer = Writer::default();
    for call in calls {
        writer.call(call);
    }
    writer.bytes
}
