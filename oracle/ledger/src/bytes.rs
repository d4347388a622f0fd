//! The bytes of a call list: calls, numbers and the refusals 3, 4 and 5.

use crate::flat::Retention;

/// A list's bytes past this many are not read.
const LIST_LIMIT: usize = 65_536;

pub type Address = [u8; 20];
/// A hash, an index or a value.
pub type Word = [u8; 32];
/// Compared as numbers, address first.
pub type Slot = (Address, Word);

#[derive(Clone, Copy, PartialEq, Eq)]
pub struct Anchor {
    pub number: u64,
    pub hash: Option<Word>,
}

/// An open's byte 1: depth limit and retention.
#[derive(Clone, Copy)]
pub struct Shape {
    pub depth: u64,
    pub retention: Retention,
}

pub struct Advance {
    pub child: Anchor,
    pub parent_hash: Word,
    pub skip: u64,
    pub relevance: Vec<Address>,
    pub writes: Vec<(Slot, Word)>,
}

pub enum Round {
    /// Each slot with its value, or none for a refused one.
    Members(Vec<(Slot, Option<Word>)>),
    Failed(Vec<Slot>),
}

impl Round {
    /// The answered slots; none of a failed round has a value.
    pub fn slots(&self) -> Vec<(Slot, Option<Word>)> {
        match self {
            Round::Members(members) => members.clone(),
            Round::Failed(slots) => slots.iter().map(|slot| (*slot, None)).collect(),
        }
    }
}

pub enum Call {
    Open { capacity: u64, shape: Option<Shape> },
    Install(Anchor),
    Advance(Advance),
    Look(Anchor, Slot),
    Get(Anchor, Slot),
    Put(Anchor, Slot, Word),
    Read(Anchor, Slot),
    Take(Anchor),
    Answer(Anchor, Round),
}

impl Call {
    /// The anchor that a call with code 4 to 9 names.
    pub fn anchor(&self) -> Option<Anchor> {
        match self {
            Call::Open { .. } | Call::Install(_) | Call::Advance(_) => None,
            Call::Look(anchor, _)
            | Call::Get(anchor, _)
            | Call::Put(anchor, _, _)
            | Call::Read(anchor, _)
            | Call::Take(anchor)
            | Call::Answer(anchor, _) => Some(*anchor),
        }
    }
}

/// Bytes that are no call: the refusal, and the place of the byte that it is
/// for.
pub struct Fault {
    pub refusal: u8,
    pub place: usize,
}

type Read<T> = Result<T, Fault>;

/// A list and how many of its bytes have been read.
pub struct Bytes<'a> {
    list: &'a [u8],
    read: usize,
}

impl<'a> Bytes<'a> {
    pub fn new(list: &'a [u8]) -> Self {
        let list = &list[..list.len().min(LIST_LIMIT)];
        Self { list, read: 0 }
    }

    pub fn at_end(&self) -> bool {
        self.read == self.list.len()
    }

    pub fn call(&mut self) -> Read<Call> {
        match self.byte()? {
            1 => {
                let capacity = self.number()?;
                let shape = self.form(|_| Ok(None), |list| list.shape().map(Some))?;
                Ok(Call::Open { capacity, shape })
            }
            2 => Ok(Call::Install(self.anchor()?)),
            3 => Ok(Call::Advance(self.advance()?)),
            4 => Ok(Call::Look(self.anchor()?, self.slot()?)),
            5 => Ok(Call::Get(self.anchor()?, self.slot()?)),
            6 => Ok(Call::Put(self.anchor()?, self.slot()?, self.field()?)),
            7 => Ok(Call::Read(self.anchor()?, self.slot()?)),
            8 => Ok(Call::Take(self.anchor()?)),
            9 => Ok(Call::Answer(self.anchor()?, self.round()?)),
            _ => Err(self.fault(3)),
        }
    }

    fn shape(&mut self) -> Read<Shape> {
        let depth = self.number()?;
        let retention = self.form(
            |_| Ok(Retention::Unbounded),
            |list| list.number().map(Retention::IdleBlocks),
        )?;
        Ok(Shape { depth, retention })
    }

    fn anchor(&mut self) -> Read<Anchor> {
        let number = self.number()?;
        let hash = self.form(|_| Ok(None), |list| list.field().map(Some))?;
        Ok(Anchor { number, hash })
    }

    fn slot(&mut self) -> Read<Slot> {
        Ok((self.field()?, self.field()?))
    }

    fn advance(&mut self) -> Read<Advance> {
        Ok(Advance {
            child: self.anchor()?,
            parent_hash: self.field()?,
            skip: self.number()?,
            relevance: self.entries(Self::field)?,
            writes: self.entries(|list| Ok((list.slot()?, list.field()?)))?,
        })
    }

    fn round(&mut self) -> Read<Round> {
        self.form(
            |list| list.entries(Self::member).map(Round::Members),
            |list| list.entries(Self::slot).map(Round::Failed),
        )
    }

    fn member(&mut self) -> Read<(Slot, Option<Word>)> {
        let slot = self.slot()?;
        let value = self.form(|_| Ok(None), |list| list.field().map(Some))?;
        Ok((slot, value))
    }

    /// A form byte, and what follows it.
    fn form<T>(
        &mut self,
        zero: impl Fn(&mut Self) -> Read<T>,
        one: impl Fn(&mut Self) -> Read<T>,
    ) -> Read<T> {
        match self.byte()? {
            0 => zero(self),
            1 => one(self),
            _ => Err(self.fault(3)),
        }
    }

    /// A count, and so many entries.
    fn entries<T>(&mut self, entry: impl Fn(&mut Self) -> Read<T>) -> Read<Vec<T>> {
        let count = self.number()?;
        (0..count).map(|_| entry(self)).collect()
    }

    /// Groups of seven bits, the lowest first; 128 is added where another
    /// follows.
    fn number(&mut self) -> Read<u64> {
        let mut value = 0;
        let mut worth: u128 = 1;
        for group in 1.. {
            let byte = self.byte()?;
            if group == 10 && byte > 1 || group > 1 && byte == 0 {
                return Err(self.fault(4));
            }
            value += u128::from(byte % 128) * worth;
            worth *= 128;
            if byte < 128 {
                break;
            }
        }
        Ok(u64::try_from(value).expect("a tenth byte is at most 1"))
    }

    fn field<const N: usize>(&mut self) -> Read<[u8; N]> {
        let mut field = [0; N];
        for byte in &mut field {
            *byte = self.byte()?;
        }
        Ok(field)
    }

    fn byte(&mut self) -> Read<u8> {
        let byte = self.list.get(self.read).copied();
        self.read += usize::from(byte.is_some());
        byte.ok_or(Fault {
            refusal: 5,
            place: self.list.len(),
        })
    }

    /// A fault of the byte read last.
    fn fault(&self, refusal: u8) -> Fault {
        let place = self.read - 1;
        Fault { refusal, place }
    }
}
