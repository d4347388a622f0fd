//! The library's functions, and the one module with unsafe code.
//!
//! A call is sound if the library's conditions on memory hold, and for an unchecked one its `requires`:
//!
//! - **areas**: each area is passed as the pointer and the length of one slice, which is borrowed for the call, shared where
//!   the library reads and exclusively where it writes. So the pointer is not null, the bytes are there, and an area that is
//!   written overlaps no other. The library keeps no pointer.
//! - **store**: the bytes are a store. `Store` keeps that: its bytes are private to this module; they were made by an
//!   accepted `poxilme_open` or found to be a store by `poxilme_is_store`; and after that only unchecked functions write
//!   them, each of which leaves a store by its contract, refused or not.

use crate::refusal::Refusal;

// All functions are declared, used or not: tools/bindings_check compares them with the header and with the library's source.
#[allow(dead_code)]
#[rustfmt::skip]
extern "C" {
    fn poxilme_store_size(capacity: u64) -> u64;
    fn poxilme_is_store(s: *const u8, s_len: usize) -> bool;
    fn poxilme_open(s: *mut u8, s_len: usize, capacity: u64, max_depth: u64, bounded: u64, idle: u64, reply: *mut u8, reply_len: usize) -> u64;
    fn poxilme_install(s: *mut u8, s_len: usize, number: u64, hash: *const u8, hash_len: usize, reply: *mut u8, reply_len: usize) -> u64;
    fn poxilme_look(s: *const u8, s_len: usize, number: u64, hash: *const u8, hash_len: usize, slot: *const u8, slot_len: usize, reply: *mut u8, reply_len: usize) -> u64;
    fn poxilme_get(s: *mut u8, s_len: usize, number: u64, hash: *const u8, hash_len: usize, slot: *const u8, slot_len: usize, reply: *mut u8, reply_len: usize) -> u64;
    fn poxilme_put(s: *mut u8, s_len: usize, number: u64, hash: *const u8, hash_len: usize, slot: *const u8, slot_len: usize, value: *const u8, value_len: usize, reply: *mut u8, reply_len: usize) -> u64;
    fn poxilme_advance(s: *mut u8, s_len: usize, number: u64, hash: *const u8, hash_len: usize, parent_hash: *const u8, parent_hash_len: usize, skip: u64, addresses: *const u8, addresses_len: usize, writes: *const u8, writes_len: usize, work: *mut u8, work_len: usize, out: *mut u8, out_len: usize, reply: *mut u8, reply_len: usize) -> u64;
    fn poxilme_read(s: *mut u8, s_len: usize, number: u64, hash: *const u8, hash_len: usize, slot: *const u8, slot_len: usize, reply: *mut u8, reply_len: usize) -> u64;
    fn poxilme_take(s: *mut u8, s_len: usize, number: u64, hash: *const u8, hash_len: usize, out: *mut u8, out_len: usize, reply: *mut u8, reply_len: usize) -> u64;
    fn poxilme_answer(s: *mut u8, s_len: usize, number: u64, hash: *const u8, hash_len: usize, members: *const u8, members_len: usize, reply: *mut u8, reply_len: usize) -> u64;
    fn poxilme_answer_failed(s: *mut u8, s_len: usize, number: u64, hash: *const u8, hash_len: usize, slots: *const u8, slots_len: usize, reply: *mut u8, reply_len: usize) -> u64;
    fn poxilme_read_totals(s: *const u8, s_len: usize, reply: *mut u8, reply_len: usize) -> u64;
    fn poxilme_install_unchecked(s: *mut u8, s_len: usize, number: u64, hash: *const u8, hash_len: usize, reply: *mut u8, reply_len: usize) -> u64;
    fn poxilme_look_unchecked(s: *const u8, s_len: usize, number: u64, hash: *const u8, hash_len: usize, slot: *const u8, slot_len: usize, reply: *mut u8, reply_len: usize) -> u64;
    fn poxilme_get_unchecked(s: *mut u8, s_len: usize, number: u64, hash: *const u8, hash_len: usize, slot: *const u8, slot_len: usize, reply: *mut u8, reply_len: usize) -> u64;
    fn poxilme_put_unchecked(s: *mut u8, s_len: usize, number: u64, hash: *const u8, hash_len: usize, slot: *const u8, slot_len: usize, value: *const u8, value_len: usize, reply: *mut u8, reply_len: usize) -> u64;
    fn poxilme_advance_unchecked(s: *mut u8, s_len: usize, number: u64, hash: *const u8, hash_len: usize, parent_hash: *const u8, parent_hash_len: usize, skip: u64, addresses: *const u8, addresses_len: usize, writes: *const u8, writes_len: usize, work: *mut u8, work_len: usize, out: *mut u8, out_len: usize, reply: *mut u8, reply_len: usize) -> u64;
    fn poxilme_read_unchecked(s: *mut u8, s_len: usize, number: u64, hash: *const u8, hash_len: usize, slot: *const u8, slot_len: usize, reply: *mut u8, reply_len: usize) -> u64;
    fn poxilme_take_unchecked(s: *mut u8, s_len: usize, number: u64, hash: *const u8, hash_len: usize, out: *mut u8, out_len: usize, reply: *mut u8, reply_len: usize) -> u64;
    fn poxilme_answer_unchecked(s: *mut u8, s_len: usize, number: u64, hash: *const u8, hash_len: usize, members: *const u8, members_len: usize, reply: *mut u8, reply_len: usize) -> u64;
    fn poxilme_answer_failed_unchecked(s: *mut u8, s_len: usize, number: u64, hash: *const u8, hash_len: usize, slots: *const u8, slots_len: usize, reply: *mut u8, reply_len: usize) -> u64;
    fn poxilme_read_totals_unchecked(s: *const u8, s_len: usize, reply: *mut u8, reply_len: usize) -> u64;
    fn poxilme_run(list: *const u8, list_len: usize, from: usize, s: *mut u8, s_len: usize, work: *mut u8, work_len: usize, entries: *mut u8, entries_len: usize, members: *mut u8, members_len: usize, out: *mut u8, out_len: usize, reply: *mut u8, reply_len: usize) -> u64;
    fn poxilme_final_writes(accounts: *const u8, accounts_len: usize, slots: *const u8, slots_len: usize, changes: *const u8, changes_len: usize, reads: *const u8, reads_len: usize, plan_addresses: *const u8, plan_addresses_len: usize, max_writes: u64, max_reads: u64, writes_out: *mut u8, writes_out_len: usize, reads_out: *mut u8, reads_out_len: usize, reply: *mut u8, reply_len: usize) -> u64;
}

// The sizes of the header, by its names.
pub(crate) const SLOT_SIZE: usize = 52;
pub(crate) const WRITE_SIZE: usize = 84;
pub(crate) const MEMBER_SIZE: usize = 85;
pub(crate) const CHANGED_SLOT_SIZE: usize = 40;
pub(crate) const LISTED_READ_SIZE: usize = 32;
pub(crate) const MAX_AWAITING: usize = 64;
const REPLY_SIZE: usize = 96;

/// A slot's bytes: address, index.
pub(crate) type SlotBytes = [u8; SLOT_SIZE];

/// The words of an accepted call's answer.
pub(crate) struct Reply([u8; REPLY_SIZE]);

impl Reply {
    const fn new() -> Self {
        Self([0; REPLY_SIZE])
    }

    /// The word of a place.
    pub(crate) fn word(&self, place: usize) -> u64 {
        word_at(&self.0, place)
    }

    /// The word of a place, as a count of things in memory.
    pub(crate) fn count(&self, place: usize) -> usize {
        // The crate is built for 64 bits alone (lib.rs).
        self.word(place) as usize
    }

    /// The value of a look, a get or a served read.
    pub(crate) fn value(&self) -> [u8; 32] {
        let mut value = [0; 32];
        value.copy_from_slice(&self.0[8..40]);
        value
    }
}

/// The big-endian word of a place.
pub(crate) fn word_at(bytes: &[u8], place: usize) -> u64 {
    let mut word = [0; 8];
    word.copy_from_slice(&bytes[8 * place..8 * place + 8]);
    u64::from_be_bytes(word)
}

/// A block as the calls take it: its number, and its hash or no bytes.
#[derive(Clone, Copy)]
pub(crate) struct Block<'a> {
    pub(crate) number: u64,
    pub(crate) hash: &'a [u8],
}

/// What goes to an advance beside the child: the parent's hash, the skip's number, and the lists.
#[derive(Clone, Copy)]
pub(crate) struct Prepared<'a> {
    pub(crate) parent_hash: &'a [u8; 32],
    pub(crate) skip: u64,
    pub(crate) addresses: &'a [u8],
    pub(crate) writes: &'a [u8],
}

fn result(code: u64, reply: Reply) -> Result<Reply, Refusal> {
    match code {
        0 => Ok(reply),
        number => Err(Refusal::from_number(number)
            .unwrap_or_else(|| panic!("refusal {number} is none of this crate: the library is another version"))),
    }
}

/// An area that is read: pointer and length.
fn lent(area: &[u8]) -> (*const u8, usize) {
    (area.as_ptr(), area.len())
}

/// An area that is written. The pointer is taken last, and nothing else uses the area until the call has returned.
fn lent_mut(area: &mut [u8]) -> (*mut u8, usize) {
    let len = area.len();
    (area.as_mut_ptr(), len)
}

/// The bytes of a store of this capacity, or 0.
pub(crate) fn store_size(capacity: u64) -> u64 {
    // SAFETY: no areas.
    unsafe { poxilme_store_size(capacity) }
}

/// Whether the bytes begin with a store.
pub(crate) fn is_store(s: &[u8]) -> bool {
    let (s, s_len) = lent(s);
    // SAFETY: areas.
    unsafe { poxilme_is_store(s, s_len) }
}

/// A store, with the work area of its advances.
///
/// Invariant: `bytes` is a store. Only this module sees the fields.
pub(crate) struct Store {
    bytes: Box<[u8]>,
    work: Box<[u8]>,
}

impl Clone for Store {
    fn clone(&self) -> Self {
        // A copy of a store's bytes is a store; what a work area holds is free.
        Self::holding(self.bytes.clone())
    }
}

impl Store {
    /// `bytes` is a store.
    fn holding(bytes: Box<[u8]>) -> Self {
        let work = vec![0; bytes.len()].into_boxed_slice();
        Self { bytes, work }
    }

    /// A new store.
    pub(crate) fn open(capacity: u64, max_depth: u64, bounded: u64, idle: u64) -> Result<Self, Refusal> {
        // For a capacity out of range the size is 0, and the open is refused.
        let mut bytes = vec![0; store_size(capacity) as usize].into_boxed_slice();
        let mut reply = Reply::new();
        let (s, s_len) = lent_mut(&mut bytes);
        let (out, out_len) = lent_mut(&mut reply.0);
        // SAFETY: areas; any bytes may be opened.
        let code = unsafe { poxilme_open(s, s_len, capacity, max_depth, bounded, idle, out, out_len) };
        // An accepted open has made the bytes a store.
        result(code, reply).map(|_| Self::holding(bytes))
    }

    /// A store from bytes that begin with one.
    pub(crate) fn from_bytes(bytes: &[u8]) -> Result<Self, Refusal> {
        let capacity = if bytes.len() < 16 { 0 } else { word_at(bytes, 1) };
        let size = store_size(capacity) as usize;
        let store = bytes.get(..size).ok_or(Refusal::NotAStore)?;
        if is_store(store) {
            Ok(Self::holding(store.into()))
        } else {
            Err(Refusal::NotAStore)
        }
    }

    /// The store's bytes.
    pub(crate) fn bytes(&self) -> &[u8] {
        &self.bytes
    }

    pub(crate) fn into_bytes(self) -> Box<[u8]> {
        self.bytes
    }

    pub(crate) fn install(&mut self, at: Block<'_>) -> Result<Reply, Refusal> {
        let mut reply = Reply::new();
        let (s, s_len) = lent_mut(&mut self.bytes);
        let (hash, hash_len) = lent(at.hash);
        let (out, out_len) = lent_mut(&mut reply.0);
        // SAFETY: areas, store.
        let code = unsafe { poxilme_install_unchecked(s, s_len, at.number, hash, hash_len, out, out_len) };
        result(code, reply)
    }

    pub(crate) fn look(&self, at: Block<'_>, slot: &SlotBytes) -> Result<Reply, Refusal> {
        let mut reply = Reply::new();
        let (s, s_len) = lent(&self.bytes);
        let (hash, hash_len) = lent(at.hash);
        let (slot, slot_len) = lent(slot);
        let (out, out_len) = lent_mut(&mut reply.0);
        // SAFETY: areas, store; a look only reads it.
        let code = unsafe { poxilme_look_unchecked(s, s_len, at.number, hash, hash_len, slot, slot_len, out, out_len) };
        result(code, reply)
    }

    pub(crate) fn get(&mut self, at: Block<'_>, slot: &SlotBytes) -> Result<Reply, Refusal> {
        let mut reply = Reply::new();
        let (s, s_len) = lent_mut(&mut self.bytes);
        let (hash, hash_len) = lent(at.hash);
        let (slot, slot_len) = lent(slot);
        let (out, out_len) = lent_mut(&mut reply.0);
        // SAFETY: areas, store.
        let code = unsafe { poxilme_get_unchecked(s, s_len, at.number, hash, hash_len, slot, slot_len, out, out_len) };
        result(code, reply)
    }

    pub(crate) fn put(&mut self, at: Block<'_>, slot: &SlotBytes, value: &[u8; 32]) -> Result<Reply, Refusal> {
        let mut reply = Reply::new();
        let (s, s_len) = lent_mut(&mut self.bytes);
        let (hash, hash_len) = lent(at.hash);
        let (slot, slot_len) = lent(slot);
        let (value, value_len) = lent(value);
        let (out, out_len) = lent_mut(&mut reply.0);
        // SAFETY: areas, store.
        let code = unsafe {
            poxilme_put_unchecked(s, s_len, at.number, hash, hash_len, slot, slot_len, value, value_len, out, out_len)
        };
        result(code, reply)
    }

    /// The slots applied go to the beginning of `applied`.
    pub(crate) fn advance(
        &mut self,
        child: Block<'_>,
        given: Prepared<'_>,
        applied: &mut [u8],
    ) -> Result<Reply, Refusal> {
        let mut reply = Reply::new();
        let (s, s_len) = lent_mut(&mut self.bytes);
        let (work, work_len) = lent_mut(&mut self.work);
        let (hash, hash_len) = lent(child.hash);
        let (parent, parent_len) = lent(given.parent_hash);
        let (addresses, addresses_len) = lent(given.addresses);
        let (writes, writes_len) = lent(given.writes);
        let (applied, applied_len) = lent_mut(applied);
        let (out, out_len) = lent_mut(&mut reply.0);
        // SAFETY: areas, store; the work area is a box of its own.
        let code = unsafe {
            poxilme_advance_unchecked(
                s,
                s_len,
                child.number,
                hash,
                hash_len,
                parent,
                parent_len,
                given.skip,
                addresses,
                addresses_len,
                writes,
                writes_len,
                work,
                work_len,
                applied,
                applied_len,
                out,
                out_len,
            )
        };
        result(code, reply)
    }

    pub(crate) fn read(&mut self, at: Block<'_>, slot: &SlotBytes) -> Result<Reply, Refusal> {
        let mut reply = Reply::new();
        let (s, s_len) = lent_mut(&mut self.bytes);
        let (hash, hash_len) = lent(at.hash);
        let (slot, slot_len) = lent(slot);
        let (out, out_len) = lent_mut(&mut reply.0);
        // SAFETY: areas, store.
        let code = unsafe { poxilme_read_unchecked(s, s_len, at.number, hash, hash_len, slot, slot_len, out, out_len) };
        result(code, reply)
    }

    /// The slots listed go to the beginning of `taken`.
    pub(crate) fn take(&mut self, at: Block<'_>, taken: &mut [u8]) -> Result<Reply, Refusal> {
        let mut reply = Reply::new();
        let (s, s_len) = lent_mut(&mut self.bytes);
        let (hash, hash_len) = lent(at.hash);
        let (taken, taken_len) = lent_mut(taken);
        let (out, out_len) = lent_mut(&mut reply.0);
        // SAFETY: areas, store.
        let code =
            unsafe { poxilme_take_unchecked(s, s_len, at.number, hash, hash_len, taken, taken_len, out, out_len) };
        result(code, reply)
    }

    pub(crate) fn answer(&mut self, at: Block<'_>, members: &[u8]) -> Result<Reply, Refusal> {
        let mut reply = Reply::new();
        let (s, s_len) = lent_mut(&mut self.bytes);
        let (hash, hash_len) = lent(at.hash);
        let (members, members_len) = lent(members);
        let (out, out_len) = lent_mut(&mut reply.0);
        // SAFETY: areas, store.
        let code = unsafe {
            poxilme_answer_unchecked(s, s_len, at.number, hash, hash_len, members, members_len, out, out_len)
        };
        result(code, reply)
    }

    pub(crate) fn answer_failed(&mut self, at: Block<'_>, slots: &[u8]) -> Result<Reply, Refusal> {
        let mut reply = Reply::new();
        let (s, s_len) = lent_mut(&mut self.bytes);
        let (hash, hash_len) = lent(at.hash);
        let (slots, slots_len) = lent(slots);
        let (out, out_len) = lent_mut(&mut reply.0);
        // SAFETY: areas, store.
        let code = unsafe {
            poxilme_answer_failed_unchecked(s, s_len, at.number, hash, hash_len, slots, slots_len, out, out_len)
        };
        result(code, reply)
    }

    pub(crate) fn read_totals(&self) -> Result<Reply, Refusal> {
        let mut reply = Reply::new();
        let (s, s_len) = lent(&self.bytes);
        let (out, out_len) = lent_mut(&mut reply.0);
        // SAFETY: areas, store; it only reads it.
        let code = unsafe { poxilme_read_totals_unchecked(s, s_len, out, out_len) };
        result(code, reply)
    }
}

/// The lists of final writes, lent flat.
#[derive(Clone, Copy)]
pub(crate) struct Lists<'a> {
    pub(crate) accounts: &'a [u8],
    pub(crate) slots: &'a [u8],
    pub(crate) changes: &'a [u8],
    pub(crate) reads: &'a [u8],
}

/// The plan of final writes: addresses, and the caps on writes and on reads.
#[derive(Clone, Copy)]
pub(crate) struct Plan<'a> {
    pub(crate) addresses: &'a [u8],
    pub(crate) max_writes: u64,
    pub(crate) max_reads: u64,
}

/// Final writes go to the beginning of `writes` and reads to that of `reads`.
pub(crate) fn final_writes(
    lists: Lists<'_>,
    plan: Plan<'_>,
    writes: &mut [u8],
    reads: &mut [u8],
) -> Result<Reply, Refusal> {
    let mut reply = Reply::new();
    let (accounts, accounts_len) = lent(lists.accounts);
    let (slots, slots_len) = lent(lists.slots);
    let (changes, changes_len) = lent(lists.changes);
    let (listed, listed_len) = lent(lists.reads);
    let (addresses, addresses_len) = lent(plan.addresses);
    let (writes, writes_len) = lent_mut(writes);
    let (reads, reads_len) = lent_mut(reads);
    let (out, out_len) = lent_mut(&mut reply.0);
    // SAFETY: areas.
    let code = unsafe {
        poxilme_final_writes(
            accounts,
            accounts_len,
            slots,
            slots_len,
            changes,
            changes_len,
            listed,
            listed_len,
            addresses,
            addresses_len,
            plan.max_writes,
            plan.max_reads,
            writes,
            writes_len,
            reads,
            reads_len,
            out,
            out_len,
        )
    };
    result(code, reply)
}

/// The areas of a run.
pub(crate) struct RunAreas {
    pub(crate) store: Vec<u8>,
    pub(crate) work: Vec<u8>,
    pub(crate) entries: Vec<u8>,
    pub(crate) members: Vec<u8>,
    pub(crate) out: Vec<u8>,
}

/// Runs a call list from the place `from` on the store in `areas`, which may hold any bytes.
pub(crate) fn run(list: &[u8], from: usize, areas: &mut RunAreas) -> Result<Reply, Refusal> {
    let mut reply = Reply::new();
    let (list, list_len) = lent(list);
    let (s, s_len) = lent_mut(&mut areas.store);
    let (work, work_len) = lent_mut(&mut areas.work);
    let (entries, entries_len) = lent_mut(&mut areas.entries);
    let (members, members_len) = lent_mut(&mut areas.members);
    let (text, text_len) = lent_mut(&mut areas.out);
    let (out, out_len) = lent_mut(&mut reply.0);
    // SAFETY: areas; a run checks the store.
    let code = unsafe {
        poxilme_run(
            list,
            list_len,
            from,
            s,
            s_len,
            work,
            work_len,
            entries,
            entries_len,
            members,
            members_len,
            text,
            text_len,
            out,
            out_len,
        )
    };
    result(code, reply)
}

#[cfg(test)]
mod tests;
