//! The functions of the static library that are timed (bindings/c/poxilme.h says what each takes).
#[rustfmt::skip]
extern "C" {
    pub fn poxilme_store_size(capacity: u64) -> u64;
    pub fn poxilme_is_store(s: *const u8, s_len: usize) -> bool;
    pub fn poxilme_open(s: *mut u8, s_len: usize, capacity: u64, max_depth: u64, bounded: u64, idle: u64, reply: *mut u8, reply_len: usize) -> u64;
    pub fn poxilme_install(s: *mut u8, s_len: usize, number: u64, hash: *const u8, hash_len: usize, reply: *mut u8, reply_len: usize) -> u64;
    pub fn poxilme_look(s: *const u8, s_len: usize, number: u64, hash: *const u8, hash_len: usize, slot: *const u8, slot_len: usize, reply: *mut u8, reply_len: usize) -> u64;
    pub fn poxilme_look_unchecked(s: *const u8, s_len: usize, number: u64, hash: *const u8, hash_len: usize, slot: *const u8, slot_len: usize, reply: *mut u8, reply_len: usize) -> u64;
    pub fn poxilme_get_unchecked(s: *mut u8, s_len: usize, number: u64, hash: *const u8, hash_len: usize, slot: *const u8, slot_len: usize, reply: *mut u8, reply_len: usize) -> u64;
    pub fn poxilme_put_unchecked(s: *mut u8, s_len: usize, number: u64, hash: *const u8, hash_len: usize, slot: *const u8, slot_len: usize, value: *const u8, value_len: usize, reply: *mut u8, reply_len: usize) -> u64;
    pub fn poxilme_read_unchecked(s: *mut u8, s_len: usize, number: u64, hash: *const u8, hash_len: usize, slot: *const u8, slot_len: usize, reply: *mut u8, reply_len: usize) -> u64;
    pub fn poxilme_take_unchecked(s: *mut u8, s_len: usize, number: u64, hash: *const u8, hash_len: usize, out: *mut u8, out_len: usize, reply: *mut u8, reply_len: usize) -> u64;
    pub fn poxilme_answer_unchecked(s: *mut u8, s_len: usize, number: u64, hash: *const u8, hash_len: usize, members: *const u8, members_len: usize, reply: *mut u8, reply_len: usize) -> u64;
    pub fn poxilme_advance_unchecked(s: *mut u8, s_len: usize, number: u64, hash: *const u8, hash_len: usize, parent_hash: *const u8, parent_hash_len: usize, skip: u64, addresses: *const u8, addresses_len: usize, writes: *const u8, writes_len: usize, work: *mut u8, work_len: usize, out: *mut u8, out_len: usize, reply: *mut u8, reply_len: usize) -> u64;
}

pub const REPLY: usize = 96;

/// Word i of a reply.
pub fn word(reply: &[u8], i: usize) -> u64 {
    u64::from_be_bytes(reply[8 * i..8 * i + 8].try_into().unwrap())
}
