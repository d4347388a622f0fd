/* Poxilme: a store for the storage values of a block chain's contracts. The functions of libpoxilme.a, which
 * `tools/prove poxilme` proves and builds (crates/poxilme/out/libpoxilme.a). docs/USING.md has a first program,
 * docs/REFERENCE.md what each call does.
 *
 * Memory. The store lives in bytes that the caller lends to each call as `s`; the library allocates nothing and keeps
 * no pointer. Each lent area is a pointer and a length. For all areas of one call:
 *   - the pointer is not NULL, also where the length is 0 (POXILME_EMPTY is an empty area);
 *   - an area that is written overlaps no other area of the call.
 * One thread at a time may be in a call that writes a store. poxilme_look, poxilme_is_store and poxilme_read_totals only
 * read it.
 *
 * Bytes. Every number is big-endian. Entries of lists stand one after the other; bytes at a list's end that are no whole
 * entry are no entry.
 *   address 20 bytes; slot 52: address 20, index 32; value 32; hash 32; write 84: slot, value;
 *   member 85: slot, a flag byte, value. Flag 1: answered with the value; flag 0: refused, and the value is not read.
 *
 * Arguments of a fixed size: `slot` has at least 52 bytes, `value`, `parent_hash` and `hash` at least 32 (an empty `hash`
 * is an anchor without one), `reply` at least POXILME_REPLY_SIZE. Bytes past these are not read. A shorter one is refused
 * by 9 before anything else.
 *
 * Results. A call returns 0 if it was accepted, else the number of its refusal. An accepted call writes its answer to
 * `reply`, in words of eight bytes (poxilme_word reads one), and keeps the bytes of `reply` past them. A refused call
 * changes nothing: every byte of store, output and reply stays. (The work area of an advance, and of a run, is free.)
 */
#ifndef POXILME_H
#define POXILME_H

#include <stdbool.h>
#include <stddef.h>
#include <stdint.h>

#ifdef __cplusplus
extern "C" {
#endif

/* Sizes in bytes. */
#define POXILME_ADDRESS_SIZE 20
#define POXILME_WORD_SIZE 32 /* an index, a value, a hash */
#define POXILME_SLOT_SIZE 52
#define POXILME_WRITE_SIZE 84
#define POXILME_MEMBER_SIZE 85
#define POXILME_REPLY_SIZE 96

/* Final writes: entries of its four lists. */
#define POXILME_ACCOUNT_SIZE 36       /* address 20, number of its slots 8, number of its reads 8 */
#define POXILME_CHANGED_SLOT_SIZE 40  /* index 32, number of its changes 8 */
#define POXILME_CHANGE_SIZE 40        /* index of the change in the block 8, value 32 */
#define POXILME_LISTED_READ_SIZE 32   /* index */

/* A store of capacity c, and the work area of an advance on it. */
#define POXILME_MAX_CAPACITY 4096
#define POXILME_STORE_SIZE(c) (7360 + 112 * (size_t)(c))
#define POXILME_MAX_DEPTH 255
#define POXILME_DEFAULT_MAX_DEPTH 8

/* At most this many slots await an answer; an output for all of them. */
#define POXILME_MAX_AWAITING 64
#define POXILME_TAKE_SIZE (POXILME_MAX_AWAITING * POXILME_SLOT_SIZE)

/* A run: the least bytes of its output, and of its area for members. */
#define POXILME_RUN_OUT_SIZE 7237
#define POXILME_RUN_MEMBERS_SIZE(list_len) ((list_len) / 53 * 85)

/* Final writes: no cap. */
#define POXILME_UNLIMITED UINT64_MAX

/* An empty area: pointer and length. */
#define POXILME_EMPTY ((const uint8_t *)""), (size_t)0

/* Refusals. docs/REFERENCE.md says what to do about each. */
#define POXILME_OK 0
#define POXILME_CAPACITY_OUT_OF_RANGE 1
#define POXILME_DEPTH_LIMIT_TOO_LARGE 2
#define POXILME_UNKNOWN_FORM 3
#define POXILME_BAD_NUMBER 4
#define POXILME_CUT_SHORT 5
#define POXILME_WRITES_WITH_SKIP 6
#define POXILME_UNKNOWN_SKIP 7
#define POXILME_SLOT_TWICE 8
#define POXILME_AREA_TOO_SHORT 9
#define POXILME_COUNTS_DISAGREE 10
#define POXILME_NOT_A_STORE 20
#define POXILME_NOTHING_INSTALLED 21
#define POXILME_OTHER_ANCHOR 22
#define POXILME_STORE_FULL 23
#define POXILME_QUEUE_FULL 24
#define POXILME_TOO_MANY_READS 25
#define POXILME_NOT_TAKEN 26
#define POXILME_OUTPUT_TOO_SHORT 27

/* open's `bounded`. */
#define POXILME_UNBOUNDED 0
#define POXILME_IDLE_BLOCKS 1

/* advance's `skip`: whether, and why not, the child's list of changed slots was read. */
#define POXILME_DECODED 0
#define POXILME_SKIP_NO_ANCHOR_HASH 1
#define POXILME_SKIP_RPC 2
#define POXILME_SKIP_DECODE 3

/* advance's answer: its words. */
#define POXILME_ADVANCE_OUTCOME 0
#define POXILME_ADVANCE_CARRIED 1     /* slots with a value in the layers; 0 unless carried */
#define POXILME_ADVANCE_LINEAGE 2     /* 0 unless cold */
#define POXILME_ADVANCE_SKIP 3        /* 0 unless cold */
#define POXILME_ADVANCE_APPLIED 4     /* the slots in `out` */
#define POXILME_ADVANCE_OVERWRITTEN 5
#define POXILME_ADVANCE_SKIPPED 6
#define POXILME_ADVANCE_HELD 7
#define POXILME_ADVANCE_LIVE 8
#define POXILME_ADVANCE_MERGED 9      /* of a fold; 0 without one */
#define POXILME_ADVANCE_LEFT 10
#define POXILME_ADVANCE_DROPPED 11

/* Its outcome. */
#define POXILME_ALREADY_CURRENT 0
#define POXILME_CARRIED 1
#define POXILME_COLD 2

/* Its lineage. */
#define POXILME_LINKED 0
#define POXILME_NO_PARENT 1
#define POXILME_NOT_CONSECUTIVE 2
#define POXILME_PARENT_HASH_UNKNOWN 3
#define POXILME_PARENT_HASH_MISMATCH 4

/* run's answer: its first word. */
#define POXILME_RUN_STOPPED 0
#define POXILME_RUN_ENDED 1
#define POXILME_RUN_BROKEN 2

/* --- Sizes and checks --- */

/* The bytes of a store of `capacity` records: POXILME_STORE_SIZE for 1 to 4,096, else 0. */
uint64_t poxilme_store_size(uint64_t capacity);

/* Whether the bytes begin with a store. */
bool poxilme_is_store(const uint8_t *s, size_t s_len);

/* --- Calls that check on each call that the bytes are a store (any bytes may be given) --- */

/* Makes the bytes a store with nothing installed, whatever they were. `bounded` POXILME_UNBOUNDED: `idle` is not read;
 * POXILME_IDLE_BLOCKS: a slot is served up to `idle` blocks after its last use; other: 3. A `max_depth` of 0 is taken as 1.
 * Refused by 9 (reply), 3, 1, 2, 9 (store). No words. */
uint64_t poxilme_open(uint8_t *s, size_t s_len, uint64_t capacity, uint64_t max_depth, uint64_t bounded, uint64_t idle,
                      uint8_t *reply, size_t reply_len);

/* Installs the anchor: the installed one again changes nothing, another starts empty.
 * Refused by 9, 20. Words: 0 the same, 1 fresh. */
uint64_t poxilme_install(uint8_t *s, size_t s_len, uint64_t number, const uint8_t *hash, size_t hash_len, uint8_t *reply,
                         size_t reply_len);

/* The value that a slot is served with; changes nothing.
 * Refused by 9, 20, 21, 22. Words: 1 and the value's four, or 0 and four words of 0. */
uint64_t poxilme_look(const uint8_t *s, size_t s_len, uint64_t number, const uint8_t *hash, size_t hash_len,
                      const uint8_t *slot, size_t slot_len, uint8_t *reply, size_t reply_len);

/* As look, and a served slot's last use becomes the installed number.
 * Refused by 9, 20, 21, 22, 23. Words as look's. */
uint64_t poxilme_get(uint8_t *s, size_t s_len, uint64_t number, const uint8_t *hash, size_t hash_len, const uint8_t *slot,
                     size_t slot_len, uint8_t *reply, size_t reply_len);

/* Sets a slot's value, and its last use to the installed number.
 * Refused by 9, 20, 21, 22, 23. No words. */
uint64_t poxilme_put(uint8_t *s, size_t s_len, uint64_t number, const uint8_t *hash, size_t hash_len, const uint8_t *slot,
                     size_t slot_len, const uint8_t *value, size_t value_len, uint8_t *reply, size_t reply_len);

/* Goes to the child block (`number`, `hash`), whose header names `parent_hash`, and applies its final writes. With a
 * `skip` other than 0 `writes` is empty. Slots of `addresses` are taken in where they are not served. `work` has as many
 * bytes as the store, `out` a slot's for each write: it receives the slots applied, in order.
 * Refused by 9 (fixed sizes), 20, 6, 7, 9, 23. Words: POXILME_ADVANCE_.. */
uint64_t poxilme_advance(uint8_t *s, size_t s_len, uint64_t number, const uint8_t *hash, size_t hash_len,
                         const uint8_t *parent_hash, size_t parent_hash_len, uint64_t skip, const uint8_t *addresses,
                         size_t addresses_len, const uint8_t *writes, size_t writes_len, uint8_t *work, size_t work_len,
                         uint8_t *out, size_t out_len, uint8_t *reply, size_t reply_len);

/* A served slot's value, as get; else the slot awaits an answer with one more waiter.
 * Refused by 9, 20, 21, 22, 25, 24, 23. Words: 1 and the value's four; or 0, the waiters and three words of 0. */
uint64_t poxilme_read(uint8_t *s, size_t s_len, uint64_t number, const uint8_t *hash, size_t hash_len, const uint8_t *slot,
                      size_t slot_len, uint8_t *reply, size_t reply_len);

/* Lists the queued slots to `out`, rising, and marks them taken. POXILME_TAKE_SIZE bytes are always enough.
 * Refused by 9, 20, 21, 22, 27. Words: the number of slots listed. */
uint64_t poxilme_take(uint8_t *s, size_t s_len, uint64_t number, const uint8_t *hash, size_t hash_len, uint8_t *out,
                      size_t out_len, uint8_t *reply, size_t reply_len);

/* The answer to taken slots, some or all, as members.
 * Refused by 9, 3, 20, 8, 21, 22, 26, 23. Words: members, refused members, waiters woken. */
uint64_t poxilme_answer(uint8_t *s, size_t s_len, uint64_t number, const uint8_t *hash, size_t hash_len,
                        const uint8_t *members, size_t members_len, uint8_t *reply, size_t reply_len);

/* The answer of a round that failed as a whole, to taken slots.
 * Refused by 9, 20, 8, 21, 22, 26. Words: members, 0, waiters woken. */
uint64_t poxilme_answer_failed(uint8_t *s, size_t s_len, uint64_t number, const uint8_t *hash, size_t hash_len,
                               const uint8_t *slots, size_t slots_len, uint8_t *reply, size_t reply_len);

/* The totals of the installed generation's reads.
 * Refused by 9, 20, 21. Words: accepted, served, waiting, woken with a value, woken refused, rounds, members, member
 * errors, coalesced. */
uint64_t poxilme_read_totals(const uint8_t *s, size_t s_len, uint8_t *reply, size_t reply_len);

/* --- The same calls without the check ---
 * For an owner of bytes that are a store: poxilme_open was accepted on them, or poxilme_is_store said true of them, and
 * since then only functions of this header have written them. On other bytes nothing is promised, not even that a call
 * stays within the lent areas. Each leaves the bytes a store again. Refused as above, but never by 20. */

uint64_t poxilme_install_unchecked(uint8_t *s, size_t s_len, uint64_t number, const uint8_t *hash, size_t hash_len,
                                   uint8_t *reply, size_t reply_len);
uint64_t poxilme_look_unchecked(const uint8_t *s, size_t s_len, uint64_t number, const uint8_t *hash, size_t hash_len,
                                const uint8_t *slot, size_t slot_len, uint8_t *reply, size_t reply_len);
uint64_t poxilme_get_unchecked(uint8_t *s, size_t s_len, uint64_t number, const uint8_t *hash, size_t hash_len,
                               const uint8_t *slot, size_t slot_len, uint8_t *reply, size_t reply_len);
uint64_t poxilme_put_unchecked(uint8_t *s, size_t s_len, uint64_t number, const uint8_t *hash, size_t hash_len,
                               const uint8_t *slot, size_t slot_len, const uint8_t *value, size_t value_len,
                               uint8_t *reply, size_t reply_len);
uint64_t poxilme_advance_unchecked(uint8_t *s, size_t s_len, uint64_t number, const uint8_t *hash, size_t hash_len,
                                   const uint8_t *parent_hash, size_t parent_hash_len, uint64_t skip,
                                   const uint8_t *addresses, size_t addresses_len, const uint8_t *writes,
                                   size_t writes_len, uint8_t *work, size_t work_len, uint8_t *out, size_t out_len,
                                   uint8_t *reply, size_t reply_len);
uint64_t poxilme_read_unchecked(uint8_t *s, size_t s_len, uint64_t number, const uint8_t *hash, size_t hash_len,
                                const uint8_t *slot, size_t slot_len, uint8_t *reply, size_t reply_len);
uint64_t poxilme_take_unchecked(uint8_t *s, size_t s_len, uint64_t number, const uint8_t *hash, size_t hash_len,
                                uint8_t *out, size_t out_len, uint8_t *reply, size_t reply_len);
uint64_t poxilme_answer_unchecked(uint8_t *s, size_t s_len, uint64_t number, const uint8_t *hash, size_t hash_len,
                                  const uint8_t *members, size_t members_len, uint8_t *reply, size_t reply_len);
uint64_t poxilme_answer_failed_unchecked(uint8_t *s, size_t s_len, uint64_t number, const uint8_t *hash, size_t hash_len,
                                         const uint8_t *slots, size_t slots_len, uint8_t *reply, size_t reply_len);
uint64_t poxilme_read_totals_unchecked(const uint8_t *s, size_t s_len, uint8_t *reply, size_t reply_len);

/* --- Call lists and final writes --- */

/* Runs a call list from the place `from` (0 for its beginning) on the store in `s`, and writes the listing to `out`.
 * `work` has as many bytes as `s`, `entries` 52 for each write of the list's longest advance and at least
 * POXILME_TAKE_SIZE, `members` at least POXILME_RUN_MEMBERS_SIZE(list_len), `out` at least POXILME_RUN_OUT_SIZE.
 * Refused by 9 (reply, members, out). Words: POXILME_RUN_STOPPED (`out` was full: call again from the place),
 * POXILME_RUN_ENDED or POXILME_RUN_BROKEN; the place to go on from, or that of the fault; bytes written to `out`; the
 * fault's number (3, 4, 5), or 0. */
uint64_t poxilme_run(const uint8_t *list, size_t list_len, size_t from, uint8_t *s, size_t s_len, uint8_t *work,
                     size_t work_len, uint8_t *entries, size_t entries_len, uint8_t *members, size_t members_len,
                     uint8_t *out, size_t out_len, uint8_t *reply, size_t reply_len);

/* Turns a decoded block access list (EIP-7928) into the writes of an advance and a list of reads. `writes_out` has room
 * for a write for each entry of `slots`, `reads_out` for a slot for each of `reads`. An empty `plan_addresses` admits every
 * account. The caps are numbers, or POXILME_UNLIMITED.
 * Refused by 9 (reply), 10, 9. Words: writes, reads, filtered, capped. */
uint64_t poxilme_final_writes(const uint8_t *accounts, size_t accounts_len, const uint8_t *slots, size_t slots_len,
                              const uint8_t *changes, size_t changes_len, const uint8_t *reads, size_t reads_len,
                              const uint8_t *plan_addresses, size_t plan_addresses_len, uint64_t max_writes,
                              uint64_t max_reads, uint8_t *writes_out, size_t writes_out_len, uint8_t *reads_out,
                              size_t reads_out_len, uint8_t *reply, size_t reply_len);

/* --- Big-endian numbers --- */

/* The number in eight bytes. */
static inline uint64_t poxilme_get_u64(const uint8_t *bytes) {
    uint64_t x = 0;
    for (int i = 0; i < 8; i++) {
        x = x << 8 | bytes[i];
    }
    return x;
}

/* Writes a number to eight bytes. */
static inline void poxilme_put_u64(uint8_t *bytes, uint64_t x) {
    for (int i = 7; i >= 0; i--) {
        bytes[i] = (uint8_t)(x & 255);
        x >>= 8;
    }
}

/* The word of a reply, counted from 0. */
static inline uint64_t poxilme_word(const uint8_t *reply, int word) {
    return poxilme_get_u64(reply + 8 * word);
}

/* Writes a number to the `n` bytes of an address (20), an index, a value or a hash (32). */
static inline void poxilme_put_number(uint8_t *bytes, size_t n, uint64_t x) {
    for (size_t i = n; i > 0; i--) {
        bytes[i - 1] = (uint8_t)(x & 255);
        x >>= 8;
    }
}

/* The value in the reply of a look, a get or a served read: its 32 bytes. */
static inline const uint8_t *poxilme_value(const uint8_t *reply) { return reply + 8; }

/* A refusal's words. */
static inline const char *poxilme_refusal_words(uint64_t refusal) {
    switch (refusal) {
    case POXILME_OK: return "accepted";
    case POXILME_CAPACITY_OUT_OF_RANGE: return "the capacity is 0 or above 4,096 records";
    case POXILME_DEPTH_LIMIT_TOO_LARGE: return "the depth limit is above 255";
    case POXILME_UNKNOWN_FORM: return "an unknown call code or form byte, or a member's flag that is neither 0 nor 1";
    case POXILME_BAD_NUMBER: return "a number in a call list is not in its shortest form, or is 2^64 or more";
    case POXILME_CUT_SHORT: return "the call list ends inside a call";
    case POXILME_WRITES_WITH_SKIP: return "a skip other than 0, and writes";
    case POXILME_UNKNOWN_SKIP: return "the skip is above 3";
    case POXILME_SLOT_TWICE: return "an answer names a slot twice";
    case POXILME_AREA_TOO_SHORT: return "a lent area is too short";
    case POXILME_COUNTS_DISAGREE: return "the counts of slots, changes or reads do not sum to the lists' lengths";
    case POXILME_NOT_A_STORE: return "the bytes are not a store";
    case POXILME_NOTHING_INSTALLED: return "nothing is installed";
    case POXILME_OTHER_ANCHOR: return "another anchor is installed than the call names";
    case POXILME_STORE_FULL: return "after the call there would be more records than the capacity";
    case POXILME_QUEUE_FULL: return "the slot would be the 65th that awaits an answer";
    case POXILME_TOO_MANY_READS: return "the generation has had 4,294,967,295 accepted reads";
    case POXILME_NOT_TAKEN: return "an answered slot has not been taken";
    case POXILME_OUTPUT_TOO_SHORT: return "a take's output holds fewer entries than the queue";
    default: return "no refusal of this library";
    }
}

#ifdef __cplusplus
}
#endif

#endif
