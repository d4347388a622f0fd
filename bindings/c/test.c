/* Calls every function of the header once or more, on stores small enough to foresee the answer. bindings/run builds and runs it. */
#include "poxilme.h"

#include <stdio.h>
#include <stdlib.h>
#include <string.h>

#define CAPACITY 8
#define SIZE POXILME_STORE_SIZE(CAPACITY)

static uint8_t s[SIZE], work[SIZE], before[SIZE];
static uint8_t reply[POXILME_REPLY_SIZE + 8];
static uint8_t taken[POXILME_TAKE_SIZE];
static uint8_t slot[POXILME_SLOT_SIZE], value[POXILME_WORD_SIZE], hash[POXILME_WORD_SIZE], child[POXILME_WORD_SIZE];
static uint8_t write_entry[POXILME_WRITE_SIZE], member[POXILME_MEMBER_SIZE], applied[POXILME_SLOT_SIZE];

/* An area of known length, as pointer and length. */
#define AREA(a) (a), sizeof(a)
#define AT 7, AREA(hash)

#define EXPECT(condition) expect((condition), #condition, __LINE__)

static void expect(bool holds, const char *what, int line) {
    if (!holds) {
        fprintf(stderr, "bindings/c/test.c:%d: %s\n", line, what);
        exit(1);
    }
}

static uint64_t word(int i) { return poxilme_word(reply, i); }

static void sizes(void) {
    EXPECT(poxilme_store_size(0) == 0 && poxilme_store_size(POXILME_MAX_CAPACITY + 1) == 0);
    for (uint64_t c = 1; c <= POXILME_MAX_CAPACITY; c++) {
        EXPECT(poxilme_store_size(c) == POXILME_STORE_SIZE(c));
    }
    EXPECT(POXILME_SLOT_SIZE == POXILME_ADDRESS_SIZE + POXILME_WORD_SIZE);
    EXPECT(POXILME_WRITE_SIZE == POXILME_SLOT_SIZE + POXILME_WORD_SIZE && POXILME_MEMBER_SIZE == POXILME_WRITE_SIZE + 1);
    uint8_t eight[8];
    poxilme_put_u64(eight, 0x0102030405060708);
    EXPECT(eight[0] == 1 && eight[7] == 8 && poxilme_get_u64(eight) == 0x0102030405060708);
}

static void opens(void) {
    EXPECT(!poxilme_is_store(AREA(s)));
    EXPECT(poxilme_install(AREA(s), AT, AREA(reply)) == POXILME_NOT_A_STORE);
    EXPECT(poxilme_open(AREA(s), 0, 1, POXILME_UNBOUNDED, 0, AREA(reply)) == POXILME_CAPACITY_OUT_OF_RANGE);
    EXPECT(poxilme_open(AREA(s), CAPACITY, 256, POXILME_UNBOUNDED, 0, AREA(reply)) == POXILME_DEPTH_LIMIT_TOO_LARGE);
    EXPECT(poxilme_open(AREA(s), CAPACITY, 1, 2, 0, AREA(reply)) == POXILME_UNKNOWN_FORM);
    EXPECT(poxilme_open(AREA(s), CAPACITY + 1, 1, POXILME_UNBOUNDED, 0, AREA(reply)) == POXILME_AREA_TOO_SHORT);
    EXPECT(poxilme_open(AREA(s), CAPACITY, 1, POXILME_IDLE_BLOCKS, 5, AREA(reply)) == POXILME_OK);
    EXPECT(poxilme_is_store(AREA(s)));
}

/* The calls of one block, by one tier of the functions. */
#define BLOCK_CALLS(tier)                                                                                                    \
    static void block_calls##tier(void) {                                                                                    \
        EXPECT(poxilme_open(AREA(s), CAPACITY, 1, POXILME_IDLE_BLOCKS, 5, AREA(reply)) == POXILME_OK);                       \
        EXPECT(poxilme_read_totals##tier(AREA(s), AREA(reply)) == POXILME_NOTHING_INSTALLED);                                \
        EXPECT(poxilme_look##tier(AREA(s), AT, AREA(slot), AREA(reply)) == POXILME_NOTHING_INSTALLED);                       \
        EXPECT(poxilme_install##tier(AREA(s), AT, AREA(reply)) == POXILME_OK && word(0) == 1);                               \
        EXPECT(poxilme_install##tier(AREA(s), AT, AREA(reply)) == POXILME_OK && word(0) == 0);                               \
        EXPECT(poxilme_look##tier(AREA(s), 7, POXILME_EMPTY, AREA(slot), AREA(reply)) == POXILME_OTHER_ANCHOR);              \
        EXPECT(poxilme_read##tier(AREA(s), AT, AREA(slot), AREA(reply)) == POXILME_OK && word(0) == 0 && word(1) == 1);      \
        EXPECT(poxilme_read##tier(AREA(s), AT, AREA(slot), AREA(reply)) == POXILME_OK && word(0) == 0 && word(1) == 2);      \
        EXPECT(poxilme_answer##tier(AREA(s), AT, AREA(member), AREA(reply)) == POXILME_NOT_TAKEN);                           \
        EXPECT(poxilme_take##tier(AREA(s), AT, taken, 51, AREA(reply)) == POXILME_OUTPUT_TOO_SHORT);                         \
        EXPECT(poxilme_take##tier(AREA(s), AT, AREA(taken), AREA(reply)) == POXILME_OK && word(0) == 1);                     \
        EXPECT(memcmp(taken, slot, sizeof slot) == 0);                                                                       \
        EXPECT(poxilme_answer##tier(AREA(s), AT, AREA(member), AREA(reply)) == POXILME_OK);                                  \
        EXPECT(word(0) == 1 && word(1) == 0 && word(2) == 2);                                                                \
        EXPECT(poxilme_look##tier(AREA(s), AT, AREA(slot), AREA(reply)) == POXILME_OK && word(0) == 1);                      \
        EXPECT(memcmp(poxilme_value(reply), value, sizeof value) == 0);                                                      \
        EXPECT(poxilme_get##tier(AREA(s), AT, AREA(slot), AREA(reply)) == POXILME_OK && word(0) == 1);                       \
        slot[51] ^= 1;                                                                                                       \
        EXPECT(poxilme_get##tier(AREA(s), AT, AREA(slot), AREA(reply)) == POXILME_OK && word(0) == 0 && word(4) == 0);       \
        EXPECT(poxilme_read##tier(AREA(s), AT, AREA(slot), AREA(reply)) == POXILME_OK && word(0) == 0);                      \
        EXPECT(poxilme_take##tier(AREA(s), AT, AREA(taken), AREA(reply)) == POXILME_OK && word(0) == 1);                     \
        EXPECT(poxilme_answer_failed##tier(AREA(s), AT, AREA(slot), AREA(reply)) == POXILME_OK);                             \
        EXPECT(word(0) == 1 && word(1) == 0 && word(2) == 1);                                                                \
        EXPECT(poxilme_read_totals##tier(AREA(s), AREA(reply)) == POXILME_OK);                                               \
        EXPECT(word(0) == 3 && word(1) == 0 && word(2) == 0 && word(3) == 2 && word(4) == 1 && word(5) == 2);                \
        EXPECT(word(6) == 2 && word(7) == 0 && word(8) == 1);                                                                \
        EXPECT(poxilme_put##tier(AREA(s), AT, AREA(slot), AREA(value), AREA(reply)) == POXILME_OK);                          \
        slot[51] ^= 1;                                                                                                       \
        EXPECT(poxilme_advance##tier(AREA(s), 8, AREA(child), AREA(hash), POXILME_SKIP_RPC, POXILME_EMPTY, AREA(write_entry), \
                                     AREA(work), AREA(applied), AREA(reply)) == POXILME_WRITES_WITH_SKIP);                   \
        EXPECT(poxilme_advance##tier(AREA(s), 8, AREA(child), AREA(hash), POXILME_DECODED, slot, POXILME_ADDRESS_SIZE,       \
                                     AREA(write_entry), AREA(work), AREA(applied), AREA(reply)) == POXILME_OK);              \
        EXPECT(word(POXILME_ADVANCE_OUTCOME) == POXILME_CARRIED && word(POXILME_ADVANCE_CARRIED) == 2);                      \
        EXPECT(word(POXILME_ADVANCE_APPLIED) == 1 && word(POXILME_ADVANCE_OVERWRITTEN) == 1);                                \
        EXPECT(word(POXILME_ADVANCE_SKIPPED) == 0 && word(POXILME_ADVANCE_HELD) == 2 && word(POXILME_ADVANCE_LIVE) == 2);    \
        EXPECT(memcmp(applied, slot, sizeof slot) == 0);                                                                     \
        EXPECT(poxilme_advance##tier(AREA(s), 9, POXILME_EMPTY, AREA(hash), POXILME_SKIP_DECODE, POXILME_EMPTY,              \
                                     POXILME_EMPTY, AREA(work), AREA(applied), AREA(reply)) == POXILME_OK);                  \
        EXPECT(word(POXILME_ADVANCE_OUTCOME) == POXILME_COLD && word(POXILME_ADVANCE_SKIP) == POXILME_SKIP_DECODE);          \
        EXPECT(word(POXILME_ADVANCE_LINEAGE) == POXILME_PARENT_HASH_MISMATCH && word(POXILME_ADVANCE_LIVE) == 0);            \
        EXPECT(poxilme_is_store(AREA(s)));                                                                                   \
    }
BLOCK_CALLS()
BLOCK_CALLS(_unchecked)

/* A fixed-size argument that is too short: 9, before 20 and all others, and nothing is written. */
static void short_arguments(void) {
    memcpy(before, s, sizeof s);
    memset(reply, 7, sizeof reply);
    EXPECT(poxilme_look(AREA(s), 7, hash, 31, AREA(slot), AREA(reply)) == POXILME_AREA_TOO_SHORT);
    EXPECT(poxilme_look(AREA(s), AT, slot, 51, AREA(reply)) == POXILME_AREA_TOO_SHORT);
    EXPECT(poxilme_put(AREA(s), AT, AREA(slot), value, 31, AREA(reply)) == POXILME_AREA_TOO_SHORT);
    EXPECT(poxilme_put(AREA(s), AT, AREA(slot), AREA(value), reply, POXILME_REPLY_SIZE - 1) == POXILME_AREA_TOO_SHORT);
    EXPECT(poxilme_look(before, 0, AT, slot, 51, AREA(reply)) == POXILME_AREA_TOO_SHORT);
    EXPECT(memcmp(before, s, sizeof s) == 0);
    for (size_t i = 0; i < sizeof reply; i++) {
        EXPECT(reply[i] == 7);
    }
}

static void runs(void) {
    static const uint8_t list[] = {1, 4, 0, 2, 7, 0, 10};
    static uint8_t entries[POXILME_TAKE_SIZE], members[1], out[POXILME_RUN_OUT_SIZE];
    EXPECT(poxilme_run(AREA(list), 0, AREA(s), AREA(work), AREA(entries), AREA(members), out, sizeof out - 1, AREA(reply)) ==
           POXILME_AREA_TOO_SHORT);
    EXPECT(poxilme_run(list, 6, 0, AREA(s), AREA(work), AREA(entries), AREA(members), AREA(out), AREA(reply)) == POXILME_OK);
    EXPECT(word(0) == POXILME_RUN_STOPPED || word(0) == POXILME_RUN_ENDED);
    EXPECT(poxilme_run(AREA(list), 0, AREA(s), AREA(work), AREA(entries), AREA(members), AREA(out), AREA(reply)) == POXILME_OK);
    size_t written = (size_t)word(2);
    if (word(0) == POXILME_RUN_STOPPED) {
        /* The output has room for one call's lines alone. */
        EXPECT(word(1) == 3 && written == 5 && memcmp(out, "open\n", 5) == 0);
        EXPECT(poxilme_run(AREA(list), 6, AREA(s), AREA(work), AREA(entries), AREA(members), AREA(out), AREA(reply)) ==
               POXILME_OK);
    }
    EXPECT(word(0) == POXILME_RUN_BROKEN && word(1) == 6 && word(3) == POXILME_UNKNOWN_FORM);
}

static void finals(void) {
    static uint8_t account[POXILME_ACCOUNT_SIZE], changed[POXILME_CHANGED_SLOT_SIZE], changes[2 * POXILME_CHANGE_SIZE];
    static uint8_t listed[POXILME_LISTED_READ_SIZE], writes[POXILME_WRITE_SIZE], reads[POXILME_SLOT_SIZE];
    memcpy(account, slot, POXILME_ADDRESS_SIZE);
    poxilme_put_u64(account + 20, 1);
    poxilme_put_u64(account + 28, 1);
    memcpy(changed, slot + POXILME_ADDRESS_SIZE, POXILME_WORD_SIZE);
    poxilme_put_u64(changed + 32, 3);
    memcpy(changes + POXILME_CHANGE_SIZE + 8, value, sizeof value);
    EXPECT(poxilme_final_writes(AREA(account), AREA(changed), AREA(changes), AREA(listed), POXILME_EMPTY, POXILME_UNLIMITED,
                                POXILME_UNLIMITED, AREA(writes), AREA(reads), AREA(reply)) == POXILME_COUNTS_DISAGREE);
    poxilme_put_u64(changed + 32, 2);
    EXPECT(poxilme_final_writes(AREA(account), AREA(changed), AREA(changes), AREA(listed), POXILME_EMPTY, POXILME_UNLIMITED, 0,
                                AREA(writes), AREA(reads), AREA(reply)) == POXILME_OK);
    EXPECT(word(0) == 1 && word(1) == 0 && word(2) == 0 && word(3) == 1);
    EXPECT(memcmp(writes, write_entry, sizeof writes) == 0);
    EXPECT(poxilme_final_writes(AREA(account), AREA(changed), AREA(changes), AREA(listed), hash, POXILME_ADDRESS_SIZE,
                                POXILME_UNLIMITED, POXILME_UNLIMITED, AREA(writes), AREA(reads), AREA(reply)) == POXILME_OK);
    EXPECT(word(0) == 0 && word(1) == 0 && word(2) == 2 && word(3) == 0);
}

int main(void) {
    for (int i = 0; i < POXILME_WORD_SIZE; i++) {
        hash[i] = (uint8_t)(0x10 + i);
        child[i] = (uint8_t)(0x40 + i);
        value[i] = (uint8_t)(0x80 + i);
    }
    for (int i = 0; i < POXILME_SLOT_SIZE; i++) {
        slot[i] = (uint8_t)(0xb0 + i);
    }
    memcpy(write_entry, slot, sizeof slot);
    memcpy(write_entry + sizeof slot, value, sizeof value);
    memcpy(member, slot, sizeof slot);
    member[sizeof slot] = 1;
    memcpy(member + sizeof slot + 1, value, sizeof value);
    sizes();
    opens();
    block_calls();
    block_calls_unchecked();
    short_arguments();
    runs();
    finals();
    printf("bindings/c/test.c: all of it holds\n");
    return 0;
}
