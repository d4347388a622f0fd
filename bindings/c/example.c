/* The first carried block: a pool's reserve and fee, from block 100 to block 101. bindings/run builds and runs it:
 *     cc -std=c11 -I bindings/c bindings/c/example.c crates/poxilme/out/libpoxilme.a -o example && ./example
 */
#include "poxilme.h"

#include <stdio.h>
#include <stdlib.h>
#include <string.h>

#define CAPACITY 256

/* A store and what its calls are lent, allocated once. */
static uint8_t store[POXILME_STORE_SIZE(CAPACITY)];
static uint8_t work[POXILME_STORE_SIZE(CAPACITY)];
static uint8_t taken[POXILME_TAKE_SIZE];
static uint8_t reply[POXILME_REPLY_SIZE];

/* Ends the program where a call was refused that should not be. */
static void accepted(const char *call, uint64_t refusal) {
    if (refusal != POXILME_OK) {
        fprintf(stderr, "%s: refused by %d: %s\n", call, (int)refusal, poxilme_refusal_words(refusal));
        exit(1);
    }
}

/* A slot of the pool. */
static void pool_slot(uint8_t slot[POXILME_SLOT_SIZE], uint64_t index) {
    memset(slot, 0xc0, POXILME_ADDRESS_SIZE);
    poxilme_put_number(slot + POXILME_ADDRESS_SIZE, POXILME_WORD_SIZE, index);
}

/* The node of this example: the slots' values at block 100. */
static uint64_t ask_node(const uint8_t *slot) { return slot[POXILME_SLOT_SIZE - 1] == 8 ? 0x1000 : 0x30; }

static void print_value(const char *what, const uint8_t *value) {
    printf("%s 0x", what);
    for (int i = 0; i < POXILME_WORD_SIZE; i++) {
        printf("%02x", value[i]);
    }
    printf("\n");
}

int main(void) {
    uint8_t hash_100[POXILME_WORD_SIZE], hash_101[POXILME_WORD_SIZE];
    uint8_t reserve[POXILME_SLOT_SIZE], fee[POXILME_SLOT_SIZE];
    memset(hash_100, 0xa0, sizeof hash_100);
    memset(hash_101, 0xa1, sizeof hash_101);
    pool_slot(reserve, 8);
    pool_slot(fee, 3);

    /* A store for 256 records: depth limit 8, slots served without a limit of blocks. Then block 100. */
    accepted("open", poxilme_open(store, sizeof store, CAPACITY, POXILME_DEFAULT_MAX_DEPTH, POXILME_UNBOUNDED, 0, reply,
                                  sizeof reply));
    accepted("install", poxilme_install(store, sizeof store, 100, hash_100, sizeof hash_100, reply, sizeof reply));

    /* Reads of slots that are not served wait; the queue is taken, the node asked, and the answer given. */
    const uint8_t *slots[2] = {reserve, fee};
    for (int i = 0; i < 2; i++) {
        accepted("read", poxilme_read(store, sizeof store, 100, hash_100, sizeof hash_100, slots[i], POXILME_SLOT_SIZE,
                                      reply, sizeof reply));
        if (poxilme_word(reply, 0) == 0) {
            printf("waits: index %d, %d waiter\n", slots[i][POXILME_SLOT_SIZE - 1], (int)poxilme_word(reply, 1));
        }
    }
    accepted("take", poxilme_take(store, sizeof store, 100, hash_100, sizeof hash_100, taken, sizeof taken, reply,
                                  sizeof reply));
    size_t count = (size_t)poxilme_word(reply, 0);
    uint8_t members[2 * POXILME_MEMBER_SIZE];
    for (size_t i = 0; i < count; i++) {
        const uint8_t *slot = taken + i * POXILME_SLOT_SIZE;
        uint8_t *member = members + i * POXILME_MEMBER_SIZE;
        memcpy(member, slot, POXILME_SLOT_SIZE);
        member[POXILME_SLOT_SIZE] = 1;
        poxilme_put_number(member + POXILME_SLOT_SIZE + 1, POXILME_WORD_SIZE, ask_node(slot));
    }
    accepted("answer", poxilme_answer(store, sizeof store, 100, hash_100, sizeof hash_100, members,
                                      count * POXILME_MEMBER_SIZE, reply, sizeof reply));
    printf("answered: %d slots, %d waiters woken\n", (int)poxilme_word(reply, 0), (int)poxilme_word(reply, 2));

    /* Block 101 names block 100 as its parent. Its block access list has one final write: a swap changed the reserve. */
    uint8_t writes[POXILME_WRITE_SIZE], applied[POXILME_SLOT_SIZE];
    memcpy(writes, reserve, POXILME_SLOT_SIZE);
    poxilme_put_number(writes + POXILME_SLOT_SIZE, POXILME_WORD_SIZE, 0x1111);
    accepted("advance", poxilme_advance(store, sizeof store, 101, hash_101, sizeof hash_101, hash_100, sizeof hash_100,
                                        POXILME_DECODED, POXILME_EMPTY, writes, sizeof writes, work, sizeof work, applied,
                                        sizeof applied, reply, sizeof reply));
    printf("block 101: %s, %d carried, %d applied, %d live\n",
           poxilme_word(reply, POXILME_ADVANCE_OUTCOME) == POXILME_CARRIED ? "carried" : "cold",
           (int)poxilme_word(reply, POXILME_ADVANCE_CARRIED), (int)poxilme_word(reply, POXILME_ADVANCE_APPLIED),
           (int)poxilme_word(reply, POXILME_ADVANCE_LIVE));

    for (int i = 0; i < 2; i++) {
        accepted("get", poxilme_get(store, sizeof store, 101, hash_101, sizeof hash_101, slots[i], POXILME_SLOT_SIZE,
                                    reply, sizeof reply));
        print_value(i == 0 ? "reserve" : "fee", poxilme_value(reply));
    }

    /* Who still works at block 100 is refused. */
    uint64_t late = poxilme_get(store, sizeof store, 100, hash_100, sizeof hash_100, fee, sizeof fee, reply, sizeof reply);
    printf("at block 100: refused by %d: %s\n", (int)late, poxilme_refusal_words(late));
    return 0;
}
