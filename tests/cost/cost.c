// Stores of one kind, to be counted: `cost null|same-region|dirty|logged|queued STORES`, on the heap 256 64 8. See the script measure
// beside. `queued` are logged stores whose cards go into an array that is handed over once it is full. `cost drain CARDS` is one drain
// with CARDS cards pending, each with one reference that is recorded already.
#include "g1.h"

#include <stdint.h>
#include <stdlib.h>
#include <string.h>

enum { REGIONS = 256, CARDS = 64, SLOTS = 8, ALL_CARDS = REGIONS * CARDS, REGION_SLOTS = CARDS * SLOTS, ALL_SLOTS = ALL_CARDS * SLOTS };

static uint32_t slots[ALL_CARDS], targets[ALL_CARDS];
static uint32_t handed_over[G1_LOG];

// The loops that callgrind counts.
__attribute__((noinline)) static size_t run(struct g1 *heap, size_t stores) {
    size_t sum = 0;
    for (size_t i = 0; i < stores; i++) {
        uint32_t kind;
        sum += g1_store(heap, slots[i], targets[i], &kind);
        sum += kind;
    }
    return sum;
}

__attribute__((noinline)) static size_t run_queued(struct g1 *heap, size_t stores) {
    uint32_t queue[G1_LOG];
    size_t length = 0, sum = 0;
    for (size_t i = 0; i < stores; i++) {
        uint32_t kind;
        sum += g1_store(heap, slots[i], targets[i], &kind);
        sum += kind;
        if (kind == G1_STORED_LOGGED) {
            queue[length++] = slots[i] / SLOTS;
            if (length == G1_LOG) {
                memcpy(handed_over, queue, sizeof queue);
                length = 0;
            }
        }
    }
    return sum;
}

static uint32_t cards[ALL_CARDS], refined[ALL_CARDS];

// Returns how many cards the drain refined.
__attribute__((noinline)) static size_t run_drain(struct g1 *heap) {
    uint32_t count, refined_count;
    uint32_t code = g1_drain(heap, 0, cards, ALL_CARDS, &count, refined, ALL_CARDS, &refined_count);
    return code == G1_DONE ? refined_count : 0;
}

// Stores one reference on each of these cards.
static void store_across(struct g1 *heap, size_t cards_length) {
    for (uint32_t i = 0; i < cards_length; i++) {
        uint32_t kind;
        g1_store(heap, i * SLOTS, (i * SLOTS + ALL_SLOTS / 2) % ALL_SLOTS, &kind);
    }
}

// Makes cards pending whose references are recorded.
static size_t drain(struct g1 *heap, size_t pending) {
    store_across(heap, ALL_CARDS);
    uint32_t count, refined_count;
    if (g1_drain(heap, 0, cards, ALL_CARDS, &count, refined, ALL_CARDS, &refined_count) != G1_DONE) {
        return 0;
    }
    store_across(heap, pending);
    return run_drain(heap);
}

static void set_up(struct g1 *heap, uint32_t kind) {
    for (uint32_t i = 0; i < ALL_CARDS; i++) {
        slots[i] = i * SLOTS;
        targets[i] = (slots[i] + ALL_SLOTS / 2) % ALL_SLOTS;
        if (kind == G1_STORED_DIRTY) {
            uint32_t first;
            g1_store(heap, slots[i], targets[i], &first);
        } else if (kind == G1_STORED_NULL) {
            targets[i] = G1_NULL;
        } else if (kind == G1_STORED_SAME_REGION) {
            targets[i] = slots[i] / REGION_SLOTS * REGION_SLOTS;
        }
    }
}

int main(int number, char **words) {
    static const char *const names[] = {"null", "same-region", "dirty", "logged", "queued", "drain"};
    enum { QUEUED = 4, DRAIN = 5, KINDS = 6 };
    struct g1_counts counts = {REGIONS, CARDS, SLOTS};
    struct g1 heap = {0};
    uint32_t at = 0;
    if (number < 3) {
        return 1;
    }
    size_t stores = (size_t)atol(words[2]);
    while (at < KINDS && strcmp(words[1], names[at]) != 0) {
        at++;
    }
    if (at == KINDS || stores > ALL_CARDS || g1_open(&heap, &counts, 4, 1024) != G1_DONE) {
        return 1;
    }
    if (at == DRAIN) {
        size_t drained = drain(&heap, stores);
        g1_close(&heap);
        return drained != stores;
    }
    uint32_t kind = at < QUEUED ? at : G1_STORED_LOGGED;
    set_up(&heap, kind);
    size_t sum = at < QUEUED ? run(&heap, stores) : run_queued(&heap, stores);
    g1_close(&heap);
    return sum != kind * stores || handed_over[0] >= ALL_CARDS;
}
