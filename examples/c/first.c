// Stores a reference into region 1, and asks at a pause which cards have to be scanned.
#include "g1.h"

#include <stdio.h>

enum { REGIONS = 4, CARDS = 2, SLOTS = 4, ALL_CARDS = REGIONS * CARDS };

int main(void) {
    // a card is hot from 4 refinements on, and the ring holds 1,024 hot cards
    struct g1_counts counts = {REGIONS, CARDS, SLOTS};
    struct g1 core = {0};
    if (g1_open(&core, &counts, 4, 1024) != G1_DONE) {
        return 1;
    }

    // a thread's dirty card queue
    uint32_t queue[G1_LOG];
    size_t length = 0;
    uint32_t slot = 0, target = 8, kind;
    if (g1_store(&core, slot, target, &kind) == G1_DONE && kind == G1_STORED_LOGGED) {
        queue[length++] = slot / SLOTS;
    }
    if (length == G1_LOG) {
        uint32_t refined[G1_LOG];
        struct g1_tally tally;
        if (g1_refine(&core, queue, length, refined, G1_LOG, &tally) == G1_DONE) {
            length = 0;
        }
    }

    uint32_t cards[ALL_CARDS], refined[ALL_CARDS], count, refined_count;
    if (g1_drain(&core, 1, cards, ALL_CARDS, &count, refined, ALL_CARDS, &refined_count) == G1_DONE) {
        for (uint32_t i = 0; i < count; i++) {
            printf("scan card %u\n", (unsigned)cards[i]);
        }
    }
    return g1_close(&core) != G1_DONE;
}
