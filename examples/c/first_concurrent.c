// A concurrent heap from its open to its close: a mutator stores, and a pause says what to scan.
#include "g1.h"

#include <stdio.h>

enum { REGIONS = 4, CARDS = 2, SLOTS = 4, ALL_CARDS = REGIONS * CARDS };

int main(void) {
    struct g1_counts counts = {REGIONS, CARDS, SLOTS};
    struct g1_heap heap = {0};
    struct g1_racer racer = {0};     // by which one mutator thread stores
    struct g1_sweeper sweeper = {0}; // by which one refinement thread refines
    if (g1_heap_open(&heap, &counts, 1, 1) != G1_DONE) {
        return 1;
    }
    g1_heap_resume(&heap, &racer, 1, &sweeper, 1);

    uint32_t kind, log[G1_LOG], length; // in the mutator's thread
    while (g1_race_store(&racer, 0, 8, &kind) == G1_LOG_FULL) {
        g1_race_take_log(&racer, log, G1_LOG, &length);
        for (uint32_t i = 0; i < length; i++) { // in the refinement thread
            g1_race_refine(&sweeper, log[i]);
        }
    }

    uint32_t cards[ALL_CARDS], count; // in the collector, once these threads have stopped
    g1_heap_pause(&heap, &racer, 1, &sweeper, 1);
    if (g1_heap_drain(&heap, 1, cards, ALL_CARDS, &count) == G1_DONE) {
        for (uint32_t i = 0; i < count; i++) {
            printf("scan card %u\n", (unsigned)cards[i]);
        }
    }
    return g1_heap_close(&heap) != G1_DONE;
}
