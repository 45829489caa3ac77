// A large heap through stores on every card with their refinement, and a pause that drains,
// redirects and clears: `large core|race REGIONS CARDS SLOTS`, by a core or a concurrent heap.
//
// Each drain is compared with a scan of every slot. .ci/checks/check-large counts apart what is
// printed, and compares the memory that the process had with the formula of docs/costs.md.
#include "g1.h"

#include <stdio.h>
#include <stdlib.h>
#include <string.h>

static struct g1_counts counts;
static uint32_t region_slots, all_cards;
static int is_race;
static struct g1 core;
static struct g1_heap heap;
static struct g1_racer racer;
static struct g1_sweeper sweeper;

static uint32_t log_of_core[G1_LOG], length;
static uint32_t *cards, count;           // what a drain returns
static uint32_t *refined, refined_count; // and what it refines

static void expect(int holds, const char *what) {
    if (!holds) {
        printf("-- %s\n", what);
        exit(1);
    }
}

static void open_heap(void) {
    if (is_race) {
        expect(g1_heap_open(&heap, &counts, 1, 1) == G1_DONE, "open");
        expect(g1_heap_resume(&heap, &racer, 1, &sweeper, 1) == G1_DONE, "resume");
    } else {
        expect(g1_open(&core, &counts, 4, 1024) == G1_DONE, "open");
    }
}

static void store_in_core(uint32_t slot, uint32_t place) {
    uint32_t kind, code = g1_store(&core, slot, place, &kind);
    expect(code == G1_DONE && kind == G1_STORED_LOGGED, "a store");
    log_of_core[length++] = slot / counts.slots;
    if (length == G1_LOG) {
        struct g1_tally tally;
        code = g1_refine(&core, log_of_core, length, refined, G1_LOG, &tally);
        expect(code == G1_DONE && tally.refined == length, "a refinement");
        length = 0;
    }
}

static void store_in_race(uint32_t slot, uint32_t place) {
    uint32_t kind, code = g1_race_store(&racer, slot, place, &kind);
    if (code == G1_LOG_FULL) {
        uint32_t log[G1_LOG];
        expect(g1_race_take_log(&racer, log, G1_LOG, &length) == G1_DONE, "take");
        for (uint32_t i = 0; i < length; i++) {
            expect(g1_race_refine(&sweeper, log[i]) == G1_DONE, "a refinement");
        }
        code = g1_race_store(&racer, slot, place, &kind);
    }
    expect(code == G1_DONE && kind == G1_STORED_LOGGED, "a store");
}

// Stores a reference on every card: those of a region in turn refer into all the other regions.
static void store_all(void) {
    for (uint32_t card = 0; card < all_cards; card++) {
        uint32_t slot = card * counts.slots + card % counts.slots;
        uint32_t region = card / counts.cards + 1 + card % (counts.regions - 1);
        uint32_t place = region % counts.regions * region_slots + slot % region_slots;
        (is_race ? store_in_race : store_in_core)(slot, place);
    }
}

static uint32_t target_of(uint32_t slot) {
    uint32_t target;
    uint32_t code =
        is_race ? g1_heap_target(&heap, slot, &target) : g1_target(&core, slot, &target);
    expect(code == G1_DONE, "target");
    return target;
}

// Drains a region: it lists just the cards outside it that a scan finds, ascending. Returns how many
// slots refer into the region.
static uint32_t drain(uint32_t region) {
    uint32_t listed = 0, slots = 0;
    uint32_t code = is_race ? g1_heap_drain(&heap, region, cards, all_cards, &count)
                            : g1_drain(&core, region, cards, all_cards, &count, refined, all_cards,
                                       &refined_count);
    expect(code == G1_DONE, "a drain");
    for (uint32_t card = 0; card < all_cards; card++) {
        uint32_t before = slots;
        for (uint32_t slot = card * counts.slots; slot < (card + 1) * counts.slots; slot++) {
            uint32_t target = target_of(slot);
            slots += target != G1_NULL && target / region_slots == region;
        }
        int is_listed = listed < count && cards[listed] == card;
        int enters = slots > before && card / counts.cards != region;
        expect(is_listed == enters, "a drain and the scan differ");
        listed += (uint32_t)is_listed;
    }
    expect(listed == count, "a drain lists a card too many");
    return slots;
}

static uint32_t clear(uint32_t region) {
    uint32_t detail;
    return is_race ? g1_heap_clear(&heap, region, &detail) : g1_clear(&core, region, &detail);
}

// Moves what refers into the last region to the first one, and clears the last.
static void evacuate(void) {
    uint32_t last = counts.regions - 1, moved, into = drain(last), before = drain(0);
    expect(into > 0 && clear(last) == G1_STILL_REFERENCED, "a refused clear");
    uint32_t code = is_race ? g1_heap_redirect(&heap, last, 0, &moved)
                            : g1_redirect(&core, last, 0, &moved, refined, all_cards,
                                          &refined_count);
    expect(code == G1_DONE && moved == into, "a redirect");
    expect(drain(last) == 0 && drain(0) == before + into, "the redirect left a reference");
    expect(clear(last) == G1_DONE, "a clear");
    struct g1_totals totals;
    code = is_race ? g1_heap_status(&heap, &totals) : g1_status(&core, &totals);
    expect(code == G1_DONE, "status");
    printf("%u references moved from region %u, %u cards pending, %u pairs recorded\n", moved,
           last, totals.pending, totals.recorded);
}

int main(int number, char **words) {
    if (number != 5) {
        return 2;
    }
    is_race = strcmp(words[1], "race") == 0;
    counts.regions = (uint32_t)atol(words[2]);
    counts.cards = (uint32_t)atol(words[3]);
    counts.slots = (uint32_t)atol(words[4]);
    region_slots = counts.cards * counts.slots;
    all_cards = counts.regions * counts.cards;
    cards = malloc(all_cards * sizeof *cards);
    refined = malloc(all_cards * sizeof *refined);
    expect(cards != NULL && refined != NULL, "memory");
    open_heap();
    store_all();
    printf("%u stores by a %s\n", all_cards, words[1]);
    if (is_race) {
        expect(g1_heap_pause(&heap, &racer, 1, &sweeper, 1) == G1_DONE, "pause");
    }
    evacuate();
    free(cards);
    free(refined);
    return (is_race ? g1_heap_close(&heap) : g1_close(&core)) != G1_DONE;
}
