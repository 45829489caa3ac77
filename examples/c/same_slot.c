// Threads that store to the same few slots at once, with no lock: `same_slot [CYCLES]`.
//
// The runtime keeps its references in memory of its own. Two stores to one slot may reach memory in
// one order and the library in the other, so each store tells the library again until it was told
// what memory holds. Meanwhile a sweeper refines all cards over and over. Each race is stopped for
// its pause after some milliseconds, in all threads at once, so that their last stores race too. Then
// the library's target of each slot is compared with memory, and each drain with a scan of it.
#define _POSIX_C_SOURCE 200809L
#include "g1.h"

#include <pthread.h>
#include <stdatomic.h>
#include <stdio.h>
#include <stdlib.h>
#include <time.h>

enum {
    REGIONS = 8,
    CARDS = 2,
    SLOTS = 4,
    ALL_CARDS = REGIONS * CARDS,
    ALL_SLOTS = ALL_CARDS * SLOTS,
    CONTESTED = 8, // slots that threads store to
    RACERS = 8
};

// The runtime's memory.
static _Atomic uint32_t memory[ALL_SLOTS];

static atomic_int is_over;
static struct g1_heap heap;

// A racer in a thread: its handle is here only while the thread does not run.
struct seat {
    struct g1_racer racer;
    uint64_t state;
    unsigned long stores, repeats;
    unsigned wrong;
};

static struct g1_sweeper sweeper;
static unsigned refused; // of the sweeper's refinements

static uint32_t below(uint64_t *state, uint32_t most) {
    *state ^= *state << 13;
    *state ^= *state >> 7;
    *state ^= *state << 17;
    return (uint32_t)((*state >> 33) % most);
}

// Tells the library of a store. A full log is let go: its cards stay dirty.
static unsigned tell(struct g1_racer *racer, uint32_t slot, uint32_t target) {
    uint32_t log[G1_LOG], count, kind;
    uint32_t code = g1_race_store(racer, slot, target, &kind);
    if (code == G1_LOG_FULL) {
        g1_race_take_log(racer, log, G1_LOG, &count);
        code = g1_race_store(racer, slot, target, &kind);
    }
    return code != G1_DONE;
}

// Stores to memory, and tells the library until it was told what memory holds.
static void store(struct seat *seat, uint32_t slot, uint32_t target) {
    uint32_t told;
    atomic_store(&memory[slot], target);
    do {
        told = target;
        seat->wrong += tell(&seat->racer, slot, told);
        target = atomic_load(&memory[slot]);
        seat->repeats += target != told;
    } while (target != told);
}

static void *mutate(void *place) {
    struct seat seat = *(struct seat *)place;
    for (; !atomic_load(&is_over); seat.stores++) {
        uint32_t slot = below(&seat.state, CONTESTED) * (ALL_SLOTS / CONTESTED);
        uint32_t target = below(&seat.state, 8) == 0 ? G1_NULL : below(&seat.state, ALL_SLOTS);
        store(&seat, slot, target);
    }
    *(struct seat *)place = seat;
    return NULL;
}

static void *refine(void *unused) {
    (void)unused;
    while (!atomic_load(&is_over)) {
        for (uint32_t card = 0; card < ALL_CARDS; card++) {
            refused += g1_race_refine(&sweeper, card) != G1_DONE;
        }
    }
    return NULL;
}

// Runs a race for some milliseconds.
static void run(struct seat *racers) {
    struct timespec some = {0, 2000000};
    pthread_t threads[RACERS], sweeping;
    atomic_store(&is_over, 0);
    pthread_create(&sweeping, NULL, refine, NULL);
    for (int i = 0; i < RACERS; i++) {
        pthread_create(&threads[i], NULL, mutate, &racers[i]);
    }
    nanosleep(&some, NULL);
    atomic_store(&is_over, 1);
    for (int i = 0; i < RACERS; i++) {
        pthread_join(threads[i], NULL);
    }
    pthread_join(sweeping, NULL);
}

static uint32_t region_of(uint32_t slot) {
    return slot / (CARDS * SLOTS);
}

// How many slots refer to something else in the library than in memory.
static unsigned differing(void) {
    unsigned wrong = 0;
    for (uint32_t slot = 0; slot < ALL_SLOTS; slot++) {
        uint32_t target;
        wrong += g1_heap_target(&heap, slot, &target) != G1_DONE;
        wrong += target != atomic_load(&memory[slot]);
    }
    return wrong;
}

// How many references of memory into a region its drain misses.
static unsigned missed(uint32_t region) {
    uint32_t cards[ALL_CARDS], count;
    unsigned char is_member[ALL_CARDS] = {0};
    unsigned wrong = g1_heap_drain(&heap, region, cards, ALL_CARDS, &count) != G1_DONE;
    for (uint32_t i = 0; i < count; i++) {
        is_member[cards[i]] = 1;
    }
    for (uint32_t slot = 0; slot < ALL_SLOTS; slot++) {
        uint32_t target = atomic_load(&memory[slot]);
        int enters = target != G1_NULL && region_of(target) == region && region_of(slot) != region;
        wrong += enters && !is_member[slot / SLOTS];
    }
    return wrong;
}

// A race, and a pause that compares the library with memory.
static unsigned cycle(struct seat *racers) {
    struct g1_racer racing[RACERS] = {{0}};
    unsigned wrong = g1_heap_resume(&heap, racing, RACERS, &sweeper, 1) != G1_DONE;
    for (int i = 0; i < RACERS; i++) {
        racers[i].racer = racing[i];
    }
    run(racers);
    for (int i = 0; i < RACERS; i++) {
        racing[i] = racers[i].racer;
    }
    wrong += g1_heap_pause(&heap, racing, RACERS, &sweeper, 1) != G1_DONE;
    wrong += differing();
    for (uint32_t region = 0; region < REGIONS; region++) {
        wrong += missed(region);
    }
    return wrong;
}

int main(int number, char **words) {
    static struct seat racers[RACERS];
    struct g1_counts counts = {REGIONS, CARDS, SLOTS};
    unsigned long stores = 0, repeats = 0;
    long cycles = number > 1 ? atol(words[1]) : 100;
    unsigned wrong = g1_heap_open(&heap, &counts, RACERS, 1) != G1_DONE;
    for (uint32_t slot = 0; slot < ALL_SLOTS; slot++) {
        atomic_init(&memory[slot], G1_NULL);
    }
    for (unsigned i = 0; i < RACERS; i++) {
        racers[i].state = 88172645463325252u + i * 1000003u;
    }
    for (long i = 0; i < cycles; i++) {
        wrong += cycle(racers);
    }
    for (unsigned i = 0; i < RACERS; i++) {
        stores += racers[i].stores;
        repeats += racers[i].repeats;
        wrong += racers[i].wrong;
    }
    wrong += refused + (g1_heap_close(&heap) != G1_DONE);
    printf("%ld cycles of %d threads: %lu stores to %d slots, %lu told again, %u wrong\n", cycles, RACERS, stores, CONTESTED, repeats, wrong);
    int holds = wrong == 0 && stores > 0;
    printf("%d passed, %d failed\n", holds, !holds);
    return !holds;
}
