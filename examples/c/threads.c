// Mutator threads and a refinement thread over one heap, under a lock of the caller's: `threads [STORES]`.
//
// Each mutator keeps its dirty card queue in an array of its own and hands full ones over as completed buffers, in an array that the
// lock protects; where there is no room it refines its own. A thread that ends hands in what it has. At the end the remembered set of
// each region is compared with a scan of all slots.
#define _POSIX_C_SOURCE 200809L
#include "g1.h"

#include <pthread.h>
#include <stdio.h>
#include <stdlib.h>
#include <string.h>

enum {
    REGIONS = 64,
    CARDS = 16,
    SLOTS = 8,
    ALL_CARDS = REGIONS * CARDS,
    ALL_SLOTS = ALL_CARDS * SLOTS,
    MUTATORS = 4,
    BUFFERS = 16
};

static struct g1 heap;
static pthread_mutex_t lock = PTHREAD_MUTEX_INITIALIZER;

// All of these are the lock's.
static uint32_t table[ALL_SLOTS]; // what each slot refers to
static uint32_t buffers[BUFFERS][G1_LOG];
static unsigned taken, put;
static unsigned by_mutators, by_refinement, wrong;
static int over;

static long stores = 100000;

static void refine(const uint32_t *cards, size_t length) {
    uint32_t refined[G1_LOG];
    struct g1_tally tally;
    if (g1_refine(&heap, cards, length, refined, G1_LOG, &tally) != G1_DONE) {
        wrong++;
    }
}

static uint32_t below(uint64_t *state, uint32_t most) {
    *state ^= *state << 13;
    *state ^= *state >> 7;
    *state ^= *state << 17;
    return (uint32_t)((*state >> 33) % most);
}

static void *mutate(void *number) {
    uint64_t state = 88172645463325252u + (uint64_t)(uintptr_t)number * 1000003u;
    uint32_t log[G1_LOG];
    size_t length = 0;
    for (long i = 0; i < stores; i++) {
        uint32_t slot = below(&state, ALL_SLOTS);
        uint32_t target = below(&state, 8) == 0 ? G1_NULL : below(&state, ALL_SLOTS);
        pthread_mutex_lock(&lock);
        table[slot] = target;
        uint32_t kind;
        wrong += g1_store(&heap, slot, target, &kind) != G1_DONE;
        if (kind == G1_STORED_LOGGED) {
            log[length++] = slot / SLOTS;
        }
        if (length == G1_LOG) {
            if (put - taken < BUFFERS) {
                memcpy(buffers[put++ % BUFFERS], log, sizeof log);
            } else {
                refine(log, length);
                by_mutators++;
            }
            length = 0;
        }
        pthread_mutex_unlock(&lock);
    }
    pthread_mutex_lock(&lock);
    refine(log, length);
    pthread_mutex_unlock(&lock);
    return NULL;
}

static void *refine_buffers(void *unused) {
    (void)unused;
    for (int goes_on = 1; goes_on;) {
        pthread_mutex_lock(&lock);
        if (taken != put) {
            refine(buffers[taken++ % BUFFERS], G1_LOG);
            by_refinement++;
        } else {
            goes_on = !over;
        }
        pthread_mutex_unlock(&lock);
    }
    return NULL;
}

// How many slots outside the region refer into it from cards that were not listed.
static unsigned missed_in(uint32_t region, const uint32_t *cards, uint32_t count) {
    static unsigned char is_member[ALL_CARDS];
    unsigned missed = 0;
    memset(is_member, 0, sizeof is_member);
    for (uint32_t i = 0; i < count; i++) {
        is_member[cards[i]] = 1;
    }
    for (uint32_t slot = 0; slot < ALL_SLOTS; slot++) {
        uint32_t target = table[slot];
        missed += target != G1_NULL && target / (CARDS * SLOTS) == region && slot / (CARDS * SLOTS) != region && !is_member[slot / SLOTS];
    }
    return missed;
}

int main(int number, char **words) {
    static uint32_t cards[ALL_CARDS], refined[ALL_CARDS];
    struct g1_counts counts = {REGIONS, CARDS, SLOTS};
    pthread_t mutators[MUTATORS], refiner;
    uint32_t count, refined_count;
    unsigned missed = 0, members = 0;
    if (number > 1) {
        stores = atol(words[1]);
    }
    if (g1_open(&heap, &counts, 4, 64) != G1_DONE) {
        return 1;
    }
    memset(table, 255, sizeof table);
    pthread_create(&refiner, NULL, refine_buffers, NULL);
    for (uintptr_t i = 0; i < MUTATORS; i++) {
        pthread_create(&mutators[i], NULL, mutate, (void *)i);
    }
    for (int i = 0; i < MUTATORS; i++) {
        pthread_join(mutators[i], NULL);
    }
    pthread_mutex_lock(&lock);
    over = 1;
    pthread_mutex_unlock(&lock);
    pthread_join(refiner, NULL);
    for (uint32_t region = 0; region < REGIONS; region++) {
        wrong += g1_drain(&heap, region, cards, ALL_CARDS, &count, refined, ALL_CARDS, &refined_count) != G1_DONE;
        missed += missed_in(region, cards, count);
        members += count;
    }
    wrong += g1_close(&heap) != G1_DONE;
    printf("%d threads of %ld stores, %u buffers refined beside them and %u by them: %u members, %u slots missed, %u answers wrong\n",
           MUTATORS, stores, by_refinement, by_mutators, members, missed, wrong);
    int holds = missed == 0 && wrong == 0 && members > 0;
    printf("%d passed, %d failed\n", holds, !holds);
    return !holds;
}
