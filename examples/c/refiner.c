// Mutators that race with the refinement threads of g1_refiner.h, with pauses: `refiner [PAUSES]`.
//
// Mutators store at random, into a table of the program's own too, under a lock that orders the
// stores to a slot. After a number of stores a pause is due, and each mutator stops at its next
// safepoint. The pause compares the drain of each region with a scan of the table. Then it empties
// the heap, so that the remembered sets of the next race have its cards alone.
#define _POSIX_C_SOURCE 200809L
#include "g1_refiner.h"

#include <stdio.h>
#include <stdlib.h>
#include <string.h>

enum {
    REGIONS = 64,
    CARDS = 64,
    SLOTS = 8,
    REGION_SLOTS = CARDS * SLOTS,
    ALL_CARDS = REGIONS * CARDS,
    ALL_SLOTS = ALL_CARDS * SLOTS,
    MUTATORS = 8,
    SWEEPERS = 4,
    LOGS = 16,     // room in the queue
    START = 4,     // logs in the queue when refinement begins
    STOP = 1,      // and when it ends
    LOCKS = 64,    // slot s has the lock s % LOCKS
    BATCH = 64,    // stores between two safepoints
    DUE = 1 << 16, // stores between two pauses
};

static uint32_t table[ALL_SLOTS]; // what each slot refers to
static pthread_mutex_t slot_locks[LOCKS];
static struct g1_refiner refiner;
static struct g1_heap heap;

// The lock has these.
static pthread_mutex_t lock = PTHREAD_MUTEX_INITIALIZER;
static pthread_cond_t has_stopped = PTHREAD_COND_INITIALIZER, goes_on = PTHREAD_COND_INITIALIZER;
static struct g1_racer racers[MUTATORS]; // a mutator has its own in a local until it stops
static unsigned stopped, stores, wrong;
static int is_pausing = 1, is_over;

static uint32_t below(uint64_t *state, uint32_t most) {
    *state ^= *state << 13;
    *state ^= *state >> 7;
    *state ^= *state << 17;
    return (uint32_t)((*state >> 33) % most);
}

// Makes stores at random, and returns how many were refused.
static unsigned store_batch(struct g1_racer *racer, uint64_t *state) {
    unsigned refused = 0;
    for (int i = 0; i < BATCH; i++) {
        uint32_t slot = below(state, ALL_SLOTS);
        uint32_t target = below(state, 8) == 0 ? G1_NULL : below(state, ALL_SLOTS), kind;
        pthread_mutex_lock(&slot_locks[slot % LOCKS]);
        table[slot] = target;
        refused += g1_refiner_store(&refiner, racer, slot, target, &kind) != G1_DONE;
        pthread_mutex_unlock(&slot_locks[slot % LOCKS]);
    }
    return refused;
}

// Waits, with the lock, until the pause is over, and takes the racer. Returns 0 at the end.
static int wait_for_race(size_t self, struct g1_racer *racer) {
    stopped++;
    pthread_cond_signal(&has_stopped);
    while (is_pausing && !is_over) {
        pthread_cond_wait(&goes_on, &lock);
    }
    stopped--;
    *racer = racers[self];
    racers[self].racer = NULL;
    return !is_over;
}

// A safepoint: gives the racer back if a pause is due.
static int safepoint(size_t self, struct g1_racer *racer, unsigned refused) {
    int is_running = 1;
    pthread_mutex_lock(&lock);
    wrong += refused;
    stores += BATCH;
    is_pausing |= stores >= DUE;
    if (is_pausing) {
        racers[self] = *racer;
        is_running = wait_for_race(self, racer);
    }
    pthread_mutex_unlock(&lock);
    return is_running;
}

static void *mutate(void *number) {
    size_t self = (size_t)(uintptr_t)number;
    uint64_t state = 88172645463325252u + self * 1000003u;
    struct g1_racer racer;
    pthread_mutex_lock(&lock);
    int is_running = wait_for_race(self, &racer);
    pthread_mutex_unlock(&lock);
    while (is_running) {
        unsigned refused = store_batch(&racer, &state);
        is_running = safepoint(self, &racer, refused);
    }
    return NULL;
}

// Lets the mutators run, or end, and waits for the next pause.
static void run_mutators(void) {
    pthread_mutex_lock(&lock);
    stores = 0;
    is_pausing = 0;
    pthread_cond_broadcast(&goes_on);
    while (!is_pausing || stopped < MUTATORS) {
        pthread_cond_wait(&has_stopped, &lock);
    }
    pthread_mutex_unlock(&lock);
}

static void end_mutators(pthread_t *mutators) {
    pthread_mutex_lock(&lock);
    is_over = 1;
    pthread_cond_broadcast(&goes_on);
    pthread_mutex_unlock(&lock);
    for (int i = 0; i < MUTATORS; i++) {
        pthread_join(mutators[i], NULL);
    }
}

// How many slots outside the region refer into it from cards that the drain did not return.
static unsigned missed_in(uint32_t region, const uint32_t *cards, uint32_t count) {
    static unsigned char is_member[ALL_CARDS];
    unsigned missed = 0;
    memset(is_member, 0, sizeof is_member);
    for (uint32_t i = 0; i < count; i++) {
        is_member[cards[i]] = 1;
        missed += cards[i] / CARDS == region || (i > 0 && cards[i] <= cards[i - 1]);
    }
    for (uint32_t slot = 0; slot < ALL_SLOTS; slot++) {
        int enters = table[slot] != G1_NULL && table[slot] / REGION_SLOTS == region;
        missed += enters && slot / REGION_SLOTS != region && !is_member[slot / SLOTS];
    }
    return missed;
}

// Drains each region, and returns how many cards the remembered sets have.
static unsigned compare(void) {
    static uint32_t cards[ALL_CARDS];
    uint32_t count, target;
    unsigned members = 0;
    for (uint32_t region = 0; region < REGIONS; region++) {
        wrong += g1_heap_drain(&heap, region, cards, ALL_CARDS, &count) != G1_DONE;
        wrong += missed_in(region, cards, count);
        members += count;
    }
    for (uint32_t slot = 0; slot < ALL_SLOTS; slot++) {
        wrong += g1_heap_target(&heap, slot, &target) != G1_DONE || target != table[slot];
    }
    return members;
}

// Frees each region, and so empties all remembered sets.
static void empty(void) {
    struct g1_totals totals;
    for (uint32_t region = 0; region < REGIONS; region++) {
        wrong += g1_heap_wipe(&heap, region) != G1_DONE;
        wrong += g1_heap_forget(&heap, region) != G1_DONE;
    }
    memset(table, 255, sizeof table);
    wrong += g1_heap_status(&heap, &totals) != G1_DONE || totals.recorded != 0;
}

// Runs races with a pause after each, and returns how many cards the drains returned.
static unsigned run(unsigned pauses) {
    struct g1_sweeper sweepers[SWEEPERS] = {{0}};
    unsigned members = 0;
    for (unsigned i = 0; i < pauses; i++) {
        wrong += g1_heap_resume(&heap, racers, MUTATORS, sweepers, SWEEPERS) != G1_DONE;
        wrong += g1_refiner_resume(&refiner, sweepers, SWEEPERS) != G1_DONE;
        run_mutators();
        enum g1_queued queued = i % 2 == 0 ? G1_REFINE_QUEUED : G1_DROP_QUEUED;
        wrong += g1_refiner_pause(&refiner, queued, sweepers, SWEEPERS) != G1_DONE;
        wrong += g1_heap_pause(&heap, racers, MUTATORS, sweepers, SWEEPERS) != G1_DONE;
        members += compare();
        empty();
    }
    return members;
}

int main(int number, char **words) {
    static struct g1_log logs[LOGS];
    struct g1_counts counts = {REGIONS, CARDS, SLOTS};
    pthread_t mutators[MUTATORS];
    unsigned pauses = number > 1 ? (unsigned)atol(words[1]) : 20;
    memset(table, 255, sizeof table);
    for (int i = 0; i < LOCKS; i++) {
        pthread_mutex_init(&slot_locks[i], NULL);
    }
    if (g1_heap_open(&heap, &counts, MUTATORS, SWEEPERS) != G1_DONE ||
        g1_refiner_open(&refiner, logs, LOGS, SWEEPERS, START, STOP) != G1_DONE) {
        return 1;
    }
    for (uintptr_t i = 0; i < MUTATORS; i++) {
        if (pthread_create(&mutators[i], NULL, mutate, (void *)i) != 0) {
            return 1;
        }
    }
    unsigned members = run(pauses);
    end_mutators(mutators);
    wrong += g1_refiner_close(&refiner) != G1_DONE;
    wrong += g1_heap_close(&heap) != G1_DONE;
    printf("%u pauses, %lu logs queued, %lu dropped, %lu cards refined beside the mutators: %u "
           "cards returned, %u wrong\n",
           pauses, (unsigned long)refiner.queued, (unsigned long)refiner.dropped,
           (unsigned long)refiner.refined, members, wrong);
    int holds = wrong == 0 && members > 0 && refiner.refined > 0;
    printf("%d passed, %d failed\n", holds, !holds);
    return !holds;
}
