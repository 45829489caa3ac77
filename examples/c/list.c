// A list that racing mutators share without a lock: `list [PAUSES]`.
//
// Its nodes are in the library's words. A mutator puts a node in front of the list by a
// compare-and-swap, and takes the whole list by a swap. No node is used twice in a race, so an
// exchange that finds the first node still there finds the list as it was. A node has a label too,
// in memory of the program's own. At a pause each node was taken just once, or is in the list, and
// each drain is compared with a scan.
#define _POSIX_C_SOURCE 200809L
#include "g1_refiner.h"

#include <stdatomic.h>
#include <stdio.h>
#include <stdlib.h>
#include <string.h>

enum { CARDS = 32, SLOTS = 8, REGION_SLOTS = CARDS * SLOTS };
enum { MUTATORS = 8, SWEEPERS = 2, LOGS = 16, EACH = 15 }; // regions of each mutator
enum { REGIONS = 1 + MUTATORS * EACH, ALL_CARDS = REGIONS * CARDS };
enum { ALL_SLOTS = ALL_CARDS * SLOTS };
enum {
    HEAD = 0, // the slot that refers to the first node
    NODE = 2  // words of a node: a value, and what refers to the next one
};

static const uint64_t *words;
static struct g1_heap heap;
static struct g1_refiner refiner;
static struct g1_racer racers[MUTATORS]; // a mutator has its own in a local until it ends
static struct g1_sweeper sweepers[SWEEPERS];
static uint32_t labels[ALL_SLOTS];   // of a node, not atomic: they are written before the exchange
static atomic_uint taken[ALL_SLOTS]; // how often a node was taken in this race
static atomic_ulong differences;     // exchanges that another mutator came before
static unsigned wrong;

// Ends the program if a call was refused. Here that is for want of memory alone.
static void done(uint32_t code) {
    if (code != G1_DONE) {
        fprintf(stderr, "-- %s\n", g1_code_text(code));
        exit(1);
    }
}

static uint64_t word_of(uint32_t slot) {
    return __atomic_load_n(&words[slot], __ATOMIC_ACQUIRE);
}

static uint32_t target_of(uint32_t slot) {
    uint64_t word = word_of(slot);
    return word == 0 || word >= G1_DATA ? G1_NULL : (uint32_t)(word - 1);
}

// Puts a node in front of the list.
static void push(struct g1_racer *racer, uint32_t node) {
    static _Thread_local uint32_t label;
    uint32_t first = target_of(HEAD), found, kind, code;
    uint64_t old;
    done(g1_race_store_data(racer, node, G1_DATA + node, &old));
    labels[node] = ++label;
    G1_TSAN_RELEASE(&labels[node]);
    do {
        done(g1_refiner_store(&refiner, racer, node + 1, first, &kind));
        code = g1_refiner_compare_exchange(&refiner, racer, HEAD, first, node, &found, &kind);
        code == G1_DIFFERS ? (void)differences++ : done(code);
        first = found;
    } while (code == G1_DIFFERS);
}

// Counts the nodes from one on as taken, each of which has its value.
static unsigned take(uint32_t node) {
    unsigned faults = 0;
    for (; node != G1_NULL; node = target_of(node + 1)) {
        G1_TSAN_ACQUIRE(&labels[node]);
        faults += word_of(node) != G1_DATA + node || labels[node] == 0 || taken[node]++ != 0;
    }
    return faults;
}

// Takes the whole list.
static unsigned take_all(struct g1_racer *racer) {
    uint32_t first, kind;
    done(g1_refiner_swap(&refiner, racer, HEAD, G1_NULL, &first, &kind));
    return take(first);
}

// Puts all nodes of a mutator's regions into the list, and takes it from time to time. Returns how
// much was wrong.
static void *mutate(void *place) {
    uintptr_t number = (uintptr_t)place, faults = 0;
    struct g1_racer racer = racers[number];
    uint32_t from = (uint32_t)(1 + number * EACH) * REGION_SLOTS;
    for (uint32_t node = from; node < from + EACH * REGION_SLOTS; node += NODE) {
        push(&racer, node);
        if (node % 97 == 0) {
            faults += take_all(&racer);
            done(g1_refiner_hand_on(&refiner, &racer)); // in a race a log seldom fills
        }
    }
    racers[number] = racer;
    return (void *)faults;
}

// A race, up to its pause.
static void run(void) {
    pthread_t threads[MUTATORS];
    done(g1_heap_resume(&heap, racers, MUTATORS, sweepers, SWEEPERS));
    done(g1_refiner_resume(&refiner, sweepers, SWEEPERS));
    for (uintptr_t i = 0; i < MUTATORS; i++) {
        int error = pthread_create(&threads[i], NULL, mutate, (void *)i);
        done(error == 0 ? G1_DONE : G1_NO_MEMORY);
    }
    for (int i = 0; i < MUTATORS; i++) {
        void *faults;
        pthread_join(threads[i], &faults);
        wrong += (unsigned)(uintptr_t)faults;
    }
    done(g1_refiner_pause(&refiner, G1_REFINE_QUEUED, sweepers, SWEEPERS));
    done(g1_heap_pause(&heap, racers, MUTATORS, sweepers, SWEEPERS));
}

// Drains a region. Counts the slots outside that refer into it from cards that were not returned.
static unsigned missed_in(uint32_t region) {
    uint32_t cards[ALL_CARDS], count;
    unsigned char is_member[ALL_CARDS] = {0};
    unsigned missed = 0;
    done(g1_heap_drain(&heap, region, cards, ALL_CARDS, &count));
    for (uint32_t i = 0; i < count; i++) {
        is_member[cards[i]] = 1;
    }
    for (uint32_t slot = 0; slot < ALL_SLOTS; slot++) {
        uint32_t target = target_of(slot);
        int enters = target != G1_NULL && target / REGION_SLOTS == region;
        missed += enters && slot / REGION_SLOTS != region && !is_member[slot / SLOTS];
    }
    return missed;
}

// A pause: takes what is left of the list, compares all drains, and frees all regions.
static void collect(void) {
    wrong += take(target_of(HEAD));
    for (uint32_t node = REGION_SLOTS; node < ALL_SLOTS; node += NODE) {
        wrong += taken[node] != 1;
        taken[node] = 0;
    }
    for (uint32_t region = 0; region < REGIONS; region++) {
        wrong += missed_in(region);
    }
    for (uint32_t region = 0; region < REGIONS; region++) {
        done(g1_heap_wipe(&heap, region));
        done(g1_heap_forget(&heap, region));
    }
}

int main(int number, char **arguments) {
    static struct g1_log logs[LOGS];
    struct g1_counts counts = {REGIONS, CARDS, SLOTS};
    unsigned long pauses = number > 1 ? strtoul(arguments[1], NULL, 10) : 50;
    done(g1_heap_open(&heap, &counts, MUTATORS, SWEEPERS));
    done(g1_heap_words(&heap, &words));
    done(g1_refiner_open(&refiner, logs, LOGS, SWEEPERS, 1, 0)); // each log is refined at once
    for (unsigned long i = 0; i < pauses; i++) {
        run();
        collect();
    }
    done(g1_refiner_close(&refiner));
    done(g1_heap_close(&heap));
    printf("%lu pauses, %lu exchanges that differed, %lu cards refined in races, %u wrong\n",
           pauses, differences, (unsigned long)refiner.refined, wrong);
    int holds = wrong == 0 && refiner.refined > 0;
    printf("%d passed, %d failed\n", holds, !holds);
    return !holds;
}
