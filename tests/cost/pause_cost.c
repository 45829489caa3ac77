// A pause of a concurrent heap, to be timed. `pause_cost pause REGIONS REFERRING STATE ROUNDS`
// prints the microseconds of its calls, the least of the rounds: the pause, the drain of a region,
// the drain of another one with nothing dirty, a redirect, a clear and a resume. The heap is REGIONS
// 256 16. REFERRING of 100 slots refer into the next region. STATE is `refined` (nothing is dirty
// at the pause) or `dirty` (each card that refers is). `pause_cost memory SECONDS` prints what the
// process has in memory at each tenth of a time of refinement. See the script measure-pause beside.
#define _POSIX_C_SOURCE 200809L
#include "g1.h"

#include <stdio.h>
#include <stdlib.h>
#include <string.h>
#include <time.h>
#include <unistd.h>

enum { CARDS = 256, SLOTS = 16, REGION_SLOTS = CARDS * SLOTS, CALLS = 6 };

static uint32_t regions, all_cards, all_slots, wrong;
static uint32_t *cards;
static struct g1_heap heap;
static struct g1_racer racer;
static struct g1_sweeper sweeper;

static double seconds(clockid_t clock) {
    struct timespec now;
    clock_gettime(clock, &now);
    return (double)now.tv_sec + (double)now.tv_nsec / 1e9;
}

// Microseconds since the last call, by the clock or of the processor, whichever are fewer: the clock
// runs on while the machine does other work, and to ask for the processor's time takes longer.
static double lap(void) {
    static double last, last_own;
    double passed = seconds(CLOCK_MONOTONIC) - last;
    double own = seconds(CLOCK_PROCESS_CPUTIME_ID) - last_own;
    last_own = seconds(CLOCK_PROCESS_CPUTIME_ID);
    last = seconds(CLOCK_MONOTONIC);
    return (passed < own ? passed : own) * 1e6;
}

// A new heap with this number of regions, which races.
static void open_heap(uint32_t count) {
    struct g1_counts counts = {count, CARDS, SLOTS};
    regions = count;
    all_cards = count * CARDS;
    all_slots = all_cards * SLOTS;
    cards = malloc(all_cards * sizeof *cards);
    wrong += !cards || g1_heap_open(&heap, &counts, 1, 1) != G1_DONE;
    wrong += g1_heap_resume(&heap, &racer, 1, &sweeper, 1) != G1_DONE;
}

static void close_heap(void) {
    wrong += g1_heap_pause(&heap, &racer, 1, &sweeper, 1) != G1_DONE;
    wrong += g1_heap_close(&heap) != G1_DONE;
    free(cards);
}

// Stores, and refines the log that is full then, or lets it go.
static unsigned long store(uint32_t slot, uint32_t target, int refines) {
    uint32_t log[G1_LOG], count = 0, kind;
    uint32_t code = g1_race_store(&racer, slot, target, &kind);
    if (code == G1_LOG_FULL) {
        wrong += g1_race_take_log(&racer, log, G1_LOG, &count) != G1_DONE;
        code = g1_race_store(&racer, slot, target, &kind);
    }
    wrong += code != G1_DONE;
    for (uint32_t i = 0; refines && i < count; i++) {
        wrong += g1_race_refine(&sweeper, log[i]) != G1_DONE;
    }
    return refines ? count : 0;
}

// The slot of the next region at this offset.
static uint32_t next_to(uint32_t slot) {
    return (slot + REGION_SLOTS) % all_slots;
}

static void fill(uint32_t referring, int refines) {
    for (uint32_t slot = 0; slot < all_slots; slot++) {
        if (slot * 37 % 100 < referring) {
            store(slot, next_to(slot), 0);
        }
    }
    for (uint32_t card = 0; refines && card < all_cards; card++) {
        wrong += g1_race_refine(&sweeper, card) != G1_DONE;
    }
}

// Stores null to each slot that refers into a region, and refines what is dirty.
static void empty(uint32_t region) {
    wrong += g1_heap_wipe(&heap, (region + regions - 1) % regions) != G1_DONE;
    wrong += g1_heap_refine(&heap) != G1_DONE;
}

// The calls of a pause, each with its time.
static void time_calls(double times[CALLS]) {
    uint32_t count, moved, detail;
    lap();
    wrong += g1_heap_pause(&heap, &racer, 1, &sweeper, 1) != G1_DONE;
    times[0] = lap();
    wrong += g1_heap_drain(&heap, 1, cards, all_cards, &count) != G1_DONE;
    times[1] = lap();
    wrong += g1_heap_drain(&heap, 2, cards, all_cards, &count) != G1_DONE;
    times[2] = lap();
    wrong += g1_heap_redirect(&heap, 1, 2, &moved) != G1_DONE;
    times[3] = lap();
    empty(4);
    lap();
    wrong += g1_heap_clear(&heap, 4, &detail) != G1_DONE;
    times[4] = lap();
    wrong += g1_heap_resume(&heap, &racer, 1, &sweeper, 1) != G1_DONE;
    times[5] = lap();
}

static void time_pauses(uint32_t count, uint32_t referring, int refines, long rounds) {
    double least[CALLS], times[CALLS];
    for (long round = 0; round < rounds; round++) {
        open_heap(count);
        fill(referring, refines);
        time_calls(times);
        for (int i = 0; i < CALLS; i++) {
            least[i] = round == 0 || times[i] < least[i] ? times[i] : least[i];
        }
        close_heap();
    }
    for (int i = 0; i < CALLS; i++) {
        printf(" %.1f |", least[i]);
    }
    printf("\n");
}

// Kilobytes that the process has in memory.
static long resident(void) {
    long pages = -1;
    FILE *file = fopen("/proc/self/statm", "r");
    if (file == NULL || fscanf(file, "%*d %ld", &pages) != 1) {
        wrong++;
    }
    if (file != NULL) {
        fclose(file);
    }
    return pages * sysconf(_SC_PAGESIZE) / 1024;
}

// Stores random references and refines each full log, for some time, once all memory was touched.
static void watch_memory(double time) {
    uint64_t state = 88172645463325252u;
    unsigned long count = 0;
    open_heap(256);
    fill(100, 1);
    double from = seconds(CLOCK_MONOTONIC);
    for (int tenth = 0; tenth <= 10; tenth++) {
        while (seconds(CLOCK_MONOTONIC) - from < time * tenth / 10) {
            for (int i = 0; i < 1000; i++) {
                state ^= state << 13;
                state ^= state >> 7;
                state ^= state << 17;
                count += store((uint32_t)(state >> 11) % all_slots, (uint32_t)(state >> 37) % all_slots, 1);
            }
        }
        printf("%3.0f s: %ld kB, %lu cards refined\n", time * tenth / 10, resident(), count);
    }
    close_heap();
}

int main(int number, char **words) {
    if (number == 3 && strcmp(words[1], "memory") == 0) {
        watch_memory(atof(words[2]));
    } else if (number == 6 && strcmp(words[1], "pause") == 0 && atoi(words[2]) > 4 && atoi(words[2]) <= G1_MAX_REGIONS) {
        time_pauses((uint32_t)atoi(words[2]), (uint32_t)atoi(words[3]), strcmp(words[4], "refined") == 0, atol(words[5]));
    } else {
        fprintf(stderr, "usage: pause_cost pause REGIONS REFERRING STATE ROUNDS, or pause_cost memory SECONDS\n");
        return 2;
    }
    return wrong != 0;
}
