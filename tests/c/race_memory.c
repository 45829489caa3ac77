// The life of a heap with two racers and a sweeper, on a heap of 4 regions of 2 cards of 4 slots:
// three races whose sets are printed, 100 more, and its close. If memory is refused to the open, that
// is said on standard error, has to leave the handles as they were, and the call is made again; so
// what is printed is the same whatever is refused. No call between the open and the close takes
// memory or frees any. .ci/checks/check-growths refuses each growth in turn, and counts these calls.
#define _GNU_SOURCE
#include "g1.h"

#include <dlfcn.h>

#include <stdio.h>
#include <string.h>

enum { RACERS = 2, CARDS = 8 };

// All that the caller keeps of the library.
struct handles {
    struct g1_heap heap;
    struct g1_racer racers[RACERS];
    struct g1_sweeper sweeper;
};

static struct handles all;
static uint32_t cards[CARDS], count, region;
static int wrong;

static void expect(int holds, const char *what) {
    if (!holds) {
        printf("-- %s\n", what);
        wrong = 1;
    }
}

// Opens the heap, and once more if an allocation failed.
static void open_heap(void) {
    struct g1_counts counts = {4, 2, 4};
    struct handles before = all;
    uint32_t word = g1_heap_open(&all.heap, &counts, RACERS, 1);
    if (word == G1_NO_MEMORY) {
        fprintf(stderr, "open: no memory\n");
        expect(memcmp(&before, &all, sizeof before) == 0, "a refused open");
        word = g1_heap_open(&all.heap, &counts, RACERS, 1);
    }
    expect(word == G1_DONE, "open");
}

// How many calls of malloc, realloc and free there were, if the library that counts them is loaded.
static long memory_calls(void) {
    void *symbol = dlsym(RTLD_DEFAULT, "memory_calls");
    long (*count_calls)(void);
    memcpy(&count_calls, &symbol, sizeof symbol);
    return symbol ? count_calls() : -1;
}

static uint32_t drain(void) {
    return g1_heap_drain(&all.heap, region, cards, CARDS, &count);
}

static uint32_t members(void) {
    return g1_heap_members(&all.heap, region, cards, CARDS, &count);
}

static void resume(void) {
    uint32_t word = g1_heap_resume(&all.heap, all.racers, RACERS, &all.sweeper, 1);
    expect(word == G1_DONE, "resume");
}

static void pause_heap(void) {
    uint32_t word = g1_heap_pause(&all.heap, all.racers, RACERS, &all.sweeper, 1);
    expect(word == G1_DONE, "pause");
}

static void stores(int racer, uint32_t slot, uint32_t target, uint32_t kind) {
    uint32_t found = 7, code = g1_race_store(&all.racers[racer], slot, target, &found);
    expect(code == G1_DONE && found == kind, "store");
}

// Refines a card in the race, which takes no memory.
static void refine(uint32_t card) {
    expect(g1_race_refine(&all.sweeper, card) == G1_DONE, "refine");
}

// Prints the remembered set of each region.
static void list(uint32_t (*call)(void), const char *name) {
    for (region = 0; region < 4; region++) {
        expect(call() == G1_DONE, name);
        printf("%s %u", name, (unsigned)region);
        for (uint32_t i = 0; i < count; i++) {
            printf(" %u", (unsigned)cards[i]);
        }
        printf("\n");
    }
}

// Lists a region's set card by card, and once more by an array that is one card short.
static void walk(void) {
    uint32_t card = 0, found = 0, other;
    expect(drain() == G1_DONE, "drain");
    expect(g1_heap_next_dirty(&all.heap, 0, &other) == G1_DONE, "next dirty");
    expect(other == G1_NULL, "no card is dirty");
    for (uint32_t from = 0; card != G1_NULL; from = card + 1) {
        expect(g1_heap_next_member(&all.heap, region, from, &card) == G1_DONE, "next member");
        expect(card == (found < count ? cards[found] : G1_NULL), "a member");
        expect(g1_heap_next_into(&all.heap, &region, 1, from, &other) == G1_DONE, "next into");
        expect(other == card, "the same by a set of one region");
        found += card != G1_NULL;
    }
    if (count > 0) {
        uint32_t some[CARDS], all_of_them = count;
        memcpy(some, cards, sizeof some);
        uint32_t word = g1_heap_drain(&all.heap, region, some, count - 1, &count);
        expect(word == G1_NO_ROOM && count == all_of_them, "a drain without room");
        expect(memcmp(some, cards, count * sizeof *some) == 0, "its first cards");
        expect(members() == G1_DONE && count == all_of_them, "members after it");
    }
}

// Reads the pause by as many readers as the heap may have.
static void read_pause(void) {
    struct g1_reader readers[RACERS + 1] = {{NULL}};
    uint32_t target;
    expect(g1_heap_read(&all.heap, readers, RACERS + 1) == G1_DONE, "read");
    for (int i = 0; i < RACERS + 1; i++) {
        expect(g1_reader_target(&readers[i], 25, &target) == G1_DONE && target == 1, "target");
    }
    expect(g1_heap_read_end(&all.heap, readers, RACERS + 1) == G1_DONE, "the end of a reading");
}

// A race and a pause. Region 3 is moved to region 2 and freed, and then all regions are.
static void cycle(void) {
    static const uint32_t regions[] = {0, 1, 2, 3};
    uint32_t log[G1_LOG], moved, detail, kind;
    resume();
    stores(0, 0, 8, G1_STORED_LOGGED);
    stores(0, 4, 24, G1_STORED_LOGGED);
    stores(1, 16, 9, G1_STORED_LOGGED);
    stores(1, 25, 1, G1_STORED_LOGGED);
    uint32_t word = g1_race_take_log(&all.racers[0], log, G1_LOG, &count);
    expect(word == G1_DONE && count == 2, "log");
    refine(0);
    pause_heap();
    read_pause();
    for (region = 0; region < 4; region++) {
        walk();
    }
    expect(g1_heap_copy(&all.heap, 24, 16, 8) == G1_DONE, "copy");
    expect(g1_heap_redirect(&all.heap, 3, 2, &moved) == G1_DONE && moved == 1, "redirect");
    expect(g1_heap_wipe(&all.heap, 3) == G1_DONE, "wipe");
    expect(g1_heap_forget(&all.heap, 3) == G1_DONE, "forget");
    expect(g1_heap_clear(&all.heap, 3, &detail) == G1_DONE, "clear");
    expect(g1_heap_store(&all.heap, 16, 9, &kind) == G1_DONE, "the collector's store");
    word = g1_heap_free(&all.heap, regions, 4, &detail);
    expect(word == G1_STILL_PENDING && detail == 1, "a free with a dirty card");
    expect(g1_heap_refine(&all.heap) == G1_DONE, "refine");
    word = g1_heap_free(&all.heap, regions, 1, &detail);
    expect(word == G1_STILL_REFERENCED && detail == 17, "a free of one region");
    expect(g1_heap_free(&all.heap, regions, 4, &detail) == G1_DONE, "free");
}

int main(void) {
    uint32_t log[G1_LOG], moved, detail;
    setvbuf(stdout, NULL, _IONBF, 0);
    setvbuf(stderr, NULL, _IONBF, 0);
    open_heap();
    long before = memory_calls();
    resume();
    stores(0, 0, 8, G1_STORED_LOGGED);
    stores(1, 16, 9, G1_STORED_LOGGED);
    stores(0, 4, 24, G1_STORED_LOGGED);
    stores(0, 1, 2, G1_STORED_SAME_REGION);
    stores(1, 5, 25, G1_STORED_DIRTY);
    uint32_t word = g1_race_take_log(&all.racers[0], log, G1_LOG, &count);
    expect(word == G1_DONE && count == 2 && log[0] == 0 && log[1] == 1, "log");
    refine(0);
    pause_heap();
    list(members, "members");
    list(drain, "drain");
    expect(g1_heap_redirect(&all.heap, 1, 2, &moved) == G1_DONE && moved == 2, "redirect");
    resume();
    stores(1, 24, 0, G1_STORED_LOGGED);
    stores(0, 0, G1_NULL, G1_STORED_NULL);
    refine(6);
    pause_heap();
    expect(g1_heap_wipe(&all.heap, 0) == G1_DONE, "wipe");
    expect(g1_heap_forget(&all.heap, 0) == G1_DONE, "forget");
    expect(g1_heap_refine(&all.heap) == G1_DONE, "refine");
    expect(g1_heap_clear(&all.heap, 1, &detail) == G1_DONE, "clear");
    list(drain, "drain");
    for (uint32_t freed = 0; freed < 4; freed++) {
        expect(g1_heap_wipe(&all.heap, freed) == G1_DONE, "wipe");
        expect(g1_heap_forget(&all.heap, freed) == G1_DONE, "forget");
    }
    for (int i = 0; i < 100; i++) {
        cycle();
    }
    long after = memory_calls();
    if (before >= 0) {
        printf("%ld calls of memory between open and close\n", after - before);
    }
    expect(g1_heap_close(&all.heap) == G1_DONE, "close");
    return wrong;
}
