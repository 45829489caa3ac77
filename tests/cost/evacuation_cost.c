// The calls by which an evacuation lists a collection set and empties its regions, to be timed.
// `evacuation_cost ROUNDS` prints them as the rows of a Markdown table, each figure the least of the
// rounds: nanoseconds a slot, beside calloc, memset or memcpy of as many words, and microseconds
// for a set of 16 regions, each with the same 512 cards. See the script measure-pause beside.
#define _POSIX_C_SOURCE 200809L
#include "g1.h"

#include <stdio.h>
#include <stdlib.h>
#include <string.h>
#include <time.h>

enum { REGIONS = 64, CARDS = 4096, SLOTS = 64, REGION_SLOTS = CARDS * SLOTS };
enum { SET = 16, LISTED = 512, PAGE = 4096, ALL_SLOTS = REGIONS * REGION_SLOTS };

static struct g1_heap heap;
static uint64_t *words; // as many as a region has slots, for memset and memcpy
static uint32_t set[SET], wrong;

static double now(void) {
    struct timespec time;
    clock_gettime(CLOCK_MONOTONIC, &time);
    return (double)time.tv_sec * 1e9 + (double)time.tv_nsec;
}

static void expect(uint32_t code) {
    wrong += code != G1_DONE;
}

static void open_heap(void) {
    struct g1_counts counts = {REGIONS, CARDS, SLOTS};
    expect(g1_heap_open(&heap, &counts, 1, 1));
}

static void open_and_close(void) {
    open_heap();
    expect(g1_heap_close(&heap));
}

// As many words as the heap has slots, zeroed and touched.
static void touch_pages(void) {
    volatile char *bytes = calloc(ALL_SLOTS, sizeof *words);
    wrong += bytes == NULL;
    for (size_t at = 0; bytes != NULL && at < ALL_SLOTS * sizeof *words; at += PAGE) {
        bytes[at] = 0;
    }
    free((void *)bytes);
}

static void fill_with_data(void) {
    for (uint32_t slot = 0; slot < REGION_SLOTS; slot++) {
        expect(g1_heap_store_data(&heap, slot, G1_DATA));
    }
}

static void store_row(void) {
    expect(g1_heap_store_words(&heap, 0, words, REGION_SLOTS));
}

static void row_of_data(void) {
    for (uint32_t i = 0; i < REGION_SLOTS; i++) {
        words[i] = G1_DATA + i;
    }
}

static void wipe(void) {
    expect(g1_heap_wipe(&heap, 0));
}

static void set_to_zero(void) {
    memset(words, 0, REGION_SLOTS * sizeof *words);
    __asm__ volatile("" ::: "memory");
}

static void copy(void) {
    expect(g1_heap_copy(&heap, 0, REGION_SLOTS, REGION_SLOTS));
}

static void copy_words(void) {
    memcpy(words + REGION_SLOTS, words, REGION_SLOTS * sizeof *words);
    __asm__ volatile("" ::: "memory");
}

static void forget(void) {
    expect(g1_heap_forget(&heap, 0));
}

static void nothing(void) {}

// The first cards of the last region get a reference into each region of the set.
static void record(void) {
    uint32_t kind;
    for (uint32_t i = 0; i < LISTED * SET; i++) {
        uint32_t slot = (REGIONS - 1) * REGION_SLOTS + i / SET * SLOTS + i % SET;
        expect(g1_heap_store(&heap, slot, set[i % SET] * REGION_SLOTS, &kind));
    }
    expect(g1_heap_refine(&heap));
}

static void list_set(void) {
    uint32_t card = 0, count = 0;
    for (uint32_t from = 0; card != G1_NULL; from = card + 1) {
        expect(g1_heap_next_into(&heap, set, SET, from, &card));
        count += card != G1_NULL;
    }
    wrong += count != LISTED;
}

static void list_each(void) {
    uint32_t count = 0;
    for (int i = 0; i < SET; i++) {
        uint32_t card = 0;
        for (uint32_t from = 0; card != G1_NULL; from = card + 1) {
            expect(g1_heap_next_member(&heap, set[i], from, &card));
            count += card != G1_NULL;
        }
    }
    wrong += count != LISTED * SET;
}

static void clear_set(void) {
    uint32_t detail;
    for (int i = 0; i < SET; i++) {
        expect(g1_heap_clear(&heap, set[i], &detail));
    }
}

static void free_set(void) {
    uint32_t detail;
    expect(g1_heap_free(&heap, set, SET, &detail));
}

static void record_and_wipe(void) {
    record();
    expect(g1_heap_wipe(&heap, REGIONS - 1));
}

// Nanoseconds of a call, each time after another that is not counted, for each of so many.
static double least(void (*before)(void), void (*call)(void), double each, int rounds) {
    double best = 0;
    for (int round = 0; round < rounds; round++) {
        before();
        double from = now();
        call();
        double passed = (now() - from) / each;
        best = round == 0 || passed < best ? passed : best;
    }
    return best;
}

static void print_slots(int rounds) {
    double zero = least(nothing, set_to_zero, REGION_SLOTS, rounds);
    double moved = least(nothing, copy_words, REGION_SLOTS, rounds);
    printf("| open a heap | %.1f ns | %.1f (calloc, each page touched) |\n",
           least(nothing, open_and_close, ALL_SLOTS, rounds),
           least(nothing, touch_pages, ALL_SLOTS, rounds));
    open_heap();
    printf("| wipe, of null | %.1f ns | %.1f (memset) |\n",
           least(nothing, wipe, REGION_SLOTS, rounds), zero);
    printf("| wipe, of data | %.1f ns | %.1f (memset) |\n",
           least(fill_with_data, wipe, REGION_SLOTS, rounds), zero);
    printf("| copy, of null | %.1f ns | %.1f (memcpy) |\n",
           least(nothing, copy, REGION_SLOTS, rounds), moved);
    printf("| copy, of data | %.1f ns | %.1f (memcpy) |\n",
           least(fill_with_data, copy, REGION_SLOTS, rounds), moved);
    printf("| store a row of words, of data | %.1f ns | %.1f (memcpy) |\n",
           least(row_of_data, store_row, REGION_SLOTS, rounds), moved);
    wipe();
    printf("| forget | %.1f ns | |\n", least(nothing, forget, REGION_SLOTS, rounds));
}

static void print_lists(int rounds) {
    for (uint32_t i = 0; i < SET; i++) {
        set[i] = i;
    }
    printf("| list all, by g1_heap_next_into | %.0f µs | |\n", least(record, list_set, 1e3, rounds));
    printf("| list each, by g1_heap_next_member | %.0f µs | |\n", least(record, list_each, 1e3, rounds));
    printf("| clear each | %.0f µs | |\n", least(record_and_wipe, clear_set, 1e3, rounds));
    printf("| free all, by g1_heap_free | %.0f µs | |\n",
           least(record_and_wipe, free_set, 1e3, rounds));
}

int main(int number, char **arguments) {
    int rounds = number == 2 ? atoi(arguments[1]) : 0;
    words = calloc(2 * (size_t)REGION_SLOTS, sizeof *words);
    if (rounds < 1 || words == NULL) {
        fprintf(stderr, "usage: evacuation_cost ROUNDS\n");
        return 2;
    }
    print_slots(rounds);
    print_lists(rounds);
    free(words);
    expect(g1_heap_close(&heap));
    return wrong != 0;
}
