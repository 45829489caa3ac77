// Several threads read one pause at once: `readers [ROUNDS]`.
//
// In each round racers store, all in one thread, and the heap pauses. Then one thread or several,
// at most as many as the heap may have readers, read the whole pause at once, each by a reader of
// its own, beside a table of the program's. Before and after that the heap answers the same.
#define _POSIX_C_SOURCE 200809L
#include "g1.h"

#include <pthread.h>
#include <stdio.h>
#include <stdlib.h>
#include <string.h>

enum { REGIONS = 8, CARDS = 4, SLOTS = 8, ALL_CARDS = REGIONS * CARDS, ALL_SLOTS = ALL_CARDS * SLOTS };
enum { RACERS = 3, SWEEPERS = 1, READERS = RACERS + SWEEPERS, STORES = 40 };

// A heap, and what it has to have.
struct heap {
    struct g1_heap handle;
    struct g1_racer racers[RACERS];
    struct g1_sweeper sweeper;
    uint64_t words[ALL_SLOTS];
    uint32_t dirty[ALL_CARDS], recorded[ALL_CARDS][REGIONS];
};

// A thread that reads, with its reader and what it found wrong.
struct thread {
    struct g1_reader reader;
    const struct heap *heap;
    unsigned passed, failed;
};

static const struct g1_counts counts = {REGIONS, CARDS, SLOTS};
static uint64_t state = 88172645463325252u;
static unsigned passed, failed;

static void check(int holds, const char *what) {
    if (holds) {
        passed++;
    } else if (failed++ < 20) {
        printf("-- %s\n", what);
    }
}

static uint32_t below(uint32_t most) {
    state ^= state << 13;
    state ^= state >> 7;
    state ^= state << 17;
    return (uint32_t)((state >> 33) % most);
}

static uint32_t target_of(uint64_t word) {
    return word == 0 || word >= G1_DATA ? G1_NULL : (uint32_t)(word - 1);
}

static void open_heap(struct heap *heap) {
    memset(heap, 0, sizeof *heap);
    check(g1_heap_open(&heap->handle, &counts, RACERS, SWEEPERS) == G1_DONE, "open");
}

static void resume(struct heap *heap) {
    uint32_t code = g1_heap_resume(&heap->handle, heap->racers, RACERS, &heap->sweeper, SWEEPERS);
    check(code == G1_DONE, "resume");
}

static void pause(struct heap *heap) {
    uint32_t code = g1_heap_pause(&heap->handle, heap->racers, RACERS, &heap->sweeper, SWEEPERS);
    check(code == G1_DONE, "pause");
}

// What the heap answers at its pause of cards and sets.
static void ask(struct heap *heap) {
    for (uint32_t card = 0; card < ALL_CARDS; card++) {
        check(g1_heap_is_pending(&heap->handle, card, &heap->dirty[card]) == G1_DONE, "pending");
    }
    memset(heap->recorded, 0, sizeof heap->recorded);
    for (uint32_t region = 0; region < REGIONS; region++) {
        uint32_t card = 0;
        for (uint32_t from = 0; g1_heap_next_member(&heap->handle, region, from, &card) == G1_DONE &&
                                card != G1_NULL; from = card + 1) {
            heap->recorded[card][region] = 1;
        }
    }
}

static void race(struct heap *heap, int refine) {
    resume(heap);
    for (int i = 0; i < STORES; i++) {
        uint32_t slot = below(ALL_SLOTS), target = below(ALL_SLOTS), kind;
        uint64_t old;
        struct g1_racer *racer = &heap->racers[below(RACERS)];
        if (below(4) == 0) {
            heap->words[slot] = G1_DATA + target;
            check(g1_race_store_data(racer, slot, G1_DATA + target, &old) == G1_DONE, "data");
        } else {
            heap->words[slot] = (uint64_t)target + 1;
            uint32_t code = g1_race_store(racer, slot, target, &kind);
            if (code == G1_LOG_FULL) {
                uint32_t log[G1_LOG], count;
                check(g1_race_take_log(racer, log, G1_LOG, &count) == G1_DONE, "log");
                code = g1_race_store(racer, slot, target, &kind);
            }
            check(code == G1_DONE, "store");
        }
        check(g1_race_refine(&heap->sweeper, below(ALL_CARDS)) == G1_DONE, "refine");
    }
    pause(heap);
    if (refine) {
        check(g1_heap_refine(&heap->handle) == G1_DONE, "refine at the pause");
    }
}

static void find(struct thread *thread, int holds) {
    thread->passed += holds != 0;
    thread->failed += holds == 0;
}

static void read_slots(struct thread *thread) {
    for (uint32_t slot = 0; slot < ALL_SLOTS; slot++) {
        uint64_t word = 7, wanted = thread->heap->words[slot];
        uint32_t target = 7;
        find(thread, g1_reader_word(&thread->reader, slot, &word) == G1_DONE && word == wanted);
        find(thread, g1_reader_target(&thread->reader, slot, &target) == G1_DONE &&
                         target == target_of(wanted));
    }
}

static void read_sets(struct thread *thread) {
    for (uint32_t region = 0; region < REGIONS; region++) {
        uint32_t next = 7, from = 0;
        for (uint32_t card = 0; card < ALL_CARDS; card++) {
            uint32_t has = 7, wanted = thread->heap->recorded[card][region];
            find(thread, g1_reader_has(&thread->reader, card, region, &has) == G1_DONE && has == wanted);
            if (wanted) {
                find(thread, g1_reader_next_member(&thread->reader, region, from, &next) == G1_DONE &&
                                 next == card);
                from = card + 1;
            }
        }
        find(thread, g1_reader_next_member(&thread->reader, region, from, &next) == G1_DONE &&
                         next == G1_NULL);
    }
}

static void *read_pause(void *data) {
    struct thread *thread = data;
    read_slots(thread);
    for (uint32_t card = 0; card < ALL_CARDS; card++) {
        uint32_t pending = 7;
        find(thread, g1_reader_is_pending(&thread->reader, card, &pending) == G1_DONE &&
                         pending == thread->heap->dirty[card]);
    }
    read_sets(thread);
    return NULL;
}

// This many threads read the pause at once.
static void read_at_once(struct heap *heap, uint32_t count) {
    struct g1_reader readers[READERS];
    struct thread threads[READERS];
    pthread_t handles[READERS];
    memset(readers, 0, sizeof readers);
    check(g1_heap_read(&heap->handle, readers, count) == G1_DONE, "read");
    for (uint32_t i = 0; i < count; i++) {
        threads[i] = (struct thread){.reader = readers[i], .heap = heap};
        if (pthread_create(&handles[i], NULL, read_pause, &threads[i]) != 0) {
            abort();
        }
    }
    for (uint32_t i = 0; i < count; i++) {
        pthread_join(handles[i], NULL);
        readers[count - 1 - i] = threads[i].reader;
        passed += threads[i].passed;
        check(threads[i].failed == 0, "a thread that reads");
    }
    check(g1_heap_read_end(&heap->handle, readers, count) == G1_DONE, "the end of a reading");
    for (uint32_t i = 0; i < count; i++) {
        check(readers[i].reader == NULL, "a reader's handle is closed");
    }
}

// Each call that wants a pause is refused while the heap is read, and changes nothing.
static void refused_while_read(struct heap *heap) {
    struct g1_reader reader = {NULL};
    const uint64_t *words;
    uint32_t word;
    struct g1_totals totals;
    check(g1_heap_target(&heap->handle, 0, &word) == G1_NOT_PAUSED && word == G1_NULL, "no target");
    check(g1_heap_status(&heap->handle, &totals) == G1_NOT_PAUSED, "no status");
    check(g1_heap_store(&heap->handle, 0, 0, &word) == G1_NOT_PAUSED, "no store");
    check(g1_heap_refine(&heap->handle) == G1_NOT_PAUSED, "no refinement");
    check(g1_heap_read(&heap->handle, &reader, 1) == G1_NOT_PAUSED, "no second reading");
    check(g1_heap_resume(&heap->handle, heap->racers, RACERS, &heap->sweeper, SWEEPERS) == G1_NOT_PAUSED, "no resume");
    check(g1_heap_pause(&heap->handle, heap->racers, RACERS, &heap->sweeper, SWEEPERS) == G1_NOT_RACING, "no pause");
    check(g1_heap_close(&heap->handle) == G1_NOT_PAUSED, "no close");
    check(g1_heap_words(&heap->handle, &words) == G1_DONE && words[0] == heap->words[0], "words");
}

static void refused_readers(struct g1_reader *reader) {
    uint32_t word;
    uint64_t found;
    check(g1_reader_target(reader, ALL_SLOTS, &word) == G1_NO_SLOT && word == G1_NULL, "no slot");
    check(g1_reader_word(reader, ALL_SLOTS, &found) == G1_NO_SLOT && found == 0, "no slot's word");
    check(g1_reader_is_pending(reader, ALL_CARDS, &word) == G1_NO_CARD && word == 0, "no card");
    check(g1_reader_has(reader, ALL_CARDS, 0, &word) == G1_NO_CARD && word == 0, "no card's pair");
    check(g1_reader_has(reader, 0, REGIONS, &word) == G1_NO_REGION && word == 0, "no region's pair");
    check(g1_reader_next_member(reader, REGIONS, 0, &word) == G1_NO_REGION && word == G1_NULL, "no region");
    struct g1_reader closed = {NULL};
    check(g1_reader_target(&closed, 0, &word) == G1_NOT_OPEN && word == G1_NULL, "a closed reader");
    check(g1_reader_word(&closed, 0, &found) == G1_NOT_OPEN && found == 0, "a closed reader's word");
    check(g1_reader_is_pending(&closed, 0, &word) == G1_NOT_OPEN && word == 0, "a closed reader's card");
    check(g1_reader_has(&closed, 0, 0, &word) == G1_NOT_OPEN && word == 0, "a closed reader's pair");
    check(g1_reader_next_member(&closed, 0, 0, &word) == G1_NOT_OPEN && word == G1_NULL, "a closed reader's set");
}

// Readings that cannot begin or end.
static void refused(struct heap *heap, struct heap *other) {
    struct g1_reader readers[READERS + 1] = {{NULL}}, others[2] = {{NULL}}, mixed[2];
    struct g1_heap closed = {NULL};
    check(g1_heap_read(&closed, readers, 1) == G1_NOT_OPEN, "a closed heap");
    check(g1_heap_read_end(&closed, readers, 0) == G1_NOT_OPEN, "the end of a closed heap's");
    check(g1_heap_read(&heap->handle, readers, READERS + 1) == G1_BAD_HANDLES, "too many readers");
    check(g1_heap_read_end(&heap->handle, readers, 1) == G1_BAD_HANDLES, "no reading");
    resume(other);
    check(g1_heap_read(&other->handle, others, 2) == G1_NOT_PAUSED, "no reading of a race");
    check(g1_heap_read_end(&other->handle, others, 0) == G1_NOT_PAUSED, "nor the end of one");
    pause(other);
    check(g1_heap_read(&other->handle, others, 2) == G1_DONE, "the other heap's reading");
    mixed[0] = readers[0], mixed[1] = others[0];
    check(g1_heap_read(&heap->handle, mixed, 2) == G1_ALREADY_OPEN && mixed[0].reader == NULL, "an open reader");
    check(g1_heap_read(&heap->handle, readers, 2) == G1_DONE, "a reading of two");
    refused_while_read(heap);
    refused_readers(&readers[0]);
    check(g1_heap_read_end(&heap->handle, readers, 1) == G1_BAD_HANDLES, "too few readers");
    check(g1_heap_read_end(&heap->handle, readers, 3) == G1_BAD_HANDLES, "more than were handed out");
    mixed[0] = readers[0], mixed[1] = readers[0];
    check(g1_heap_read_end(&heap->handle, mixed, 2) == G1_OTHER_RACE, "a reader twice");
    mixed[1] = others[0];
    check(g1_heap_read_end(&heap->handle, mixed, 2) == G1_OTHER_RACE, "a reader of another heap");
    mixed[1].reader = NULL;
    check(g1_heap_read_end(&heap->handle, mixed, 2) == G1_NOT_OPEN, "a reader that is closed");
    check(g1_heap_read_end(&heap->handle, readers, 2) == G1_DONE, "the end");
    check(g1_heap_read_end(&other->handle, others, 2) == G1_DONE, "the other's end");
    check(g1_heap_read(&heap->handle, readers, 0) == G1_DONE, "a reading of none");
    check(g1_heap_read_end(&heap->handle, readers, 0) == G1_DONE, "and its end");
}

int main(int count, char **words) {
    static struct heap heap, other;
    unsigned rounds = count > 1 ? (unsigned)strtoul(words[1], NULL, 10) : 100;
    open_heap(&heap);
    open_heap(&other);
    for (unsigned round = 0; round < rounds; round++) {
        struct heap before;
        race(&heap, round % 2 == 0);
        ask(&heap);
        read_at_once(&heap, 1 + round % READERS);
        before = heap;
        ask(&heap);
        check(memcmp(&before, &heap, sizeof heap) == 0, "the pause after a reading");
    }
    refused(&heap, &other);
    check(g1_heap_close(&heap.handle) == G1_DONE, "close");
    check(g1_heap_close(&other.handle) == G1_DONE, "close");
    printf("%u passed, %u failed\n", passed, failed);
    return failed != 0;
}
