// A collector that evacuates a region by several threads: `parallel_evacuation [CYCLES]`.
//
// One call at a time uses a heap's handle, so a pause has one thread. To evacuate by several, the
// collector drains the region, and resumes the heap with the racers in the hands of its own workers,
// while no mutator runs. The workers copy objects and update references by racing stores, which
// keep the remembered sets right. Then it pauses the heap again, and frees the region.
//
// The objects' fields are the words of the heap. An object has a number, as data, in its first slot,
// and references in the others. What they have to refer to is in `wanted`, which the mutators keep;
// after each evacuation all slots are compared with it.
#define _POSIX_C_SOURCE 200809L
#include "g1.h"

#include <pthread.h>
#include <stdatomic.h>
#include <stdio.h>
#include <stdlib.h>

enum {
    REGIONS = 16,
    CARDS = 16,
    SLOTS = 8,
    REGION = CARDS * SLOTS,
    ALL_CARDS = REGIONS * CARDS,
    FIELDS = 4, // the slots of an object
    OBJECTS = (REGIONS - 1) * REGION / FIELDS,
    NONE = OBJECTS,
    THREADS = 4,
    STORES = 400
};

static struct g1_heap heap;
static struct g1_racer racers[THREADS];
static struct g1_sweeper sweeper;
static const uint64_t *words;
static atomic_uint wrong;

static uint32_t places[OBJECTS]; // the first slot of each object: the roots
static uint32_t wanted[OBJECTS][FIELDS];

// The evacuation: the region that is left and the one that is free, the drained cards, and how many
// cards, objects and slots the workers have taken.
static uint32_t from, to, cards[ALL_CARDS], card_count;
static atomic_uint next_card, next_object;
static pthread_mutex_t lock = PTHREAD_MUTEX_INITIALIZER;
static uint32_t top, copies[OBJECTS]; // the lock's: where an object is copied to, or G1_NULL

// A worker, with the objects that it has to copy.
struct worker {
    struct g1_racer *racer;
    uint32_t found[REGION / FIELDS], count;
};

static void expect(int holds, const char *what) {
    if (!holds && atomic_fetch_add(&wrong, 1) < 10) {
        fprintf(stderr, "-- %s\n", what);
    }
}

// The words are atomic, and read by whole loads.
static uint64_t word_of(uint32_t slot) {
    return __atomic_load_n(&words[slot], __ATOMIC_ACQUIRE);
}

static int is_reference(uint64_t word) {
    return word != 0 && word < G1_DATA;
}

static uint32_t number_at(uint32_t place) {
    return (uint32_t)(word_of(place) - G1_DATA);
}

// A log that is full is dropped: its cards stay dirty until the next refinement at a pause.
static void store(struct g1_racer *racer, uint32_t slot, uint32_t target) {
    uint32_t kind, log[G1_LOG], count, code = g1_race_store(racer, slot, target, &kind);
    if (code == G1_LOG_FULL) {
        expect(g1_race_take_log(racer, log, G1_LOG, &count) == G1_DONE, "a log");
        code = g1_race_store(racer, slot, target, &kind);
    }
    expect(code == G1_DONE, "a store");
}

// Where a place is, or will be, once the region is left. Who finds an object there first takes room
// for it, and has to copy it.
static uint32_t place_after(struct worker *worker, uint32_t place) {
    if (place / REGION != from) {
        return place;
    }
    uint32_t object = number_at(place);
    pthread_mutex_lock(&lock);
    if (copies[object] == G1_NULL) {
        copies[object] = to * REGION + top;
        top += FIELDS;
        worker->found[worker->count++] = object;
    }
    uint32_t copy = copies[object];
    pthread_mutex_unlock(&lock);
    return copy;
}

// Copies the objects that a worker has found. By this it may find more.
static void copy_found(struct worker *worker) {
    while (worker->count > 0) {
        uint32_t object = worker->found[--worker->count], copy = copies[object];
        uint64_t old;
        expect(g1_race_store_data(worker->racer, copy, G1_DATA + object, &old) == G1_DONE, "a number");
        for (uint32_t i = 1; i < FIELDS; i++) {
            uint64_t word = word_of(places[object] + i);
            if (is_reference(word)) {
                store(worker->racer, copy + i, place_after(worker, (uint32_t)word - 1));
            }
        }
    }
}

// A slot that refers into the region refers to the copy then.
static void update(struct worker *worker, uint32_t slot) {
    uint64_t word = word_of(slot);
    if (is_reference(word) && (word - 1) / REGION == from) {
        store(worker->racer, slot, place_after(worker, (uint32_t)word - 1));
    }
}

// A worker scans drained cards and roots, as many as it comes to.
static void *evacuate(void *place) {
    struct worker worker = {.racer = place};
    for (uint32_t i; (i = atomic_fetch_add(&next_card, 1)) < card_count;) {
        for (uint32_t slot = cards[i] * SLOTS; slot < (cards[i] + 1) * SLOTS; slot++) {
            update(&worker, slot);
        }
        copy_found(&worker);
    }
    for (uint32_t i; (i = atomic_fetch_add(&next_object, 1)) < OBJECTS;) {
        place_after(&worker, places[i]);
        copy_found(&worker);
    }
    return NULL;
}

// A mutator stores to the objects whose numbers are its own.
static void *mutate(void *place) {
    struct g1_racer *racer = place;
    uint32_t mine = (uint32_t)(racer - racers);
    static uint64_t states[THREADS];
    uint64_t state = states[mine] + 1 + mine;
    for (int i = 0; i < STORES; i++) {
        state = state * 6364136223846793005u + 1442695040888963407u;
        uint32_t object = (uint32_t)(state >> 33) % (OBJECTS / THREADS) * THREADS + mine;
        uint32_t field = 1 + (uint32_t)(state >> 40) % (FIELDS - 1);
        uint32_t target = (uint32_t)(state >> 45) % (OBJECTS + 1);
        store(racer, places[object] + field, target == NONE ? G1_NULL : places[target]);
        wanted[object][field] = target;
    }
    states[mine] = state;
    return NULL;
}

// The heap races with its racers in these threads, and is at a pause again.
static void race(void *(*run)(void *)) {
    pthread_t threads[THREADS];
    expect(g1_heap_resume(&heap, racers, THREADS, &sweeper, 1) == G1_DONE, "a resume");
    for (int i = 0; i < THREADS; i++) {
        pthread_create(&threads[i], NULL, run, &racers[i]);
    }
    for (int i = 0; i < THREADS; i++) {
        pthread_join(threads[i], NULL);
    }
    expect(g1_heap_pause(&heap, racers, THREADS, &sweeper, 1) == G1_DONE, "a pause");
}

// Evacuates the region `from`, which is free then.
static void evacuation(void) {
    uint32_t detail;
    expect(g1_heap_drain(&heap, from, cards, ALL_CARDS, &card_count) == G1_DONE, "a drain");
    for (uint32_t i = 0; i < OBJECTS; i++) {
        copies[i] = G1_NULL;
    }
    atomic_store(&next_card, 0);
    atomic_store(&next_object, 0);
    top = 0;
    race(evacuate);
    for (uint32_t i = 0; i < OBJECTS; i++) {
        places[i] = copies[i] == G1_NULL ? places[i] : copies[i];
    }
    expect(g1_heap_wipe(&heap, from) == G1_DONE, "a wipe");
    expect(g1_heap_refine(&heap) == G1_DONE, "a refinement");
    expect(g1_heap_free(&heap, &from, 1, &detail) == G1_DONE, "a free");
}

// Each object has its number, and refers to what it has to.
static void compare(void) {
    for (uint32_t i = 0; i < OBJECTS; i++) {
        expect(places[i] / REGION != to && number_at(places[i]) == i, "an object's number");
        for (uint32_t field = 1; field < FIELDS; field++) {
            uint32_t target = wanted[i][field];
            uint64_t word = target == NONE ? 0 : places[target] + 1;
            expect(word_of(places[i] + field) == word, "a reference");
        }
    }
}

int main(int count, char **arguments) {
    long cycles = count > 1 ? atol(arguments[1]) : 1000, moved_objects = 0;
    struct g1_counts counts = {REGIONS, CARDS, SLOTS};
    if (g1_heap_open(&heap, &counts, THREADS, 1) != G1_DONE) {
        fprintf(stderr, "-- no memory\n");
        return 1;
    }
    expect(g1_heap_words(&heap, &words) == G1_DONE, "the words");
    for (uint32_t i = 0; i < OBJECTS; i++) {
        places[i] = i * FIELDS;
        expect(g1_heap_store_data(&heap, places[i], G1_DATA + i) == G1_DONE, "a number");
        for (uint32_t field = 1; field < FIELDS; field++) {
            wanted[i][field] = NONE;
        }
    }
    to = REGIONS - 1;
    for (long i = 0; i < cycles; i++) {
        race(mutate);
        from = (to + 1) % REGIONS;
        evacuation();
        moved_objects += REGION / FIELDS;
        to = from;
        compare();
    }
    expect(g1_heap_close(&heap) == G1_DONE, "a close");
    printf("%ld objects were evacuated by %d threads\n", moved_objects, THREADS);
    printf("%ld passed, %u failed\n", cycles, (unsigned)wrong);
    return wrong != 0;
}
