// A runtime over the library: the objects, the barrier, and what its files share.
//
// An object is a row of words: a header, which has its size, and one field or more. A reference is
// the number of the slot of the header. A field has a reference, null, or a tagged integer of 32
// bits. Objects move at a pause, so a mutator keeps references in handles where it may come to a
// safepoint, which is in `reserve` and `enter` alone.
//
// Old objects are in the library's words, and each store into them is a call. Young ones, which
// were allocated since the last pause, are in memory of the runtime's own, with plain stores: each
// pause evacuates all of them, so no remembered set needs their cards. Their slots have numbers of
// the heap, since old objects may refer to them. The library's words there are null.
#ifndef RUNTIME_H
#define RUNTIME_H
#define _POSIX_C_SOURCE 200809L
#include "bench/counts.h"
#include "g1.h"

#include <pthread.h>
#include <stdatomic.h>
#include <stdio.h>
#include <stdlib.h>
#include <string.h>

#ifndef RUNTIME_CARDS
#define RUNTIME_CARDS 2048 // of a region: 2^n, so that a shift finds the region of a slot
#endif

enum {
    SLOTS = 64,                     // words of a card
    REGION = RUNTIME_CARDS * SLOTS, // words of a region
    MOST_FIELDS = REGION / 8 - 1,   // of an object, so that a region ends with a small gap
    MUTATORS = 16,                  // the most at once
    WORKERS = 4,                    // threads of a pause
    HANDLES = 256,                  // of a mutator
    GLOBALS = 16                    // roots that all mutators share
};
#define MOST_SLOTS ((size_t)G1_MAX_REGIONS * REGION) // of a heap

// A mutator belongs to one thread, from `enter` to `leave`.
struct mutator {
    struct g1_racer racer;
    size_t number;
    uint32_t top, end;  // the free words of its region
    uint64_t stores[4]; // by enum g1_kind
    uint32_t handles_length, handles[HANDLES];
};

// For programs.
int runtime_open(uint32_t regions); // up to G1_MAX_REGIONS. Returns 0 if memory is refused
void runtime_close(void);           // after all mutators have left
void enter(struct mutator *self);   // a thread begins to use the heap, with no handles
void leave(struct mutator *self);   // before the thread ends or blocks
extern _Atomic uint64_t globals[GLOBALS]; // a word for each

// Between the files of the runtime. Young regions have what was allocated since the last pause.
enum state { FREE, YOUNG, OLD };
extern struct region {
    enum state state;
    int is_in_set, is_filling; // in the collection set; a worker copies into it
    uint32_t filled, new_from; // words of an old one that are filled, and were before this pause
    uint32_t marked_to, live;  // words that were filled when it was marked; those in live objects
} regions[G1_MAX_REGIONS];
extern uint32_t regions_length, most_young; // regions that are filled between two pauses
extern struct g1_heap heap;
extern const uint64_t *words; // the heap's: the runtime only reads them
extern uint64_t *own;         // the words of young regions, at the same numbers
extern const uint64_t *bases[G1_MAX_REGIONS]; // `words` of an old region, else `own`
extern atomic_int is_stopping;           // a pause is due
extern struct g1_racer racers[MUTATORS]; // while no mutator, and no worker of a pause, has them
extern struct g1_sweeper sweepers[WORKERS];

int heap_open(uint32_t length); // heap.c
void heap_close(void);
int take_region(enum state state, uint32_t *first, uint32_t *end);
uint32_t count_regions(enum state state);
struct region *with_most_garbage(void);
uint32_t choose_set(void);
void free_set(void);
void make_room(struct mutator *self, uint32_t fields); // mutators.c
void drop_log(struct g1_racer *racer);
void for_roots(void (*visit)(void *context, uint32_t *root), void *context);
void mark_if_due(void); // marking.c
int is_dead(uint32_t slot);
int evacuation_open(void); // evacuation.c
void evacuation_close(void);
void collect(void);
void check(int is_after); // bench/check.c: compares the live graph after a pause with that before
void check_listed(const unsigned char *is_listed); // finds a reference that is not scanned
#ifndef CHECKED
#define check(is_after) ((void)0)
#define check_listed(is_listed) ((void)0)
#endif

static inline void fail(const char *what) {
    fprintf(stderr, "-- %s\n", what);
    exit(1);
}

// Ends the program if a call was refused: once the heap is open, none is for want of memory.
static inline void done(uint32_t code) {
    code != G1_DONE ? fail(g1_code_text(code)) : (void)0;
}

// The word of null is 0, and its number is G1_NULL: that plus 1 is 0 in 32 bits.
static inline uint64_t of_reference(uint32_t object) { return object + 1; }
static inline uint64_t of_integer(uint32_t value) { return G1_DATA + value; }
static inline uint32_t reference_of(uint64_t word) {
    return word < G1_DATA ? (uint32_t)word - 1 : G1_NULL;
}

// Between two pauses no region's base changes.
static inline int is_young(uint32_t slot) { return bases[slot / REGION] == own; }
static inline uint64_t word_of(uint32_t slot) {
    return __atomic_load_n(&bases[slot / REGION][slot], __ATOMIC_ACQUIRE);
}
static inline uint32_t end_of(uint32_t object) { return object + (uint32_t)word_of(object); }
static inline uint32_t get(uint32_t object, uint32_t field) {
    return reference_of(word_of(object + 1 + field));
}
static inline uint32_t get_integer(uint32_t object, uint32_t field) {
    return (uint32_t)word_of(object + 1 + field);
}

#ifdef WITHOUT_SETS
#include "bench/without_sets.h" // for a comparison
#endif

// The barrier: a mutator's store. What is stored into a young object is told to nobody.
static inline void put_word(struct mutator *self, uint32_t slot, uint64_t word) {
    struct g1_racer *racer = &self->racer;
    uint64_t old;
    uint32_t kind = G1_STORED_NULL, code;
    if (is_young(slot)) {
        __atomic_store_n(&own[slot], word, __ATOMIC_RELEASE);
        return;
    }
    while ((code = word < G1_DATA ? g1_race_store(racer, slot, reference_of(word), &kind)
                                  : g1_race_store_data(racer, slot, word, &old)) != G1_DONE) {
        code == G1_LOG_FULL ? drop_log(racer) : done(code);
    }
    self->stores[kind] += word < G1_DATA;
}

static inline void put(struct mutator *self, uint32_t object, uint32_t field, uint32_t target) {
    put_word(self, object + 1 + field, of_reference(target));
}
static inline void put_integer(struct mutator *self, uint32_t object, uint32_t i, uint32_t value) {
    put_word(self, object + 1 + i, of_integer(value));
}

// Keeps a reference over safepoints. `release` drops this handle and all later ones.
static inline uint32_t keep(struct mutator *self, uint32_t object) {
    self->handles_length == HANDLES ? fail("a mutator has too many handles") : (void)0;
    self->handles[self->handles_length] = object;
    return self->handles_length++;
}

static inline uint32_t at(const struct mutator *self, uint32_t i) { return self->handles[i]; }
static inline void release(struct mutator *self, uint32_t i) { self->handles_length = i; }

// A safepoint, after which there is room for an object of this many fields, which may be 0.
static inline void reserve(struct mutator *self, uint32_t fields) {
    if (self->end - self->top <= fields ||
        atomic_load_explicit(&is_stopping, memory_order_relaxed)) {
        make_room(self, fields);
    }
}

// A new object in the room that was reserved. Its first fields get these words, the others null.
// Other threads find it by a store that comes later, and that is a release.
static inline uint32_t create(struct mutator *self, uint32_t fields, const uint64_t *first,
                              uint32_t length) {
    uint32_t object = self->top;
    self->top += 1 + fields;
    __atomic_store_n(&own[object], of_integer(1 + fields), __ATOMIC_RELAXED);
    for (uint32_t i = 0; i < fields; i++) {
        __atomic_store_n(&own[object + 1 + i], i < length ? first[i] : 0, __ATOMIC_RELAXED);
    }
    return object;
}

#endif
