// Loads and stores of several threads, to be timed: `race_cost BARRIER TARGET THREADS ROUNDS` prints nanoseconds a store, on the heap 256 64 8.
// TARGET is `null`, `same-region`, `dirty` or `logged`. BARRIER is one through the library:
//   - `race`: a store of a concurrent heap;
//   - `slot-lock`: a lock of the slot's, and under it a store to memory of the program's own and the store in a race that tells it;
//   - `lock`: the store of a heap for one call at a time, under one mutex;
//   - `load`: an acquire load of the slot's word in a concurrent heap.
// Or it is one to compare with, of the program's own words alone:
//   - `plain-load` and `plain`: an acquire load, and a release store;
//   - `marked`: a release store, and a store of the card's mark, which is a byte;
//   - `hotspot`: a release store, and then what HotSpot's G1 (JDK 17) does: its filters, a fence, the card's mark, and an entry of the thread's queue;
//   - `exchange` and `exchanges`: the one or two atomic exchanges that a store in a race makes.
// See the script measure-race beside.
//
// Each of 1 to 4 threads has a quarter of the cards to itself and goes to one slot of each in a round. The loop around the calls is in the time,
// and the hand-over of full logs; what makes cards clean again between rounds is not.
#define _POSIX_C_SOURCE 200809L
#include "g1.h"

#include <pthread.h>
#include <stdatomic.h>
#include <stdio.h>
#include <stdlib.h>
#include <string.h>
#include <time.h>

enum {
    REGIONS = 256,
    CARDS = 64,
    SLOTS = 8,
    ALL_CARDS = REGIONS * CARDS,
    ALL_SLOTS = ALL_CARDS * SLOTS,
    REGION_SLOTS = CARDS * SLOTS,
    THREADS = 4,
    STORES = ALL_CARDS / THREADS,
    DIRTY = 1,
    YOUNG = 2
};

// A thread, with the handles of a race that it keeps in locals while it runs.
struct seat {
    struct g1_racer racer;
    struct g1_sweeper sweeper;
    uint32_t slots[STORES], targets[STORES];
    uint32_t queue[G1_LOG], queue_room;
    long nanoseconds;
    unsigned wrong;
};

// Makes each load or store of a round, and counts those whose reply was not as expected.
typedef unsigned round_of(struct seat *seat, uint32_t expected);

static _Atomic uint64_t words[ALL_SLOTS], marks[ALL_CARDS];
static _Atomic uint8_t byte_marks[ALL_CARDS], slot_locks[ALL_SLOTS];
static pthread_mutex_t lock = PTHREAD_MUTEX_INITIALIZER;
static pthread_barrier_t together;
static struct g1 heap;
static struct g1_heap racing;
static const uint64_t *library_words;
static round_of *make_round;
static uint32_t expected_kind;
static long rounds;

// The words are read as a runtime reads fields that are the library's words.
__attribute__((noinline)) static unsigned load(struct seat *seat, uint32_t expected) {
    const uint64_t *fields = library_words;
    uint64_t sum = 0;
    for (size_t i = 0; i < STORES; i++) {
        sum += __atomic_load_n(&fields[seat->slots[i]], __ATOMIC_ACQUIRE);
    }
    return sum == UINT64_MAX && expected == 0;
}

__attribute__((noinline)) static unsigned plain_load(struct seat *seat, uint32_t expected) {
    uint64_t sum = 0;
    for (size_t i = 0; i < STORES; i++) {
        sum += atomic_load_explicit(&words[seat->slots[i]], memory_order_acquire);
    }
    return sum == UINT64_MAX && expected == 0;
}

__attribute__((noinline)) static unsigned plain(struct seat *seat, uint32_t expected) {
    for (size_t i = 0; i < STORES; i++) {
        atomic_store_explicit(&words[seat->slots[i]], seat->targets[i], memory_order_release);
    }
    return expected > G1_STORED_LOGGED;
}

__attribute__((noinline)) static unsigned marked(struct seat *seat, uint32_t expected) {
    for (size_t i = 0; i < STORES; i++) {
        atomic_store_explicit(&words[seat->slots[i]], seat->targets[i], memory_order_release);
        atomic_store_explicit(&byte_marks[seat->slots[i] / SLOTS], 1, memory_order_release);
    }
    return expected > G1_STORED_LOGGED;
}

// A card's byte is 0 while it is clean. A full queue is emptied here, where HotSpot hands it on.
static inline void hotspot_one(struct seat *seat, uint32_t slot, uint32_t target) {
    _Atomic uint8_t *mark = &byte_marks[slot / SLOTS];
    atomic_store_explicit(&words[slot], target, memory_order_release);
    if (slot / REGION_SLOTS == target / REGION_SLOTS || target == G1_NULL || atomic_load_explicit(mark, memory_order_relaxed) == YOUNG) {
        return;
    }
    atomic_thread_fence(memory_order_seq_cst);
    if (atomic_load_explicit(mark, memory_order_relaxed) == DIRTY) {
        return;
    }
    atomic_store_explicit(mark, DIRTY, memory_order_relaxed);
    seat->queue_room = seat->queue_room == 0 ? G1_LOG : seat->queue_room;
    seat->queue[--seat->queue_room] = slot / SLOTS;
}

__attribute__((noinline)) static unsigned hotspot(struct seat *seat, uint32_t expected) {
    for (size_t i = 0; i < STORES; i++) {
        hotspot_one(seat, seat->slots[i], seat->targets[i]);
    }
    return expected > G1_STORED_LOGGED;
}

__attribute__((noinline)) static unsigned exchange(struct seat *seat, uint32_t expected) {
    uint64_t sum = 0;
    for (size_t i = 0; i < STORES; i++) {
        sum += atomic_exchange(&words[seat->slots[i]], seat->targets[i]);
    }
    return sum == UINT64_MAX && expected == 0;
}

__attribute__((noinline)) static unsigned exchanges(struct seat *seat, uint32_t expected) {
    uint64_t sum = 0;
    for (size_t i = 0; i < STORES; i++) {
        sum += atomic_exchange(&words[seat->slots[i]], seat->targets[i]);
        sum += atomic_exchange(&marks[seat->slots[i] / SLOTS], 1);
    }
    return sum == UINT64_MAX && expected == 0;
}

// Looks at a store whose reply was not as expected: where the log was full, takes it and stores again.
__attribute__((noinline)) static unsigned is_wrong(struct g1_racer *racer, uint32_t slot, uint32_t target, uint32_t code, uint32_t expected) {
    uint32_t cards[G1_LOG], count, kind;
    if (code != G1_LOG_FULL || g1_race_take_log(racer, cards, G1_LOG, &count) != G1_DONE) {
        return 1;
    }
    return g1_race_store(racer, slot, target, &kind) != G1_DONE || kind != expected;
}

static inline unsigned race_one(struct g1_racer *racer, uint32_t slot, uint32_t target, uint32_t expected) {
    uint32_t kind, code = g1_race_store(racer, slot, target, &kind);
    return code == G1_DONE && kind == expected ? 0 : is_wrong(racer, slot, target, code, expected);
}

__attribute__((noinline)) static unsigned race(struct seat *seat, uint32_t expected) {
    struct g1_racer racer = seat->racer;
    unsigned wrong = 0;
    for (size_t i = 0; i < STORES; i++) {
        wrong += race_one(&racer, seat->slots[i], seat->targets[i], expected);
    }
    seat->racer = racer;
    return wrong;
}

__attribute__((noinline)) static unsigned under_slot_lock(struct seat *seat, uint32_t expected) {
    struct g1_racer racer = seat->racer;
    unsigned wrong = 0;
    for (size_t i = 0; i < STORES; i++) {
        uint32_t slot = seat->slots[i];
        while (atomic_exchange_explicit(&slot_locks[slot], 1, memory_order_acquire) != 0) {
        }
        atomic_store_explicit(&words[slot], seat->targets[i], memory_order_release);
        wrong += race_one(&racer, slot, seat->targets[i], expected);
        atomic_store_explicit(&slot_locks[slot], 0, memory_order_release);
    }
    seat->racer = racer;
    return wrong;
}

__attribute__((noinline)) static unsigned under_lock(struct seat *seat, uint32_t expected) {
    unsigned wrong = 0;
    for (size_t i = 0; i < STORES; i++) {
        uint32_t kind;
        pthread_mutex_lock(&lock);
        wrong += g1_store(&heap, seat->slots[i], seat->targets[i], &kind) != G1_DONE || kind != expected;
        pthread_mutex_unlock(&lock);
    }
    return wrong;
}

// Makes the cards of a thread clean.
static unsigned clean(struct seat *seat) {
    static uint32_t cards[ALL_CARDS], refined[ALL_CARDS];
    uint32_t count, refined_count;
    unsigned wrong = 0;
    if (make_round == under_lock) {
        pthread_mutex_lock(&lock);
        wrong += g1_drain(&heap, 0, cards, ALL_CARDS, &count, refined, ALL_CARDS, &refined_count) != G1_DONE;
        pthread_mutex_unlock(&lock);
        return wrong;
    }
    for (size_t i = 0; i < STORES; i++) {
        wrong += g1_race_refine(&seat->sweeper, seat->slots[i] / SLOTS) != G1_DONE;
        byte_marks[seat->slots[i] / SLOTS] = 0;
    }
    return wrong;
}

static long nanoseconds_since(struct timespec from) {
    struct timespec now;
    clock_gettime(CLOCK_MONOTONIC, &now);
    return (now.tv_sec - from.tv_sec) * 1000000000 + now.tv_nsec - from.tv_nsec;
}

// The rounds of a thread, each of which the threads begin together. The first brings the memory in and dirties cards, and is not counted.
static void *play(void *place) {
    struct seat *seat = place;
    make_round(seat, 0);
    for (long i = 0; i < rounds; i++) {
        struct timespec from;
        seat->wrong += expected_kind == G1_STORED_LOGGED ? clean(seat) : 0;
        pthread_barrier_wait(&together);
        clock_gettime(CLOCK_MONOTONIC, &from);
        seat->wrong += make_round(seat, expected_kind);
        seat->nanoseconds += nanoseconds_since(from);
        pthread_barrier_wait(&together);
    }
    return NULL;
}

// Gives a thread its stores.
static void assign(struct seat *seat, uint32_t first_card) {
    for (uint32_t i = 0; i < STORES; i++) {
        uint32_t slot = (first_card + i) * SLOTS;
        uint32_t others = (slot + ALL_SLOTS / 2) % ALL_SLOTS;
        seat->slots[i] = slot;
        seat->targets[i] = expected_kind == G1_STORED_NULL          ? G1_NULL
                           : expected_kind == G1_STORED_SAME_REGION ? slot / REGION_SLOTS * REGION_SLOTS
                                                                    : others;
    }
}

// The barrier of this name, or the end of the program.
static round_of *barrier_of(const char *word) {
    static const struct {
        const char *name;
        round_of *round;
    } barriers[] = {{"race", race},         {"slot-lock", under_slot_lock}, {"lock", under_lock}, {"load", load},          {"plain-load", plain_load},
                    {"plain", plain},       {"marked", marked},             {"hotspot", hotspot},
                    {"exchange", exchange}, {"exchanges", exchanges}};
    for (size_t i = 0; i < sizeof barriers / sizeof barriers[0]; i++) {
        if (strcmp(word, barriers[i].name) == 0) {
            return barriers[i].round;
        }
    }
    fprintf(stderr, "no such barrier: %s\n", word);
    exit(2);
}

// The kind of store of this name, or the end of the program.
static uint32_t kind_of(const char *word) {
    static const char *const kinds[] = {"null", "same-region", "dirty", "logged"};
    for (uint32_t i = 0; i < 4; i++) {
        if (strcmp(word, kinds[i]) == 0) {
            return i;
        }
    }
    fprintf(stderr, "no such kind of store: %s\n", word);
    exit(2);
}

int main(int number, char **arguments) {
    static struct seat seats[THREADS];
    struct g1_counts counts = {REGIONS, CARDS, SLOTS};
    struct g1_racer racers[THREADS] = {{0}};
    struct g1_sweeper sweepers[THREADS] = {{0}};
    pthread_t threads[THREADS];
    int count = number == 5 ? atoi(arguments[3]) : 0;
    if (count < 1 || count > THREADS || (rounds = atol(arguments[4])) < 1) {
        fprintf(stderr, "usage: race_cost BARRIER TARGET THREADS ROUNDS\n");
        return 2;
    }
    make_round = barrier_of(arguments[1]);
    expected_kind = kind_of(arguments[2]);
    unsigned wrong = g1_heap_open(&racing, &counts, THREADS, THREADS) != G1_DONE;
    wrong += g1_heap_resume(&racing, racers, THREADS, sweepers, THREADS) != G1_DONE;
    wrong += g1_heap_words(&racing, &library_words) != G1_DONE;
    wrong += g1_open(&heap, &counts, 255, 1) != G1_DONE;
    pthread_barrier_init(&together, NULL, (unsigned)count);
    for (int i = 0; i < count; i++) {
        seats[i].racer = racers[i];
        seats[i].sweeper = sweepers[i];
        assign(&seats[i], (uint32_t)(i * STORES));
        pthread_create(&threads[i], NULL, play, &seats[i]);
    }
    long longest = 0;
    for (int i = 0; i < count; i++) {
        pthread_join(threads[i], NULL);
        wrong += seats[i].wrong;
        longest = seats[i].nanoseconds > longest ? seats[i].nanoseconds : longest;
    }
    printf("%.2f\n", (double)longest / ((double)rounds * STORES));
    return wrong != 0;
}
