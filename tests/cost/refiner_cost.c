// What a refiner costs: `refiner_cost MUTATORS SWEEPERS START STOP [STORES]`.
//
// A table of lists is in the words of a heap with cards of 64 slots. A mutator puts a node in front
// of a list of its own part, or takes the first one away, at random, by two stores each. In ten
// rounds there are STORES stores (8,000,000), with a pause after each. It prints the seconds of all
// processors, the median pause in milliseconds, and nanoseconds of a processor for each store and
// for each refined card.
#define _POSIX_C_SOURCE 200809L
#include "g1_refiner.h"

#include <stdio.h>
#include <stdlib.h>
#include <time.h>

enum { REGIONS = 128, CARDS = 512, SLOTS = 64, ALL_SLOTS = REGIONS * CARDS * SLOTS };
enum { MOST = 8, LISTS = 1 << 16, NODE = 4, NODES = (ALL_SLOTS - LISTS) / NODE, ROUNDS = 10 };

struct mutator {
    struct g1_racer racer;
    uint64_t state;
    uint32_t number, nodes_length, *nodes; // that are in no list
    double seconds;                        // of a processor
};

static struct g1_heap heap;
static struct g1_refiner refiner;
static const uint64_t *words;
static struct g1_racer racers[MOST];
static struct g1_sweeper sweepers[MOST];
static struct mutator mutators[MOST];
static uint32_t mutators_length, turns;

static void done(uint32_t code) {
    if (code != G1_DONE) {
        fprintf(stderr, "-- %s\n", g1_code_text(code));
        exit(1);
    }
}

static double seconds_of(clockid_t clock) {
    struct timespec now;
    clock_gettime(clock, &now);
    return (double)now.tv_sec + (double)now.tv_nsec * 1e-9;
}

static uint32_t below(struct mutator *self, uint32_t most) {
    self->state ^= self->state << 13;
    self->state ^= self->state >> 7;
    self->state ^= self->state << 17;
    return (uint32_t)((self->state >> 33) % most);
}

static uint32_t target_of(uint32_t slot) {
    return (uint32_t)__atomic_load_n(&words[slot], __ATOMIC_ACQUIRE) - 1;
}

static void store(struct mutator *self, uint32_t slot, uint32_t target) {
    uint32_t kind;
    done(g1_refiner_store(&refiner, &self->racer, slot, target, &kind));
}

static void *mutate(void *place) {
    struct mutator *self = place;
    double began = seconds_of(CLOCK_THREAD_CPUTIME_ID);
    for (uint32_t i = 0; i < turns; i++) {
        uint32_t list = below(self, LISTS / mutators_length) * mutators_length + self->number;
        uint32_t first = target_of(list);
        if (first == G1_NULL || (self->nodes_length > 0 && below(self, 2) == 0)) {
            uint32_t node = self->nodes[--self->nodes_length];
            store(self, node, first);
            store(self, list, node);
        } else {
            store(self, list, target_of(first));
            store(self, first, G1_NULL);
            uint32_t other = below(self, ++self->nodes_length);
            self->nodes[self->nodes_length - 1] = self->nodes[other];
            self->nodes[other] = first;
        }
    }
    self->seconds += seconds_of(CLOCK_THREAD_CPUTIME_ID) - began;
    return NULL;
}

// Gives a mutator its part of the nodes, in an order that looks random.
static void open_mutator(uint32_t number) {
    struct mutator *self = &mutators[number];
    *self = (struct mutator){.state = 88172645463325252u + number * 1000003u, .number = number};
    self->nodes = malloc(NODES / mutators_length * sizeof *self->nodes);
    done(self->nodes == NULL ? G1_NO_MEMORY : G1_DONE);
    for (uint32_t i = 0; i < NODES / mutators_length; i++) {
        uint32_t other = below(self, i + 1);
        self->nodes[i] = self->nodes[other];
        self->nodes[other] = LISTS + NODE * (i * mutators_length + number);
    }
    self->nodes_length = NODES / mutators_length;
}

static void open_heap(const uint32_t *values) {
    static struct g1_log logs[2 * G1_REFINER_LOGS];
    struct g1_counts counts = {REGIONS, CARDS, SLOTS};
    mutators_length = values[0];
    turns = values[4] / 2 / ROUNDS / mutators_length;
    done(g1_heap_open(&heap, &counts, mutators_length, values[1]));
    done(g1_heap_words(&heap, &words));
    done(g1_refiner_open(&refiner, logs, 2 * G1_REFINER_LOGS, values[1], values[2], values[3]));
    for (uint32_t i = 0; i < mutators_length; i++) {
        open_mutator(i);
    }
}

// A race and its pause. Returns how many milliseconds the pause took.
static double run(size_t sweepers_length) {
    pthread_t threads[MOST];
    done(g1_heap_resume(&heap, racers, mutators_length, sweepers, sweepers_length));
    done(g1_refiner_resume(&refiner, sweepers, sweepers_length));
    for (uint32_t i = 0; i < mutators_length; i++) {
        mutators[i].racer = racers[i];
        done(pthread_create(&threads[i], NULL, mutate, &mutators[i]) == 0 ? G1_DONE : G1_NO_MEMORY);
    }
    for (uint32_t i = 0; i < mutators_length; i++) {
        pthread_join(threads[i], NULL);
        racers[i] = mutators[i].racer;
    }
    double began = seconds_of(CLOCK_MONOTONIC);
    done(g1_refiner_pause(&refiner, G1_REFINE_QUEUED, sweepers, sweepers_length));
    done(g1_heap_pause(&heap, racers, mutators_length, sweepers, sweepers_length));
    done(g1_heap_refine(&heap));
    return 1e3 * (seconds_of(CLOCK_MONOTONIC) - began);
}

static int by_size(const void *one, const void *other) {
    double a = *(const double *)one, b = *(const double *)other;
    return (a > b) - (a < b);
}

int main(int length, char **arguments) {
    uint32_t values[5] = {1, 1, G1_REFINER_START, G1_REFINER_STOP, 8000000};
    for (int i = 1; i < length && i <= 5; i++) {
        values[i - 1] = (uint32_t)strtoul(arguments[i], NULL, 10);
    }
    if (values[0] < 1 || values[0] > MOST || values[1] < 1 || values[1] > MOST) {
        fprintf(stderr, "-- refiner_cost MUTATORS SWEEPERS START STOP [STORES]\n");
        return 1;
    }
    open_heap(values);
    double began = seconds_of(CLOCK_PROCESS_CPUTIME_ID), pauses[ROUNDS], stored = 0;
    for (int i = 0; i < ROUNDS; i++) {
        pauses[i] = run(values[1]);
    }
    double all = seconds_of(CLOCK_PROCESS_CPUTIME_ID) - began;
    for (uint32_t i = 0; i < mutators_length; i++) {
        stored += mutators[i].seconds;
        free(mutators[i].nodes);
    }
    qsort(pauses, ROUNDS, sizeof *pauses, by_size);
    printf("%.2f %.1f %.0f %.0f\n", all, pauses[ROUNDS / 2], 1e9 * stored / values[4],
           1e9 * (all - stored) / ((double)refiner.refined + 1));
    done(g1_refiner_close(&refiner));
    done(g1_heap_close(&heap));
    return 0;
}
