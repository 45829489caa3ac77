// Mutators: how they stop for a pause.
//
// A pause is due when mutators may take no further region. Each stops at its next safepoint, and
// the last one makes the pause. A mutator that has left holds nothing up.
#include "runtime.h"

atomic_int is_stopping;
_Atomic uint64_t globals[GLOBALS];
struct g1_racer racers[MUTATORS];
struct g1_sweeper sweepers[WORKERS];
static pthread_mutex_t lock = PTHREAD_MUTEX_INITIALIZER;
static pthread_cond_t goes_on = PTHREAD_COND_INITIALIZER;
static struct mutator *mutators[MUTATORS]; // with the lock: those that have entered
static size_t running;                     // how many of them have not stopped

// Drops a full log. Its cards stay dirty, so the pause finds them, which scans and refines them.
void drop_log(struct g1_racer *racer) {
    uint32_t dropped[G1_LOG], count;
    done(g1_race_take_log(racer, dropped, G1_LOG, &count));
}

static void begin_race(void) {
    done(g1_heap_resume(&heap, racers, MUTATORS, sweepers, WORKERS));
}

static void end_race(void) {
    done(g1_heap_pause(&heap, racers, MUTATORS, sweepers, WORKERS));
}

// A mutator stops, with the lock. The last one makes the pause that is due.
static void stop(const struct mutator *self) {
    racers[self->number] = self->racer;
    if (--running == 0 && atomic_load(&is_stopping)) {
        double began = seconds();
        end_race();
        collect();
        begin_race();
        end_pause(began);
        atomic_store(&is_stopping, 0);
        pthread_cond_broadcast(&goes_on);
    }
}

// A mutator goes on, with the lock, when no pause is due. The region that it had may be free now.
static void go_on(struct mutator *self) {
    while (atomic_load(&is_stopping)) {
        pthread_cond_wait(&goes_on, &lock);
    }
    running++;
    self->racer = racers[self->number];
    self->top = self->end = 0;
}

// Stops if a pause is due, and takes a region if there is no room for such an object in its own.
void make_room(struct mutator *self, uint32_t fields) {
    fields > MOST_FIELDS ? fail("an object is too large") : (void)0;
    pthread_mutex_lock(&lock);
    while (atomic_load(&is_stopping) || self->end - self->top <= fields) {
        if (atomic_load(&is_stopping)) {
            stop(self);
            go_on(self);
        } else if (most_young == 0) {
            fail("the heap is full");
        } else if (!take_region(YOUNG, &self->top, &self->end)) {
            atomic_store(&is_stopping, 1);
        }
    }
    pthread_mutex_unlock(&lock);
}

void enter(struct mutator *self) {
    size_t number = 0;
    pthread_mutex_lock(&lock);
    while (number < MUTATORS && mutators[number] != NULL) {
        number++;
    }
    number == MUTATORS ? fail("there are too many mutators") : (void)0;
    *self = (struct mutator){.number = number};
    mutators[number] = self;
    go_on(self);
    pthread_mutex_unlock(&lock);
}

void leave(struct mutator *self) {
    pthread_mutex_lock(&lock);
    mutators[self->number] = NULL;
    add_stores(self->stores);
    stop(self);
    pthread_mutex_unlock(&lock);
}

void for_roots(void (*visit)(void *context, uint32_t *root), void *context) {
    for (size_t i = 0; i < MUTATORS; i++) {
        for (size_t k = 0; mutators[i] != NULL && k < mutators[i]->handles_length; k++) {
            visit(context, &mutators[i]->handles[k]);
        }
    }
    for (size_t i = 0; i < GLOBALS; i++) {
        uint32_t root = reference_of(atomic_load(&globals[i]));
        visit(context, &root);
        atomic_store(&globals[i], of_reference(root));
    }
}

int runtime_open(uint32_t regions) {
    if (!heap_open(regions) || !evacuation_open()) {
        return 0;
    }
    begin_race();
    return 1;
}

void runtime_close(void) {
    end_race();
    evacuation_close();
    heap_close();
}
