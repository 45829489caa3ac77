// Evacuation: what is live in the collection set is copied into old regions, and the set is freed.
//
// References into the set are roots, or on the cards of its remembered sets, or on cards that are
// dirty. Workers scan these and claim what they refer to: a compare-and-swap of an object's header,
// which then has the place of the copy, makes one worker the one that copies it. That worker claims
// what the object refers to before it copies it, so each word of a copy is stored once, with its
// new value. Workers store as racers do.
#include "runtime.h"

enum { BATCH = 16, CHUNK = 128 };   // cards that a worker scans at once, objects that it shares
enum { ENDED = RUNTIME_CARDS / 8 }; // cards that it ends at once
#define FORWARD (UINT64_C(1) << 63) // plus the size << 32, plus where the copy is: no header

// A worker copies into an old region. It has claimed the objects on its stack, and copies them.
struct worker {
    struct g1_racer racer;
    struct g1_sweeper sweeper;
    uint32_t top, end, *stack;
    size_t length;
};

static struct worker workers[WORKERS];
static pthread_t threads[WORKERS]; // the first worker is the thread that makes the pause
static pthread_barrier_t all;      // workers wait here for the pause, and for the end of a part
static int is_over;
static uint32_t cards[MOST_SLOTS / SLOTS]; // to scan
static size_t cards_length;
static unsigned char is_listed[MOST_SLOTS / SLOTS]; // by card
static _Atomic size_t scanned, ended;               // cards that workers took

// The workers' stacks, which take memory as they grow, and one of claimed objects that are for any
// worker. The lock has that.
static uint32_t stacks[WORKERS + 1][MOST_SLOTS / 2], *const shared = stacks[WORKERS];
static pthread_mutex_t lock = PTHREAD_MUTEX_INITIALIZER;
static pthread_cond_t shares = PTHREAD_COND_INITIALIZER;
static size_t shared_length;
static atomic_size_t idle; // workers that wait for some

static void store(struct worker *self, uint32_t slot, uint64_t word) {
    uint32_t kind, code;
    uint64_t old;
    while ((code = word < G1_DATA
                       ? g1_race_store(&self->racer, slot, reference_of(word), &kind)
                       : g1_race_store_data(&self->racer, slot, word, &old)) != G1_DONE) {
        code == G1_LOG_FULL ? drop_log(&self->racer) : done(code);
    }
}

// Stores a forwarding header in place of a header that is still there. Returns what was there.
static uint64_t claim(struct worker *self, uint32_t object, uint64_t header, uint64_t forward) {
    uint64_t found = header;
    uint32_t kind, code;
    if (is_young(object)) {
        __atomic_compare_exchange_n(&own[object], &found, forward, 0, __ATOMIC_ACQ_REL,
                                    __ATOMIC_ACQUIRE);
        return found;
    }
    while ((code = g1_race_compare_exchange_word(&self->racer, object, header, forward, &found,
                                                 &kind)) == G1_LOG_FULL) {
        drop_log(&self->racer);
    }
    done(code == G1_DIFFERS ? (uint32_t)G1_DONE : code);
    return found;
}

// Notes how far a worker has filled its region.
static void note_filled(const struct worker *self, int is_filling) {
    if (self->end != 0) {
        struct region *region = &regions[self->end / REGION - 1];
        region->filled = REGION - (self->end - self->top);
        region->is_filling = is_filling;
    }
}

static uint32_t room_for(struct worker *self, uint32_t size) {
    if (self->end - self->top < size) {
        note_filled(self, 0);
        take_region(OLD, &self->top, &self->end) ? (void)0 : fail("there is no region for copies");
    }
    self->top += size;
    return self->top - size;
}

// Where the copy of an object of the set is, or will be.
static uint32_t evacuate(struct worker *self, uint32_t object) {
    uint64_t header = word_of(object);
    if (header < FORWARD) {
        uint32_t size = (uint32_t)header, copy = room_for(self, size);
        header = claim(self, object, header, FORWARD | (uint64_t)size << 32 | copy);
        if (header < FORWARD) {
            self->stack[self->length++] = object;
            return copy;
        }
        self->top -= size;
    }
    return (uint32_t)header;
}

static void evacuate_root(void *context, uint32_t *root) {
    if (*root != G1_NULL && regions[*root / REGION].is_in_set) {
        *root = evacuate(context, *root);
    }
}

static int is_in_set(uint64_t word) {
    uint32_t target = reference_of(word);
    return target != G1_NULL && regions[target / REGION].is_in_set;
}

static void scan(struct worker *self, uint32_t card) {
    for (uint32_t slot = card * SLOTS; slot < card * SLOTS + SLOTS; slot++) {
        uint64_t word = word_of(slot);
        if (is_in_set(word)) {
            store(self, slot, is_dead(slot) ? 0 : of_reference(evacuate(self, reference_of(word))));
        }
    }
}

// Copies a claimed object, and claims what it refers to. The card of each reference is refined.
static void copy(struct worker *self, uint32_t object) {
    const uint64_t *from = bases[object / REGION] + object;
    uint64_t header = word_of(object);
    uint32_t to = (uint32_t)header, size = header >> 32 & INT32_MAX;
    store(self, to, of_integer(size));
    for (uint32_t i = 1; i < size; i++) {
        uint64_t word = from[i];
        word = is_in_set(word) ? of_reference(evacuate(self, reference_of(word))) : word;
        word != 0 ? store(self, to + i, word) : (void)0;
    }
}

// Moves claimed objects from the bottom of one stack to the top of another one.
static void move(uint32_t *from, size_t *from_length, uint32_t *to, size_t *to_length) {
    size_t count = *from_length < CHUNK ? *from_length : CHUNK;
    memcpy(to + *to_length, from, count * sizeof *from);
    memmove(from, from + count, (*from_length - count) * sizeof *from);
    *to_length += count;
    *from_length -= count;
}

// Gets objects that others share. Returns 0 when all workers are idle.
static int get_shared(struct worker *self) {
    pthread_mutex_lock(&lock);
    idle++;
    while (shared_length == 0 && idle < WORKERS) {
        pthread_cond_wait(&shares, &lock);
    }
    int is_any = shared_length > 0;
    if (is_any) {
        idle--;
        move(shared, &shared_length, self->stack, &self->length);
    } else {
        pthread_cond_broadcast(&shares);
    }
    pthread_mutex_unlock(&lock);
    return is_any;
}

static void copy_all(struct worker *self) {
    while (self->length > 0) {
        copy(self, self->stack[--self->length]);
        if (self->length >= 2 * CHUNK && atomic_load_explicit(&idle, memory_order_relaxed) > 0) {
            pthread_mutex_lock(&lock);
            move(self->stack, &self->length, shared, &shared_length);
            pthread_cond_signal(&shares);
            pthread_mutex_unlock(&lock);
        }
    }
}

static void scan_all(struct worker *self) {
    self == workers ? for_roots(evacuate_root, self) : (void)0;
    copy_all(self);
    for (size_t i; (i = atomic_fetch_add(&scanned, BATCH)) < cards_length;) {
        for (size_t end = i + BATCH; i < end && i < cards_length; i++) {
            scan(self, cards[i]);
            copy_all(self);
        }
    }
    while (get_shared(self)) {
        copy_all(self);
    }
    note_filled(self, 1);
}

// Wipes the old regions of the set, since a clear is refused while a slot refers into its region,
// and refines all cards to which mutators or workers have stored.
static void end_all(struct worker *self) {
    self == workers ? end_step(1) : (void)0;
    for (size_t i; (i = atomic_fetch_add(&ended, ENDED)) < regions_length * RUNTIME_CARDS;) {
        const struct region *region = &regions[i / RUNTIME_CARDS];
        for (uint32_t card = (uint32_t)i; region->state == OLD && card < i + ENDED; card++) {
            uint32_t first = card % RUNTIME_CARDS * SLOTS;
            int is_new = first + SLOTS > region->new_from && first < region->filled;
            for (uint32_t k = 0; region->is_in_set && k < SLOTS; k++) {
                word_of(card * SLOTS + k) != 0 ? store(self, card * SLOTS + k, 0) : (void)0;
            }
            if (!region->is_in_set && (is_listed[card] || is_new)) {
                done(g1_race_refine(&self->sweeper, card));
            }
        }
    }
}

// A worker's part of each pause; the first worker's of one.
static void *work(void *place) {
    struct worker *self = place;
    size_t i = (size_t)(self - workers);
    do {
        pthread_barrier_wait(&all);
        if (is_over) {
            break;
        }
        *self = (struct worker){racers[i], sweepers[i], self->top, self->end, stacks[i], 0};
        scan_all(self);
        pthread_barrier_wait(&all);
        end_all(self);
        racers[i] = self->racer;
        sweepers[i] = self->sweeper;
        pthread_barrier_wait(&all);
    } while (self != workers);
    return NULL;
}

static void list(uint32_t card) {
    const struct region *region = &regions[card / RUNTIME_CARDS];
    if (!is_listed[card] && region->state == OLD && !region->is_in_set) {
        is_listed[card] = 1;
        cards[cards_length++] = card;
    }
}

// Lists the cards outside the set that are dirty, or recorded to refer into it. A recorded one may
// be of a region that was freed. Before the first old region there is none to list.
static void list_cards(void) {
    uint32_t set[G1_MAX_REGIONS], set_length = 0, old = 0, card;
    cards_length = 0;
    while (old < regions_length && regions[old].state != OLD) {
        old++;
    }
    memset(is_listed, 0, regions_length * RUNTIME_CARDS);
    card = old * RUNTIME_CARDS;
    for (; g1_heap_next_dirty(&heap, card, &card) == G1_DONE && card != G1_NULL; card++) {
        counts.dirty++;
        list(card);
    }
    for (uint32_t i = 0; i < regions_length; i++) {
        set[set_length] = i;
        set_length += regions[i].is_in_set != 0;
    }
    card = old * RUNTIME_CARDS;
    for (; g1_heap_next_into(&heap, set, set_length, card, &card) == G1_DONE && card != G1_NULL;
         card++) {
        list(card);
    }
    counts.scanned += cards_length;
    check_listed(is_listed);
}

// A pause. It is repeated while free regions are few and there is garbage to collect.
void collect(void) {
    uint32_t length;
    check(0);
    do {
        begin_steps();
        length = choose_set();
        list_cards();
        end_step(0);
        done(g1_heap_resume(&heap, racers, MUTATORS, sweepers, WORKERS));
        scanned = ended = idle = 0;
        work(&workers[0]);
        done(g1_heap_pause(&heap, racers, MUTATORS, sweepers, WORKERS));
        end_step(2);
        free_set();
        end_step(3);
        mark_if_due();
        end_step(4);
    } while (most_young < regions_length / 16 && length > 0 && with_most_garbage() != NULL);
    check(1);
}

int evacuation_open(void) {
    int is_open = pthread_barrier_init(&all, NULL, WORKERS) == 0;
    for (int i = 1; i < WORKERS && is_open; i++) {
        is_open = pthread_create(&threads[i], NULL, work, &workers[i]) == 0;
    }
    return is_open;
}

void evacuation_close(void) {
    is_over = 1;
    work(&workers[0]);
    for (int i = 1; i < WORKERS; i++) {
        pthread_join(threads[i], NULL);
    }
}
