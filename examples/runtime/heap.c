// The heap's regions: which are free, how many mutators may fill, and which a pause evacuates.
#include "runtime.h"

enum { OLD_AT_ONCE = 16, CLEARS = 8, MOST_YOUNG = (32 << 20) / (8 * REGION) };

const uint64_t *words, *bases[G1_MAX_REGIONS];
uint64_t *own;
struct g1_heap heap;
struct region regions[G1_MAX_REGIONS];
uint32_t regions_length, most_young;
static uint32_t frees[G1_MAX_REGIONS]; // how often a region was freed
static pthread_mutex_t lock = PTHREAD_MUTEX_INITIALIZER; // of the states

uint32_t count_regions(enum state state) {
    uint32_t count = 0;
    for (uint32_t i = 0; i < regions_length; i++) {
        count += regions[i].state == state;
    }
    return count;
}

// Whether copies of this many words fit into the free regions, each of which may end with a gap.
static int fits(uint64_t copied, uint32_t room) {
    return copied / (REGION - MOST_FIELDS) + 1 + WORKERS <= room;
}

// Mutators may fill as many regions until the next pause as it has room to copy whole: a quarter of
// the heap, and 32 MB, at most.
static void limit_young(void) {
    uint32_t room = count_regions(FREE), most = regions_length / 4;
    most = most < MOST_YOUNG ? most : MOST_YOUNG;
    while (most > 0 && (most > room || !fits((uint64_t)most * REGION, room - most))) {
        most--;
    }
    most_young = most;
}

int heap_open(uint32_t length) {
    struct g1_counts layout = {length, RUNTIME_CARDS, SLOTS};
    if (g1_heap_open(&heap, &layout, MUTATORS, WORKERS) != G1_DONE) {
        return 0;
    }
    regions_length = length;
    limit_young();
    own = calloc((size_t)length * REGION, sizeof *own); // takes memory where there are young ones
    for (uint32_t i = 0; i < length; i++) {
        bases[i] = own;
    }
    return own != NULL && g1_heap_words(&heap, &words) == G1_DONE;
}

void heap_close(void) {
    free(own);
    done(g1_heap_close(&heap));
}

// Takes a free region, whose words in the heap are all null: a young one at the beginning, so that
// these are always the same few, or an old one at the end. Returns 0 if none may be taken.
int take_region(enum state state, uint32_t *first, uint32_t *end) {
    pthread_mutex_lock(&lock);
    uint32_t tried = state == YOUNG && count_regions(YOUNG) >= most_young ? regions_length : 0;
    for (; tried < regions_length; tried++) {
        uint32_t i = state == YOUNG ? tried : regions_length - 1 - tried;
        if (regions[i].state == FREE) {
            regions[i].state = state;
            state == OLD ? (void)(bases[i] = words) : (void)0;
            *first = i * REGION;
            *end = *first + REGION;
            break;
        }
    }
    pthread_mutex_unlock(&lock);
    return tried < regions_length;
}

static uint32_t to_copy(const struct region *it) { return it->live + it->filled - it->marked_to; }

// The marked region with the least to copy of those with garbage, or none.
struct region *with_most_garbage(void) {
    struct region *best = NULL;
    for (struct region *it = regions; it < regions + regions_length; it++) {
        int is_one = it->state == OLD && !it->is_in_set && !it->is_filling &&
                     it->live + REGION / 8 <= it->marked_to;
        best = is_one && (best == NULL || to_copy(it) < to_copy(best)) ? it : best;
    }
    return best;
}

// Chooses the collection set, all young regions and old ones that fit too. Returns how many it has.
uint32_t choose_set(void) {
    uint32_t length = count_regions(YOUNG), old = 0, room = count_regions(FREE);
    uint64_t copied = (uint64_t)length * REGION;
    struct region *it;
    for (uint32_t i = 0; i < regions_length; i++) {
        regions[i].is_in_set = regions[i].state == YOUNG;
        regions[i].new_from = regions[i].filled;
    }
    while (old < OLD_AT_ONCE && (it = with_most_garbage()) != NULL &&
           fits(copied + to_copy(it), room)) {
        copied += to_copy(it);
        it->is_in_set = 1;
        old++;
    }
    return length + old;
}

// Frees the collection set, whose words in the heap are all null, and to which nothing refers. A
// clear reads each card of the remembered set, so it is made at one in CLEARS of the pauses that
// free a region. Until then the set may have stale cards, which the next pause scans too.
void free_set(void) {
    uint32_t detail;
    done(g1_heap_refine(&heap)); // nothing may be pending at a clear
    for (uint32_t i = 0; i < regions_length; i++) {
        if (regions[i].is_in_set) {
            int is_due = ++frees[i] % CLEARS == i % CLEARS;
            done(is_due ? g1_heap_clear(&heap, i, &detail) : (uint32_t)G1_DONE);
            regions[i] = (struct region){.state = FREE};
            bases[i] = own;
        }
    }
    limit_young();
}
