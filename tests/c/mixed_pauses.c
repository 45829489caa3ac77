// Pauses that are given handles of several heaps, in every way: each is refused by a code that is
// so, and changes nothing.
#include "g1.h"

#include <stdio.h>
#include <string.h>

// Three heaps of two racers and two sweepers. Each place of a pause gets each racer, or each
// sweeper, of all of them, and a closed handle.
enum { HEAPS = 3, EACH = 2, PLACES = 2 * EACH, CLOSED = HEAPS * EACH, CHOICES = CLOSED + 1 };

static unsigned passed, failed;

static void check(int holds, const char *what) {
    if (holds) {
        passed++;
    } else {
        failed++;
        printf("-- %s\n", what);
    }
}

static void answers(uint32_t answer, uint32_t expected, const char *what) {
    if (answer != expected) {
        printf("-- %s: %u, and not %u\n", what, (unsigned)answer, (unsigned)expected);
    }
    check(answer == expected, what);
}

// Heaps of different sizes: region 1 begins at slot 1, 8 and 4096.
static const struct g1_counts counts[HEAPS] = {{2, 1, 1}, {4, 2, 4}, {256, 256, 16}};

// The racers and the sweepers of all heaps, heap by heap; the last of each stay closed.
static struct g1_racer all_racers[CHOICES];
static struct g1_sweeper all_sweepers[CHOICES];
static struct g1_heap heaps[HEAPS];

static uint64_t bit(uint32_t code, int holds) {
    return holds ? UINT64_C(1) << code : 0;
}

// A bit for each code that is so of a pause of a heap with these choices, of which the first are
// given as racers.
static uint64_t refusals(int heap, const int *chosen, int racers, int all) {
    uint64_t codes = bit(G1_BAD_HANDLES, racers != EACH || all - racers != EACH);
    for (int i = 0; i < all; i++) {
        int is_open = chosen[i] != CLOSED;
        codes |= bit(G1_NOT_OPEN, !is_open);
        codes |= bit(G1_OTHER_RACE, is_open && chosen[i] / EACH != heap);
        for (int j = i < racers ? 0 : racers; j < i; j++) {
            codes |= bit(G1_OTHER_RACE, is_open && chosen[i] == chosen[j]);
        }
    }
    return codes;
}

// Whether the pause is refused as it is to be, with the handles as they were.
static int is_refused(int heap, const int *chosen, int racers, int all, uint64_t codes) {
    struct {
        struct g1_racer racers[PLACES];
        struct g1_sweeper sweepers[PLACES];
    } given = {0}, before;
    for (int i = 0; i < racers; i++) {
        given.racers[i] = all_racers[chosen[i]];
    }
    for (int i = racers; i < all; i++) {
        given.sweepers[i - racers] = all_sweepers[chosen[i]];
    }
    memcpy(&before, &given, sizeof given);
    uint32_t answer = g1_heap_pause(&heaps[heap], given.racers, (size_t)racers, given.sweepers,
                                    (size_t)(all - racers));
    int are_same = memcmp(&before, &given, sizeof given) == 0;
    return are_same && answer < 64 && (codes & bit(answer, 1)) != 0;
}

// Every choice of handles for these numbers of racers and sweepers, but for those of a pause.
static void mix(int heap, int racers, int sweepers) {
    int chosen[PLACES] = {0}, all = racers + sweepers, at;
    unsigned refused = 0, wrong = 0, whole = 0;
    do {
        uint64_t codes = refusals(heap, chosen, racers, all);
        if (codes == 0) {
            whole++;
        } else if (is_refused(heap, chosen, racers, all, codes)) {
            refused++;
        } else {
            wrong++;
        }
        for (at = 0; at < all && ++chosen[at] == CHOICES; at++) {
            chosen[at] = 0;
        }
    } while (at < all);
    check(wrong == 0 && refused > 0, "mixed pauses are refused");
    check(whole == (racers == EACH && sweepers == EACH ? 4 : 0), "four orders of its handles");
}

// Stores a reference into another region, from a clean card.
static void stores(struct g1_racer *racer, uint32_t slot, uint32_t target) {
    uint32_t kind = 7;
    answers(g1_race_store(racer, slot, target, &kind), G1_DONE, "a store");
    check(kind == G1_STORED_LOGGED, "it is logged");
}

static void open_heaps(void) {
    for (int heap = 0; heap < HEAPS; heap++) {
        struct g1_racer *racers = all_racers + heap * EACH;
        struct g1_sweeper *sweepers = all_sweepers + heap * EACH;
        const uint32_t region_1 = counts[heap].cards * counts[heap].slots;
        answers(g1_heap_open(&heaps[heap], &counts[heap], EACH, EACH), G1_DONE, "open");
        answers(g1_heap_resume(&heaps[heap], racers, EACH, sweepers, EACH), G1_DONE, "resume");
        stores(racers, 0, region_1);
        answers(g1_race_refine(sweepers, 0), G1_DONE, "a refinement");
    }
}

// Each heap races on, and is paused, in another order of its handles, with what was stored.
static void pause_heaps(void) {
    for (int heap = 0; heap < HEAPS; heap++) {
        struct g1_heap *handle = &heaps[heap];
        const uint32_t region_1 = counts[heap].cards * counts[heap].slots;
        const int first = heap * EACH;
        struct g1_racer racers[EACH] = {all_racers[first + 1], all_racers[first]};
        struct g1_sweeper sweepers[EACH] = {all_sweepers[first + 1], all_sweepers[first]};
        stores(racers, region_1, 0);
        answers(g1_heap_pause(handle, racers, EACH, sweepers, EACH), G1_DONE, "the pause");
        check(racers[0].racer == NULL && sweepers[1].sweeper == NULL, "its handles are closed");
        uint32_t target, card, count, pending;
        answers(g1_heap_target(handle, 0, &target), G1_DONE, "target");
        check(target == region_1, "what was stored before");
        answers(g1_heap_target(handle, region_1, &target), G1_DONE, "target");
        check(target == 0, "what was stored behind");
        answers(g1_heap_members(handle, 1, &card, 1, &count), G1_DONE, "members");
        check(count == 1 && card == 0, "what was refined is recorded");
        answers(g1_heap_is_pending(handle, counts[heap].cards, &pending), G1_DONE, "is pending");
        check(pending == 1, "what was not refined is pending");
        answers(g1_heap_close(handle), G1_DONE, "close");
    }
}

int main(void) {
    open_heaps();
    for (int heap = 0; heap < HEAPS; heap++) {
        for (int racers = 1; racers <= 3; racers++) {
            for (int sweepers = 1; racers + sweepers <= PLACES; sweepers++) {
                mix(heap, racers, sweepers);
            }
        }
    }
    pause_heaps();
    printf("%u passed, %u failed\n", passed, failed);
    return failed != 0;
}
