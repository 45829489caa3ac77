// Each call of concurrent heaps, beside tables of the program's own: `race_checks [CALLS]`.
//
// The calls have random arguments: numbers that a heap does not have, closed handles, handles of
// another heap, too many or too few of them, one twice, and arrays without room. A refused call has
// to return a code that is so, and to change nothing.
#include "g1.h"

#include <stdio.h>
#include <stdlib.h>
#include <string.h>

enum { REGIONS = 4, CARDS = 2, SLOTS = 4, REGION_SLOTS = CARDS * SLOTS };
enum { ALL_CARDS = REGIONS * CARDS, ALL_SLOTS = ALL_CARDS * SLOTS };
enum { HEAPS = 2, EACH = 2, MOST = EACH + 1, BATCH = 4 };

struct log {
    uint32_t count, cards[G1_LOG];
};

struct swept {
    uint64_t refined, cleaned, references;
};

// A heap, and what it has to have.
struct heap {
    struct g1_heap handle;
    struct g1_racer racing[EACH];
    struct g1_sweeper sweeping[EACH];
    int is_open, is_racing;
    uint32_t racers, sweepers;
    uint64_t words[ALL_SLOTS];
    unsigned char dirty[ALL_CARDS], recorded[REGIONS][ALL_CARDS];
    struct log logs[EACH];     // the racers', in the order of their handles
    struct swept swept[EACH]; // the sweepers', in the order of theirs
    uint64_t stored[EACH][4]; // the racers', by kind of store, in the order of theirs
};

static const struct g1_counts small = {REGIONS, CARDS, SLOTS};
static struct heap heaps[HEAPS];
static uint64_t state = 88172645463325252u, seen; // a bit for each code that was returned
static unsigned passed, failed;

static void check(int holds, const char *what) {
    if (holds) {
        passed++;
    } else if (failed++ < 20) {
        printf("-- %s\n", what);
    }
}

static uint32_t below(uint32_t most) {
    state ^= state << 13;
    state ^= state >> 7;
    state ^= state << 17;
    return (uint32_t)((state >> 33) % most);
}

static uint64_t bit(uint32_t code, int holds) {
    return holds ? UINT64_C(1) << code : 0;
}

// Checks a code: one of those that are so, or done if there is none. Returns whether it is done.
static int answers(uint32_t code, uint64_t refusals, const char *what) {
    uint64_t allowed = refusals == 0 ? bit(G1_DONE, 1) : refusals;
    if (code > 63 || (allowed & bit(code, 1)) == 0) {
        printf("-- %s: %u\n", what, (unsigned)code);
    }
    check(code <= 63 && (allowed & bit(code, 1)) != 0, what);
    seen |= bit(code, code <= 63);
    return refusals == 0;
}

static uint32_t some_slot(void) {
    return below(ALL_SLOTS + 1);
}

static uint32_t some_target(void) {
    return below(8) == 0 ? G1_NULL : some_slot();
}

static int is_slot(uint32_t slot) {
    return slot < ALL_SLOTS;
}

static uint32_t target_of(uint64_t word) {
    return word == 0 || word >= G1_DATA ? G1_NULL : (uint32_t)(word - 1);
}

static int is_across(uint32_t slot, uint64_t word) {
    uint32_t target = target_of(word);
    return target != G1_NULL && target / REGION_SLOTS != slot / REGION_SLOTS;
}

// The region into which a slot refers from outside, or REGIONS.
static uint32_t entered_by(const struct heap *heap, uint32_t slot) {
    uint64_t word = heap->words[slot];
    return is_across(slot, word) ? target_of(word) / REGION_SLOTS : REGIONS;
}

// Stores a word, and returns the kind of the store.
static uint32_t put(struct heap *heap, uint32_t slot, uint64_t word) {
    heap->words[slot] = word;
    if (target_of(word) == G1_NULL) {
        return G1_STORED_NULL;
    }
    if (entered_by(heap, slot) == REGIONS) {
        return G1_STORED_SAME_REGION;
    }
    uint32_t kind = heap->dirty[slot / SLOTS] ? G1_STORED_DIRTY : G1_STORED_LOGGED;
    heap->dirty[slot / SLOTS] = 1;
    return kind;
}

static uint64_t word_of(uint32_t target) {
    return target == G1_NULL ? 0 : (uint64_t)target + 1;
}

// Refines a card, and returns how many references it records.
static uint32_t refine(struct heap *heap, uint32_t card) {
    uint32_t references = 0;
    heap->dirty[card] = 0;
    for (uint32_t slot = card * SLOTS; slot < (card + 1) * SLOTS; slot++) {
        if (entered_by(heap, slot) != REGIONS) {
            heap->recorded[entered_by(heap, slot)][card] = 1;
            references++;
        }
    }
    return references;
}

static void refine_all(struct heap *heap) {
    for (uint32_t card = 0; card < ALL_CARDS; card++) {
        if (heap->dirty[card]) {
            refine(heap, card);
        }
    }
    for (int i = 0; i < EACH; i++) {
        heap->logs[i].count = 0;
    }
}

static uint32_t sum(const unsigned char *flags, size_t length) {
    uint32_t all = 0;
    for (size_t i = 0; i < length; i++) {
        all += flags[i];
    }
    return all;
}

// Why a call of the collector's may be refused, whatever it is given.
static uint64_t at_pause(const struct heap *heap) {
    return bit(G1_NOT_OPEN, !heap->is_open) | bit(G1_NOT_PAUSED, heap->is_open && heap->is_racing);
}

// Checks a list of cards against a set.
static void lists(const uint32_t *cards, uint32_t count, const unsigned char *set) {
    uint32_t at = 0;
    for (uint32_t card = 0; card < ALL_CARDS; card++) {
        at += set[card] && at < count && cards[at] == card;
    }
    check(at == count && count == sum(set, ALL_CARDS), "the cards of a set, ascending");
}

// Compares a heap with its table.
static void compare(struct heap *heap) {
    const uint64_t *words = NULL;
    uint32_t cards[ALL_CARDS], count, pending;
    struct g1_totals totals;
    uint32_t code = g1_heap_words(&heap->handle, &words);
    if (!answers(code, bit(G1_NOT_OPEN, !heap->is_open), "words")) {
        check(words == NULL, "the words of a closed handle");
        return;
    }
    check(memcmp(words, heap->words, sizeof heap->words) == 0, "the words of the slots");
    if (answers(g1_heap_status(&heap->handle, &totals), at_pause(heap), "status")) {
        check(totals.pending == sum(heap->dirty, ALL_CARDS), "the cards that are dirty");
        check(totals.recorded == sum(heap->recorded[0], sizeof heap->recorded), "the pairs");
    } else {
        check(totals.pending == 0 && totals.recorded == 0, "the totals of a refused status");
    }
    for (uint32_t card = 0; card < ALL_CARDS && !heap->is_racing; card++) {
        answers(g1_heap_is_pending(&heap->handle, card, &pending), 0, "is pending");
        check(pending == heap->dirty[card], "whether a card is dirty");
    }
    for (uint32_t region = 0; region < REGIONS && !heap->is_racing; region++) {
        code = g1_heap_members(&heap->handle, region, cards, ALL_CARDS, &count);
        answers(code, 0, "members");
        lists(cards, count, heap->recorded[region]);
    }
}

static void open_heap(struct heap *heap) {
    static const struct g1_counts bad[] = {{0, 2, 4}, {257, 2, 4}, {4, 0, 4}, {4, 2, 65}};
    const struct g1_counts *counts = below(8) == 0 ? &bad[below(4)] : &small;
    uint32_t racers = below(16) == 0 ? below(2) * (G1_RACERS + 1) : 1 + below(EACH);
    uint32_t sweepers = below(16) == 0 ? below(2) * (G1_SWEEPERS + 1) : 1 + below(EACH);
    int are_bad = racers == 0 || racers > G1_RACERS || sweepers == 0 || sweepers > G1_SWEEPERS;
    uint64_t refusals = bit(G1_ALREADY_OPEN, heap->is_open) | bit(G1_BAD_HANDLES, are_bad) |
                        bit(G1_BAD_LAYOUT, counts != &small);
    if (answers(g1_heap_open(&heap->handle, counts, racers, sweepers), refusals, "open")) {
        struct g1_heap handle = heap->handle;
        memset(heap, 0, sizeof *heap);
        heap->handle = handle;
        heap->is_open = 1;
        heap->racers = racers;
        heap->sweepers = sweepers;
    }
}

static void close_heap(struct heap *heap) {
    if (below(8) == 0 && answers(g1_heap_close(&heap->handle), at_pause(heap), "close")) {
        check(heap->handle.heap == NULL, "a closed handle is null");
        heap->is_open = 0;
    }
}

// Handles for a resume or a pause, and where they come from: the number of a racer, or of a
// sweeper, of all heaps, or -1 for a closed one.
struct given {
    struct g1_racer racers[MOST];
    struct g1_sweeper sweepers[MOST];
    int from[2][MOST];
    size_t lengths[2];
};

// Puts a handle at a place of a row of racers (0) or of sweepers (1), and where it comes from.
static void put_in(struct given *given, int role, int place, int from) {
    const struct heap *heap = &heaps[from < 0 ? 0 : from / EACH];
    if (role == 0 && from >= 0) {
        given->racers[place] = heap->racing[from % EACH];
    } else if (from >= 0) {
        given->sweepers[place] = heap->sweeping[from % EACH];
    }
    int is_closed = role == 0 ? given->racers[place].racer == NULL
                              : given->sweepers[place].sweeper == NULL;
    given->from[role][place] = is_closed ? -1 : from;
}

// The racers and sweepers of a heap in some order, or as many closed handles, one in four times with something
// else among them.
static struct given give(const struct heap *heap, int are_closed) {
    struct given given = {.lengths = {heap->racers, heap->sweepers}};
    int turn = (int)below(2), first = (int)(heap - heaps) * EACH;
    for (int role = 0; role < 2; role++) {
        given.lengths[role] += below(16) == 0;
        given.lengths[role] -= given.lengths[role] > 0 && below(16) == 0;
        for (int i = 0; i < MOST; i++) {
            int own = first + (heap->racers == EACH ? (i + turn) % EACH : i % EACH);
            int from = are_closed ? -1 : own;
            put_in(&given, role, i, below(12) == 0 ? (int)below(HEAPS * EACH + 1) - 1 : from);
        }
    }
    return given;
}

// How many handles of a row are closed.
static size_t closed_in(const struct given *given, int role) {
    size_t closed = 0;
    for (size_t i = 0; i < given->lengths[role]; i++) {
        closed += given->from[role][i] < 0;
    }
    return closed;
}

static int is_bad_number(const struct heap *heap, const struct given *given) {
    return heap->is_open &&
           (given->lengths[0] != heap->racers || given->lengths[1] != heap->sweepers);
}

static void resume(struct heap *heap) {
    struct given given = give(heap, 1), before = given;
    size_t closed = closed_in(&given, 0) + closed_in(&given, 1);
    uint64_t refusals = at_pause(heap) | bit(G1_BAD_HANDLES, is_bad_number(heap, &given)) |
                        bit(G1_ALREADY_OPEN, closed != given.lengths[0] + given.lengths[1]);
    uint32_t code = g1_heap_resume(&heap->handle, given.racers, given.lengths[0], given.sweepers,
                                   given.lengths[1]);
    if (!answers(code, refusals, "resume")) {
        check(memcmp(&given, &before, sizeof given) == 0, "the handles of a refused resume");
        return;
    }
    heap->is_racing = 1;
    for (uint32_t i = 0; i < heap->racers; i++) {
        heap->racing[i] = given.racers[i];
        check(heap->racing[i].racer != NULL, "a resume opens the racers' handles");
    }
    for (uint32_t i = 0; i < heap->sweepers; i++) {
        heap->sweeping[i] = given.sweepers[i];
        check(heap->sweeping[i].sweeper != NULL, "a resume opens the sweepers' handles");
    }
}

// Why a pause may be refused for the handles of a role.
static uint64_t refusals_of(const struct heap *heap, const struct given *given, int role) {
    uint64_t refusals = bit(G1_NOT_OPEN, closed_in(given, role) > 0);
    for (size_t i = 0; i < given->lengths[role]; i++) {
        int from = given->from[role][i];
        refusals |= bit(G1_OTHER_RACE, from >= 0 && &heaps[from / EACH] != heap);
        for (size_t j = 0; j < i; j++) {
            refusals |= bit(G1_OTHER_RACE, from >= 0 && from == given->from[role][j]);
        }
    }
    return refusals;
}

static void pause_heap(struct heap *heap) {
    struct given given = give(heap, 0), before = given;
    uint64_t refusals = bit(G1_NOT_OPEN, !heap->is_open) |
                        bit(G1_NOT_RACING, heap->is_open && !heap->is_racing) |
                        bit(G1_BAD_HANDLES, is_bad_number(heap, &given)) |
                        refusals_of(heap, &given, 0) | refusals_of(heap, &given, 1);
    uint32_t code = g1_heap_pause(&heap->handle, given.racers, given.lengths[0], given.sweepers,
                                  given.lengths[1]);
    if (!answers(code, refusals, "pause")) {
        check(memcmp(&given, &before, sizeof given) == 0, "the handles of a refused pause");
        return;
    }
    struct log logs[EACH];
    struct swept swept[EACH];
    uint64_t stored[EACH][4];
    for (size_t i = 0; i < heap->racers; i++) {
        check(given.racers[i].racer == NULL, "a pause closes the racers' handles");
        logs[i] = heap->logs[given.from[0][i] % EACH];
        memcpy(stored[i], heap->stored[given.from[0][i] % EACH], sizeof stored[i]);
    }
    for (size_t i = 0; i < heap->sweepers; i++) {
        check(given.sweepers[i].sweeper == NULL, "a pause closes the sweepers' handles");
        swept[i] = heap->swept[given.from[1][i] % EACH];
    }
    memcpy(heap->swept, swept, heap->sweepers * sizeof swept[0]);
    memcpy(heap->logs, logs, heap->racers * sizeof logs[0]);
    memcpy(heap->stored, stored, heap->racers * sizeof stored[0]);
    heap->is_racing = 0;
    memset(heap->racing, 0, sizeof heap->racing);
    memset(heap->sweeping, 0, sizeof heap->sweeping);
}

static int is_store(uint32_t slot, uint32_t target) {
    return is_slot(slot) && (target == G1_NULL || is_slot(target));
}

static uint64_t closed(const struct heap *heap, uint32_t number) {
    return bit(G1_NOT_OPEN, heap->racing[number].racer == NULL);
}

// Whether a store of a word that a slot may have needs room in a log that is full.
static int is_full(const struct heap *heap, uint32_t number, uint32_t slot, uint64_t word) {
    return is_across(slot, word) && heap->logs[number].count == G1_LOG;
}

// Why a racer's store may be refused.
static uint64_t of_store(const struct heap *heap, uint32_t number, uint32_t slot, uint32_t target) {
    uint64_t refusals = closed(heap, number) | bit(G1_NO_SLOT, !is_store(slot, target));
    return refusals | bit(G1_LOG_FULL, refusals == 0 && is_full(heap, number, slot, word_of(target)));
}

// Makes a racer's store, and returns its kind.
static uint32_t put_by(struct heap *heap, uint32_t number, uint32_t slot, uint64_t word) {
    struct log *log = &heap->logs[number];
    uint32_t kind = put(heap, slot, word);
    heap->stored[number][kind]++;
    if (kind == G1_STORED_LOGGED) {
        log->cards[log->count++] = slot / SLOTS;
    }
    return kind;
}

static void race_store(struct heap *heap) {
    uint32_t number = below(EACH), slot = some_slot(), target = some_target(), kind = 7;
    uint64_t refusals = of_store(heap, number, slot, target);
    uint32_t code = g1_race_store(&heap->racing[number], slot, target, &kind);
    int is_made = answers(code, refusals, "store");
    uint32_t wanted = is_made ? put_by(heap, number, slot, word_of(target)) : 0;
    check(kind == wanted, "the kind of a store");
}

static void race_swap(struct heap *heap) {
    uint32_t number = below(EACH), slot = some_slot(), target = some_target(), kind = 7, old = 7;
    uint64_t refusals = of_store(heap, number, slot, target);
    uint32_t code = g1_race_swap(&heap->racing[number], slot, target, &old, &kind);
    int is_made = answers(code, refusals, "swap");
    check(old == (is_made ? target_of(heap->words[slot]) : G1_NULL), "what a swap overwrites");
    uint32_t wanted = is_made ? put_by(heap, number, slot, word_of(target)) : 0;
    check(kind == wanted, "the kind of a swap");
}

// Expects what the slot has, or something else.
static void race_compare_exchange(struct heap *heap) {
    uint32_t number = below(EACH), slot = some_slot(), target = some_target(), kind = 7, found = 7;
    uint32_t had = is_slot(slot) ? target_of(heap->words[slot]) : G1_NULL;
    uint32_t expected = below(3) == 0 ? some_target() : had;
    uint64_t refusals = of_store(heap, number, slot, target) |
                        bit(G1_NO_SLOT, !is_store(slot, expected));
    int differs = refusals == 0 && heap->words[slot] != word_of(expected);
    uint32_t code = g1_race_compare_exchange(&heap->racing[number], slot, expected, target, &found,
                                             &kind);
    int is_made = answers(code, refusals | bit(G1_DIFFERS, differs), "exchange");
    check(found == (refusals == 0 ? had : G1_NULL), "what an exchange finds");
    uint32_t wanted = is_made ? put_by(heap, number, slot, word_of(target)) : 0;
    check(kind == wanted, "the kind of an exchange");
}

// Fills an array with stores, and returns how many of them come before the first that names no slot
// or target of the heap.
static uint32_t some_stores(struct g1_reference *stores, uint32_t length) {
    uint32_t good = 0;
    for (uint32_t i = 0; i < length; i++) {
        stores[i].slot = some_slot();
        stores[i].target = some_target();
        good += good == i && is_store(stores[i].slot, stores[i].target);
    }
    return good;
}

static void race_store_all(struct heap *heap) {
    struct g1_reference stores[BATCH];
    uint32_t number = below(EACH), length = below(BATCH + 1), made = 0;
    uint32_t good = some_stores(stores, length);
    uint64_t refusals = bit(G1_NOT_OPEN, heap->racing[number].racer == NULL);
    size_t stored = 7;
    uint32_t code = g1_race_store_all(&heap->racing[number], stores, length, &stored);
    while (refusals == 0 && made < good &&
           !is_full(heap, number, stores[made].slot, word_of(stores[made].target))) {
        put_by(heap, number, stores[made].slot, word_of(stores[made].target));
        made++;
    }
    int is_cut = refusals == 0 && made < length;
    uint64_t ends = bit(made < good ? G1_FULL : G1_STOPPED, is_cut);
    answers(code, refusals | ends, "several stores of a racer");
    check(stored == made, "how many stores a racer made");
}

static void race_store_data(struct heap *heap) {
    uint32_t number = below(EACH), slot = some_slot();
    uint64_t word = below(4) == 0 ? below(9) : G1_DATA + below(9), old = 7;
    uint64_t refusals = bit(G1_NOT_OPEN, heap->racing[number].racer == NULL) |
                        bit(G1_NO_SLOT, !is_slot(slot)) | bit(G1_BAD_WORD, word < G1_DATA);
    uint32_t code = g1_race_store_data(&heap->racing[number], slot, word, &old);
    if (answers(code, refusals, "store of data")) {
        check(old == heap->words[slot], "the word that a store of data overwrites");
        put_by(heap, number, slot, word);
    } else {
        check(old == 0, "the word of a refused store of data");
    }
}

static uint64_t some_word(void) {
    uint64_t slot = below(ALL_SLOTS + 2); // (one more than a word may have)
    return below(3) == 0 ? G1_DATA - (below(8) == 0) + below(4) : slot;
}

static int is_word(uint64_t word) {
    return word <= ALL_SLOTS || word >= G1_DATA;
}

// Why a racer's store of a word may be refused.
static uint64_t of_word(const struct heap *heap, uint32_t number, uint32_t slot, uint64_t word) {
    uint64_t refusals = closed(heap, number) | bit(G1_NO_SLOT, !is_slot(slot)) |
                        bit(G1_BAD_WORD, !is_word(word));
    return refusals | bit(G1_LOG_FULL, refusals == 0 && is_full(heap, number, slot, word));
}

static void race_swap_word(struct heap *heap) {
    uint32_t number = below(EACH), slot = some_slot(), kind = 7;
    uint64_t word = some_word(), old = 7, refusals = of_word(heap, number, slot, word);
    uint32_t code = g1_race_swap_word(&heap->racing[number], slot, word, &old, &kind);
    int is_made = answers(code, refusals, "swap of words");
    check(old == (is_made ? heap->words[slot] : 0), "the word that a swap overwrites");
    check(kind == (is_made ? put_by(heap, number, slot, word) : 0), "the kind of a swap of words");
}

// Expects the word that the slot has, or another one.
static void race_compare_exchange_word(struct heap *heap) {
    uint32_t number = below(EACH), slot = some_slot(), kind = 7;
    uint64_t word = some_word(), found = 7, had = is_slot(slot) ? heap->words[slot] : 0;
    uint64_t expected = below(3) == 0 ? some_word() : had;
    uint64_t refusals = of_word(heap, number, slot, word) | bit(G1_BAD_WORD, !is_word(expected));
    int differs = refusals == 0 && had != expected;
    uint32_t code = g1_race_compare_exchange_word(&heap->racing[number], slot, expected, word,
                                                  &found, &kind);
    int is_made = answers(code, refusals | bit(G1_DIFFERS, differs), "exchange of words");
    check(found == (refusals == 0 ? had : 0), "the word that an exchange finds");
    check(kind == (is_made ? put_by(heap, number, slot, word) : 0), "the kind of that exchange");
}

// Fills a row with words, most of which slots may have, and returns how many they may not.
static uint32_t some_row(uint64_t *words, uint32_t length) {
    uint32_t bad = 0;
    for (uint32_t i = 0; i < length; i++) {
        words[i] = some_word();
        if (!is_word(words[i]) && below(4) != 0) {
            words[i] = 0;
        }
        bad += !is_word(words[i]);
    }
    return bad;
}

static void race_store_words(struct heap *heap) {
    uint64_t words[BATCH];
    uint32_t number = below(EACH), slot = some_slot(), length = below(BATCH + 1), made = 0;
    uint64_t refusals = closed(heap, number) | bit(G1_NO_SLOT, slot + length > ALL_SLOTS) |
                        bit(G1_BAD_WORD, some_row(words, length) > 0);
    size_t stored = 7;
    uint32_t code = g1_race_store_words(&heap->racing[number], slot, words, length, &stored);
    while (refusals == 0 && made < length && !is_full(heap, number, slot + made, words[made])) {
        put_by(heap, number, slot + made, words[made]);
        made++;
    }
    answers(code, refusals | bit(G1_FULL, refusals == 0 && made < length), "a row of words");
    check(stored == made, "how many words of a row were stored");
}

static void take_log(struct heap *heap) {
    uint32_t number = below(EACH), cards[G1_LOG], count = 7;
    size_t room = below(4) == 0 ? G1_LOG - 1 : G1_LOG;
    uint64_t refusals = bit(G1_NOT_OPEN, heap->racing[number].racer == NULL) |
                        bit(G1_NO_ROOM, room < G1_LOG);
    uint32_t code = g1_race_take_log(&heap->racing[number], cards, room, &count);
    if (!answers(code, refusals, "log")) {
        check(count == 0, "the count of a refused log");
        return;
    }
    struct log *log = &heap->logs[number];
    int is_same = count == log->count && memcmp(cards, log->cards, count * sizeof cards[0]) == 0;
    check(is_same, "the cards of a log, oldest first");
    log->count = 0;
}

static void race_refine(struct heap *heap) {
    uint32_t number = below(EACH), card = below(ALL_CARDS + 1);
    uint64_t refusals = bit(G1_NOT_OPEN, heap->sweeping[number].sweeper == NULL) |
                        bit(G1_NO_CARD, card >= ALL_CARDS);
    if (answers(g1_race_refine(&heap->sweeping[number], card), refusals, "refinement")) {
        heap->swept[number].refined++;
        heap->swept[number].cleaned += heap->dirty[card];
        heap->swept[number].references += refine(heap, card);
    }
}

static void racer_counts(struct heap *heap) {
    uint32_t number = below(EACH);
    uint64_t told[4] = {7, 7, 7, 7}, none[4] = {0};
    uint64_t refusals = bit(G1_NOT_OPEN, heap->racing[number].racer == NULL);
    uint32_t code = g1_racer_counts(&heap->racing[number], &told[G1_STORED_NULL],
                                    &told[G1_STORED_SAME_REGION], &told[G1_STORED_DIRTY],
                                    &told[G1_STORED_LOGGED]);
    int is_told = answers(code, refusals, "counts of stores");
    check(memcmp(told, is_told ? heap->stored[number] : none, sizeof told) == 0,
          "how many stores a racer has made, by kind");
}

static void sweeper_counts(struct heap *heap) {
    uint32_t number = below(EACH);
    struct swept told = {7, 7, 7}, none = {0};
    uint64_t refusals = bit(G1_NOT_OPEN, heap->sweeping[number].sweeper == NULL);
    uint32_t code = g1_sweeper_counts(&heap->sweeping[number], &told.refined, &told.cleaned,
                                      &told.references);
    int is_told = answers(code, refusals, "counts");
    const struct swept *swept = is_told ? &heap->swept[number] : &none;
    check(memcmp(&told, swept, sizeof told) == 0, "what a sweeper has done");
}

static void ask(struct heap *heap) {
    uint32_t slot = some_slot(), target = 7, card = below(ALL_CARDS + 1), pending = 7;
    uint64_t word = 7, refusals = at_pause(heap) | bit(G1_NO_SLOT, heap->is_open && !is_slot(slot));
    int is_told = answers(g1_heap_target(&heap->handle, slot, &target), refusals, "target");
    check(target == (is_told ? target_of(heap->words[slot]) : G1_NULL), "a target");
    is_told = answers(g1_heap_word(&heap->handle, slot, &word), refusals, "word");
    check(word == (is_told ? heap->words[slot] : 0), "a word");
    refusals = at_pause(heap) | bit(G1_NO_CARD, heap->is_open && card >= ALL_CARDS);
    is_told = answers(g1_heap_is_pending(&heap->handle, card, &pending), refusals, "is pending");
    check(pending == (is_told ? heap->dirty[card] : 0), "whether a card is dirty");
}

static uint64_t no_region(const struct heap *heap, uint32_t region) {
    return at_pause(heap) | bit(G1_NO_REGION, heap->is_open && region >= REGIONS);
}

static void list(struct heap *heap, int drains) {
    uint32_t region = below(REGIONS + 1), cards[ALL_CARDS], before[ALL_CARDS], count = 7;
    size_t room = below(ALL_CARDS + 1);
    uint64_t refusals = no_region(heap, region);
    memset(cards, 255, sizeof cards);
    memcpy(before, cards, sizeof cards);
    uint32_t code = drains ? g1_heap_drain(&heap->handle, region, cards, room, &count)
                           : g1_heap_members(&heap->handle, region, cards, room, &count);
    if (drains && refusals == 0) {
        refine_all(heap);
    }
    uint32_t size = refusals == 0 ? sum(heap->recorded[region], ALL_CARDS) : 0;
    if (answers(code, refusals | bit(G1_NO_ROOM, size > room), drains ? "drain" : "members")) {
        lists(cards, count, heap->recorded[region]);
        return;
    }
    // An array that is too small has the first cards of the set.
    size_t written = 0;
    for (uint32_t card = 0; size > room && card < ALL_CARDS && written < room; card++) {
        if (heap->recorded[region][card] != 0) {
            before[written++] = card;
        }
    }
    check(count == size && memcmp(cards, before, sizeof cards) == 0, "a list without room");
}

// Whether a card lies outside these regions and is recorded for one of them.
static int is_into(const struct heap *heap, const uint32_t *regions, size_t count, uint32_t card) {
    int is_recorded = 0;
    for (size_t i = 0; i < count; i++) {
        if (regions[i] == card / CARDS) {
            return 0;
        }
        is_recorded |= heap->recorded[regions[i]][card];
    }
    return is_recorded;
}

// Regions of a collection set, some perhaps twice, and why a call of them may be refused.
static size_t some_regions(const struct heap *heap, uint32_t *regions, uint64_t *refusals) {
    size_t count = below(REGIONS + 1);
    *refusals = at_pause(heap);
    for (size_t i = 0; i < count; i++) {
        regions[i] = below(8) == 0 ? below(REGIONS + 1) : below(REGIONS);
        *refusals |= no_region(heap, regions[i]);
    }
    return count;
}

// Walks over the cards of a collection set, and over the dirty ones.
static void scan(struct heap *heap) {
    uint32_t regions[REGIONS], from = below(ALL_CARDS + 2), next = 7, wanted = G1_NULL;
    uint64_t refusals;
    size_t count = some_regions(heap, regions, &refusals);
    for (uint32_t card = ALL_CARDS; card-- > from && refusals == 0;) {
        wanted = is_into(heap, regions, count, card) ? card : wanted;
    }
    answers(g1_heap_next_into(&heap->handle, regions, count, from, &next), refusals, "next into");
    check(next == wanted, "the next card of a collection set");
    wanted = G1_NULL;
    refusals = at_pause(heap);
    for (uint32_t card = ALL_CARDS; card-- > from && refusals == 0;) {
        wanted = heap->dirty[card] ? card : wanted;
    }
    answers(g1_heap_next_dirty(&heap->handle, from, &next), refusals, "next dirty");
    check(next == wanted, "the next dirty card");
}

static void collector_stores(struct heap *heap) {
    struct g1_reference stores[BATCH];
    uint32_t length = below(BATCH + 1), kind = 7, good = some_stores(stores, length);
    size_t stored = 7;
    if (length == 1) {
        uint64_t refusals = at_pause(heap) | bit(G1_NO_SLOT, heap->is_open && good == 0);
        uint32_t code = g1_heap_store(&heap->handle, stores[0].slot, stores[0].target, &kind);
        int is_made = answers(code, refusals, "the collector's store");
        uint32_t wanted = is_made ? put(heap, stores[0].slot, word_of(stores[0].target)) : 0;
        check(kind == wanted, "the kind of the collector's store");
        return;
    }
    uint64_t refusals = at_pause(heap);
    uint32_t code = g1_heap_store_all(&heap->handle, stores, length, &stored);
    answers(code, refusals | bit(G1_STOPPED, refusals == 0 && good < length), "several stores");
    check(stored == (refusals == 0 ? good : 0), "how many stores were made");
    for (uint32_t i = 0; i < good && refusals == 0; i++) {
        put(heap, stores[i].slot, word_of(stores[i].target));
    }
}

static void collector_stores_words(struct heap *heap) {
    uint64_t words[BATCH];
    uint32_t slot = some_slot(), length = below(BATCH + 1), bad = some_row(words, length);
    uint64_t refusals = at_pause(heap) |
                        bit(G1_NO_SLOT, heap->is_open && slot + length > ALL_SLOTS) |
                        bit(G1_BAD_WORD, heap->is_open && bad > 0);
    uint32_t code = g1_heap_store_words(&heap->handle, slot, words, length);
    int is_made = answers(code, refusals, "the collector's row of words");
    for (uint32_t i = 0; i < length && is_made; i++) {
        put(heap, slot + i, words[i]);
    }
}

static void collector_stores_data(struct heap *heap) {
    uint32_t slot = some_slot();
    uint64_t word = below(4) == 0 ? below(9) : G1_DATA + below(9);
    uint64_t refusals = at_pause(heap) | bit(G1_NO_SLOT, heap->is_open && !is_slot(slot)) |
                        bit(G1_BAD_WORD, word < G1_DATA);
    if (answers(g1_heap_store_data(&heap->handle, slot, word), refusals, "data")) {
        put(heap, slot, word);
    }
}

static void copy(struct heap *heap) {
    uint32_t from = below(ALL_SLOTS + 2), to = below(ALL_SLOTS + 2);
    uint32_t count = below(16) == 0 ? UINT32_MAX - below(ALL_SLOTS) : below(REGION_SLOTS);
    uint64_t words[ALL_SLOTS], end = (uint64_t)(from > to ? from : to) + count;
    uint64_t refusals = at_pause(heap) | bit(G1_NO_SLOT, heap->is_open && end > ALL_SLOTS);
    if (answers(g1_heap_copy(&heap->handle, from, to, count), refusals, "copy")) {
        memcpy(words, &heap->words[from], count * sizeof words[0]);
        for (uint32_t i = 0; i < count; i++) {
            put(heap, to + i, words[i]);
        }
    }
}

static void clear(struct heap *heap) {
    uint32_t region = below(REGIONS + 1), detail = 7, least = ALL_SLOTS;
    uint32_t dirty = sum(heap->dirty, ALL_CARDS);
    uint64_t refusals = no_region(heap, region);
    for (uint32_t slot = ALL_SLOTS; slot-- > 0 && refusals == 0;) {
        least = entered_by(heap, slot) == region ? slot : least;
    }
    uint64_t still = bit(G1_STILL_PENDING, refusals == 0 && dirty > 0) |
                     bit(G1_STILL_REFERENCED, refusals == 0 && dirty == 0 && least < ALL_SLOTS);
    uint32_t code = g1_heap_clear(&heap->handle, region, &detail);
    uint32_t wanted = code == G1_STILL_PENDING ? dirty : code == G1_STILL_REFERENCED ? least : 0;
    check(detail == wanted, "the detail of a clear");
    if (answers(code, refusals | still, "clear")) {
        memset(heap->recorded[region], 0, ALL_CARDS);
    }
}

// The regions of a set are free: what refers out of one is null, and no pair of theirs is recorded.
static void free_in_table(struct heap *heap, const unsigned char *is_freed) {
    for (uint32_t slot = 0; slot < ALL_SLOTS; slot++) {
        int leaves = is_freed[slot / REGION_SLOTS] && entered_by(heap, slot) != REGIONS;
        heap->words[slot] = leaves ? 0 : heap->words[slot];
    }
    for (uint32_t region = 0; region < REGIONS; region++) {
        for (uint32_t card = 0; card < ALL_CARDS; card++) {
            heap->recorded[region][card] &= !is_freed[region] && !is_freed[card / CARDS];
        }
    }
}

static void free_set(struct heap *heap) {
    unsigned char is_freed[REGIONS + 1] = {0};
    uint32_t regions[REGIONS], detail = 7, least = ALL_SLOTS;
    uint32_t dirty = sum(heap->dirty, ALL_CARDS);
    uint64_t refusals;
    size_t count = some_regions(heap, regions, &refusals);
    for (size_t i = 0; i < count && refusals == 0; i++) {
        is_freed[regions[i]] = 1;
    }
    for (uint32_t slot = ALL_SLOTS; slot-- > 0;) {
        int enters = is_freed[entered_by(heap, slot)] && !is_freed[slot / REGION_SLOTS];
        least = enters ? slot : least;
    }
    uint64_t still = bit(G1_STILL_PENDING, refusals == 0 && dirty > 0) |
                     bit(G1_STILL_REFERENCED, refusals == 0 && dirty == 0 && least < ALL_SLOTS);
    uint32_t code = g1_heap_free(&heap->handle, regions, count, &detail);
    uint32_t wanted = code == G1_STILL_PENDING ? dirty : code == G1_STILL_REFERENCED ? least : 0;
    check(detail == wanted, "the detail of a free");
    if (answers(code, refusals | still, "free")) {
        free_in_table(heap, is_freed);
    }
}

static void redirect(struct heap *heap) {
    uint32_t from = below(REGIONS + 1), to = below(REGIONS + 1), moved = 7, count = 0;
    uint64_t refusals = no_region(heap, from) | no_region(heap, to) |
                        bit(G1_SAME_REGION, heap->is_open && from == to);
    uint32_t code = g1_heap_redirect(&heap->handle, from, to, &moved);
    if (answers(code, refusals, "redirect")) {
        refine_all(heap);
        for (uint32_t slot = 0; slot < ALL_SLOTS; slot++) {
            if (entered_by(heap, slot) == from) {
                uint32_t target = to * REGION_SLOTS + target_of(heap->words[slot]) % REGION_SLOTS;
                heap->words[slot] = word_of(target);
                heap->recorded[to][slot / SLOTS] |= entered_by(heap, slot) == to;
                count++;
            }
        }
        memset(heap->recorded[from], 0, ALL_CARDS);
    }
    check(moved == count, "how many slots a redirect moves");
}

static void wipe(struct heap *heap) {
    uint32_t region = below(REGIONS + 1);
    if (answers(g1_heap_wipe(&heap->handle, region), no_region(heap, region), "wipe")) {
        memset(&heap->words[region * REGION_SLOTS], 0, REGION_SLOTS * sizeof heap->words[0]);
    }
}

static void forget(struct heap *heap) {
    uint32_t region = below(REGIONS + 1);
    uint64_t refusals = no_region(heap, region);
    for (uint32_t i = 0; i < REGION_SLOTS && refusals == 0; i++) {
        int leaves = entered_by(heap, region * REGION_SLOTS + i) != REGIONS;
        refusals = bit(G1_STILL_REFERENCED, leaves);
    }
    if (answers(g1_heap_forget(&heap->handle, region), refusals, "forget")) {
        for (uint32_t other = 0; other < REGIONS; other++) {
            memset(&heap->recorded[other][region * CARDS], 0, CARDS);
        }
    }
}

// Checks a range against memory that has some references otherwise.
static void verify(struct heap *heap) {
    uint32_t references[ALL_SLOTS], differing = 7, missing = 7, least = G1_NULL;
    uint32_t first = below(ALL_SLOTS + 2), count = below(ALL_SLOTS), length = below(ALL_SLOTS);
    uint32_t end = first + (count < length ? length : count);
    uint64_t refusals = at_pause(heap) | bit(G1_NO_SLOT, heap->is_open && end > ALL_SLOTS);
    for (uint32_t i = length; i-- > 0;) {
        uint32_t had = refusals == 0 ? target_of(heap->words[first + i]) : G1_NULL;
        references[i] = below(16) == 0 ? some_target() : had;
        least = refusals == 0 && references[i] != had ? first + i : least;
    }
    uint32_t code = g1_heap_verify(&heap->handle, first, count, references, length, &differing,
                                   &missing);
    answers(code, refusals, "a check of the heap");
    check(differing == least, "the first slot that memory has otherwise");
    check(missing == G1_NULL, "each reference across regions is on a card that a drain finds");
}

static void refine_at_pause(struct heap *heap) {
    if (answers(g1_heap_refine(&heap->handle), at_pause(heap), "refinement at a pause")) {
        refine_all(heap);
    }
}

static void random_call(struct heap *heap) {
    switch (below(32)) {
    case 0: open_heap(heap); break;
    case 1: close_heap(heap); break;
    case 2: resume(heap); break;
    case 3: pause_heap(heap); break;
    case 4: take_log(heap); break;
    case 5: race_refine(heap); break;
    case 6: race_store_data(heap); break;
    case 7: ask(heap); break;
    case 8: list(heap, 0); break;
    case 9: list(heap, 1); break;
    case 10: refine_at_pause(heap); break;
    case 11: collector_stores(heap); break;
    case 12: collector_stores_data(heap); break;
    case 13: clear(heap); break;
    case 14: redirect(heap); break;
    case 15: wipe(heap); break;
    case 16: forget(heap); break;
    case 17: copy(heap); break;
    case 18: race_swap(heap); break;
    case 19: race_compare_exchange(heap); break;
    case 20: race_store_all(heap); break;
    case 21: race_swap_word(heap); break;
    case 22: race_compare_exchange_word(heap); break;
    case 23: verify(heap); break;
    case 24: sweeper_counts(heap); break;
    case 25: racer_counts(heap); break;
    case 26: scan(heap); break;
    case 27: race_store_words(heap); break;
    case 28: collector_stores_words(heap); break;
    case 29: free_set(heap); break;
    default: race_store(heap); break;
    }
    compare(heap);
}

// With a full log each store across regions is refused, and several stores end before the first of
// them. Slot 0 refers to slot 8, of another region.
static void store_with_full_log(struct g1_racer *racer) {
    uint32_t kind = 7, found = 7;
    uint64_t word = 7;
    answers(g1_race_store(racer, 0, 9, &kind), bit(G1_LOG_FULL, 1), "a store with a full log");
    uint32_t code = g1_race_swap(racer, 0, 9, &found, &kind);
    answers(code, bit(G1_LOG_FULL, 1), "a swap with a full log");
    code = g1_race_compare_exchange(racer, 0, 9, 9, &found, &kind);
    answers(code, bit(G1_LOG_FULL, 1), "an exchange with a full log");
    check(kind == G1_STORED_NULL && found == G1_NULL, "what is found with a full log");
    code = g1_race_swap_word(racer, 0, word_of(9), &word, &kind);
    answers(code, bit(G1_LOG_FULL, 1), "a swap of words with a full log");
    code = g1_race_compare_exchange_word(racer, 0, word_of(8), word_of(9), &word, &kind);
    answers(code, bit(G1_LOG_FULL, 1), "an exchange of words with a full log");
    answers(g1_race_store(racer, ALL_SLOTS, 9, &kind), bit(G1_NO_SLOT, 1), "into no slot");
    code = g1_race_compare_exchange(racer, 0, ALL_SLOTS, 9, &found, &kind);
    answers(code, bit(G1_NO_SLOT, 1), "no slot is expected");
    code = g1_race_compare_exchange_word(racer, 0, G1_DATA - 1, word_of(9), &word, &kind);
    answers(code, bit(G1_BAD_WORD, 1), "no word is expected");
}

// With a full log each store is made that does not cross regions.
static void store_without_room(struct g1_racer *racer) {
    uint32_t kind = 7, found = 7;
    uint64_t word = 7;
    answers(g1_race_compare_exchange(racer, 0, 8, 1, &found, &kind), 0, "an exchange of a region's");
    check(kind == G1_STORED_SAME_REGION && found == 8, "what it finds");
    answers(g1_race_swap(racer, 0, G1_NULL, &found, &kind), 0, "a swap for null");
    check(kind == G1_STORED_NULL && found == 1, "what it overwrites");
    answers(g1_race_store(racer, 0, 7, &kind), 0, "a store within the region");
    check(kind == G1_STORED_SAME_REGION, "its kind");
    answers(g1_race_swap_word(racer, 0, G1_DATA, &word, &kind), 0, "a swap for data");
    check(kind == G1_STORED_NULL && word == word_of(7), "the word that it overwrites");
    uint32_t code = g1_race_compare_exchange_word(racer, 0, G1_DATA, word_of(1), &word, &kind);
    answers(code, 0, "an exchange of data for a reference within the region");
    check(kind == G1_STORED_SAME_REGION && word == G1_DATA, "the word that it finds");
}

// Several stores with a full log.
static void store_all_with_full_log(struct g1_racer *racer) {
    const uint64_t words[] = {word_of(3), G1_DATA, 0, word_of(9), 0};
    static const struct g1_reference stores[] = {{0, G1_NULL}, {1, 2}, {1, 9}, {1, G1_NULL}};
    static const struct g1_reference no_slot[] = {{ALL_SLOTS, 9}};
    size_t stored = 7;
    answers(g1_race_store_all(racer, stores, 4, &stored), bit(G1_FULL, 1), "several stores then");
    check(stored == 2, "those before the first across regions are made");
    answers(g1_race_store_all(racer, stores, 2, &stored), 0, "none across regions");
    answers(g1_race_store_all(racer, stores, 0, &stored), 0, "no stores with a full log");
    answers(g1_race_store_all(racer, no_slot, 1, &stored), bit(G1_STOPPED, 1), "one into no slot");
    answers(g1_race_store_words(racer, 0, words, 5, &stored), bit(G1_FULL, 1), "a row then");
    check(stored == 3, "the words before the first across regions are stored");
}

// Fills all but one place of a log. The first of several stores takes that, and the second is not
// made: it is once the log is taken.
static void fill_by_several(struct g1_racer *racer, struct g1_sweeper *sweeper) {
    static const struct g1_reference stores[] = {{0, 8}, {SLOTS, 9}, {ALL_SLOTS, 0}};
    uint32_t cards[G1_LOG], count, kind;
    size_t stored = 7;
    for (int i = 1; i < G1_LOG; i++) {
        answers(g1_race_refine(sweeper, 0), 0, "refinement");
        answers(g1_race_store(racer, 0, 8, &kind), 0, "a store that is logged");
    }
    answers(g1_race_refine(sweeper, 0), 0, "refinement");
    answers(g1_race_store_all(racer, stores, 3, &stored), bit(G1_FULL, 1), "stores of a full log");
    check(stored == 1, "the first of them has room in the log");
    answers(g1_race_take_log(racer, cards, G1_LOG, &count), 0, "log");
    check(count == G1_LOG, "it fills the log");
    answers(g1_race_store_all(racer, stores + 1, 2, &stored), bit(G1_STOPPED, 1), "the rest");
    check(stored == 1, "the second store of three");
    answers(g1_race_take_log(racer, cards, G1_LOG, &count), 0, "log");
    check(count == 1 && cards[0] == 1, "its card");
}

// Cleans and dirties one card until the racer's log is full.
static void full_log(void) {
    struct g1_heap heap = {0};
    struct g1_racer racer = {0};
    struct g1_sweeper sweeper = {0};
    uint32_t cards[G1_LOG], count, kind;
    answers(g1_heap_open(&heap, &small, 1, 1), 0, "open");
    answers(g1_heap_resume(&heap, &racer, 1, &sweeper, 1), 0, "resume");
    for (int i = 0; i < G1_LOG; i++) {
        answers(g1_race_refine(&sweeper, 0), 0, "refinement");
        answers(g1_race_store(&racer, 0, 8, &kind), 0, "a store");
        check(kind == G1_STORED_LOGGED, "a store that is logged");
    }
    store_with_full_log(&racer);
    store_without_room(&racer);
    store_all_with_full_log(&racer);
    answers(g1_heap_pause(&heap, &racer, 1, &sweeper, 1), 0, "pause");
    answers(g1_heap_resume(&heap, &racer, 1, &sweeper, 1), 0, "resume");
    answers(g1_race_store(&racer, 0, 8, &kind), bit(G1_LOG_FULL, 1), "a log over a pause");
    answers(g1_race_take_log(&racer, cards, G1_LOG, &count), 0, "log");
    check(count == G1_LOG && cards[0] == 0 && cards[G1_LOG - 1] == 0, "a full log has 256 cards");
    fill_by_several(&racer, &sweeper);
    answers(g1_heap_pause(&heap, &racer, 1, &sweeper, 1), 0, "pause");
    answers(g1_heap_close(&heap), 0, "close");
}

// Where several codes apply, the header's list of the call has them in order.
static void first_codes(void) {
    struct g1_heap heap = {0};
    struct g1_counts none = {0, 0, 0};
    struct g1_racer racers[2] = {{0}}, closed = {0};
    struct g1_sweeper sweeper = {0};
    uint32_t cards[1], word;
    uint64_t old;
    answers(g1_race_take_log(&closed, cards, 1, &word), bit(G1_NO_ROOM, 1), "room, and no racer");
    answers(g1_heap_open(&heap, &none, 0, 1), bit(G1_BAD_HANDLES, 1), "no racer and no region");
    answers(g1_heap_open(&heap, &small, 1, 1), 0, "open");
    answers(g1_heap_open(&heap, &none, 0, 1), bit(G1_ALREADY_OPEN, 1), "in an open handle");
    answers(g1_heap_store_data(&heap, ALL_SLOTS, 0), bit(G1_NO_SLOT, 1), "neither slot nor data");
    answers(g1_heap_store(&heap, 0, 8, &word), 0, "a store");
    answers(g1_heap_clear(&heap, REGIONS, &word), bit(G1_NO_REGION, 1), "a clear of no region");
    uint32_t code = g1_heap_redirect(&heap, REGIONS, REGIONS, &word);
    answers(code, bit(G1_NO_REGION, 1), "a redirect from no region to itself");
    code = g1_heap_pause(&heap, racers, 2, &sweeper, 1);
    answers(code, bit(G1_NOT_RACING, 1), "a pause at a pause, with a handle too many");
    answers(g1_heap_resume(&heap, racers, 1, &sweeper, 1), 0, "resume");
    answers(g1_heap_resume(&heap, racers, 2, &sweeper, 1), bit(G1_NOT_PAUSED, 1), "and again");
    answers(g1_race_store_data(&racers[0], ALL_SLOTS, 0, &old), bit(G1_NO_SLOT, 1), "in a race");
    answers(g1_heap_clear(&heap, REGIONS, &word), bit(G1_NOT_PAUSED, 1), "no clear in a race");
    code = g1_heap_pause(&heap, racers, 2, &sweeper, 1);
    answers(code, bit(G1_BAD_HANDLES, 1), "a handle too many, which is closed");
    answers(g1_heap_pause(&heap, racers, 1, &sweeper, 1), 0, "pause");
    answers(g1_heap_close(&heap), 0, "close");
    answers(g1_heap_open(&heap, &small, G1_RACERS, G1_SWEEPERS), 0, "as many as there may be");
    answers(g1_heap_close(&heap), 0, "close");
}

// A copy of no slots is done if both ranges begin at most just behind the last slot.
static void empty_copies(void) {
    struct g1_heap heap = {0};
    answers(g1_heap_open(&heap, &small, 1, 1), 0, "open");
    answers(g1_heap_copy(&heap, ALL_SLOTS, 0, 0), 0, "no slots from behind the last one");
    answers(g1_heap_copy(&heap, 0, ALL_SLOTS, 0), 0, "no slots to there");
    uint32_t code = g1_heap_copy(&heap, ALL_SLOTS + 1, 0, 0);
    answers(code, bit(G1_NO_SLOT, 1), "no slots from farther behind");
    answers(g1_heap_copy(&heap, 0, ALL_SLOTS + 1, 0), bit(G1_NO_SLOT, 1), "no slots to there");
    answers(g1_heap_close(&heap), 0, "close");
}

// The least slot that refers into another region from a card that no drain would find, once the
// program itself has written to the words.
static uint32_t missing_in(struct g1_heap *heap, uint32_t first) {
    uint32_t none[1] = {0}, differing = 7, missing = 7, count = ALL_SLOTS - first;
    answers(g1_heap_verify(heap, first, count, none, 0, &differing, &missing), 0, "a check");
    check(differing == G1_NULL, "no memory is compared");
    return missing;
}

static void words_that_the_program_writes(void) {
    struct g1_heap heap = {0};
    const uint64_t *words;
    uint64_t *own;
    uint32_t kind;
    answers(g1_heap_open(&heap, &small, 1, 1), 0, "open");
    answers(g1_heap_words(&heap, &words), 0, "words");
    memcpy(&own, &words, sizeof own);
    own[12] = word_of(13);
    own[31] = own[30] = G1_DATA;
    check(missing_in(&heap, 0) == G1_NULL, "a reference within a region, and data");
    own[31] = own[9] = word_of(0);
    check(missing_in(&heap, 0) == 9, "a reference that was never stored");
    check(missing_in(&heap, 9) == 9, "it is the first of the range");
    check(missing_in(&heap, 10) == 31, "another one behind it");
    answers(g1_heap_store(&heap, 10, 16, &kind), 0, "a store on the same card");
    check(missing_in(&heap, 0) == 31, "the card is dirty");
    own[9] = 0;
    answers(g1_heap_refine(&heap), 0, "refinement");
    own[9] = word_of(17);
    check(missing_in(&heap, 0) == 31, "the card is recorded for that region");
    own[9] = word_of(0);
    check(missing_in(&heap, 0) == 9, "and for no other one");
    own[9] = own[31] = 0;
    check(missing_in(&heap, 0) == G1_NULL, "each slot is null or stored");
    answers(g1_heap_close(&heap), 0, "close");
}

static void all_codes(void) {
    static const uint32_t codes[] = {
        G1_DONE, G1_DIFFERS, G1_STOPPED, G1_FULL, G1_NOT_OPEN, G1_ALREADY_OPEN, G1_BAD_LAYOUT,
        G1_NO_SLOT, G1_NO_CARD, G1_NO_REGION, G1_NO_ROOM, G1_SAME_REGION, G1_STILL_PENDING,
        G1_STILL_REFERENCED, G1_LOG_FULL, G1_BAD_HANDLES, G1_OTHER_RACE, G1_NOT_PAUSED,
        G1_NOT_RACING, G1_BAD_WORD};
    uint64_t all = 0;
    for (size_t i = 0; i < sizeof codes / sizeof codes[0]; i++) {
        check((seen & bit(codes[i], 1)) != 0, g1_code_text(codes[i]));
        all |= bit(codes[i], 1);
    }
    check(seen == all, "no other code is returned");
}

// Pauses a heap, if it races, and closes it.
static void end(struct heap *heap) {
    if (heap->is_racing) {
        uint32_t code = g1_heap_pause(&heap->handle, heap->racing, heap->racers, heap->sweeping,
                                      heap->sweepers);
        answers(code, 0, "the last pause");
    }
    uint64_t refusals = bit(G1_NOT_OPEN, !heap->is_open);
    answers(g1_heap_close(&heap->handle), refusals, "the last close");
}

int main(int number, char **words) {
    long calls = number > 1 ? atol(words[1]) : 200000;
    full_log();
    first_codes();
    empty_copies();
    words_that_the_program_writes();
    for (long i = 0; i < calls; i++) {
        random_call(&heaps[below(HEAPS)]);
    }
    for (int i = 0; i < HEAPS; i++) {
        end(&heaps[i]);
    }
    all_codes();
    printf("%u passed, %u failed\n", passed, failed);
    return failed != 0;
}
