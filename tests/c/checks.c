// Calls of the library that C can get wrong, and random calls beside a plain table of references: `checks [CALLS]`.
//
// The table here is a C array that each store and each redirect writes. At each drain every slot is scanned: a card that refers into
// the region from outside has to be listed, each listed card lies outside the region and referred into it since its set was last
// cleared, and they ascend.
#include "g1.h"

#include <stdio.h>
#include <stdlib.h>
#include <string.h>

static unsigned passed, failed;

static void check(int holds, const char *what) {
    if (holds) {
        passed++;
    } else {
        failed++;
        printf("-- %s\n", what);
    }
}

static void answers(uint32_t answer, uint32_t expected, const char *what) {
    if (answer != expected) {
        printf("-- %s: %u, and not %u\n", what, (unsigned)answer, (unsigned)expected);
    }
    check(answer == expected, what);
}

#define ALL UINT32_MAX

// A heap of 4 regions of 2 cards of 4 slots.
static const struct g1_counts small = {4, 2, 4};

static uint32_t cards[65536], refined[65536];
static uint32_t count, refined_count, moved;

static uint32_t drain(struct g1 *handle, uint32_t region) {
    return g1_drain(handle, region, cards, 65536, &count, refined, 65536, &refined_count);
}

static uint32_t members(struct g1 *handle, uint32_t region, size_t room) {
    return g1_members(handle, region, cards, room, &count);
}

static uint32_t redirect(struct g1 *handle, uint32_t from, uint32_t to) {
    return g1_redirect(handle, from, to, &moved, refined, 65536, &refined_count);
}

// The kind of a store that is made.
static uint32_t store(struct g1 *handle, uint32_t slot, uint32_t target) {
    uint32_t kind = 7;
    answers(g1_store(handle, slot, target, &kind), G1_DONE, "a store");
    return kind;
}

// The code of a store that is refused.
static uint32_t refused_store(struct g1 *handle, uint32_t slot, uint32_t target) {
    uint32_t kind = 7, code = g1_store(handle, slot, target, &kind);
    check(kind == G1_STORED_NULL, "the kind of a refused store");
    return code;
}

// Whether a card of the heap is pending.
static uint32_t is_pending(struct g1 *handle, uint32_t card) {
    uint32_t pending = 7;
    answers(g1_is_pending(handle, card, &pending), G1_DONE, "whether a card is pending");
    return pending;
}

// What a slot refers to, or a word that is neither a place nor null where the call was refused.
static uint32_t target_of(struct g1 *handle, uint32_t slot) {
    uint32_t target = 0;
    return g1_target(handle, slot, &target) == G1_DONE ? target : ALL - 1;
}

// Whether `pending` cards are pending and `recorded` pairs recorded.
static int has(struct g1 *handle, uint32_t pending, uint32_t recorded) {
    struct g1_totals totals;
    return g1_status(handle, &totals) == G1_DONE && totals.pending == pending && totals.recorded == recorded;
}

static void closed_handles(void) {
    struct g1 handle = {0};
    struct g1_tally tally = {7, 7, 7};
    struct g1_totals totals = {7, 7};
    uint32_t one[1] = {0}, word = 7;
    for (int round = 0; round < 2; round++) {
        answers(refused_store(&handle, 0, 8), G1_NOT_OPEN, "store on a closed handle");
        answers(g1_refine(&handle, one, 1, refined, 1, &tally), G1_NOT_OPEN, "refine on a closed handle");
        check(tally.refined == 0 && tally.hot == 0 && tally.skipped == 0, "the tally of a refused refinement");
        count = refined_count = 7;
        answers(drain(&handle, 0), G1_NOT_OPEN, "drain on a closed handle");
        check(count == 0 && refined_count == 0, "the counts of a refused drain");
        totals = (struct g1_totals){7, 7};
        answers(g1_status(&handle, &totals), G1_NOT_OPEN, "status of a closed handle");
        check(totals.pending == 0 && totals.recorded == 0, "the totals of a refused status");
        answers(g1_target(&handle, 0, &word), G1_NOT_OPEN, "target on a closed handle");
        check(word == G1_NULL, "the target of a refused call");
        answers(g1_is_pending(&handle, 0, &word), G1_NOT_OPEN, "is_pending on a closed handle");
        check(word == 0, "no card of a closed handle is pending");
        count = 7;
        answers(members(&handle, 0, 65536), G1_NOT_OPEN, "members on a closed handle");
        check(count == 0, "the count of refused members");
        word = 7;
        answers(g1_clear(&handle, 0, &word), G1_NOT_OPEN, "clear on a closed handle");
        check(word == 0, "the detail of a refused clear");
        moved = refined_count = 7;
        answers(redirect(&handle, 0, 1), G1_NOT_OPEN, "redirect on a closed handle");
        check(moved == 0 && refined_count == 0, "the counts of a refused redirect");
        answers(g1_copy(&handle, 0, 1, 1), G1_NOT_OPEN, "copy on a closed handle");
        moved = word = 7;
        answers(g1_verify(&handle, 0, 1, one, 1, &moved, &word), G1_NOT_OPEN, "verify on a closed handle");
        check(moved == G1_NULL && word == G1_NULL, "what a refused check finds");
        answers(g1_close(&handle), G1_NOT_OPEN, "close of a closed handle");
        check(handle.core == NULL, "a closed handle stays closed");
        answers(g1_open(&handle, &small, 4, 8), G1_DONE, "open");
        check(handle.core != NULL, "an open handle has a word");
        answers(g1_open(&handle, &small, 4, 8), G1_ALREADY_OPEN, "open of an open handle");
        answers(store(&handle, 0, 8), G1_STORED_LOGGED, "the heap is new, and was not opened twice");
        answers(g1_close(&handle), G1_DONE, "close");
        check(handle.core == NULL, "close leaves zeros");
    }
}

static void counts_and_settings(void) {
    static const uint32_t bad[][3] = {
        {0, 1, 1}, {1, 0, 1}, {1, 1, 0}, {257, 1, 1}, {1, 65537, 1}, {1, 1, 65}, {ALL, ALL, ALL}, {65536, 65536, 1},
    };
    struct g1 handle = {0};
    for (size_t i = 0; i < sizeof bad / sizeof *bad; i++) {
        struct g1_counts counts = {bad[i][0], bad[i][1], bad[i][2]};
        answers(g1_open(&handle, &counts, 4, 8), G1_BAD_LAYOUT, "counts outside the limits");
    }
    answers(g1_open(&handle, &small, 256, 8), G1_BAD_SETTINGS, "a hot limit of 256");
    answers(g1_open(&handle, &small, ALL, 8), G1_BAD_SETTINGS, "the greatest hot limit");
    answers(g1_open(&handle, &small, 4, 0), G1_BAD_SETTINGS, "no ring");
    answers(g1_open(&handle, &small, 4, 4097), G1_BAD_SETTINGS, "a ring of 4097");
    struct g1_counts most = {2, G1_MAX_CARDS, 1}, many = {G1_MAX_REGIONS, 1, G1_MAX_SLOTS};
    answers(g1_open(&handle, &most, G1_MAX_HOT, G1_MAX_RING), G1_DONE, "the most cards, the last hot limit and the largest ring");
    answers(g1_close(&handle), G1_DONE, "close of the most cards");
    answers(g1_open(&handle, &many, 0, 1), G1_DONE, "the most regions and slots");
    answers(g1_close(&handle), G1_DONE, "close of the most regions");
    check(handle.core == NULL, "a refused open leaves zeros");
    struct g1_counts greatest = {256, 64, 64};
    answers(g1_open(&handle, &greatest, 255, 4096), G1_DONE, "a heap of 1,048,576 slots");
    answers(store(&handle, 1048575, 0), G1_STORED_LOGGED, "its last slot");
    answers(refused_store(&handle, 1048576, 0), G1_NO_SLOT, "the slot after it");
    answers(g1_close(&handle), G1_DONE, "close of that heap");
    struct g1_counts large = {2, 65536, 1};
    answers(g1_open(&handle, &large, 255, 4096), G1_DONE, "a heap of the largest regions");
    answers(store(&handle, 131071, 65535), G1_STORED_LOGGED, "its last slot, into the other region");
    answers(store(&handle, 131071, 65536), G1_STORED_SAME_REGION, "and into its own");
    answers(refused_store(&handle, 131072, 0), G1_NO_SLOT, "the slot after it");
    answers(g1_close(&handle), G1_DONE, "close of the heap of the largest regions");
}

static void stores(void) {
    struct g1 handle = {0};
    answers(g1_open(&handle, &small, 4, 8), G1_DONE, "open");
    answers(store(&handle, 0, G1_NULL), G1_STORED_NULL, "null");
    answers(store(&handle, 0, 7), G1_STORED_SAME_REGION, "same region");
    answers(store(&handle, 0, 8), G1_STORED_LOGGED, "across regions");
    answers(store(&handle, 3, 31), G1_STORED_DIRTY, "across regions on a dirty card");
    answers(refused_store(&handle, 32, 0), G1_NO_SLOT, "no such slot");
    answers(refused_store(&handle, ALL, 0), G1_NO_SLOT, "the greatest slot");
    answers(refused_store(&handle, 4, 32), G1_NO_SLOT, "no such target");
    answers(refused_store(&handle, 4, ALL - 1), G1_NO_SLOT, "a target one below null");
    answers(drain(&handle, 1), G1_DONE, "drain");
    check(count == 1 && cards[0] == 0, "the card that refers into region 1");
    check(refined_count == 1 && refined[0] == 0, "and it alone was pending");
    answers(drain(&handle, 3), G1_DONE, "drain of another region");
    check(count == 1 && cards[0] == 0 && refined_count == 0, "the same card refers into region 3");
    g1_close(&handle);
}

static void batches(void) {
    struct g1 handle = {0};
    struct g1_batch batch = {7, 7};
    struct g1_reference stores[257] = {{0, 8}, {0, 7}, {4, 31}, {4, G1_NULL}, {3, 9}, {8, 0}};
    answers(g1_store_all(&handle, stores, 6, cards, 6, &batch), G1_NOT_OPEN, "several stores on a closed handle");
    check(batch.stored == 0 && batch.logged == 0, "the counts of refused stores");
    answers(g1_store_all(&handle, stores, 0, cards, 0, &batch), G1_NOT_OPEN, "no stores on a closed handle");
    answers(g1_open(&handle, &small, 4, 8), G1_DONE, "open");
    batch = (struct g1_batch){7, 7};
    answers(g1_store_all(&handle, stores, 6, cards, 5, &batch), G1_NO_ROOM, "room for 5 of 6 stores");
    check(batch.stored == 0 && batch.logged == 0, "the counts of stores without room");
    answers(g1_store_all(&handle, stores, 257, cards, 257, &batch), G1_TOO_MANY_CARDS, "257 stores");
    check(has(&handle, 0, 0) && target_of(&handle, 0) == G1_NULL, "nothing of all that was stored");
    answers(g1_store_all(&handle, stores, 0, cards, 0, &batch), G1_DONE, "no stores");
    check(batch.stored == 0 && batch.logged == 0, "the counts of no stores");
    cards[3] = 77;
    answers(g1_store_all(&handle, stores, 6, cards, 6, &batch), G1_DONE, "six stores");
    check(batch.stored == 6 && batch.logged == 3, "three of six are logged");
    check(cards[0] == 0 && cards[1] == 1 && cards[2] == 2 && cards[3] == 77, "their cards, in order");
    check(target_of(&handle, 0) == 7 && target_of(&handle, 4) == G1_NULL && target_of(&handle, 3) == 9, "the last store of a slot stays");
    static const struct g1_reference bad[] = {{32, 0}, {ALL, 0}, {12, 32}, {12, ALL - 1}};
    for (size_t i = 0; i < sizeof bad / sizeof *bad; i++) {
        struct g1_reference some[3] = {{16, (uint32_t)(8 + i)}, bad[i], {20, 0}};
        answers(g1_store_all(&handle, some, 3, cards, 3, &batch), G1_STOPPED, "a store that names no slot");
        check(batch.stored == 1 && batch.logged == (i == 0), "it is the second");
        check(target_of(&handle, 16) == 8 + i && target_of(&handle, 20) == G1_NULL, "the first was made, the third was not");
    }
    for (size_t i = 0; i < 256; i++) {
        stores[i] = (struct g1_reference){(uint32_t)(i % 32), (uint32_t)((i * 7) % 32)};
    }
    answers(g1_store_all(&handle, stores, 256, cards, 256, &batch), G1_DONE, "256 stores");
    check(batch.stored == 256, "all are made");
    g1_close(&handle);
}

static void rooms(void) {
    struct g1 handle = {0};
    struct g1_tally tally;
    uint32_t log[257] = {0};
    answers(g1_open(&handle, &small, 4, 8), G1_DONE, "open");
    store(&handle, 0, 8);
    answers(drain(&handle, 4), G1_NO_REGION, "no such region");
    answers(drain(&handle, ALL), G1_NO_REGION, "the greatest region");
    answers(g1_drain(&handle, 1, cards, 7, &count, refined, 8, &refined_count), G1_NO_ROOM, "room for 7 of 8 cards");
    answers(g1_drain(&handle, 1, cards, 8, &count, refined, 7, &refined_count), G1_NO_ROOM, "room for 7 of 8 refined cards");
    answers(g1_drain(&handle, 1, cards, 0, &count, refined, 0, &refined_count), G1_NO_ROOM, "no room at all");
    answers(g1_refine(&handle, log, 2, refined, 1, &tally), G1_NO_ROOM, "room for 1 of 2 refined cards");
    answers(g1_refine(&handle, log, 257, refined, 257, &tally), G1_TOO_MANY_CARDS, "257 cards");
    log[1] = 8;
    answers(g1_refine(&handle, log, 2, refined, 2, &tally), G1_NO_CARD, "no such card");
    log[1] = ALL;
    answers(g1_refine(&handle, log, 2, refined, 2, &tally), G1_NO_CARD, "the greatest card");
    answers(store(&handle, 1, 9), G1_STORED_DIRTY, "nothing of all that has refined the card");
    log[1] = 1;
    answers(g1_refine(&handle, log, 0, refined, 0, &tally), G1_DONE, "an empty log");
    check(tally.refined == 0 && tally.skipped == 0, "nothing is refined of it");
    answers(g1_refine(&handle, log, 2, refined, 2, &tally), G1_DONE, "a log of two");
    check(tally.refined == 1 && refined[0] == 0 && tally.skipped == 1 && tally.hot == 0, "one card was dirty");
    answers(g1_drain(&handle, 1, cards, 8, &count, refined, 8, &refined_count), G1_DONE, "just enough room");
    check(count == 1 && cards[0] == 0 && refined_count == 0, "nothing was pending any more");
    g1_close(&handle);
}

// Where several codes apply, the header's list of the call has them in order.
static void first_codes(void) {
    struct g1 handle = {0};
    struct g1_tally tally;
    struct g1_batch batch;
    struct g1_reference stores[257] = {{32, 0}};
    struct g1_counts none = {0, 0, 0};
    uint32_t log[257] = {8}, detail;
    answers(g1_open(&handle, &none, 4, 0), G1_BAD_LAYOUT, "bad counts, and no ring");
    answers(g1_open(&handle, &small, 4, 8), G1_DONE, "open");
    answers(g1_open(&handle, &none, 4, 0), G1_ALREADY_OPEN, "bad counts, no ring, and an open handle");
    answers(g1_store_all(&handle, stores, 257, cards, 256, &batch), G1_NO_ROOM, "257 stores, and room for 256");
    answers(g1_refine(&handle, log, 257, refined, 256, &tally), G1_NO_ROOM, "257 cards, and room for 256");
    answers(g1_refine(&handle, log, 257, refined, 257, &tally), G1_TOO_MANY_CARDS, "257 cards, one of no heap");
    store(&handle, 0, 8);
    answers(g1_drain(&handle, 4, cards, 0, &count, refined, 0, &refined_count), G1_NO_REGION, "a drain without region and room");
    answers(members(&handle, 4, 0), G1_NO_REGION, "members without region and room");
    answers(g1_clear(&handle, 4, &detail), G1_NO_REGION, "a clear of no region, while a card is pending");
    answers(redirect(&handle, 4, 4), G1_NO_REGION, "a redirect from no region to itself");
    answers(g1_redirect(&handle, 1, 1, &moved, refined, 0, &refined_count), G1_SAME_REGION, "one to itself, without room");
    g1_close(&handle);
}

static void questions(void) {
    struct g1 handle = {0};
    uint32_t word = 7;
    answers(g1_open(&handle, &small, 4, 8), G1_DONE, "open");
    check(has(&handle, 0, 0), "a new heap has nothing pending or recorded");
    check(target_of(&handle, 0) == G1_NULL && target_of(&handle, 31) == G1_NULL, "a new heap is all null");
    store(&handle, 0, 8);
    store(&handle, 1, 31);
    store(&handle, 4, 6);
    store(&handle, 9, 0);
    check(target_of(&handle, 0) == 8 && target_of(&handle, 1) == 31 && target_of(&handle, 4) == 6, "what was stored");
    answers(is_pending(&handle, 0), 1, "a card with a store across regions");
    answers(is_pending(&handle, 1), 0, "a card with a store in one region");
    answers(is_pending(&handle, 2), 1, "another card with a store across regions");
    check(has(&handle, 2, 0), "two cards are pending, and nothing is recorded");
    answers(members(&handle, 1, 8), G1_DONE, "members before a drain");
    check(count == 0, "a pending card is not recorded yet");
    drain(&handle, 1);
    check(has(&handle, 0, 3), "card 0 is recorded for regions 1 and 3, and card 2 for region 0");
    answers(is_pending(&handle, 0), 0, "a drained card");
    answers(store(&handle, 0, G1_NULL), G1_STORED_NULL, "null in its place");
    check(target_of(&handle, 0) == G1_NULL, "is what the slot refers to");
    word = 7;
    answers(g1_target(&handle, 32, &word), G1_NO_SLOT, "target of no such slot");
    check(word == G1_NULL, "the target of no such slot");
    answers(g1_target(&handle, ALL, &word), G1_NO_SLOT, "target of the greatest slot");
    word = 7;
    answers(g1_is_pending(&handle, 8, &word), G1_NO_CARD, "no such card is pending");
    check(word == 0, "whether no such card is pending");
    answers(g1_is_pending(&handle, ALL, &word), G1_NO_CARD, "the greatest card is not pending");
    g1_close(&handle);
}

static void member_rooms(void) {
    struct g1 handle = {0};
    answers(g1_open(&handle, &small, 4, 8), G1_DONE, "open");
    store(&handle, 20, 8);
    store(&handle, 0, 8);
    store(&handle, 28, 9);
    drain(&handle, 0);
    cards[0] = cards[1] = cards[2] = 77;
    answers(members(&handle, 1, 2), G1_NO_ROOM, "room for 2 of 3 members");
    check(count == 3 && cards[0] == 77 && cards[1] == 77, "three are needed, and nothing is written");
    answers(members(&handle, 1, 0), G1_NO_ROOM, "no room for 3 members");
    check(count == 3, "three are needed");
    answers(members(&handle, 1, 3), G1_DONE, "room for 3 members");
    check(count == 3 && cards[0] == 0 && cards[1] == 5 && cards[2] == 7, "the members ascend");
    answers(members(&handle, 2, 0), G1_DONE, "no room for no member");
    check(count == 0, "a region without members");
    count = 7;
    answers(members(&handle, 4, 8), G1_NO_REGION, "members of no such region");
    check(count == 0, "no member of no such region");
    answers(members(&handle, ALL, 8), G1_NO_REGION, "members of the greatest region");
    check(has(&handle, 0, 3), "nothing of all that has changed what is recorded");
    g1_close(&handle);
}

static void clears(void) {
    struct g1 handle = {0};
    uint32_t detail = 7;
    answers(g1_open(&handle, &small, 4, 8), G1_DONE, "open");
    answers(g1_clear(&handle, 1, &detail), G1_DONE, "clear of a set that is empty");
    check(detail == 0, "no detail of a clear that is done");
    store(&handle, 20, 9);
    store(&handle, 3, 8);
    answers(g1_clear(&handle, 1, &detail), G1_STILL_PENDING, "clear while cards are pending");
    check(detail == 2, "two cards are pending");
    answers(g1_clear(&handle, 2, &detail), G1_STILL_PENDING, "clear of another region");
    drain(&handle, 1);
    answers(g1_clear(&handle, 1, &detail), G1_STILL_REFERENCED, "clear while a slot refers into the region");
    check(detail == 3, "slot 3 is the least");
    store(&handle, 3, G1_NULL);
    answers(g1_clear(&handle, 1, &detail), G1_STILL_REFERENCED, "clear while another slot does");
    check(detail == 20, "slot 20 is left");
    detail = 7;
    answers(g1_clear(&handle, 4, &detail), G1_NO_REGION, "clear of no such region");
    check(detail == 0, "no detail of no such region");
    answers(g1_clear(&handle, ALL, &detail), G1_NO_REGION, "clear of the greatest region");
    check(has(&handle, 0, 2), "the refused clears left both pairs");
    store(&handle, 20, G1_NULL);
    answers(g1_clear(&handle, 1, &detail), G1_DONE, "clear once no slot does");
    check(has(&handle, 0, 0), "nothing is recorded any more");
    answers(members(&handle, 1, 8), G1_DONE, "members after a clear");
    check(count == 0, "a cleared region has none");
    g1_close(&handle);
}

// Slots 3 and 20 refer into region 1, from the regions 0 and 2, and slot 9 from within it.
static void redirects(void) {
    struct g1 handle = {0};
    answers(g1_open(&handle, &small, 4, 8), G1_DONE, "open");
    store(&handle, 20, 9);
    store(&handle, 3, 8);
    store(&handle, 9, 10);
    answers(redirect(&handle, 1, 1), G1_SAME_REGION, "redirect from a region to itself");
    answers(redirect(&handle, 4, 1), G1_NO_REGION, "redirect from no such region");
    answers(redirect(&handle, 1, 4), G1_NO_REGION, "redirect to no such region");
    answers(redirect(&handle, 4, 4), G1_NO_REGION, "redirect from no such region to itself");
    answers(redirect(&handle, ALL, 1), G1_NO_REGION, "redirect from the greatest region");
    answers(redirect(&handle, 1, ALL), G1_NO_REGION, "redirect to the greatest region");
    moved = refined_count = 7;
    answers(g1_redirect(&handle, 1, 2, &moved, refined, 7, &refined_count), G1_NO_ROOM, "redirect with room for 7 of 8 cards");
    check(moved == 0 && refined_count == 0, "the counts of a redirect without room");
    answers(g1_redirect(&handle, 1, 2, &moved, refined, 0, &refined_count), G1_NO_ROOM, "redirect with no room at all");
    check(has(&handle, 2, 0) && target_of(&handle, 3) == 8, "nothing of all that has refined or moved anything");
    answers(g1_redirect(&handle, 1, 2, &moved, refined, 8, &refined_count), G1_DONE, "redirect from region 1 to region 2");
    check(moved == 2 && refined_count == 2 && refined[0] == 0 && refined[1] == 5, "two slots moved, two cards were refined");
    check(target_of(&handle, 3) == 16 && target_of(&handle, 20) == 17, "to the same offsets of region 2");
    check(target_of(&handle, 9) == 10, "a slot inside region 1 stays");
    check(has(&handle, 0, 1), "card 0 alone lies outside region 2");
    answers(members(&handle, 2, 8), G1_DONE, "members of region 2");
    check(count == 1 && cards[0] == 0, "card 0 is the member");
    answers(members(&handle, 1, 8), G1_DONE, "members of region 1");
    check(count == 0, "region 1 has none");
    answers(redirect(&handle, 1, 2), G1_DONE, "redirect of a region that nothing enters");
    check(moved == 0 && refined_count == 0, "moves nothing");
    g1_close(&handle);
}

// With a hot limit of 0 each card waits in the ring, and one that is pushed out is refined.
static void ring(void) {
    struct g1 handle = {0};
    struct g1_tally tally;
    uint32_t log[2] = {0, 1};
    answers(g1_open(&handle, &small, 0, 1), G1_DONE, "open");
    store(&handle, 0, 8);
    store(&handle, 4, 8);
    answers(g1_refine(&handle, log, 2, refined, 2, &tally), G1_DONE, "two hot cards, and a ring of one");
    check(tally.hot == 2 && tally.refined == 1 && refined[0] == 0, "the first is pushed out");
    answers(drain(&handle, 1), G1_DONE, "drain of a ring");
    check(refined_count == 1 && refined[0] == 1, "the second is refined by the drain");
    check(count == 2 && cards[0] == 0 && cards[1] == 1, "both are members");
    g1_close(&handle);
}

enum { REGIONS = 8, CARDS = 8, SLOTS = 8, ALL_CARDS = REGIONS * CARDS, ALL_SLOTS = ALL_CARDS * SLOTS };

static uint32_t table[ALL_SLOTS];               // what each slot refers to
static unsigned char held[ALL_CARDS][REGIONS];  // whether the card ever referred into the region from outside
static unsigned char scan[ALL_CARDS];
static uint64_t state = 88172645463325252u;

static uint32_t below(uint32_t most) {
    state ^= state << 13;
    state ^= state >> 7;
    state ^= state << 17;
    return (uint32_t)((state >> 33) % most);
}

static uint32_t region_of(uint32_t slot) {
    return slot / (CARDS * SLOTS);
}

// Whether a slot lies outside the region and refers into it.
static int enters(uint32_t slot, uint32_t region) {
    return table[slot] != G1_NULL && region_of(table[slot]) == region && region_of(slot) != region;
}

// What a drain of the region returned, beside a scan of all slots.
static int is_exact(uint32_t region) {
    memset(scan, 0, sizeof scan);
    for (uint32_t i = 0; i < count; i++) {
        if (cards[i] >= ALL_CARDS || cards[i] / CARDS == region || !held[cards[i]][region] || (i > 0 && cards[i] <= cards[i - 1])) {
            return 0;
        }
        scan[cards[i]] = 1;
    }
    for (uint32_t slot = 0; slot < ALL_SLOTS; slot++) {
        if (enters(slot, region) && !scan[slot / SLOTS]) {
            return 0;
        }
    }
    return 1;
}

// The members of a region, just after a drain of it that was exact: those that the drain returned.
static int has_same_members(struct g1 *handle, uint32_t region) {
    uint32_t drained = count;
    if (members(handle, region, ALL_CARDS) != G1_DONE || count != drained) {
        return 0;
    }
    for (uint32_t i = 0; i < count; i++) {
        if (cards[i] >= ALL_CARDS || !scan[cards[i]]) {
            return 0;
        }
    }
    return 1;
}

// A clear of a region, where nothing is pending, beside a scan of all slots.
static int clears_rightly(struct g1 *handle, uint32_t region) {
    uint32_t least = 0, detail = 7;
    while (least < ALL_SLOTS && !enters(least, region)) {
        least++;
    }
    uint32_t answer = g1_clear(handle, region, &detail);
    if (least < ALL_SLOTS) {
        return answer == G1_STILL_REFERENCED && detail == least;
    }
    for (uint32_t card = 0; card < ALL_CARDS; card++) {
        held[card][region] = 0;
    }
    return answer == G1_DONE && detail == 0;
}

// A redirect beside the table, whose references are moved too. No slot enters the region after it, so that a clear is granted.
// A copy of a range beside one of the table, with each card that it lets refer into a region.
static int copies_rightly(struct g1 *handle) {
    uint32_t from = below(ALL_SLOTS + 2), to = below(ALL_SLOTS + 2), length = below(2 * CARDS * SLOTS);
    uint32_t end = (from > to ? from : to) + length;
    if (g1_copy(handle, from, to, length) != (end > ALL_SLOTS ? G1_NO_SLOT : G1_DONE)) {
        return 0;
    }
    if (end <= ALL_SLOTS) {
        memmove(&table[to], &table[from], length * sizeof table[0]);
        for (uint32_t slot = to; slot < to + length; slot++) {
            uint32_t target = table[slot];
            if (target != G1_NULL && region_of(target) != region_of(slot)) {
                held[slot / SLOTS][region_of(target)] = 1;
            }
        }
    }
    return 1;
}

// The table is what the core has; and where a slot of it is changed, a check finds that slot.
static int verifies_rightly(struct g1 *handle) {
    uint32_t slot = below(ALL_SLOTS), other = below(ALL_SLOTS), differing = 7, missing = 7;
    int rightly = g1_verify(handle, 0, ALL_SLOTS, table, ALL_SLOTS, &differing, &missing) == G1_DONE &&
                  differing == G1_NULL && missing == G1_NULL;
    uint32_t had = table[slot], later = slot + below(ALL_SLOTS - slot), kept = table[later];
    table[later] = table[later] == other ? G1_NULL : other;
    table[slot] = had == other ? G1_NULL : other;
    rightly &= g1_verify(handle, 0, 0, table, ALL_SLOTS, &differing, &missing) == G1_DONE && differing == slot;
    rightly &= g1_verify(handle, slot, 1, &table[slot], 1, &differing, &missing) == G1_DONE && differing == slot;
    rightly &= g1_verify(handle, 0, ALL_SLOTS, table, slot, &differing, &missing) == G1_DONE && differing == G1_NULL;
    rightly &= g1_verify(handle, 1, ALL_SLOTS, table, 1, &differing, &missing) == G1_NO_SLOT && differing == G1_NULL;
    rightly &= g1_verify(handle, 1, 1, table, ALL_SLOTS, &differing, &missing) == G1_NO_SLOT && missing == G1_NULL;
    table[later] = kept;
    table[slot] = had;
    return rightly;
}

static int redirects_rightly(struct g1 *handle, uint32_t from, uint32_t to) {
    uint32_t slots = 0;
    for (uint32_t slot = 0; slot < ALL_SLOTS; slot++) {
        if (enters(slot, from)) {
            table[slot] = to * CARDS * SLOTS + table[slot] % (CARDS * SLOTS);
            held[slot / SLOTS][to] |= region_of(slot) != to;
            slots++;
        }
    }
    if (redirect(handle, from, to) != G1_DONE || moved != slots || !clears_rightly(handle, from)) {
        return 0;
    }
    for (uint32_t slot = 0; slot < ALL_SLOTS; slot++) {
        if (target_of(handle, slot) != table[slot]) {
            return 0;
        }
    }
    return 1;
}

static void random_calls(long calls) {
    struct g1 handle = {0};
    struct g1_counts counts = {REGIONS, CARDS, SLOTS};
    struct g1_tally tally;
    uint32_t log[G1_LOG], length = 0, kind, pending;
    long drains = 0, refinements = 0, refusals = 0, wrong = 0, answered = 0;
    answers(g1_open(&handle, &counts, 2, 6), G1_DONE, "open");
    memset(table, 255, sizeof table);
    for (long call = 0; call < calls; call++) {
        uint32_t choice = below(1000);
        if (choice < 5) {
            uint32_t region = below(REGIONS);
            if (choice == 0) {
                wrong += !redirects_rightly(&handle, region, (region + 1) % REGIONS);
            }
            wrong += drain(&handle, region) != G1_DONE || !is_exact(region);
            answered += count;
            wrong += !has_same_members(&handle, region) || !clears_rightly(&handle, region);
            wrong += !copies_rightly(&handle) || !verifies_rightly(&handle);
            length = 0;
            drains++;
        } else if (choice < 15 || length == G1_LOG) {
            wrong += g1_refine(&handle, log, length, refined, G1_LOG, &tally) != G1_DONE;
            // sometimes a log is lost, or comes again later: its cards are pending, or are skipped
            length = choice % 3 == 0 ? length : 0;
            refinements++;
            if (length == G1_LOG) {
                length = 0;
            }
        } else if (choice < 20) {
            wrong += g1_store(&handle, ALL_SLOTS + below(1000), below(ALL_SLOTS), &kind) != G1_NO_SLOT;
            refusals++;
        } else {
            uint32_t slot = below(ALL_SLOTS), target = choice < 250 ? G1_NULL : below(ALL_SLOTS);
            wrong += g1_store(&handle, slot, target, &kind) != G1_DONE;
            table[slot] = target;
            if (target == G1_NULL) {
                wrong += kind != G1_STORED_NULL;
            } else if (region_of(slot) == region_of(target)) {
                wrong += kind != G1_STORED_SAME_REGION;
            } else {
                wrong += kind != G1_STORED_DIRTY && kind != G1_STORED_LOGGED;
                held[slot / SLOTS][region_of(target)] = 1;
            }
            if (kind == G1_STORED_LOGGED) {
                wrong += g1_is_pending(&handle, slot / SLOTS, &pending) != G1_DONE || pending != 1;
                log[length++] = slot / SLOTS;
            }
        }
    }
    for (uint32_t region = 0; region < REGIONS; region++) {
        wrong += drain(&handle, region) != G1_DONE || !is_exact(region);
    }
    answers(g1_close(&handle), G1_DONE, "close after random calls");
    printf("%ld random calls: %ld drains with %ld members, %ld refinements, %ld refusals, %ld wrong\n", calls, drains, answered,
           refinements, refusals, wrong);
    check(wrong == 0, "random calls beside a scan");
    check(calls < 100000 || (drains > 100 && answered > 1000 && refinements > 100), "random calls of every sort");
}

// The words up to G1_FULL are codes, and those from G1_NOT_OPEN on except 21.
static void texts(void) {
    check(strcmp(g1_version(), G1_VERSION) == 0, "the archive is of the header's version");
    const char *none = g1_code_text(UINT32_MAX);
    for (uint32_t code = 0; code < 40; code++) {
        int is_code = code <= G1_FULL || (code >= G1_NOT_OPEN && code <= G1_BAD_WORD && code != 21);
        check((strcmp(g1_code_text(code), none) != 0) == is_code, "each code has a text, and no other word has one");
    }
    check(strcmp(g1_code_text(G1_LOG_FULL), "the racer's log is full") == 0, "the text of a full log");
}

int main(int number, char **words) {
    texts();
    closed_handles();
    counts_and_settings();
    stores();
    batches();
    rooms();
    first_codes();
    ring();
    questions();
    member_rooms();
    clears();
    redirects();
    random_calls(number > 1 ? atol(words[1]) : 1000000);
    printf("%u passed, %u failed\n", passed, failed);
    return failed != 0;
}
