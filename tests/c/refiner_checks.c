// What each call of g1_refiner.h returns, and what becomes of the logs that are handed on.
#define _POSIX_C_SOURCE 200809L
#include <errno.h>
#include <pthread.h>
#include <stdio.h>
#include <time.h>

// What a refiner asks of the system when it is opened; one of these calls is refused.
static unsigned asked, refused;

static int is_refused(void) {
    return ++asked == refused;
}

#define pthread_mutex_init(...) (is_refused() ? EAGAIN : pthread_mutex_init(__VA_ARGS__))
#define pthread_cond_init(...) (is_refused() ? EAGAIN : pthread_cond_init(__VA_ARGS__))
#define pthread_create(...) (is_refused() ? EAGAIN : pthread_create(__VA_ARGS__))

#include "g1_refiner.h"

enum { REGIONS = 4, CARDS = 512, ALL_CARDS = REGIONS * CARDS };
enum { LOGS = 3, SWEEPERS = 2, ROUNDS = 100, STORES = 10 };

static unsigned passed, failed;

static void check(int holds, const char *what) {
    if (holds) {
        passed++;
    } else {
        failed++;
        printf("-- %s\n", what);
    }
}

// A heap whose cards have one slot each, so that slot n is on card n.
static const struct g1_counts counts = {REGIONS, CARDS, 1};
static struct g1_heap heap;
static struct g1_racer racer;
static struct g1_sweeper sweepers[SWEEPERS];
static struct g1_log logs[LOGS];
static struct g1_refiner refiner;
static uint64_t handed_on; // logs of one card each
static unsigned char is_stored[ALL_CARDS];

// Stores a reference into the next region, and returns the kind of the store.
static uint32_t store(uint32_t slot) {
    uint32_t kind, target = (slot + CARDS) % ALL_CARDS;
    is_stored[slot] = 1;
    check(g1_refiner_store(&refiner, &racer, slot, target, &kind) == G1_DONE, "a store");
    return kind;
}

// Makes such stores from a slot on, and hands on the card of each that is logged as a log of its
// own. Returns how many cards were clean.
static uint32_t hand_on_each(uint32_t from, uint32_t stores) {
    uint32_t logged = 0;
    for (uint32_t slot = from; slot < from + stores; slot++) {
        uint32_t kind = store(slot);
        check(kind == G1_STORED_LOGGED || kind == G1_STORED_DIRTY, "a store across regions");
        logged += kind == G1_STORED_LOGGED;
        check(g1_refiner_hand_on(&refiner, &racer) == G1_DONE, "a log is handed on, or is empty");
    }
    handed_on += logged;
    return logged;
}

// Opens the refiner with these lengths, a thread for each of two sweepers.
static uint32_t open_with(size_t length, size_t start, size_t stop) {
    return g1_refiner_open(&refiner, logs, length, SWEEPERS, start, stop);
}

static void openings(void) {
    uint32_t kind = 7;
    check(g1_refiner_close(&refiner) == G1_NOT_OPEN, "a close before the open");
    check(g1_refiner_resume(&refiner, sweepers, SWEEPERS) == G1_NOT_OPEN, "a resume");
    check(g1_refiner_pause(&refiner, G1_DROP_QUEUED, sweepers, SWEEPERS) == G1_NOT_OPEN, "a pause");
    check(open_with(0, 1, 0) == G1_BAD_SETTINGS, "no room in the queue");
    check(open_with(LOGS, 0, 0) == G1_BAD_SETTINGS, "refinement of nothing");
    check(open_with(LOGS, LOGS + 1, 0) == G1_BAD_SETTINGS, "refinement of more than there is room");
    check(open_with(LOGS, 2, 2) == G1_BAD_SETTINGS, "refinement that ends as it begins");
    for (size_t length = 0; length <= G1_SWEEPERS + 1; length += G1_SWEEPERS + 1) {
        check(g1_refiner_open(&refiner, logs, LOGS, length, 1, 0) == G1_BAD_HANDLES, "sweepers");
    }
    for (refused = 1; refused <= 3 + SWEEPERS; refused++) {
        asked = 0, errno = 0;
        check(open_with(LOGS, 1, 0) == G1_NO_MEMORY && errno == EAGAIN, "a refused open");
        check(asked == refused, "a refused open asks for nothing more");
    }
    asked = refused = 0;
    check(open_with(LOGS, 1, 0) == G1_DONE, "open");
    check(asked == 3 + SWEEPERS, "a lock, two conditions and a thread for each sweeper");
    check(open_with(LOGS, 1, 0) == G1_ALREADY_OPEN, "open again");
    check(g1_refiner_store(&refiner, &racer, 0, 1, &kind) == G1_NOT_OPEN, "a closed handle");
    check(kind == G1_STORED_NULL, "the kind of a refused store");
    check(g1_refiner_hand_on(&refiner, &racer) == G1_NOT_OPEN, "a log of a closed handle");
    check(g1_heap_open(&heap, &counts, 1, SWEEPERS) == G1_DONE, "the heap");
    check(g1_heap_resume(&heap, &racer, 1, sweepers, SWEEPERS) == G1_DONE, "the race");
    hand_on_each(ALL_CARDS - 1, 1);
    check(refiner.dropped == 1 && handed_on == 1, "a paused refiner drops a log");
    check(g1_refiner_hand_on(&refiner, &racer) == G1_DONE, "an empty log");
    check(refiner.dropped == 1 && refiner.queued == 0, "an empty log is not dropped or queued");
}

static void resume_refiner(void) {
    check(g1_refiner_resume(&refiner, sweepers, SWEEPERS) == G1_DONE, "a resume");
    check(sweepers[0].sweeper == NULL && sweepers[1].sweeper == NULL, "it takes the sweepers");
}

static void pause_refiner(enum g1_queued queued) {
    check(g1_refiner_pause(&refiner, queued, sweepers, SWEEPERS) == G1_DONE, "a pause");
    check(sweepers[0].sweeper != NULL && sweepers[1].sweeper != NULL, "it gives each sweeper back");
}

// In each round some cards are handed on: their logs are refined, dropped for want of room, or
// dropped at the pause. Then the cards of the refined ones are clean, and no others.
static void rounds(void) {
    for (uint32_t round = 0; round < ROUNDS; round++) {
        enum g1_queued way = round % 2 == 0 ? G1_REFINE_QUEUED : G1_DROP_QUEUED;
        uint64_t queued = refiner.queued, refined = refiner.refined;
        resume_refiner();
        check(hand_on_each(round * STORES, STORES) == STORES, "the cards of a round are clean");
        pause_refiner(way);
        check(refiner.refined + refiner.dropped == handed_on, "each log is refined or dropped");
        struct g1_refiner_counts counts;
        g1_refiner_read(&refiner, &counts);
        check(counts.queued == refiner.queued && counts.refined == refiner.refined, "the counts");
        check(counts.dropped == refiner.dropped && counts.length == 0, "and an empty queue");
        check(counts.longest >= 1 && counts.longest <= LOGS, "the longest queue fits its array");
        queued = refiner.queued - queued;
        refined = refiner.refined - refined;
        check(refined == queued || way == G1_DROP_QUEUED, "the queued logs are refined");
        check(hand_on_each(round * STORES, STORES) == refined, "the refined cards are clean");
    }
    check(refiner.refined > 0, "some logs are refined");
}

// A log that is full is handed on by the next store.
static void full_log(void) {
    uint64_t refined = refiner.refined;
    resume_refiner();
    unsigned logged = 0;
    for (uint32_t slot = ROUNDS * STORES; logged <= G1_LOG && slot < ALL_CARDS; slot++) {
        logged += store(slot) == G1_STORED_LOGGED;
    }
    pause_refiner(G1_REFINE_QUEUED);
    check(refiner.refined == refined + G1_LOG, "the cards of a full log are refined");
    check(g1_refiner_hand_on(&refiner, &racer) == G1_DONE, "the card after it");
}

// While nothing is handed on the threads sleep, and a log wakes one: then its card becomes clean.
static void sleeping(void) {
    struct timespec tenth = {0, 100000000};
    uint32_t slot = ALL_CARDS - 2, waits = 0;
    resume_refiner();
    check(g1_refiner_close(&refiner) == G1_NOT_PAUSED, "no close before a pause");
    clock_t began = clock();
    nanosleep(&tenth, NULL);
    check(clock() - began < CLOCKS_PER_SEC / 100, "idle threads take no time of a processor");
    check(hand_on_each(slot, 1) == 1, "a clean card");
    while (hand_on_each(slot, 1) == 0 && waits++ < 100) {
        nanosleep(&tenth, NULL);
    }
    check(waits < 100, "a log that is handed on wakes a thread");
    pause_refiner(G1_REFINE_QUEUED);
}

// What a resume and a pause refuse, which leave all as it was.
static void refusals(void) {
    struct g1_sweeper rows[3] = {{0}};
    check(g1_refiner_pause(&refiner, G1_DROP_QUEUED, rows, SWEEPERS) == G1_NOT_RACING, "a pause");
    check(g1_refiner_resume(&refiner, sweepers, 1) == G1_BAD_HANDLES, "too few sweepers");
    check(g1_refiner_resume(&refiner, rows, SWEEPERS) == G1_NOT_OPEN, "closed handles");
    rows[0] = rows[1] = sweepers[0];
    check(g1_refiner_resume(&refiner, rows, SWEEPERS) == G1_OTHER_RACE, "one sweeper twice");
    check(rows[0].sweeper != NULL && rows[1].sweeper != NULL, "a refused resume takes none");
    resume_refiner();
    check(g1_refiner_resume(&refiner, rows, SWEEPERS) == G1_NOT_PAUSED, "a second resume");
    check(g1_refiner_pause(&refiner, G1_DROP_QUEUED, rows, SWEEPERS) == G1_ALREADY_OPEN, "no room");
    check(g1_refiner_pause(&refiner, G1_DROP_QUEUED, sweepers, 1) == G1_BAD_HANDLES, "a short row");
    check(g1_refiner_pause(&refiner, G1_DROP_QUEUED, rows, 3) == G1_BAD_HANDLES, "a long row");
    pause_refiner(G1_REFINE_QUEUED);
    check(g1_refiner_pause(&refiner, G1_DROP_QUEUED, rows, SWEEPERS) == G1_NOT_RACING, "again");
}

// Waits until as many cards are refined as that, or for long.
static uint64_t wait_for(uint64_t refined) {
    struct timespec hundredth = {0, 10000000};
    struct g1_refiner_counts found;
    for (int i = 0; g1_refiner_read(&refiner, &found), found.refined < refined && i < 1000; i++) {
        nanosleep(&hundredth, NULL);
    }
    return found.refined;
}

// Refinement begins when three logs are queued, and ends when one is left.
static void limits(void) {
    struct timespec tenth = {0, 100000000};
    struct g1_refiner_counts found;
    check(open_with(LOGS, 3, 1) == G1_DONE, "open with limits");
    resume_refiner();
    for (uint32_t round = 0; round < 3; round++) {
        uint32_t wanted = 2 * round, from = ALL_CARDS / 2 + 3 * round;
        check(hand_on_each(from, round == 0 ? 2 : 1) > 0, "logs below the start");
        nanosleep(&tenth, NULL);
        check(wait_for(0) == wanted, "no card is refined below the start");
        check(hand_on_each(from + 2, 1) == 1, "the log by which refinement begins");
        check(wait_for(wanted + 2) == wanted + 2, "the cards of two logs are refined");
        nanosleep(&tenth, NULL);
        g1_refiner_read(&refiner, &found);
        check(found.refined == wanted + 2 && found.length == 1, "and one log is left");
    }
    pause_refiner(G1_REFINE_QUEUED);
    check(refiner.refined == 7 && refiner.dropped == 0, "a pause refines what has waited");
    check(g1_refiner_close(&refiner) == G1_DONE, "close");
}

// A row of more references into another region than a log takes, and one with no word of the heap.
static void store_row(void) {
    uint64_t words[2 * G1_LOG + 1];
    size_t stored = 7;
    uint32_t first = 2 * CARDS;
    for (uint32_t i = 0; i < 2 * G1_LOG + 1; i++) {
        words[i] = (first + i + CARDS) % ALL_CARDS + 1;
        is_stored[first + i] = 1;
    }
    uint32_t code = g1_refiner_store_words(&refiner, &racer, first, words, 2 * G1_LOG + 1, &stored);
    check(code == G1_DONE && stored == 2 * G1_LOG + 1, "a row longer than a log");
    words[2 * G1_LOG] = ALL_CARDS + 1;
    code = g1_refiner_store_words(&refiner, &racer, first, words, 2 * G1_LOG + 1, &stored);
    check(code == G1_BAD_WORD && stored == 0, "a row with no word of the heap");
}

// Each kind of store with a log that is full before it: that is handed on, and the store is made.
static void full_logs(void) {
    uint32_t kind, found;
    uint64_t old;
    struct g1_reference all[2 * G1_LOG + 1];
    size_t stored;
    check(open_with(LOGS, 1, 0) == G1_DONE, "open for stores");
    resume_refiner();
    for (int way = 0; way < 5; way++) {
        unsigned logged = 0;
        for (uint32_t slot = 0; logged < G1_LOG && slot < ALL_CARDS; slot++) {
            logged += store(slot) == G1_STORED_LOGGED;
        }
        uint64_t handed = refiner.queued + refiner.dropped;
        check(g1_race_store(&racer, 0, CARDS, &kind) == G1_LOG_FULL, "a full log");
        uint32_t code = G1_DONE, first = CARDS, target = first + 1;
        switch (way) {
        case 0: code = g1_refiner_store(&refiner, &racer, 0, target, &kind); break;
        case 1: code = g1_refiner_swap(&refiner, &racer, 0, target, &found, &kind); break;
        case 2:
            code = g1_refiner_compare_exchange(&refiner, &racer, 0, first, target, &found, &kind);
            break;
        case 3: code = g1_refiner_swap_word(&refiner, &racer, 0, target + 1, &old, &kind); break;
        default:
            code = g1_refiner_compare_exchange_word(&refiner, &racer, 0, first + 1, target + 1,
                                                    &old, &kind);
        }
        check(code == G1_DONE && refiner.queued + refiner.dropped == handed + 1, "a store");
        check(g1_refiner_swap(&refiner, &racer, 0, first, &found, &kind) == G1_DONE &&
                  found == target, "it was made");
        pause_refiner(G1_REFINE_QUEUED);
        resume_refiner();
    }
    for (uint32_t i = 0; i < 2 * G1_LOG + 1; i++) {
        all[i] = (struct g1_reference){i, i + CARDS};
    }
    check(g1_refiner_store_all(&refiner, &racer, all, 2 * G1_LOG + 1, &stored) == G1_DONE &&
              stored == 2 * G1_LOG + 1, "more stores than a log takes");
    all[G1_LOG].slot = ALL_CARDS;
    check(g1_refiner_store_all(&refiner, &racer, all, 2 * G1_LOG + 1, &stored) == G1_STOPPED &&
              stored == G1_LOG, "a slot that the heap lacks");
    store_row();
    pause_refiner(G1_REFINE_QUEUED);
    check(g1_refiner_close(&refiner) == G1_DONE, "close");
}

// A racer of a heap with more cards: the pause says that a log had a card that the heap lacks.
static void other_heap(void) {
    const struct g1_counts more = {REGIONS, 2 * CARDS, 1};
    struct g1_heap other = {0};
    struct g1_racer stranger = {0};
    struct g1_sweeper strange[SWEEPERS] = {{0}};
    uint32_t kind;
    check(g1_heap_open(&other, &more, 1, SWEEPERS) == G1_DONE, "a larger heap");
    check(g1_heap_resume(&other, &stranger, 1, strange, SWEEPERS) == G1_DONE, "its race");
    check(open_with(LOGS, 1, 0) == G1_DONE, "open for another heap");
    resume_refiner();
    uint32_t last = 2 * ALL_CARDS - 1;
    check(g1_refiner_store(&refiner, &stranger, last, 0, &kind) == G1_DONE, "a store there");
    check(g1_refiner_hand_on(&refiner, &stranger) == G1_DONE, "its log");
    check(g1_refiner_pause(&refiner, G1_REFINE_QUEUED, sweepers, SWEEPERS) == G1_NO_CARD, "a card");
    check(sweepers[0].sweeper != NULL && sweepers[1].sweeper != NULL && refiner.refined == 0,
          "the sweepers are back, and nothing is refined");
    resume_refiner();
    pause_refiner(G1_REFINE_QUEUED);
    check(g1_heap_pause(&other, &stranger, 1, strange, SWEEPERS) == G1_DONE, "the pause there");
    check(g1_heap_close(&other) == G1_DONE, "its close");
    check(g1_refiner_close(&refiner) == G1_DONE, "close");
}

// Whatever became of the logs, the drains return just the cards that were stored to.
static void drains(void) {
    static uint32_t cards[ALL_CARDS];
    uint32_t count;
    check(g1_heap_pause(&heap, &racer, 1, sweepers, SWEEPERS) == G1_DONE, "the pause");
    for (uint32_t region = 0; region < REGIONS; region++) {
        check(g1_heap_drain(&heap, region, cards, ALL_CARDS, &count) == G1_DONE, "a drain");
        for (uint32_t i = 0; i < count; i++) {
            check((cards[i] / CARDS + 1) % REGIONS == region, "a card that refers into the region");
            is_stored[cards[i]]--;
        }
    }
    for (uint32_t card = 0; card < ALL_CARDS; card++) {
        check(is_stored[card] == 0, "a card is returned once if it was stored to, and else never");
    }
    check(g1_heap_close(&heap) == G1_DONE, "the close of the heap");
}

int main(void) {
    openings();
    rounds();
    full_log();
    sleeping();
    refusals();
    check(g1_refiner_close(&refiner) == G1_DONE, "close");
    limits();
    full_logs();
    other_heap();
    drains();
    printf("%u passed, %u failed\n", passed, failed);
    return failed != 0;
}
