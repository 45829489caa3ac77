/*
 * The remembered-set machinery of a heap in regions, for C and C++.
 *
 * There are two kinds of heap. A core (struct g1) is for one call at a time. A concurrent heap
 * (struct g1_heap) has racers, by which mutators store, and sweepers, by which refinement threads
 * refine, all at once and lock-free; pauses are for the collector (see "A concurrent heap" below).
 *
 * Either keeps a table of a runtime's references. The heap has regions, each region has cards, and
 * each card has slots. Regions, cards and slots are each numbered from 0 in the order of the heap:
 * card c has the slots from c * slots on, and region r has the cards from r * cards on. A slot
 * holds null or refers to a place, which is named by the number of its slot. The runtime reports
 * each reference store to the library. Refinement and pauses read the references that were
 * reported, and no memory of the runtime's. The table of a concurrent heap may also be the
 * references themselves: then a report is the store.
 *
 * The path of a card in a core:
 *   - If g1_store stores a reference into another region and the slot's card is clean, it marks
 *     the card dirty, and the kind of the store is G1_STORED_LOGGED. The caller puts the card into
 *     its thread's dirty card queue, an array of its own, and hands full queues to g1_refine, which
 *     records the regions that the card refers into.
 *   - An evacuation pause calls g1_drain for each region of the collection set. A drain refines all
 *     that is still pending, and returns the remembered set of the region. Once the region is
 *     evacuated, g1_clear empties that set; or g1_redirect empties it, and moves the references
 *     into the region as well. What the copies refer to is reported by neither: that is yours to
 *     store, before the redirect.
 *   - A queue that is lost costs only time. Each of its cards stays pending until it is refined, by
 *     the next drain at the latest.
 *
 * What a collector must know: the library cannot tell that an object is dead or that a region was
 * freed. While a slot of a dead object or of a freed region still refers into another region, a
 * clear of that other region is refused. So store null to each slot of a region that was evacuated
 * (g1_store_all takes 256 at once, and g1_heap_wipe takes the region), and elsewhere to the slots
 * of dead objects, at the latest when a refused clear names one.
 *
 * What a runtime must decide:
 *   - An object without a field for references needs a slot too if anything refers to it, as a
 *     reference is the number of a slot.
 *   - An object that is larger than a region has slots in several. References to it enter the
 *     region of its first slot alone, so its regions are kept, or freed, together.
 *   - A weak reference is reported like any other, and then drains return its card and a clear
 *     counts it. Or it is in no slot, and the collector finds it by a list of the runtime's.
 *   - A runtime whose compiled code marks a card table of its own keeps that. Before a drain it
 *     reports what the slots of each marked card refer to now, and cleans that card in its table.
 *
 * Linking: -lg1 of an install, or prebuilt/TARGET/libg1_c.a of the repository. The code is for
 * x86-64-v2, or for ARM (AArch64), on Linux.
 *
 * Every call relies on the following, which nothing can test:
 *   - A handle was made of zeros (struct g1 handle = {0};), is in one place at a time, and was
 *     written by these calls alone.
 *   - One call at a time uses a handle. A handle may go from thread to thread: you order their
 *     calls, for instance by a lock or a join.
 *   - The library stops no thread and waits for none. Before a pause you see to it that no thread
 *     is inside a call, also not one that a signal or a debugger has stopped there, and none is
 *     between a store of its own and the call that reports it: a drain knows what was reported.
 *     Threads that stop at safepoints outside both fulfil this.
 *   - You cancel no thread inside a call, and let none jump out of one.
 *   - Each pointer points to what its type says. A pointer to an array points to as many elements
 *     as the length after it says. No pointer is null, even for a length of 0. Nothing that a call
 *     writes overlaps anything else that is passed.
 *   - malloc, realloc and free are of one allocator, and align as C asks. Several threads may call
 *     them at once, and one may free what another took.
 *   - No call is made in a signal handler, or in the forked child of a process with threads.
 *
 * A call that lists cards writes the list to the front of the array, and its count is the length of
 * the list, which is never more than the array has room for. The elements behind it stay as they
 * were. (G1_NO_ROOM alone may count more: all cards that there are. Of these g1_heap_members and
 * g1_heap_drain write the first, and other calls none.)
 *
 * Numbers are not tied to a heap: a call accepts a slot of another heap if its own heap has a slot
 * of that number.
 *
 * Where several codes apply to a call, it returns the one that stands first in its list below, but
 * for the handles of a pause and of the end of a reading.
 *
 * "Constant time" says that no loop of the call grows with the heap, and "never waits" that it
 * takes no lock. Neither promises how long a call takes.
 */
#ifndef G1_H
#define G1_H

#include <stddef.h>
#include <stdint.h>

#ifdef __cplusplus
extern "C" {
#endif

/*
 * The version of the library. Before 1.0.0 any other version means: compile again. From then on
 * another major version does.
 */
#define G1_VERSION "0.5.0"

/* The version of the library that the program runs with: a text for its whole life. */
const char *g1_version(void);

/*
 * Marks a call that may be refused, or do less than it was asked for, although its caller keeps
 * every rule (by memory, a full log, a short array, what is pending or what a slot has): the
 * compiler warns if the code that it returns is thrown away.
 */
#ifdef __GNUC__
#define G1_MUST_USE __attribute__((__warn_unused_result__))
#else
#define G1_MUST_USE
#endif

/*
 * For a runtime that runs under the thread sanitizer. The library is not compiled with it, so the
 * sanitizer does not see that a call that stores a reference comes before a load that finds it. It
 * then reports plain memory beside the slots, such as an object's header, as a data race.
 *
 * G1_TSAN_RELEASE(place) before the call that stores the reference, and G1_TSAN_ACQUIRE(place)
 * after the load or the call that finds it, tell the sanitizer. The place is an address that both
 * use, such as that of the object. Without the sanitizer they do nothing.
 */
#if defined(__SANITIZE_THREAD__)
#define G1_THREAD_SANITIZER
#elif defined(__has_feature)
#if __has_feature(thread_sanitizer)
#define G1_THREAD_SANITIZER
#endif
#endif
#ifdef G1_THREAD_SANITIZER
void __tsan_acquire(void *place);
void __tsan_release(void *place);
#define G1_TSAN_ACQUIRE(place) __tsan_acquire((void *)(uintptr_t)(place))
#define G1_TSAN_RELEASE(place) __tsan_release((void *)(uintptr_t)(place))
#else
#define G1_TSAN_ACQUIRE(place) ((void)(place))
#define G1_TSAN_RELEASE(place) ((void)(place))
#endif

/* A handle of a core. It is closed if the pointer is null. */
struct g1 {
    void *core;
};

/* Null, as the target of a store and as what a slot refers to. */
#define G1_NULL UINT32_C(4294967295)

/* The kind of a store. Only a logged store has a card for the caller's dirty card queue. */
enum g1_kind {
    /* the target is null, or the word is data */
    G1_STORED_NULL = 0,
    /* the slot and its target are in one region */
    G1_STORED_SAME_REGION = 1,
    /* a reference into another region, from a card that was pending already */
    G1_STORED_DIRTY = 2,
    /* a reference into another region, from a card that was clean, and is pending now */
    G1_STORED_LOGGED = 3
};

/*
 * What each call returns; 5 to 7 and 21 are no codes. A code of 8 or more means that the call was
 * refused and that nothing has changed, except for G1_NO_ROOM of g1_heap_drain; each call says what
 * its results hold then.
 */
enum g1_code {
    G1_DONE = 0,
    G1_SHORT = 1,             /* an allocation failed midway: the work that is reported was done,
                                 and no more */
    G1_DIFFERS = 2,           /* a slot has something else than was expected: nothing was stored */
    G1_STOPPED = 3,           /* one of several stores names a slot or a target that the heap does
                                 not have: those before it were made, it and the later ones not */
    G1_FULL = 4,              /* the racer's log is full before one of several stores: those before
                                 it were made. Take the log, and go on from there */
    G1_NOT_OPEN = 8,          /* the handle is closed */
    G1_ALREADY_OPEN = 9,      /* the handle that was to be opened is open */
    G1_NO_MEMORY = 10,        /* an allocation failed before anything changed */
    G1_BAD_LAYOUT = 11,       /* the counts of the heap are outside their limits */
    G1_BAD_SETTINGS = 12,     /* the hot limit, the size of the ring or a length of a refiner's
                                 queue is outside its limits */
    G1_NO_SLOT = 13,          /* the heap has no such slot, or no such target */
    G1_NO_CARD = 14,          /* the heap has no such card */
    G1_NO_REGION = 15,        /* the heap has no such region */
    G1_NO_ROOM = 16,          /* an array is too small */
    G1_TOO_MANY_CARDS = 17,   /* more than G1_LOG cards, or stores, at once */
    G1_SAME_REGION = 18,      /* references were to be moved from a region to itself */
    G1_STILL_PENDING = 19,    /* a clear or a free, while cards are pending */
    G1_STILL_REFERENCED = 20, /* a clear or a free, while a slot outside the region, or regions,
                                 refers into it; or g1_heap_forget, while one inside refers out */
    G1_LOG_FULL = 22,         /* the racer's log has G1_LOG cards: take it, and store again */
    G1_BAD_HANDLES = 23,      /* not as many racers, sweepers or readers as the heap has, or as a
                                 heap may have */
    G1_OTHER_RACE = 24,       /* the handles are not all racers and sweepers, or all readers, of one
                                 heap, each given once */
    G1_NOT_PAUSED = 25,       /* the heap races, so it is at no pause, or readers read it */
    G1_NOT_RACING = 26,       /* the heap is at a pause already */
    G1_BAD_WORD = 27          /* a word of data is less than G1_DATA, or a word is none that a slot
                                 may have */
};

/*
 * What a code means, in a few words without a full stop: a string that is never freed. A number
 * that is no code has a text too.
 */
static inline const char *g1_code_text(uint32_t code) {
    switch (code) {
    case G1_DONE: return "done";
    case G1_SHORT: return "an allocation failed midway";
    case G1_DIFFERS: return "the slot has something else than was expected";
    case G1_STOPPED: return "a store names a wrong slot or target; those before it were made";
    case G1_FULL: return "the racer's log is full, and the stores before that were made";
    case G1_NOT_OPEN: return "a handle is closed";
    case G1_ALREADY_OPEN: return "a handle that was to be opened is open";
    case G1_NO_MEMORY: return "an allocation failed before anything changed";
    case G1_BAD_LAYOUT: return "the counts of the heap are outside their limits";
    case G1_BAD_SETTINGS: return "a setting is outside its limits";
    case G1_NO_SLOT: return "the heap has no such slot";
    case G1_NO_CARD: return "the heap has no such card";
    case G1_NO_REGION: return "the heap has no such region";
    case G1_NO_ROOM: return "an array is too small";
    case G1_TOO_MANY_CARDS: return "there are more cards or stores than one call takes";
    case G1_SAME_REGION: return "references were to be moved from a region to itself";
    case G1_STILL_PENDING: return "cards are pending";
    case G1_STILL_REFERENCED: return "a reference still enters the region, or leaves it";
    case G1_LOG_FULL: return "the racer's log is full";
    case G1_BAD_HANDLES: return "a wrong number of racers, sweepers or readers";
    case G1_OTHER_RACE: return "the handles are not all that one heap has, each given once";
    case G1_NOT_PAUSED: return "the heap races, or readers read it";
    case G1_NOT_RACING: return "the heap is at a pause already";
    case G1_BAD_WORD: return "the word is no data, or no slot may have it";
    default: return "no code of the library";
    }
}

/*
 * The most cards that g1_refine takes at once, the most stores that g1_store_all takes, and the
 * cards of a racer's log.
 */
#define G1_LOG 256

/* The limits of a heap: the most regions, cards a region, and slots a card. Each is at least 1. */
#define G1_MAX_REGIONS 256
#define G1_MAX_CARDS 65536
#define G1_MAX_SLOTS 64

/* The greatest hot limit (the least is 0), and the most cards that the ring holds (at least 1). */
#define G1_MAX_HOT 255
#define G1_MAX_RING 4096

/* The counts of a heap: how many regions it has, how many cards a region, and slots a card. */
struct g1_counts {
    uint32_t regions; /* 1 to G1_MAX_REGIONS */
    uint32_t cards;   /* 1 to G1_MAX_CARDS */
    uint32_t slots;   /* 1 to G1_MAX_SLOTS */
};

/* One store of several: `target` is a place, or G1_NULL. */
struct g1_reference {
    uint32_t slot;
    uint32_t target;
};

/* What several stores counted. */
struct g1_batch {
    uint32_t stored; /* stores that were made */
    uint32_t logged; /* how many of them were logged */
};

/* What a refinement counted. */
struct g1_tally {
    uint32_t refined; /* cards that were refined */
    uint32_t hot;     /* cards that were found hot */
    uint32_t skipped; /* cards that were not dirty */
};

/* How much is pending and recorded. */
struct g1_totals {
    uint32_t pending;  /* cards that are pending */
    uint32_t recorded; /* pairs of a card and a region into which it is recorded to refer */
};

/*
 * Opens a closed handle on a new core: each slot is null, no card is pending, and nothing is
 * recorded. From `hot` refinements on (0 to G1_MAX_HOT), a card is hot. The hot ring holds `ring`
 * cards (1 to G1_MAX_RING). The core takes 4 bytes a slot, 34 bytes a card and the ring, and later
 * 19 to 38 bytes for each pair of a card and a region that it records.
 *
 * Returns:
 *   - G1_DONE.
 *   - G1_ALREADY_OPEN, G1_BAD_LAYOUT, G1_BAD_SETTINGS or G1_NO_MEMORY: nothing has changed.
 */
G1_MUST_USE
uint32_t g1_open(struct g1 *handle, const struct g1_counts *counts, uint32_t hot, uint32_t ring);

/*
 * Closes a handle and frees all its memory. The handle may be opened again.
 *
 * Returns G1_DONE or G1_NOT_OPEN.
 */
uint32_t g1_close(struct g1 *handle);

/*
 * Stores a reference to the place `target`, or null (G1_NULL), into a slot. `kind` is the kind of
 * store (enum g1_kind). If it is G1_STORED_LOGGED, the caller puts card slot / slots into its dirty
 * card queue. The call takes constant time and no memory.
 *
 * Returns:
 *   - G1_DONE.
 *   - G1_NOT_OPEN, or G1_NO_SLOT for the slot or the target: nothing has changed, and `kind` is
 *     G1_STORED_NULL.
 */
uint32_t g1_store(struct g1 *handle, uint32_t slot, uint32_t target, uint32_t *kind);

/*
 * Makes at most G1_LOG stores in order, each as g1_store does. The first batch->logged elements of
 * `cards` are the cards of the logged stores, in order, for the caller's dirty card queue. `cards`
 * has room for at least as many cards as there are stores. The call takes no memory.
 *
 * Returns:
 *   - G1_DONE: batch->stored is stores_length.
 *   - G1_STOPPED: the store at index batch->stored names a slot or a target that the heap does not
 *     have. The stores before it were made; it and the later ones were not.
 *   - G1_NOT_OPEN, G1_NO_ROOM or G1_TOO_MANY_CARDS: nothing has changed, and both counts are 0.
 */
uint32_t g1_store_all(struct g1 *handle, const struct g1_reference *stores, size_t stores_length,
                      uint32_t *cards, size_t cards_length, struct g1_batch *batch);

/*
 * Refines at most G1_LOG cards of a dirty card queue, in order. A card that is not dirty is
 * skipped, so a card may come twice or late. A cold card becomes clean, and the regions that it
 * refers into are recorded. A hot card waits in the ring. It may push out the oldest card there,
 * which is refined in its place. The first tally->refined elements of `refined` are the cards that
 * were refined, in order. `refined` has room for at least as many cards as are given.
 *
 * Returns:
 *   - G1_DONE.
 *   - G1_SHORT: the cards before some card had their turns, and that card and the later ones had
 *     none. Hand the queue in again; cards that are clean by then are skipped.
 *   - G1_NOT_OPEN, G1_NO_ROOM, G1_TOO_MANY_CARDS, G1_NO_CARD or G1_NO_MEMORY: nothing has changed,
 *     and the tally is 0.
 */
G1_MUST_USE
uint32_t g1_refine(struct g1 *handle, const uint32_t *cards, size_t cards_length,
                   uint32_t *refined, size_t refined_length, struct g1_tally *tally);

/*
 * Refines all that is pending, and returns the remembered set of a region: every card outside the
 * region that refers into it. Some may be stale: they did at some time since the set was last
 * cleared, and no longer do.
 *
 * The first `count` elements of `cards` are the set, ascending, each card once. The first
 * `refined_count` elements of `refined` are the cards that were refined, in order. Each array has
 * room for every card of the heap.
 *
 * Returns:
 *   - G1_DONE.
 *   - G1_SHORT: only the cards in `refined` were refined, and the others are pending as before.
 *     `count` is 0. Drain again.
 *   - G1_NOT_OPEN, G1_NO_REGION, G1_NO_ROOM or G1_NO_MEMORY: nothing has changed, and both counts
 *     are 0.
 */
G1_MUST_USE
uint32_t g1_drain(struct g1 *handle, uint32_t region, uint32_t *cards, size_t cards_length,
                  uint32_t *count, uint32_t *refined, size_t refined_length,
                  uint32_t *refined_count);

/*
 * Sets `target` to what a slot refers to: the place, or G1_NULL. It takes constant time and no
 * memory.
 *
 * Returns:
 *   - G1_DONE.
 *   - G1_NOT_OPEN or G1_NO_SLOT: `target` is G1_NULL.
 */
uint32_t g1_target(struct g1 *handle, uint32_t slot, uint32_t *target);

/*
 * Sets `pending` to 1 if a card is pending, that is, dirty or held in the hot ring, and to 0 if it
 * is not. It takes constant time and no memory.
 *
 * Returns:
 *   - G1_DONE.
 *   - G1_NOT_OPEN or G1_NO_CARD: `pending` is 0.
 */
uint32_t g1_is_pending(struct g1 *handle, uint32_t card, uint32_t *pending);

/*
 * Sets `totals` to how many cards are pending and how many pairs of a card and a region are
 * recorded. It takes time proportional to the number of regions, and no memory.
 *
 * Returns:
 *   - G1_DONE.
 *   - G1_NOT_OPEN: both totals are 0.
 */
uint32_t g1_status(struct g1 *handle, struct g1_totals *totals);

/*
 * Returns the remembered set of a region as it is recorded, and refines nothing. The first `count`
 * elements of `cards` are the cards of the set, ascending, each once. Pending cards may be missing
 * from it, so a pause calls g1_drain. The call takes memory for the list, and frees it.
 *
 * Returns:
 *   - G1_DONE.
 *   - G1_NOT_OPEN, G1_NO_REGION or G1_NO_MEMORY: `count` is 0, and nothing is written to the array.
 *   - G1_NO_ROOM: `count` is how many cards there are, which is more than the array has room for.
 *     Nothing is written to the array.
 */
G1_MUST_USE
uint32_t g1_members(struct g1 *handle, uint32_t region, uint32_t *cards, size_t cards_length,
                    uint32_t *count);

/*
 * Empties the remembered set of a region, once nothing is pending and no slot outside the region
 * refers into it. Before that the region is evacuated, what the copies refer to is stored, the
 * references into the region are stored anew, and a drain refines these. (g1_redirect does the last
 * two, and the clear, in one call.) The clear takes no memory, and reads the slots of the cards in
 * the set.
 *
 * A slot outside the region counts even if its object is dead or its own region was freed. The
 * clear is refused while such a slot still refers into the region, so store null to it first.
 *
 * Returns:
 *   - G1_DONE: `detail` is 0.
 *   - G1_NOT_OPEN or G1_NO_REGION: nothing has changed, and `detail` is 0.
 *   - G1_STILL_PENDING: nothing has changed. `detail` is how many cards are pending; drain first.
 *   - G1_STILL_REFERENCED: nothing has changed. `detail` is the least slot of the heap that is
 *     outside the region and refers into it.
 */
G1_MUST_USE
uint32_t g1_clear(struct g1 *handle, uint32_t region, uint32_t *detail);

/*
 * Refines all that is pending, as g1_drain does. Then it moves each reference from a slot outside
 * the region `from` into that region to the same offset of the region `to`, and empties the
 * remembered set of `from`. The card of each slot that changed outside `to` is recorded for `to`,
 * and no card becomes pending. `moved` is how many slots changed.
 *
 * It copies no slot: what the copies in `to` refer to is in no remembered set until you store it.
 * So store each copy's slots first, as they were in `from`, and redirect then. Slots inside `from`
 * stay as they are, and so may keep a clear of another region refused (see g1_clear).
 *
 * The first `refined_count` elements of `refined` are the cards that were refined, in order.
 * `refined` has room for every card of the heap.
 *
 * Returns:
 *   - G1_DONE.
 *   - G1_SHORT: only the cards in `refined` were refined, and no slot has changed. `moved` is 0.
 *     Redirect again.
 *   - G1_NOT_OPEN, G1_NO_REGION for either region, G1_SAME_REGION, G1_NO_ROOM or G1_NO_MEMORY:
 *     nothing has changed, and both counts are 0.
 */
G1_MUST_USE
uint32_t g1_redirect(struct g1 *handle, uint32_t from, uint32_t to, uint32_t *moved,
                     uint32_t *refined, size_t refined_length, uint32_t *refined_count);

/*
 * Copies what `count` slots refer to, from the slot `from` on to the slots from `to` on, as if all
 * were read before any is written: the ranges may overlap. Cards become pending as by g1_store, but
 * the caller gets none for a queue: the next drain finds them. The call takes time proportional to
 * `count`, and no memory. A copy of no slots is done if both ranges begin at a slot of the heap or
 * just behind its last one, and refused if one begins farther behind.
 *
 * Returns G1_DONE, or G1_NOT_OPEN, or G1_NO_SLOT if either range ends behind the last slot: nothing
 * has changed.
 */
uint32_t g1_copy(struct g1 *handle, uint32_t from, uint32_t to, uint32_t count);

/*
 * Looks for a runtime's own mistakes, in a debug build: before a pause drains, say, and after it.
 *   - `references` is what the runtime's memory has in the slots from `first` on, as many as
 *     references_length, each a place or G1_NULL. `differing` is the least of these slots that
 *     refers to something else here, such as one whose store was not reported.
 *   - `missing` is the least of the `count` slots from `first` on that refers into another region
 *     while its card is neither pending nor recorded for that region, so that no drain would
 *     return the card. The library's calls leave no such slot: something else wrote to its memory.
 * Each is G1_NULL if there is no such slot. The call takes time proportional to the slots that it
 * looks at, and no memory.
 *
 * Returns:
 *   - G1_DONE.
 *   - G1_NOT_OPEN, or G1_NO_SLOT if either range ends behind the last slot: both are G1_NULL.
 */
uint32_t g1_verify(struct g1 *handle, uint32_t first, uint32_t count, const uint32_t *references,
                   size_t references_length, uint32_t *differing, uint32_t *missing);

/*
 * A concurrent heap.
 *
 * A struct g1_heap has racers, by each of which a mutator stores, and sweepers, by each of which a
 * refinement thread refines. Each is in one thread at a time. They take no lock and never wait, and
 * synchronise on single words alone. The life of such a heap has two states in turn. It is at a
 * pause, or it races, and its racers and sweepers are with the threads:
 *
 *     g1_heap_open      the heap begins, at a pause
 *     g1_heap_resume    opens the handles of racers and sweepers: the heap races from here on
 *     g1_heap_pause     closes these handles: the collector has the heap
 *     g1_heap_close     at a pause: frees it
 *
 * The time from a resume to the next pause is a race, so the calls in it are g1_race_store and the
 * like. The members of a region, as in g1_heap_members, are the cards of its remembered set.
 *
 * The collector's calls (g1_heap_drain, g1_heap_clear, ..) are on the heap's handle, at a pause.
 * Several threads read one pause at once by readers, between two more calls at it, g1_heap_read and
 * g1_heap_read_end. A pause and a resume copy nothing. All memory that a heap ever takes is taken
 * by its open: no call between that and its close takes any or frees any, so none can be refused
 * for it.
 *
 * The path of a card that a racer logs:
 *   - If g1_race_store stores a reference into another region, it marks the slot's card dirty. If
 *     the kind of the store is G1_STORED_LOGGED, the card is in the racer's own log.
 *   - The caller takes the log (g1_race_take_log) and hands its cards to a thread with a sweeper,
 *     by a queue of its own (g1_refiner.h has one). That refines each of them (g1_race_refine).
 *   - A log that is lost costs only time. Each of its cards stays dirty until it is refined, by the
 *     first drain at a pause at the latest. A log that was not taken stays with its racer over a
 *     pause, and is empty if the pause has refined.
 *
 * Threads may begin and end while the heap races. So a heap is opened with as many racers as
 * there may be mutators at once, and the runtime keeps the handles that no thread uses, in a list
 * under a lock of its own. A thread that begins takes a racer's handle from there. Before it ends
 * it takes the racer's log and hands it on, or leaves it in the racer, and puts the handle back. A
 * racer that waits there holds nothing up. The next pause takes it in with all others.
 *   - A thread that leaves for a system call, or blocks, puts its handle back before, and takes one
 *     when it returns. Else you have to wait for it before a pause, which takes all handles in.
 *   - If there may be more mutators than G1_RACERS, several share a racer: each of them makes its
 *     calls while it has a lock of that racer's.
 *
 * Besides what every call relies on, these calls rely on the following:
 *   - A call writes its handle, so each thread keeps its own in a local, and not in a row that
 *     threads share: a row of handles is a cache line that all of them write. The thread copies its
 *     local back into the row before the pause. A copy that was left behind is not to be used.
 *   - The runtime's references are the library's words, as below. Or they are in memory of the
 *     runtime's own. Then the runtime orders the stores to one slot, around both its own store and
 *     the call, or makes each by the loop below. If two of them race, the library may keep a
 *     different value than memory does, and then a drain can miss what memory holds. Stores to
 *     different slots need no order.
 *   - You never call g1_heap_pause or g1_heap_read_end twice at once with handles of one
 *     heap. (Either counts the owners of what they share, to refuse those of another heap, and a
 *     second call would disturb the count.)
 *
 * The loop, for a runtime that keeps its references in atomic words of its own and has no lock for
 * the stores to one slot:
 *
 *     atomic_store(&memory[slot], target);
 *     do {
 *         told = target;
 *         g1_race_store(racer, slot, told, &kind);   (once more if the log was full and was taken)
 *         target = atomic_load(&memory[slot]);
 *     } while (target != told);
 *
 * Once no thread is inside it, what the library was told last of each slot is what memory holds:
 * the thread that told it last read memory after that, and found what it had told. The thread that
 * wrote memory last told the library after its write, so no later than by that last call, and the
 * read after that call found its write. A thread goes round again only if another one has stored to
 * the slot meanwhile; how often is not bounded.
 *
 * What g1_race_swap and g1_race_compare_exchange find in a slot is what the library was told last.
 * So for a runtime with references of its own they are of use only where it orders the stores to
 * the slot.
 *
 * A runtime whose fields are the library's words keeps no references of its own. Slot n is the word
 * words[n] of g1_heap_words, of 8 bytes: 0 for null; the number of the slot that it refers to plus
 * 1; or data, from G1_DATA on, which refers to nothing (a tagged integer, for instance).
 *   - The runtime only reads these words. Each store is a call, of a racer (g1_race_store,
 *     g1_race_swap, ..) or at a pause (g1_heap_store, g1_heap_copy, ..). The call is the store
 *     itself, so stores to one slot need no order and no loop.
 *   - A read is one aligned atomic load of 8 bytes. It needs the order acquire (__ATOMIC_ACQUIRE,
 *     memory_order_acquire) where it may find a new object of another thread, so that what was
 *     written into the object before the store is found there too. Elsewhere a relaxed one does.
 *   - The words stay at their place until the heap is closed.
 *   - A region may be an exception as a whole: one that every pause evacuates. Its words are then
 *     memory of the runtime's own, with plain stores and no report, and its slots stay null here.
 *     Slots of other regions may refer into it as into any.
 */

/* A handle of a concurrent heap. It is closed if the pointer is null. */
struct g1_heap {
    void *heap;
};

/* A handle of a racer, by which a mutator stores. It is closed if the pointer is null. */
struct g1_racer {
    void *racer;
};

/*
 * A handle of a sweeper, by which a refinement thread refines. It is closed if the pointer is null.
 */
struct g1_sweeper {
    void *sweeper;
};

/* A handle of a reader, by which a thread reads a pause. It is closed if the pointer is null. */
struct g1_reader {
    void *reader;
};

/* The most racers and the most sweepers that a heap has. It has at least one of each. */
#define G1_RACERS 64
#define G1_SWEEPERS 64

/* The least word that is data. */
#define G1_DATA (UINT64_C(1) << 32)

/*
 * Opens a closed handle on a new heap, at a pause: each slot is null, no card is dirty, and nothing
 * is recorded. It has this many racers and sweepers, whose handles the caller gets by
 * g1_heap_resume. The heap takes 8 bytes a slot, 8 bytes a card, a bit for each pair of a card and
 * a region and a bit for each card, and all of this twice while it opens. It also takes about 2.4
 * kilobytes for each racer and 0.3 for each sweeper, with a reader for each of them.
 *
 * Returns:
 *   - G1_DONE.
 *   - G1_ALREADY_OPEN, G1_BAD_HANDLES, G1_BAD_LAYOUT or G1_NO_MEMORY: nothing has changed.
 */
G1_MUST_USE
uint32_t g1_heap_open(struct g1_heap *heap, const struct g1_counts *counts, uint32_t racers,
                      uint32_t sweepers);

/*
 * Ends a pause. It opens as many closed handles of racers and of sweepers as the heap was opened
 * with. Each slot has what it has at the pause, the dirty cards are dirty, and what is recorded is
 * recorded. Each racer has the log of the racer that was at its place in the row of the last pause,
 * or an empty one if there was none or the pause has refined. A card that is dirty from the
 * beginning and in no log is refined if a sweeper is given it, or at the next pause. The call takes
 * time proportional to the number of racers and sweepers, and no memory. It is never refused to a
 * caller that passes a closed handle for each of them.
 *
 * Returns:
 *   - G1_DONE: each of these handles is open.
 *   - G1_NOT_OPEN for the heap's handle, G1_NOT_PAUSED, G1_BAD_HANDLES (not the numbers of handles
 *     that the heap was opened with) or G1_ALREADY_OPEN for one of these: nothing has changed.
 */
uint32_t g1_heap_resume(struct g1_heap *heap, struct g1_racer *racers, size_t racers_length,
                        struct g1_sweeper *sweepers, size_t sweepers_length);

/*
 * Begins a pause. All racers and sweepers of the heap are handed in, in any order. Before the call
 * you see to it that no thread is inside a call of a racer or a sweeper, or between a store of its
 * own and the call that reports it: this call stops no thread and waits for none. The racers' logs
 * stay with the heap. The call takes time proportional to the number of racers and sweepers, and no
 * memory. It is never refused to a caller that passes each of them once.
 *
 * Returns:
 *   - G1_DONE: these handles are closed, and the collector's calls may be made.
 *   - G1_NOT_OPEN for the heap's handle, G1_NOT_RACING or G1_BAD_HANDLES (not the numbers of
 *     handles that the heap was opened with): nothing has changed.
 *   - G1_NOT_OPEN for one of these handles, or G1_OTHER_RACE (one is of another heap, or is given
 *     twice): nothing has changed. Where both apply, either may be returned.
 */
uint32_t g1_heap_pause(struct g1_heap *heap, struct g1_racer *racers, size_t racers_length,
                       struct g1_sweeper *sweepers, size_t sweepers_length);

/*
 * Closes the handle of a heap at a pause, and frees all its memory. The handle may be opened again.
 *
 * Returns:
 *   - G1_DONE.
 *   - G1_NOT_OPEN, or G1_NOT_PAUSED while it races or readers read it: nothing has changed.
 */
uint32_t g1_heap_close(struct g1_heap *heap);

/*
 * A racer stores a reference to the place `target`, or null (G1_NULL), into a slot, concurrently
 * with whatever other threads do. `kind` is the kind of store (enum g1_kind). If it is
 * G1_STORED_LOGGED, the slot's card is last in the racer's log. The call takes constant time and no
 * memory, and never waits.
 *
 * Returns:
 *   - G1_DONE.
 *   - G1_NOT_OPEN, G1_NO_SLOT for the slot or the target, or G1_LOG_FULL (the target is in another
 *     region than the slot, and the log is full): nothing has changed, and `kind` is
 *     G1_STORED_NULL. Null, and a reference within the region, need no room in the log.
 */
G1_MUST_USE
uint32_t g1_race_store(struct g1_racer *racer, uint32_t slot, uint32_t target, uint32_t *kind);

/*
 * A racer stores as g1_race_store does, and `old` is what the slot referred to before: the place,
 * or G1_NULL for null or data. One atomic step reads that and writes the slot, so no other store
 * falls between them. It is for a collector that marks from a snapshot.
 *
 * Returns:
 *   - G1_DONE.
 *   - G1_NOT_OPEN, G1_NO_SLOT or G1_LOG_FULL, as g1_race_store does: nothing has changed, `old` is
 *     G1_NULL, and `kind` is G1_STORED_NULL.
 */
G1_MUST_USE
uint32_t g1_race_swap(struct g1_racer *racer, uint32_t slot, uint32_t target, uint32_t *old,
                      uint32_t *kind);

/*
 * A racer stores as g1_race_store does, if the slot refers to the place `expected`, or has null if
 * that is G1_NULL. One atomic step compares and writes. `found` is what the slot referred to: the
 * place, or G1_NULL for null or data. The call takes constant time and no memory, and never waits.
 *
 * Returns:
 *   - G1_DONE: the slot had `expected`, which `found` is too, and it has `target` now.
 *   - G1_NOT_OPEN, G1_NO_SLOT for the slot, `expected` or the target, or G1_LOG_FULL (whatever the
 *     slot has, if the target is in another region and the log is full): nothing has changed,
 *     `found` is G1_NULL, and `kind` is G1_STORED_NULL.
 *   - G1_DIFFERS: the slot had something else, such as data where null was expected. Nothing was
 *     stored, and `kind` is G1_STORED_NULL.
 */
G1_MUST_USE
uint32_t g1_race_compare_exchange(struct g1_racer *racer, uint32_t slot, uint32_t expected,
                                  uint32_t target, uint32_t *found, uint32_t *kind);

/*
 * A racer makes stores in order, each as g1_race_store does, and as many as the caller likes. The
 * cards of those that are logged are last in the racer's log, in order. The call takes no memory,
 * and never waits.
 *
 * Returns:
 *   - G1_DONE: `stored` is stores_length.
 *   - G1_NOT_OPEN: nothing has changed, and `stored` is 0.
 *   - G1_FULL: the store at index `stored` is of a reference into another region, and the log is
 *     full. The stores before it were made; it and the later ones were not. Take the log, and go on
 *     with this store.
 *   - G1_STOPPED: the store at index `stored` names a slot or a target that the heap does not have.
 *     The stores before it were made; it and the later ones were not.
 */
G1_MUST_USE
uint32_t g1_race_store_all(struct g1_racer *racer, const struct g1_reference *stores,
                           size_t stores_length, size_t *stored);

/*
 * A racer stores data, a word from G1_DATA on, into a slot, concurrently with whatever other
 * threads do. To a drain the slot is null. `old` is the word that the slot had. The call takes
 * constant time and no memory, marks and logs nothing, needs no room in the log, and never waits.
 *
 * Returns:
 *   - G1_DONE.
 *   - G1_NOT_OPEN, G1_NO_SLOT or G1_BAD_WORD: nothing has changed, and `old` is 0.
 */
uint32_t g1_race_store_data(struct g1_racer *racer, uint32_t slot, uint64_t word, uint64_t *old);

/*
 * A racer stores a word into a slot: 0 for null, the number of a slot plus 1 for a reference, or
 * data, from G1_DATA on. A reference is stored as g1_race_store does. Data is stored as null: it
 * marks and logs nothing, and `kind` is G1_STORED_NULL. `old` is the word that the slot had. One
 * atomic step reads it and writes the new one. The call takes constant time and no memory, and
 * never waits.
 *
 * Returns:
 *   - G1_DONE.
 *   - G1_NOT_OPEN, G1_NO_SLOT, G1_BAD_WORD for a word that is none of these, or G1_LOG_FULL (the
 *     word refers into another region, and the log is full): nothing has changed, `old` is 0, and
 *     `kind` is G1_STORED_NULL.
 */
G1_MUST_USE
uint32_t g1_race_swap_word(struct g1_racer *racer, uint32_t slot, uint64_t word, uint64_t *old,
                           uint32_t *kind);

/*
 * A racer stores a word as g1_race_swap_word does, if the slot has the word `expected`, which may
 * be null, a reference or data: for an atomic counter, say, or to claim an object's forwarding
 * word. One atomic step compares and writes. `found` is the word that the slot had. The call takes
 * constant time and no memory, and never waits.
 *
 * Returns:
 *   - G1_DONE: the slot had `expected`, which `found` is too, and it has `word` now.
 *   - G1_NOT_OPEN, G1_NO_SLOT, G1_BAD_WORD for either word, or G1_LOG_FULL (whatever the slot has,
 *     if `word` refers into another region and the log is full): nothing has changed, `found` is 0,
 *     and `kind` is G1_STORED_NULL.
 *   - G1_DIFFERS: the slot had another word. Nothing was stored, and `kind` is G1_STORED_NULL.
 */
G1_MUST_USE
uint32_t g1_race_compare_exchange_word(struct g1_racer *racer, uint32_t slot, uint64_t expected,
                                       uint64_t word, uint64_t *found, uint32_t *kind);

/*
 * A racer stores a row of words into as many slots from `slot` on, in order, each as
 * g1_race_swap_word does. Before the first one it looks at all: none is stored unless the heap has
 * these slots and they may have these words. The cards of those that are logged are last in the
 * racer's log, in order. The call takes no memory, and never waits.
 *
 * Returns:
 *   - G1_DONE: `stored` is words_length.
 *   - G1_NOT_OPEN, G1_NO_SLOT (the row leaves the heap) or G1_BAD_WORD (for one of the words):
 *     nothing has changed, and `stored` is 0.
 *   - G1_FULL: the word at index `stored` refers into another region, and the log is full. The
 *     words before it were stored; it and the later ones were not. Take the log, and go on with
 *     this word and its slot.
 */
G1_MUST_USE
uint32_t g1_race_store_words(struct g1_racer *racer, uint32_t slot, const uint64_t *words,
                             size_t words_length, size_t *stored);

/*
 * Takes the cards of a racer's log, and leaves the log empty. The first `count` elements of `cards`
 * are these cards, oldest first. `cards` has room for G1_LOG cards. No mark changes.
 *
 * Returns:
 *   - G1_DONE.
 *   - G1_NO_ROOM or G1_NOT_OPEN: `count` is 0, and the log is as it was.
 */
uint32_t g1_race_take_log(struct g1_racer *racer, uint32_t *cards, size_t cards_length,
                          uint32_t *count);

/*
 * Tells how many stores a racer has made since its heap was opened, by kind: of null or of data, of
 * a place in the slot's own region, on a dirty card, and logged. A swap counts as the store that it
 * is, a compare-and-swap that found something else as none, and each store of a batch by itself. A
 * pause keeps the counts, and a resume hands them to the handle at the same place of the row. After
 * 2^64 - 1 a count goes on at 0. They lie beside the racer, so no other thread writes near them.
 * The call changes nothing, and takes constant time and no memory.
 *
 * Returns G1_DONE, or G1_NOT_OPEN: the four are 0.
 */
uint32_t g1_racer_counts(struct g1_racer *racer, uint64_t *null, uint64_t *same_region,
                         uint64_t *already_dirty, uint64_t *logged);

/*
 * A sweeper refines a card, concurrently with whatever other threads do. It makes the card
 * clean, and then reads its slots and records which regions they refer into, whether the card was
 * dirty or not. A store of a reference into another region that comes too late to be read makes the
 * card dirty again. The call never waits, and takes no memory.
 *
 * Returns:
 *   - G1_DONE.
 *   - G1_NOT_OPEN or G1_NO_CARD: nothing has changed.
 */
uint32_t g1_race_refine(struct g1_sweeper *sweeper, uint32_t card);

/*
 * Tells what a sweeper has done since its heap was opened: how many cards it refined, how many of
 * them were dirty (cleaned), and how many references into another region it read on them, each of
 * which is recorded then, if it was not before. A pause keeps the counts, and a resume hands them
 * to the handle at the same place of the row. After 2^64 - 1 a count goes on at 0. They lie beside
 * the sweeper, so no other thread writes near them. The call changes nothing, and takes constant
 * time and no memory.
 *
 * Returns G1_DONE, or G1_NOT_OPEN: the three are 0.
 */
uint32_t g1_sweeper_counts(struct g1_sweeper *sweeper, uint64_t *refined, uint64_t *cleaned,
                           uint64_t *references);

/*
 * Sets `words` to the words of the slots, in order, for a runtime whose fields they are. They may
 * be read at a pause and while the heap races, as is said above. The call may be made at a pause or
 * not, and takes constant time.
 *
 * Returns G1_DONE, or G1_NOT_OPEN: `words` is null.
 */
uint32_t g1_heap_words(struct g1_heap *heap, const uint64_t **words);

/* The calls below are the collector's, at a pause. */

/*
 * Sets `target` to what a slot refers to: the place, or G1_NULL for null or data. It takes constant
 * time and no memory.
 *
 * Returns G1_DONE, or G1_NOT_OPEN, G1_NOT_PAUSED or G1_NO_SLOT: `target` is G1_NULL.
 */
uint32_t g1_heap_target(struct g1_heap *heap, uint32_t slot, uint32_t *target);

/*
 * Sets `word` to the word of a slot: 0, the number of a slot plus 1, or data. It takes constant
 * time and no memory.
 *
 * Returns G1_DONE, or G1_NOT_OPEN, G1_NOT_PAUSED or G1_NO_SLOT: `word` is 0.
 */
uint32_t g1_heap_word(struct g1_heap *heap, uint32_t slot, uint64_t *word);

/*
 * Sets `pending` to 1 if a card is dirty, and to 0 if it is not. It takes constant time and no
 * memory.
 *
 * Returns G1_DONE, or G1_NOT_OPEN, G1_NOT_PAUSED or G1_NO_CARD: `pending` is 0.
 */
uint32_t g1_heap_is_pending(struct g1_heap *heap, uint32_t card, uint32_t *pending);

/*
 * Sets `totals` to how many cards are dirty and how many pairs of a card and a region are recorded.
 * It reads a bit for each card, that many again for each region, and a word for each of the pairs,
 * so it is no call for every pause. It takes no memory.
 *
 * Returns G1_DONE, or G1_NOT_OPEN or G1_NOT_PAUSED: both totals are 0.
 */
uint32_t g1_heap_status(struct g1_heap *heap, struct g1_totals *totals);

/*
 * Returns the remembered set of a region as it is recorded, and refines nothing. The first `count`
 * elements of `cards` are the cards of the set, ascending, each once. Dirty cards may be missing
 * from it; after g1_heap_refine, and until the next store, none is. The call takes no memory.
 *
 * Returns:
 *   - G1_DONE.
 *   - G1_NOT_OPEN, G1_NOT_PAUSED or G1_NO_REGION: `count` is 0, and nothing is written to the
 *     array.
 *   - G1_NO_ROOM: `count` is how many cards there are, which is more than the array has room for.
 *     The array is full: it has the first of them.
 */
G1_MUST_USE
uint32_t g1_heap_members(struct g1_heap *heap, uint32_t region, uint32_t *cards,
                         size_t cards_length, uint32_t *count);

/*
 * Sets `card` to the least card from the number `from` on that is recorded for a region, or to
 * G1_NULL if there is none. So a walk over a remembered set needs no array:
 *
 *     for (from = 0; g1_heap_next_member(&heap, region, from, &card) == G1_DONE && card != G1_NULL;
 *          from = card + 1)
 *
 * `from` may be greater than any card's number. A walk meets what g1_heap_members returns. You may
 * store, copy and wipe between its steps: only a refine, a drain, a clear, a redirect, a forget and
 * a free change what is recorded. The call reads a word for each 64 cards up to the one that it
 * finds, and takes no memory.
 *
 * Returns G1_DONE, or G1_NOT_OPEN, G1_NOT_PAUSED or G1_NO_REGION: `card` is G1_NULL.
 */
uint32_t g1_heap_next_member(struct g1_heap *heap, uint32_t region, uint32_t from, uint32_t *card);

/*
 * Sets `card` to the least card from the number `from` on that lies outside these regions and is
 * recorded for one of them, or to G1_NULL if there is none. So a walk over a whole collection set,
 * as one over a remembered set, meets each card once:
 *
 *     for (from = 0; g1_heap_next_into(&heap, regions, count, from, &card) == G1_DONE &&
 *                    card != G1_NULL;
 *          from = card + 1)
 *
 * The regions may come in any order. The call reads for each of them a word for each 64 cards up to
 * the one that it finds, and one more for each of them in which it passes over a card. It takes no
 * memory.
 *
 * Returns G1_DONE, or G1_NOT_OPEN, G1_NOT_PAUSED, or G1_NO_REGION for any of the regions: `card` is
 * G1_NULL.
 */
uint32_t g1_heap_next_into(struct g1_heap *heap, const uint32_t *regions, size_t regions_length,
                           uint32_t from, uint32_t *card);

/*
 * Sets `card` to the least dirty card from the number `from` on, in whatever region, or to G1_NULL
 * if there is none. So a pause that refines card by card, or that scans dirty cards itself, needs
 * no list of them. A walk is as with g1_heap_next_member, but that a store between its steps may
 * make a card dirty, which it meets if that lies ahead. A pause that scans dirty cards for
 * references into a collection set passes over those inside the set: what their dead objects refer
 * to would be kept.
 *
 * The call reads a word for each 64 cards up to the one that it finds, and for each eight of these
 * of which one was dirtied since all were last refined at a pause their marks and one word more. It
 * takes no memory.
 *
 * Returns G1_DONE, or G1_NOT_OPEN or G1_NOT_PAUSED: `card` is G1_NULL.
 */
uint32_t g1_heap_next_dirty(struct g1_heap *heap, uint32_t from, uint32_t *card);

/*
 * Refines all that is dirty, and empties the racers' logs. For a collection set, call it once, and
 * then g1_heap_members or g1_heap_next_member for each region: they return what drains would. It
 * takes no memory.
 *
 * Returns G1_DONE, or G1_NOT_OPEN or G1_NOT_PAUSED: nothing has changed.
 */
uint32_t g1_heap_refine(struct g1_heap *heap);

/*
 * Refines all that is dirty, empties the racers' logs, and returns the remembered set of a region:
 * every card outside the region that refers into it. Some may be stale: they no longer refer into
 * it, but did, or were recorded for it, when the heap was last resumed, or have done so since. The
 * first `count` elements of `cards` are the set, ascending, each card once. The call takes no
 * memory. It is never short.
 *
 * Returns:
 *   - G1_DONE.
 *   - G1_NOT_OPEN, G1_NOT_PAUSED or G1_NO_REGION: nothing has changed, `count` is 0, and nothing is
 *     written to the array.
 *   - G1_NO_ROOM: all is refined. `count` is how many cards the set has, which is more than the
 *     array has room for, and the array has the first of them. g1_heap_members returns them all,
 *     given an array with room, or g1_heap_next_member one by one.
 */
G1_MUST_USE
uint32_t g1_heap_drain(struct g1_heap *heap, uint32_t region, uint32_t *cards,
                       size_t cards_length, uint32_t *count);

/*
 * The collector stores a reference to the place `target`, or null (G1_NULL), into a slot. `kind` is
 * the kind of store (enum g1_kind). If it is G1_STORED_LOGGED, the slot's card was clean, and is
 * dirty now; no log has it. The call takes constant time and no memory.
 *
 * Returns G1_DONE, or G1_NOT_OPEN, G1_NOT_PAUSED, or G1_NO_SLOT for the slot or the target: nothing
 * has changed, and `kind` is G1_STORED_NULL.
 */
uint32_t g1_heap_store(struct g1_heap *heap, uint32_t slot, uint32_t target, uint32_t *kind);

/*
 * Makes stores in order, each as g1_heap_store does, and as many as the caller likes. It takes no
 * memory.
 *
 * Returns:
 *   - G1_DONE: `stored` is stores_length.
 *   - G1_STOPPED: the store at index `stored` names a slot or a target that the heap does not have.
 *     The stores before it were made; it and the later ones were not.
 *   - G1_NOT_OPEN or G1_NOT_PAUSED: nothing has changed, and `stored` is 0.
 */
uint32_t g1_heap_store_all(struct g1_heap *heap, const struct g1_reference *stores,
                           size_t stores_length, size_t *stored);

/*
 * The collector stores data, a word from G1_DATA on, into a slot. To a drain the slot is null. The
 * call takes constant time and no memory.
 *
 * Returns G1_DONE, or G1_NOT_OPEN, G1_NOT_PAUSED, G1_NO_SLOT or G1_BAD_WORD: nothing has changed.
 */
uint32_t g1_heap_store_data(struct g1_heap *heap, uint32_t slot, uint64_t word);

/*
 * The collector stores a row of words into as many slots from `slot` on, in order: null and
 * references as g1_heap_store does, and data as g1_heap_store_data does. Before the first one it
 * looks at all. The call takes no memory.
 *
 * Returns:
 *   - G1_DONE.
 *   - G1_NOT_OPEN, G1_NOT_PAUSED, G1_NO_SLOT (the row leaves the heap) or G1_BAD_WORD (for one of
 *     the words): nothing has changed.
 */
uint32_t g1_heap_store_words(struct g1_heap *heap, uint32_t slot, const uint64_t *words,
                             size_t words_length);

/*
 * The collector copies the words of `count` slots, references and data, from the slot `from` on to
 * the slots from `to` on, as if all were read before any is written: the ranges may overlap. Cards
 * become dirty as by g1_heap_store, and no log has them. The call takes time proportional to
 * `count`, and no memory. A copy of no slots is done if both ranges begin at a slot of the heap or
 * just behind its last one, and refused if one begins farther behind.
 *
 * Returns G1_DONE, or G1_NOT_OPEN, G1_NOT_PAUSED, or G1_NO_SLOT if either range ends behind the
 * last slot: nothing has changed.
 */
uint32_t g1_heap_copy(struct g1_heap *heap, uint32_t from, uint32_t to, uint32_t count);

/*
 * Empties the remembered set of a region, once no card is dirty and no slot outside the region
 * refers into it, as g1_clear does. It takes no memory.
 *
 * Returns:
 *   - G1_DONE: `detail` is 0.
 *   - G1_NOT_OPEN, G1_NOT_PAUSED or G1_NO_REGION: nothing has changed, and `detail` is 0.
 *   - G1_STILL_PENDING: nothing has changed. `detail` is how many cards are dirty; refine first.
 *   - G1_STILL_REFERENCED: nothing has changed. `detail` is the least slot of the heap that is
 *     outside the region and refers into it.
 */
G1_MUST_USE
uint32_t g1_heap_clear(struct g1_heap *heap, uint32_t region, uint32_t *detail);

/*
 * Frees the regions of a collection set, once no card is dirty and no slot outside them refers into
 * one of them. Afterwards none of their slots refers into another region, none of their cards is in
 * a remembered set, and their own sets are empty.
 *
 * Its steps are those of other calls: null is stored into each slot of the regions that refers into
 * another region, as by g1_heap_store; then each region is forgotten, as by g1_heap_forget, and its
 * set emptied, as by g1_heap_clear. A slot that refers inside its region keeps its reference, and
 * one with data its data: g1_heap_wipe would make these null too.
 *
 * The regions may come in any order, and more than once, or be none. The call reads each slot of
 * the regions, and once the slots of each card that g1_heap_next_into would find for them. Of what
 * is dirty and recorded it reads what that walk, and a forget and a clear of each region, would. It
 * writes only slots that refer into another region, and what is recorded. It takes no memory.
 *
 * Returns:
 *   - G1_DONE: `detail` is 0.
 *   - G1_NOT_OPEN, G1_NOT_PAUSED, or G1_NO_REGION for any of the regions: nothing has changed, and
 *     `detail` is 0.
 *   - G1_STILL_PENDING: nothing has changed. `detail` is how many cards are dirty; refine first.
 *   - G1_STILL_REFERENCED: nothing has changed. `detail` is the least slot of the heap that is
 *     outside the regions and refers into one of them.
 */
G1_MUST_USE
uint32_t g1_heap_free(struct g1_heap *heap, const uint32_t *regions, size_t regions_length,
                      uint32_t *detail);

/*
 * Refines all that is dirty, and empties the racers' logs. Then it moves each reference from a slot
 * outside the region `from` into that region to the same offset of the region `to`, and empties the
 * remembered set of `from`. The card of each slot that changed outside `to` is recorded for `to`,
 * and no card becomes dirty. `moved` is how many slots changed. The call takes no memory.
 *
 * It copies no slot: copy the region first (g1_heap_copy), or store what the copies refer to, and
 * redirect then. Slots inside `from` stay as they are, and so may keep a clear of another region
 * refused.
 *
 * Returns:
 *   - G1_DONE.
 *   - G1_NOT_OPEN, G1_NOT_PAUSED, G1_NO_REGION for either region, or G1_SAME_REGION: nothing has
 *     changed, and `moved` is 0.
 */
uint32_t g1_heap_redirect(struct g1_heap *heap, uint32_t from, uint32_t to, uint32_t *moved);

/*
 * Stores null into each slot of a region that is freed, also where it has data. Cards that are
 * dirty stay dirty, and what is recorded stays recorded. It reads each slot of the region, writes
 * those that are not null, and takes no memory.
 *
 * Returns G1_DONE, or G1_NOT_OPEN, G1_NOT_PAUSED or G1_NO_REGION: nothing has changed.
 */
uint32_t g1_heap_wipe(struct g1_heap *heap, uint32_t region);

/*
 * Removes the cards of a region from the remembered sets of all regions, once no slot of the region
 * refers out of it, as after g1_heap_wipe. Later drains return no card of the region until one is
 * stored to. Cards that are dirty stay dirty, so a clear that follows needs a g1_heap_refine first.
 * It takes no memory. It reads each slot of the region, and in the set of each region the words
 * with the bits of the region's cards, 64 to a word, and at most two words more for each card that
 * it removes there.
 *
 * Returns:
 *   - G1_DONE.
 *   - G1_NOT_OPEN, G1_NOT_PAUSED, G1_NO_REGION, or G1_STILL_REFERENCED (a slot of the region refers
 *     out of it): nothing has changed.
 */
G1_MUST_USE
uint32_t g1_heap_forget(struct g1_heap *heap, uint32_t region);

/*
 * Looks for a runtime's own mistakes, in a debug build, as g1_verify does. A runtime whose fields
 * are the library's words passes no references (a references_length of 0): then `missing` is the
 * first that it wrote itself and that no drain would find. A slot that has data refers to nothing.
 * The call takes time proportional to the slots that it looks at, and no memory.
 *
 * Returns:
 *   - G1_DONE.
 *   - G1_NOT_OPEN, G1_NOT_PAUSED, or G1_NO_SLOT if either range ends behind the last slot: both
 *     are G1_NULL.
 */
uint32_t g1_heap_verify(struct g1_heap *heap, uint32_t first, uint32_t count,
                        const uint32_t *references, size_t references_length,
                        uint32_t *differing, uint32_t *missing);

/*
 * The calls below let several threads read one pause at once, where one call at a time uses the
 * heap's handle: for a parallel scan, say, each thread walks some regions' sets by a reader of its
 * own. A reader answers what the heap does at its pause, and nothing changes while the heap is
 * read: each call on its handle but g1_heap_read_end and g1_heap_words is refused, most of them
 * with G1_NOT_PAUSED.
 */

/*
 * Begins a reading of a heap at a pause. It opens as many closed handles of readers as the array
 * has, at most as many as the heap has racers and sweepers together. Each reader belongs to one
 * thread at a time, and any number of them read at once. The call takes time proportional to the
 * number of the heap's racers and sweepers, and no memory.
 *
 * Returns:
 *   - G1_DONE: each reader's handle is open.
 *   - G1_NOT_OPEN for the heap's handle, G1_NOT_PAUSED (also while the heap is read already),
 *     G1_BAD_HANDLES (more readers than the heap has racers and sweepers) or G1_ALREADY_OPEN for a
 *     reader's handle: nothing has changed.
 */
uint32_t g1_heap_read(struct g1_heap *heap, struct g1_reader *readers, size_t readers_length);

/*
 * Ends the reading. All readers of the heap are handed in, in any order. Before the call you see to
 * it that no thread is inside a call of a reader. The heap is then at its pause as it was before
 * g1_heap_read. The call takes time proportional to the number of the heap's racers and sweepers,
 * and no memory. It is never refused to a caller that passes each reader once.
 *
 * Returns:
 *   - G1_DONE: the readers' handles are closed.
 *   - G1_NOT_OPEN for the heap's handle, G1_NOT_PAUSED (the heap races) or G1_BAD_HANDLES
 *     (the heap is not read, or by another number of readers): nothing has changed.
 *   - G1_NOT_OPEN for a reader's handle, or G1_OTHER_RACE (a reader of another heap, or one that is
 *     given twice): nothing has changed. Where both apply, either may be returned.
 */
uint32_t g1_heap_read_end(struct g1_heap *heap, struct g1_reader *readers, size_t readers_length);

/*
 * Sets `target` to what a slot refers to, as g1_heap_target does.
 *
 * Returns G1_DONE, or G1_NOT_OPEN or G1_NO_SLOT: `target` is G1_NULL.
 */
uint32_t g1_reader_target(struct g1_reader *reader, uint32_t slot, uint32_t *target);

/*
 * Sets `word` to the word of a slot, as g1_heap_word does.
 *
 * Returns G1_DONE, or G1_NOT_OPEN or G1_NO_SLOT: `word` is 0.
 */
uint32_t g1_reader_word(struct g1_reader *reader, uint32_t slot, uint64_t *word);

/*
 * Sets `pending` to 1 if a card is dirty, and to 0 if it is not, as g1_heap_is_pending does.
 *
 * Returns G1_DONE, or G1_NOT_OPEN or G1_NO_CARD: `pending` is 0.
 */
uint32_t g1_reader_is_pending(struct g1_reader *reader, uint32_t card, uint32_t *pending);

/*
 * Sets `has` to 1 if a card is recorded for a region, and to 0 if it is not. It takes constant time
 * and no memory.
 *
 * Returns G1_DONE, or G1_NOT_OPEN, G1_NO_CARD or G1_NO_REGION: `has` is 0.
 */
uint32_t g1_reader_has(struct g1_reader *reader, uint32_t card, uint32_t region, uint32_t *has);

/*
 * Sets `card` to the least card from the number `from` on that is recorded for a region, or to
 * G1_NULL if there is none, as g1_heap_next_member does.
 *
 * Returns G1_DONE, or G1_NOT_OPEN or G1_NO_REGION: `card` is G1_NULL.
 */
uint32_t g1_reader_next_member(struct g1_reader *reader, uint32_t region, uint32_t from,
                               uint32_t *card);

#ifdef __cplusplus
}
#endif

#endif
