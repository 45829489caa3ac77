/*
 * Refinement threads for a concurrent heap (g1.h), in C11 or C++17 with POSIX threads.
 *
 * A struct g1_refiner has a bounded queue of logs, and one refinement thread for each sweeper of a
 * heap (a sweeper is the handle by which a thread refines). Mutators hand on their full logs. The
 * threads sleep until as many logs wait as the runtime has said, and then refine cards until few
 * are left. At a pause they give their sweepers back. All of the code is in this file, and is
 * compiled into the runtime; no proof covers it.
 *
 * A runtime opens a refiner, which is paused, beside its heap. From there on it goes round:
 *   1. g1_heap_resume opens the handles, and g1_refiner_resume takes the sweepers over.
 *      Mutators store by g1_refiner_store, each with its racer.
 *   2. For a pause the runtime stops the mutators and takes their racers back.
 *   3. g1_refiner_pause gives the sweepers back, g1_heap_pause takes all handles in, and the
 *      collector's calls follow.
 *
 * Besides what g1.h relies on, these calls rely on the following:
 *   - One thread at a time, the collector's, opens, resumes, pauses and closes a refiner.
 *   - While a refiner is open, it and the array of its queue stay where they are, and only these
 *     calls use them. The heaps whose sweepers it takes have the same counts.
 *   - You stop and cancel no thread inside one of these calls (by a signal, for instance): it may
 *     have the refiner's lock.
 *
 * Several threads may store (g1_refiner_store, ..) and call g1_refiner_hand_on at once, each with a
 * racer of its own. These calls take no memory. They wait for the refiner's lock alone, which no
 * thread has for longer than it takes to copy a log.
 */
#ifndef G1_REFINER_H
#define G1_REFINER_H

#include "g1.h"

#include <errno.h>
#include <pthread.h>
#include <string.h>

#ifdef __cplusplus
extern "C" {
#endif

/* The cards of a log: the first `count` elements of `cards`. */
struct g1_log {
    uint32_t count;
    uint32_t cards[G1_LOG];
};

/* What a pause does with the logs that are queued. */
enum g1_queued {
    G1_REFINE_QUEUED, /* the threads refine them first: a longer stop, and less for the drain */
    G1_DROP_QUEUED    /* they are dropped: the drain refines those of their cards that are dirty */
};

/* What a refiner did since it was opened, and what waits for it. */
struct g1_refiner_counts {
    uint64_t queued;  /* logs that were put into the queue */
    uint64_t dropped; /* logs that were dropped: for want of room, or queued ones at a pause */
    uint64_t refined; /* cards that were refined */
    size_t length;    /* logs that are in the queue now */
    size_t longest;   /* the most logs that were in the queue at once */
};

/* Private: a refinement thread. The lock of the refiner has all but its number. */
struct g1_refiner_thread {
    struct g1_refiner *refiner;
    pthread_t id;
    struct g1_sweeper sweeper; /* the thread's, in a local of its own, while it is running */
    int is_running;            /* from a resume until the thread has given its sweeper back */
};

/*
 * To begin with: a queue with room for this many logs (half a megabyte), and the lengths of it at
 * which refinement begins and ends.
 */
#define G1_REFINER_LOGS 512
#define G1_REFINER_START 256
#define G1_REFINER_STOP 64

/*
 * A refiner. It is made of zeros (struct g1_refiner refiner = {0};) and then opened. A runtime may
 * read the three counts while the refiner is paused and the mutators have stopped, and at any time
 * by g1_refiner_read. All else is private. The lock has what changes while the refiner is open.
 */
struct g1_refiner {
    uint64_t queued;  /* logs that were put into the queue since the refiner was opened */
    uint64_t dropped; /* logs that were dropped: for want of room, or queued ones at a pause */
    uint64_t refined; /* cards that were refined */
    pthread_mutex_t lock;
    pthread_cond_t work;    /* for logs that are to be refined, a resume, a pause and the end */
    pthread_cond_t stopped; /* signalled when the last thread has given its sweeper back */
    struct g1_log *logs;    /* a ring, whose `length` logs from `first` on are queued */
    size_t logs_length;
    size_t first;
    size_t length;
    size_t longest;
    size_t start;
    size_t stop;
    int is_refining; /* `start` logs were queued, and more than `stop` still are */
    struct g1_refiner_thread threads[G1_SWEEPERS];
    size_t threads_length;
    size_t running; /* how many threads are */
    int is_paused;  /* from the beginning of a pause until the resume */
    int is_ending;
    int is_open;    /* it changes in an open and a close alone, and no lock has it */
    uint32_t code; /* G1_DONE, or the first code since the resume that refused a refinement */
};

/* Private: takes the oldest log, by a thread that has the lock. Returns 0 if it is to stop. */
static inline int g1_refiner_next(struct g1_refiner *refiner, struct g1_log *log) {
    while (!refiner->is_refining && !refiner->is_paused) {
        pthread_cond_wait(&refiner->work, &refiner->lock);
    }
    if (refiner->length == 0) {
        return 0;
    }
    *log = refiner->logs[refiner->first];
    refiner->first = (refiner->first + 1) % refiner->logs_length;
    refiner->length--;
    refiner->is_refining &= refiner->length > refiner->stop;
    return 1;
}

/* Private: refines logs until the thread is to stop. It has the lock, but not while it refines. */
static inline void g1_refiner_refine(struct g1_refiner *refiner, struct g1_sweeper *sweeper) {
    struct g1_log log;
    while (g1_refiner_next(refiner, &log)) {
        uint32_t refined = 0, code = G1_DONE;
        pthread_mutex_unlock(&refiner->lock);
        while (refined < log.count && code == G1_DONE) {
            code = g1_race_refine(sweeper, log.cards[refined]);
            refined += code == G1_DONE;
        }
        pthread_mutex_lock(&refiner->lock);
        refiner->refined += refined;
        if (refiner->code == G1_DONE) {
            refiner->code = code;
        }
    }
}

/* Private: what a refinement thread runs. */
static inline void *g1_refiner_run(void *place) {
    struct g1_refiner_thread *thread = (struct g1_refiner_thread *)place;
    struct g1_refiner *refiner = thread->refiner;
    pthread_mutex_lock(&refiner->lock);
    while (!refiner->is_ending) {
        if (!thread->is_running) {
            pthread_cond_wait(&refiner->work, &refiner->lock);
            continue;
        }
        struct g1_sweeper sweeper = thread->sweeper;
        thread->sweeper.sweeper = NULL;
        g1_refiner_refine(refiner, &sweeper);
        thread->sweeper = sweeper;
        thread->is_running = 0;
        if (--refiner->running == 0) {
            pthread_cond_signal(&refiner->stopped);
        }
    }
    pthread_mutex_unlock(&refiner->lock);
    return NULL;
}

/* Private: makes the lock and both conditions, or returns an error and leaves none of them. */
static inline int g1_refiner_make_lock(struct g1_refiner *refiner) {
    int error = pthread_mutex_init(&refiner->lock, NULL);
    if (error == 0 && (error = pthread_cond_init(&refiner->work, NULL)) != 0) {
        pthread_mutex_destroy(&refiner->lock);
    } else if (error == 0 && (error = pthread_cond_init(&refiner->stopped, NULL)) != 0) {
        pthread_cond_destroy(&refiner->work);
        pthread_mutex_destroy(&refiner->lock);
    }
    return error;
}

/*
 * Closes a paused refiner: ends its threads, and waits for their ends. It may be opened again.
 *
 * Returns:
 *   - G1_DONE.
 *   - G1_NOT_OPEN, or G1_NOT_PAUSED: nothing has changed, and its threads have their sweepers.
 */
static inline uint32_t g1_refiner_close(struct g1_refiner *refiner) {
    if (!refiner->is_open) {
        return G1_NOT_OPEN;
    }
    pthread_mutex_lock(&refiner->lock);
    int is_paused = refiner->is_paused;
    refiner->is_ending = is_paused;
    pthread_cond_broadcast(&refiner->work);
    pthread_mutex_unlock(&refiner->lock);
    if (!is_paused) {
        return G1_NOT_PAUSED;
    }
    for (size_t i = 0; i < refiner->threads_length; i++) {
        pthread_join(refiner->threads[i].id, NULL);
    }
    pthread_cond_destroy(&refiner->stopped);
    pthread_cond_destroy(&refiner->work);
    pthread_mutex_destroy(&refiner->lock);
    refiner->is_open = 0;
    return G1_DONE;
}

/* Private: begins the threads. Returns 0, or the error by which one was refused. */
static inline int g1_refiner_begin(struct g1_refiner *refiner, size_t sweepers_length) {
    int error = 0;
    while (error == 0 && refiner->threads_length < sweepers_length) {
        struct g1_refiner_thread *thread = &refiner->threads[refiner->threads_length];
        thread->refiner = refiner;
        error = pthread_create(&thread->id, NULL, g1_refiner_run, thread);
        refiner->threads_length += error == 0;
    }
    return error;
}

/*
 * Opens a refiner, which is paused, with all counts at 0. Its queue has room for `logs_length` logs
 * (1 or more) in the array `logs`. It has as many threads as the heap has sweepers (1 to
 * G1_SWEEPERS). They inherit the caller's signal mask, so block there what is not to interrupt
 * them.
 *
 * The threads sleep until `start` logs are queued (1 to logs_length), and then refine until no more
 * than `stop` are (less than `start`). A card that waits stays dirty, so further stores on it are
 * filtered, and it is refined once for all of them. But what waits is left for the pause. With 1
 * and 0 each log is refined at once.
 *
 * Returns:
 *   - G1_DONE.
 *   - G1_ALREADY_OPEN, G1_BAD_HANDLES for the number of sweepers, or G1_BAD_SETTINGS for a length:
 *     nothing has changed.
 *   - G1_NO_MEMORY: the system refused a lock or a thread, for a cause that `errno` has. The
 *     refiner is not open, and nothing is left of it.
 */
G1_MUST_USE
static inline uint32_t g1_refiner_open(struct g1_refiner *refiner, struct g1_log *logs,
                                       size_t logs_length, size_t sweepers_length, size_t start,
                                       size_t stop) {
    if (refiner->is_open) {
        return G1_ALREADY_OPEN;
    } else if (sweepers_length == 0 || sweepers_length > G1_SWEEPERS) {
        return G1_BAD_HANDLES;
    } else if (start == 0 || start > logs_length || stop >= start) {
        return G1_BAD_SETTINGS;
    }
    memset(refiner, 0, sizeof *refiner);
    int error = g1_refiner_make_lock(refiner);
    if (error == 0) {
        refiner->logs = logs;
        refiner->logs_length = logs_length;
        refiner->start = start;
        refiner->stop = stop;
        refiner->is_open = refiner->is_paused = 1;
        error = g1_refiner_begin(refiner, sweepers_length);
        if (error != 0) {
            g1_refiner_close(refiner);
        }
    }
    errno = error != 0 ? error : errno;
    return error == 0 ? G1_DONE : G1_NO_MEMORY;
}

/* Private: why these are not open handles, one for each thread, or G1_DONE. */
static inline uint32_t g1_refiner_takes(const struct g1_refiner *refiner,
                                        const struct g1_sweeper *sweepers, size_t sweepers_length) {
    if (sweepers_length != refiner->threads_length) {
        return G1_BAD_HANDLES;
    }
    for (size_t i = 0; i < sweepers_length; i++) {
        if (sweepers[i].sweeper == NULL) {
            return G1_NOT_OPEN;
        }
    }
    for (size_t i = 0; i < sweepers_length; i++) {
        for (size_t k = 0; k < i; k++) {
            if (sweepers[k].sweeper == sweepers[i].sweeper) {
                return G1_OTHER_RACE;
            }
        }
    }
    return G1_DONE;
}

/* Private: why these are not closed handles, one for each thread, or G1_DONE. */
static inline uint32_t g1_refiner_gives(const struct g1_refiner *refiner,
                                        const struct g1_sweeper *sweepers, size_t sweepers_length) {
    uint32_t code = sweepers_length == refiner->threads_length ? G1_DONE : G1_BAD_HANDLES;
    for (size_t i = 0; code == G1_DONE && i < sweepers_length; i++) {
        code = sweepers[i].sweeper == NULL ? G1_DONE : G1_ALREADY_OPEN;
    }
    return code;
}

/*
 * Lets refinement begin. `sweepers` are open handles of sweepers, one for each thread. The threads
 * take the sweepers over, and these handles are closed. It waits for nothing but the lock.
 *
 * Returns:
 *   - G1_DONE.
 *   - G1_NOT_OPEN for the refiner, G1_NOT_PAUSED, G1_BAD_HANDLES (not as many as it has threads),
 *     G1_NOT_OPEN for a sweeper's handle, or G1_OTHER_RACE for one that is given twice: nothing has
 *     changed.
 */
static inline uint32_t g1_refiner_resume(struct g1_refiner *refiner, struct g1_sweeper *sweepers,
                                         size_t sweepers_length) {
    if (!refiner->is_open) {
        return G1_NOT_OPEN;
    }
    pthread_mutex_lock(&refiner->lock);
    uint32_t code = refiner->is_paused ? g1_refiner_takes(refiner, sweepers, sweepers_length)
                                       : (uint32_t)G1_NOT_PAUSED;
    if (code == G1_DONE) {
        for (size_t i = 0; i < sweepers_length; i++) {
            refiner->threads[i].sweeper = sweepers[i];
            refiner->threads[i].is_running = 1;
            sweepers[i].sweeper = NULL;
        }
        refiner->running = sweepers_length;
        refiner->is_paused = 0;
        refiner->code = G1_DONE;
        pthread_cond_broadcast(&refiner->work);
    }
    pthread_mutex_unlock(&refiner->lock);
    return code;
}

/* Private: ends refinement, by a thread that has the lock. */
static inline void g1_refiner_stop(struct g1_refiner *refiner, enum g1_queued queued) {
    refiner->is_paused = 1;
    if (queued == G1_DROP_QUEUED) {
        refiner->dropped += refiner->length;
        refiner->length = 0;
    }
    pthread_cond_broadcast(&refiner->work);
    while (refiner->running > 0) {
        pthread_cond_wait(&refiner->stopped, &refiner->lock);
    }
    refiner->is_refining = 0;
}

/*
 * Ends refinement. The call waits until each thread has given its sweeper back, and opens the
 * closed handles `sweepers` on these, in the order in which the resume took them. Each thread first
 * ends the log that it has begun, and with G1_REFINE_QUEUED they refine the queued ones too. The
 * queue is empty afterwards. From the beginning of the call until the resume, logs that are handed
 * on are dropped, so the call waits for no mutator. Stop the mutators before it for more to be
 * refined.
 *
 * Returns:
 *   - G1_DONE.
 *   - G1_NOT_OPEN, G1_NOT_RACING if it is paused already, G1_BAD_HANDLES (not as many handles as it
 *     has threads) or G1_ALREADY_OPEN for a sweeper's handle: nothing has changed.
 *   - G1_NO_CARD: a log had cards of another heap. It is paused, and the sweepers are given back.
 *     The rest of that log was not refined.
 */
static inline uint32_t g1_refiner_pause(struct g1_refiner *refiner, enum g1_queued queued,
                                        struct g1_sweeper *sweepers, size_t sweepers_length) {
    if (!refiner->is_open) {
        return G1_NOT_OPEN;
    }
    pthread_mutex_lock(&refiner->lock);
    uint32_t code = refiner->is_paused ? (uint32_t)G1_NOT_RACING
                                       : g1_refiner_gives(refiner, sweepers, sweepers_length);
    if (code == G1_DONE) {
        g1_refiner_stop(refiner, queued);
        for (size_t i = 0; i < sweepers_length; i++) {
            sweepers[i] = refiner->threads[i].sweeper;
        }
        code = refiner->code;
    }
    pthread_mutex_unlock(&refiner->lock);
    return code;
}

/* Private: puts a log into the queue, or drops it, by a thread that has the lock. */
static inline void g1_refiner_put(struct g1_refiner *refiner, const struct g1_log *log) {
    if (refiner->is_paused || refiner->length == refiner->logs_length) {
        refiner->dropped++;
        return;
    }
    refiner->logs[(refiner->first + refiner->length++) % refiner->logs_length] = *log;
    refiner->queued++;
    if (refiner->length > refiner->longest) {
        refiner->longest = refiner->length;
    }
    if (refiner->is_refining) {
        pthread_cond_signal(&refiner->work);
    } else if (refiner->length >= refiner->start) {
        refiner->is_refining = 1;
        /* (one log needs one thread, and several that have waited are for all) */
        refiner->start == refiner->stop + 1 ? pthread_cond_signal(&refiner->work)
                                            : pthread_cond_broadcast(&refiner->work);
    }
}

/*
 * Takes a racer's log, full or not, and puts it into the queue. A mutator calls this before it ends
 * or blocks, so that its cards are refined before the pause.
 *
 * If the queue is full or the refiner is paused, the log is dropped. Each of its cards stays dirty
 * until it is refined, by the first drain at the pause at the latest. A mutator cannot refine, as
 * its handle is a racer's. And it does not wait for room: the threads that would make room may have
 * stopped, for a pause for which this mutator has to stop too. If pauses are too long and many logs
 * are dropped, lengthen the queue; if it stays long while mutators run, add sweepers.
 *
 * Returns G1_DONE, or G1_NOT_OPEN for the refiner or the racer: nothing has changed.
 */
static inline uint32_t g1_refiner_hand_on(struct g1_refiner *refiner, struct g1_racer *racer) {
    struct g1_log log;
    uint32_t code = refiner->is_open ? g1_race_take_log(racer, log.cards, G1_LOG, &log.count)
                                     : (uint32_t)G1_NOT_OPEN;
    if (code == G1_DONE && log.count > 0) {
        pthread_mutex_lock(&refiner->lock);
        g1_refiner_put(refiner, &log);
        pthread_mutex_unlock(&refiner->lock);
    }
    return code;
}

/*
 * Sets `counts` to what the refiner did since it was opened, and to what waits for it now. Any
 * thread may call this while the refiner is open, and not otherwise. It waits for the lock alone.
 */
static inline void g1_refiner_read(struct g1_refiner *refiner, struct g1_refiner_counts *counts) {
    pthread_mutex_lock(&refiner->lock);
    counts->queued = refiner->queued;
    counts->dropped = refiner->dropped;
    counts->refined = refiner->refined;
    counts->length = refiner->length;
    counts->longest = refiner->longest;
    pthread_mutex_unlock(&refiner->lock);
}

/* Private: after a store with this code, hands a full log on. Returns 1 to store once more. */
static inline int g1_refiner_makes_room(struct g1_refiner *refiner, struct g1_racer *racer,
                                        uint32_t *code) {
    if (*code != G1_LOG_FULL && *code != G1_FULL) {
        return 0;
    }
    *code = g1_refiner_hand_on(refiner, racer);
    return *code == G1_DONE;
}

/*
 * A mutator's stores. Each call below is the one of its name with `race` in place of `refiner`, and
 * if the racer's log is full, first g1_refiner_hand_on.
 *
 * Each returns what that call returns, but never G1_LOG_FULL or G1_FULL, and sets what that call
 * sets. If the log is full and the refiner is not open, it returns G1_NOT_OPEN, and nothing was
 * stored (by g1_refiner_store_all and g1_refiner_store_words: nothing more).
 */
static inline uint32_t g1_refiner_store(struct g1_refiner *refiner, struct g1_racer *racer,
                                        uint32_t slot, uint32_t target, uint32_t *kind) {
    uint32_t code;
    do {
        code = g1_race_store(racer, slot, target, kind);
    } while (g1_refiner_makes_room(refiner, racer, &code));
    return code;
}

static inline uint32_t g1_refiner_swap(struct g1_refiner *refiner, struct g1_racer *racer,
                                       uint32_t slot, uint32_t target, uint32_t *old,
                                       uint32_t *kind) {
    uint32_t code;
    do {
        code = g1_race_swap(racer, slot, target, old, kind);
    } while (g1_refiner_makes_room(refiner, racer, &code));
    return code;
}

G1_MUST_USE
static inline uint32_t g1_refiner_compare_exchange(struct g1_refiner *refiner,
                                                   struct g1_racer *racer, uint32_t slot,
                                                   uint32_t expected, uint32_t target,
                                                   uint32_t *found, uint32_t *kind) {
    uint32_t code;
    do {
        code = g1_race_compare_exchange(racer, slot, expected, target, found, kind);
    } while (g1_refiner_makes_room(refiner, racer, &code));
    return code;
}

static inline uint32_t g1_refiner_swap_word(struct g1_refiner *refiner, struct g1_racer *racer,
                                            uint32_t slot, uint64_t word, uint64_t *old,
                                            uint32_t *kind) {
    uint32_t code;
    do {
        code = g1_race_swap_word(racer, slot, word, old, kind);
    } while (g1_refiner_makes_room(refiner, racer, &code));
    return code;
}

G1_MUST_USE
static inline uint32_t g1_refiner_compare_exchange_word(struct g1_refiner *refiner,
                                                        struct g1_racer *racer, uint32_t slot,
                                                        uint64_t expected, uint64_t word,
                                                        uint64_t *found, uint32_t *kind) {
    uint32_t code;
    do {
        code = g1_race_compare_exchange_word(racer, slot, expected, word, found, kind);
    } while (g1_refiner_makes_room(refiner, racer, &code));
    return code;
}

/* (Rows: a full log is handed on and the call goes on behind the stores that were made.) */
static inline uint32_t g1_refiner_store_all(struct g1_refiner *refiner, struct g1_racer *racer,
                                            const struct g1_reference *stores,
                                            size_t stores_length, size_t *stored) {
    uint32_t code;
    size_t more;
    *stored = 0;
    do {
        code = g1_race_store_all(racer, stores + *stored, stores_length - *stored, &more);
        *stored += more;
    } while (g1_refiner_makes_room(refiner, racer, &code));
    return code;
}

static inline uint32_t g1_refiner_store_words(struct g1_refiner *refiner, struct g1_racer *racer,
                                              uint32_t slot, const uint64_t *words,
                                              size_t words_length, size_t *stored) {
    uint32_t code;
    size_t more;
    *stored = 0;
    do {
        code = g1_race_store_words(racer, slot + (uint32_t)*stored, words + *stored,
                                   words_length - *stored, &more);
        *stored += more;
    } while (g1_refiner_makes_room(refiner, racer, &code));
    return code;
}

#ifdef __cplusplus
}
#endif

#endif
