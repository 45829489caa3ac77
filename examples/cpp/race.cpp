// A concurrent heap in C++: what its owning handles do when they are moved, refused and closed.
#include <g1.hpp>

#include <array>
#include <cstddef>
#include <cstdint>
#include <cstring>
#include <iostream>
#include <thread>
#include <type_traits>
#include <vector>

#include <sys/wait.h>
#include <unistd.h>

using garbage_first::ConcurrentHeap;
using garbage_first::Core;
using garbage_first::Racer;
using garbage_first::Refiner;
using garbage_first::Sweeper;

template <typename Owner>
constexpr bool is_moved_alone = std::is_nothrow_move_constructible_v<Owner> &&
                                std::is_nothrow_move_assignable_v<Owner> &&
                                !std::is_copy_constructible_v<Owner> &&
                                !std::is_copy_assignable_v<Owner>;
static_assert(is_moved_alone<Core> && is_moved_alone<ConcurrentHeap>);
static_assert(is_moved_alone<Racer> && is_moved_alone<Sweeper> && is_moved_alone<Refiner>);
static_assert(!std::is_assignable_v<Racer &, Sweeper>);

constexpr g1_counts counts{4, 64, 1};
constexpr std::uint32_t all_cards = 256;

using Cards = std::array<std::uint32_t, all_cards>;

static unsigned passed, failed;

static void check(bool holds, const char *what) {
    holds ? passed++ : failed++;
    if (!holds) {
        std::cout << "-- " << what << '\n';
    }
}

// A core by itself: what is moved away is closed, and what is closed may be opened again.
static void cores() {
    Core heap;
    bool pending = true;
    check(heap.is_pending(0, pending) == G1_NOT_OPEN && !pending, "a closed handle");
    check(heap.open(counts, 4, 16) == G1_DONE, "open");
    check(heap.open(counts, 4, 16) == G1_ALREADY_OPEN, "open again");
    g1_kind kind = G1_STORED_NULL;
    check(heap.store(0, 64, kind) == G1_DONE && kind == G1_STORED_LOGGED, "a store across regions");
    Core other(std::move(heap));
    check(heap.store(0, 64, kind) == G1_NOT_OPEN && kind == G1_STORED_NULL, "a moved handle");
    check(other.is_pending(0, pending) == G1_DONE && pending, "its card is pending elsewhere");
    check(other.is_pending(1, pending) == G1_DONE && !pending, "a clean card");
    check(other.is_pending(all_cards, pending) == G1_NO_CARD && !pending, "no card of the heap");
    heap = std::move(other);
    Core &same = heap;
    heap = std::move(same);
    std::uint32_t target = 0, count = 0, detail = 0;
    check(heap.target(0, target) == G1_DONE && target == 64, "what a slot refers to");
    check(heap.clear(1, detail) == G1_STILL_PENDING && detail == 1, "a clear before the drain");
    std::vector<std::uint32_t> none, logged{0}, one(1), all(all_cards);
    const std::vector<g1_reference> no_stores;
    check(garbage_first::internal::elements(none) != nullptr, "the elements of an empty array");
    check(garbage_first::internal::elements(all) == all.data(), "the elements of an array");
    g1_batch batch;
    g1_tally tally;
    g1_totals totals;
    check(heap.store_all(no_stores, none, batch) == G1_DONE && batch.stored == 0, "no stores");
    check(heap.store_all(nullptr, 0, nullptr, 0, batch) == G1_DONE, "none by pointer and length");
    const g1_reference same_store{0, 64};
    check(heap.store_all(&same_store, 1, one.data(), 1, batch) == G1_DONE && batch.stored == 1,
          "a store by pointer and length");
    check(heap.refine(logged, none, tally) == G1_NO_ROOM, "an empty array");
    check(heap.refine(logged, one, tally) == G1_DONE && one[0] == 0, "a refinement");
    check(heap.members(1, one, count) == G1_DONE && count == 1, "the members of a set");
    check(heap.status(totals) == G1_DONE && totals.recorded == 1, "one pair is recorded");
    check(heap.redirect(1, 2, target, all, count) == G1_DONE && target == 1, "a redirect");
    check(heap.clear(1, detail) == G1_DONE, "a clear");
    check(heap.close() == G1_DONE && heap.close() == G1_NOT_OPEN, "a close");
    check(heap.open(counts, 4, 16) == G1_DONE, "open after a close");
    Core later;
    check(later.open(counts, 4, 16) == G1_DONE, "another heap");
    heap = std::move(later);
}

// Stores to each card from a thread of its own, and refines half of the cards in another.
static void run(std::vector<Racer> &racers, std::vector<Sweeper> &sweepers) {
    Cards cards{};
    std::uint32_t count = 0, logged = 0;
    std::thread([&, racer = std::move(racers[0])]() mutable {
        g1_kind kind = G1_STORED_NULL;
        for (std::uint32_t slot = 0; slot < all_cards; slot++) {
            check(racer.store(slot, (slot + 64) % all_cards, kind) == G1_DONE, "a store");
            logged += kind == G1_STORED_LOGGED;
        }
        check(racer.store(0, 64, kind) == G1_LOG_FULL, "a full log");
        check(racer.take_log(cards, count) == G1_DONE && count == G1_LOG, "its cards");
        std::uint64_t null = 7, same_region = 7, already_dirty = 7, newly_dirty = 7;
        check(racer.counts(null, same_region, already_dirty, newly_dirty) == G1_DONE, "counts");
        check(newly_dirty == all_cards && null + same_region + already_dirty == 0, "its stores");
        racers[0] = std::move(racer);
    }).join();
    check(logged == all_cards, "each store is logged");
    std::thread([&, sweeper = std::move(sweepers[1])]() mutable {
        for (std::uint32_t i = 0; i < count / 2; i++) {
            check(sweeper.refine(cards[i]) == G1_DONE, "a refinement");
        }
        std::uint64_t refined = 0, cleaned = 0, references = 0;
        check(sweeper.counts(refined, cleaned, references) == G1_DONE, "what a sweeper has done");
        check(refined == count / 2 && cleaned == refined && references == refined, "its counts");
        sweepers[1] = std::move(sweeper);
    }).join();
}

// A log goes through the queue of a refiner to sweepers that are owned here between two pauses.
static void refine(std::vector<Racer> &racers, std::vector<Sweeper> &sweepers) {
    Racer &racer = racers[1];
    Refiner refiner;
    std::vector<Sweeper> few(1), crowd(G1_SWEEPERS + 1);
    check(refiner.resume(sweepers) == G1_NOT_OPEN && refiner.close() == G1_NOT_OPEN, "none");
    check(refiner.hand_on(racer) == G1_NOT_OPEN && refiner.counts().queued == 0, "its counts");
    check(refiner.open(sweepers.size(), 2, 3) == G1_BAD_SETTINGS, "a start beyond its room");
    check(refiner.open(0) == G1_BAD_HANDLES, "no sweeper");
    check(refiner.open(sweepers.size(), 2, 1, 0) == G1_DONE && refiner.is_open(), "open");
    check(refiner.open(sweepers.size()) == G1_ALREADY_OPEN, "open again");
    check(refiner.pause(G1_DROP_QUEUED, few) == G1_NOT_RACING, "a pause before the resume");
    check(refiner.resume(crowd) == G1_BAD_HANDLES, "too many sweepers");
    check(refiner.resume(sweepers) == G1_DONE && !sweepers[0].is_open(), "a resume");
    g1_kind kind = G1_STORED_NULL;
    std::uint32_t old = 0;
    std::uint64_t word = 0;
    std::size_t stored = 0;
    check(refiner.store(racer, 0, 64, kind) == G1_DONE && kind == G1_STORED_LOGGED, "a store");
    check(refiner.swap(racer, 0, 65, old, kind) == G1_DONE && old == 64, "a swap");
    check(refiner.compare_exchange(racer, 0, 64, 1, old, kind) == G1_DIFFERS, "a difference");
    check(refiner.swap_word(racer, 0, 67, word, kind) == G1_DONE && word == 66, "a swap of words");
    check(refiner.compare_exchange_word(racer, 0, 67, 65, word, kind) == G1_DONE, "an exchange");
    const std::array<g1_reference, 1> stores{{{0, 64}}};
    check(refiner.store_all(racer, stores, stored) == G1_DONE && stored == 1, "one of one");
    check(refiner.hand_on(racer) == G1_DONE, "a log of one card");
    check(refiner.close() == G1_NOT_PAUSED, "a close before the pause");
    check(refiner.pause(G1_REFINE_QUEUED, few) == G1_BAD_HANDLES, "a short row");
    Refiner moved(std::move(refiner));
    check(moved.pause(G1_REFINE_QUEUED, sweepers) == G1_DONE && sweepers[1].is_open(), "a pause");
    check(moved.counts().refined == 1 && refiner.counts().refined == 0, "its card is refined");
    refiner = std::move(moved);
    check(refiner.close() == G1_DONE && !refiner.is_open(), "a close");
}

// A refiner that ends while it refines joins its threads, and keeps their sweepers.
static void ends() {
    std::vector<Racer> racers(1);
    std::vector<Sweeper> sweepers(2);
    ConcurrentHeap heap;
    check(heap.open(counts, 1, 2) == G1_DONE && heap.resume(racers, sweepers) == G1_DONE, "open");
    {
        Refiner refiner, other;
        check(refiner.open(2) == G1_DONE && other.open(2) == G1_DONE, "two refiners");
        check(refiner.resume(sweepers) == G1_DONE, "one that refines");
        refiner = std::move(other);
        check(refiner.resume(sweepers) == G1_NOT_OPEN, "its sweepers are gone");
    }
    check(heap.pause(racers, sweepers) == G1_NOT_OPEN, "their heap cannot be paused");
    static g1_heap racing; // whose memory is never freed
    racing = heap.release();
    check(racing.heap != nullptr, "nor closed");
}

// A racer's stores that depend on what a slot had, or are several.
static void exchange(Racer &racer) {
    g1_kind kind = G1_STORED_NULL;
    std::uint32_t old = 0;
    std::size_t stored = 0;
    check(racer.swap(0, 65, old, kind) == G1_DONE && old == 64, "a swap");
    check(racer.compare_exchange(0, 64, 1, old, kind) == G1_DIFFERS && old == 65, "a difference");
    check(racer.compare_exchange(0, 65, 1, old, kind) == G1_DONE && old == 65, "an exchange");
    check(kind == G1_STORED_SAME_REGION, "its kind");
    const std::array<g1_reference, 3> stores{{{1, G1_NULL}, {0, 64}, {all_cards, 0}}};
    check(racer.store_all(stores, stored) == G1_STOPPED && stored == 2, "two stores of three");
    check(racer.store_all(stores.data(), 2, stored) == G1_DONE && stored == 2, "by length");
    std::uint64_t word = 7;
    check(racer.swap_word(1, G1_DATA, word, kind) == G1_DONE && word == 0, "a swap of words");
    check(racer.compare_exchange_word(1, 0, 1, word, kind) == G1_DIFFERS, "data is not null");
    check(racer.compare_exchange_word(1, word, 0, word, kind) == G1_DONE, "data is expected");
    check(word == G1_DATA && kind == G1_STORED_NULL, "its word and its kind");
}

// A pause, with each call of the collector's.
static void collect(ConcurrentHeap &heap) {
    Cards cards{};
    std::vector<std::uint32_t> one(1);
    std::uint32_t count = 0, moved = 0, detail = 0;
    std::size_t stored = 0;
    std::uint64_t word = 0;
    bool pending = false;
    g1_kind kind = G1_STORED_NULL;
    g1_totals totals;
    check(heap.status(totals) == G1_DONE && totals.pending == all_cards / 2, "dirty cards");
    check(heap.refine() == G1_DONE, "a refinement of all");
    check(heap.is_pending(1, pending) == G1_DONE && !pending, "a clean card");
    for (std::uint32_t region = 0; region < counts.regions; region++) {
        check(heap.drain(region, one, count) == G1_NO_ROOM && count == 64, "an array of one");
        check(heap.drain(region, cards, count) == G1_DONE && count == 64, "a drain");
        check(heap.members(region, cards, count) == G1_DONE && count == 64, "the members");
    }
    const std::array<std::uint32_t, 2> regions{0, 1};
    check(heap.next_into(regions, 0, detail) == G1_DONE && detail == 192, "a collection set");
    check(heap.free(regions, detail) == G1_STILL_REFERENCED && detail == 192, "no free of it");
    check(heap.next_dirty(0, detail) == G1_DONE && detail == G1_NULL, "no dirty card");
    const std::array<g1_reference, 2> stores{{{1, G1_NULL}, {all_cards, 0}}};
    check(heap.store_all(stores, stored) == G1_STOPPED && stored == 1, "one store of two");
    check(heap.store_all(stores.data(), 1, stored) == G1_DONE && stored == 1, "by length");
    check(heap.store_data(2, G1_DATA - 1) == G1_BAD_WORD, "no data");
    check(heap.store_data(2, G1_DATA) == G1_DONE, "data");
    check(heap.copy(2, 1, 1) == G1_DONE && heap.copy(2, all_cards, 1) == G1_NO_SLOT, "a copy");
    check(heap.word(1, word) == G1_DONE && word == G1_DATA, "its word");
    check(heap.redirect(1, 2, moved) == G1_DONE && moved == 62, "a redirect");
    check(heap.target(3, detail) == G1_DONE && detail == 131, "a reference that was moved");
    check(heap.clear(1, detail) == G1_DONE, "a clear");
    check(heap.wipe(0) == G1_DONE && heap.forget(0) == G1_DONE, "a region that is freed");
    check(heap.free(std::array<std::uint32_t, 1>{1}, detail) == G1_DONE, "and another one");
    check(heap.store(0, 64, kind) == G1_DONE && kind == G1_STORED_LOGGED, "a store");
    check(heap.verify(0, all_cards, one, detail, moved) == G1_DONE, "a check");
    check(detail == 0 && moved == G1_NULL, "slot 0 refers to no slot 1");
}

static void races() {
    std::vector<Racer> racers(2), many(G1_RACERS + 1), none;
    std::vector<Sweeper> sweepers(2), crowd(G1_SWEEPERS + 1);
    ConcurrentHeap heap;
    check(heap.resume(racers, sweepers) == G1_NOT_OPEN, "a closed heap");
    check(heap.open(counts, 0, 2) == G1_BAD_HANDLES, "no racer");
    check(heap.open(counts, 2, 2) == G1_DONE, "open");
    check(heap.resume(many, sweepers) == G1_BAD_HANDLES, "too many racers");
    check(heap.resume(none, sweepers) == G1_BAD_HANDLES, "no racer");
    check(heap.resume(racers, sweepers) == G1_DONE, "resume");
    run(racers, sweepers);
    refine(racers, sweepers);
    check(heap.close() == G1_NOT_PAUSED, "a close while it races");
    check(heap.pause(racers, crowd) == G1_BAD_HANDLES, "too many sweepers");
    check(heap.pause(racers, sweepers) == G1_DONE, "pause");
    g1_kind kind = G1_STORED_NULL;
    check(racers[0].store(0, 1, kind) == G1_NOT_OPEN, "a racer at a pause");
    collect(heap);
    check(heap.resume(racers, sweepers) == G1_DONE, "resume again");
    exchange(racers[1]);
    std::uint64_t old = 0;
    check(racers[1].store_data(0, G1_DATA, old) == G1_DONE && old == 65, "data over a reference");
    const std::uint64_t *words = nullptr;
    check(heap.words(words) == G1_DONE && words[0] == G1_DATA, "the word of a slot");
    ConcurrentHeap moved(std::move(heap));
    check(heap.pause(racers, sweepers) == G1_NOT_OPEN, "a heap that was moved away");
    check(moved.pause(racers, sweepers) == G1_DONE, "its pause");
}

// Whether a process that does so ends by std::terminate.
template <typename Work> static bool terminates(Work work) {
    constexpr int status = 77;
    pid_t process = fork();
    if (process == 0) {
        std::set_terminate([] { _exit(status); });
        work();
        _exit(0);
    }
    int ended = 0;
    return waitpid(process, &ended, 0) == process && WIFEXITED(ended) &&
           WEXITSTATUS(ended) == status;
}

// An open racer is not lost where another one is moved into its place, nor a heap that races. A
// closed one is free for that.
static void assignments() {
    std::vector<Racer> racers(2);
    std::vector<Sweeper> sweepers(2);
    ConcurrentHeap heap, other;
    check(heap.open(counts, 2, 2) == G1_DONE && other.open(counts, 1, 1) == G1_DONE, "open");
    check(heap.resume(racers, sweepers) == G1_DONE, "resume");
    check(terminates([&] { racers[0] = std::move(racers[1]); }), "a racer over an open one");
    check(terminates([&] { sweepers[0] = Sweeper(); }), "a closed sweeper over an open one");
    check(terminates([&] { heap = std::move(other); }), "a heap over one that races");
    Racer &same = racers[0];
    racers[0] = std::move(same);
    check(racers[0].is_open() && racers[1].is_open() && other.is_open(), "all are open");
    Racer local(std::move(racers[0]));
    check(local.is_open() && !racers[0].is_open(), "a racer that was moved away");
    racers[0] = std::move(local);
    check(heap.pause(racers, sweepers) == G1_DONE, "a pause with each of them");
    heap = std::move(other);
    check(heap.is_open() && !other.is_open(), "a heap over one at a pause");
}

int main() {
    check(std::strcmp(garbage_first::version(), G1_VERSION) == 0, "the version of the header");
    assignments();
    cores();
    races();
    ends();
    std::cout << passed << " passed, " << failed << " failed\n";
    return failed != 0;
}
