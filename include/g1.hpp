// Owning handles over g1.h and g1_refiner.h, in C++17.
//
// Each method makes the one call that is named beside it, and its header says what the call does,
// what it relies on and what it returns. What is added here:
//   - A handle begins closed and can be moved, not copied. A core and a concurrent heap close
//     themselves at their end. A racer, a sweeper and a reader have no end of their own: they go
//     back into a pause.
//   - A code is a g1_code, a kind a g1_kind, and whether a card is pending a bool. The compiler
//     warns where a code is thrown away that has to be looked at. Nothing throws.
//   - An array is any container with std::data and std::size, of std::uint32_t (of g1_reference
//     for several stores), and may be empty. One that a call writes has its size before the call:
//     nothing here grows it. Several stores may also be given by pointer and length.
//
// The namespace has a name of its own because `g1` is a struct of g1.h.
#ifndef G1_HPP
#define G1_HPP

#include "g1.h"
#include "g1_refiner.h"

#include <cstddef>
#include <cstdint>
#include <exception>
#include <iterator>
#include <memory>
#include <new>
#include <type_traits>
#include <utility>

namespace garbage_first {

// g1_version
inline const char *version() noexcept { return g1_version(); }

// Private to this header.
namespace internal {

inline g1_code code(std::uint32_t word) noexcept {
    return static_cast<g1_code>(word);
}

// Where a call writes a word that stands for a kind, or for whether something is so.
template <typename Value> class Out {
public:
    explicit Out(Value &place) noexcept : value(place) {}
    Out(const Out &) = delete;
    Out &operator=(const Out &) = delete;
    ~Out() { value = static_cast<Value>(word); }

    operator std::uint32_t *() noexcept { return &word; }

private:
    Value &value;
    std::uint32_t word = 0;
};

// The elements of a container. Those of an empty one may be at null, which g1.h does not allow.
template <typename Container> auto elements(Container &container) noexcept {
    using Element = std::remove_pointer_t<decltype(std::data(container))>;
    static Element none{};
    return std::size(container) == 0 ? &none : std::data(container);
}

// Elements by pointer and length. If there are none, the pointer may be null.
template <typename Element> class Elements {
public:
    Elements(Element *first, std::size_t length) noexcept : start(first), count(length) {}
    Element *data() const noexcept { return start; }
    std::size_t size() const noexcept { return count; }

private:
    Element *start;
    std::size_t count;
};

inline bool is_open(const g1 &handle) noexcept { return handle.core != nullptr; }
inline bool is_open(const g1_heap &handle) noexcept { return handle.heap != nullptr; }
inline bool is_open(const g1_racer &handle) noexcept { return handle.racer != nullptr; }
inline bool is_open(const g1_sweeper &handle) noexcept { return handle.sweeper != nullptr; }
inline bool is_open(const g1_reader &handle) noexcept { return handle.reader != nullptr; }

} // namespace internal

// A handle of g1.h that is moved and never copied. What it is moved away from is a closed handle.
template <typename Handle> class Moved {
public:
    Moved() noexcept = default;
    Moved(Moved &&other) noexcept : handle(other.release()) {}

    // Whether the handle is open.
    bool is_open() const noexcept { return internal::is_open(handle); }

    // Gives the handle up to the caller, and leaves a closed one.
    Handle release() noexcept { return std::exchange(handle, Handle{}); }

    // The handle for a call of g1.h, while it stays here.
    Handle *get() noexcept { return &handle; }

protected:
    ~Moved() = default;

    void replace(Handle other) noexcept { handle = other; }

private:
    Handle handle{};
};

// A handle of g1.h with its owner, which closes it.
template <typename Handle, std::uint32_t (*close_handle)(Handle *)>
class Owned : public Moved<Handle> {
public:
    Owned() noexcept = default;
    Owned(Owned &&) noexcept = default;
    ~Owned() { close(); }

    Owned &operator=(Owned &&other) noexcept {
        reset(other.release());
        return *this;
    }

    // Closes the handle, if it is open.
    g1_code close() noexcept { return internal::code(close_handle(this->get())); }

    // Closes the handle, if it is open, and owns another in its place. A concurrent heap
    // that races or that readers read cannot be closed: then the program ends by std::terminate.
    void reset(Handle other) noexcept {
        if (this->is_open() && close() != G1_DONE) {
            std::terminate();
        }
        this->replace(other);
    }
};

// A racer, sweeper or reader: its heap can be paused, or the reading ended, only with all of them.
// If another is moved into the place of an open one, the program ends by std::terminate, as with a
// std::thread that runs. If an open one is destroyed, its heap cannot be paused any more.
template <typename Handle> class Lent : public Moved<Handle> {
public:
    Lent() noexcept = default;
    Lent(Lent &&) noexcept = default;

    Lent &operator=(Lent &&other) noexcept {
        if (this != &other) {
            reset(other.release());
        }
        return *this;
    }

    // Has another handle in the place of this one, which is closed.
    void reset(Handle other) noexcept {
        if (this->is_open()) {
            std::terminate();
        }
        this->replace(other);
    }

protected:
    ~Lent() = default;
};

// A core.
class Core : public Owned<g1, g1_close> {
public:
    // g1_open
    [[nodiscard]] g1_code open(const g1_counts &counts, std::uint32_t hot,
                               std::uint32_t ring) noexcept {
        return internal::code(g1_open(get(), &counts, hot, ring));
    }

    // g1_store
    g1_code store(std::uint32_t slot, std::uint32_t target, g1_kind &kind) noexcept {
        return internal::code(g1_store(get(), slot, target, internal::Out(kind)));
    }

    // g1_store_all
    template <typename Stores, typename Cards>
    g1_code store_all(const Stores &stores, Cards &cards, g1_batch &batch) noexcept {
        return internal::code(g1_store_all(get(), internal::elements(stores), std::size(stores),
                                         internal::elements(cards), std::size(cards), &batch));
    }

    // g1_store_all
    g1_code store_all(const g1_reference *stores, std::size_t stores_length, std::uint32_t *cards,
                      std::size_t cards_length, g1_batch &batch) noexcept {
        internal::Elements room(cards, cards_length);
        return store_all(internal::Elements(stores, stores_length), room, batch);
    }

    // g1_refine
    template <typename Cards, typename Refined>
    [[nodiscard]] g1_code refine(const Cards &cards, Refined &refined, g1_tally &tally) noexcept {
        return internal::code(g1_refine(get(), internal::elements(cards), std::size(cards),
                                      internal::elements(refined), std::size(refined), &tally));
    }

    // g1_drain
    template <typename Cards, typename Refined>
    [[nodiscard]] g1_code drain(std::uint32_t region, Cards &cards, std::uint32_t &count,
                                Refined &refined, std::uint32_t &refined_count) noexcept {
        return internal::code(g1_drain(get(), region, internal::elements(cards), std::size(cards),
                                     &count, internal::elements(refined), std::size(refined),
                                     &refined_count));
    }

    // g1_target
    g1_code target(std::uint32_t slot, std::uint32_t &target) noexcept {
        return internal::code(g1_target(get(), slot, &target));
    }

    // g1_is_pending
    g1_code is_pending(std::uint32_t card, bool &pending) noexcept {
        return internal::code(g1_is_pending(get(), card, internal::Out(pending)));
    }

    // g1_status
    g1_code status(g1_totals &totals) noexcept { return internal::code(g1_status(get(), &totals)); }

    // g1_members
    template <typename Cards>
    [[nodiscard]] g1_code members(std::uint32_t region, Cards &cards,
                                  std::uint32_t &count) noexcept {
        return internal::code(
            g1_members(get(), region, internal::elements(cards), std::size(cards), &count));
    }

    // g1_clear
    [[nodiscard]] g1_code clear(std::uint32_t region, std::uint32_t &detail) noexcept {
        return internal::code(g1_clear(get(), region, &detail));
    }

    // g1_redirect
    template <typename Refined>
    [[nodiscard]] g1_code redirect(std::uint32_t from, std::uint32_t to, std::uint32_t &moved,
                                   Refined &refined, std::uint32_t &refined_count) noexcept {
        return internal::code(g1_redirect(get(), from, to, &moved, internal::elements(refined),
                                        std::size(refined), &refined_count));
    }

    // g1_copy
    g1_code copy(std::uint32_t from, std::uint32_t to, std::uint32_t count) noexcept {
        return internal::code(g1_copy(get(), from, to, count));
    }

    // g1_verify
    template <typename References>
    g1_code verify(std::uint32_t first, std::uint32_t count, const References &references,
                   std::uint32_t &differing, std::uint32_t &missing) noexcept {
        return internal::code(g1_verify(get(), first, count, internal::elements(references),
                                        std::size(references), &differing, &missing));
    }
};

// A racer, by which a mutator stores. The thread moves it into a local, and back before a pause.
class Racer : public Lent<g1_racer> {
public:
    // g1_race_store
    [[nodiscard]] g1_code store(std::uint32_t slot, std::uint32_t target, g1_kind &kind) noexcept {
        return internal::code(g1_race_store(get(), slot, target, internal::Out(kind)));
    }

    // g1_race_swap
    [[nodiscard]] g1_code swap(std::uint32_t slot, std::uint32_t target, std::uint32_t &old,
                               g1_kind &kind) noexcept {
        return internal::code(g1_race_swap(get(), slot, target, &old, internal::Out(kind)));
    }

    // g1_race_compare_exchange
    [[nodiscard]] g1_code compare_exchange(std::uint32_t slot, std::uint32_t expected,
                                           std::uint32_t target, std::uint32_t &found,
                                           g1_kind &kind) noexcept {
        return internal::code(g1_race_compare_exchange(get(), slot, expected, target, &found,
                                                       internal::Out(kind)));
    }

    // g1_race_store_all
    template <typename Stores>
    [[nodiscard]] g1_code store_all(const Stores &stores, std::size_t &stored) noexcept {
        return internal::code(
            g1_race_store_all(get(), internal::elements(stores), std::size(stores), &stored));
    }

    // g1_race_store_all
    [[nodiscard]] g1_code store_all(const g1_reference *stores, std::size_t stores_length,
                                    std::size_t &stored) noexcept {
        return store_all(internal::Elements(stores, stores_length), stored);
    }

    // g1_race_store_words
    template <typename Words>
    [[nodiscard]] g1_code store_words(std::uint32_t slot, const Words &words,
                                      std::size_t &stored) noexcept {
        return internal::code(g1_race_store_words(get(), slot, internal::elements(words),
                                                  std::size(words), &stored));
    }

    // g1_race_store_words
    [[nodiscard]] g1_code store_words(std::uint32_t slot, const std::uint64_t *words,
                                      std::size_t words_length, std::size_t &stored) noexcept {
        return store_words(slot, internal::Elements(words, words_length), stored);
    }

    // g1_race_store_data
    g1_code store_data(std::uint32_t slot, std::uint64_t word, std::uint64_t &old) noexcept {
        return internal::code(g1_race_store_data(get(), slot, word, &old));
    }

    // g1_race_swap_word
    [[nodiscard]] g1_code swap_word(std::uint32_t slot, std::uint64_t word, std::uint64_t &old,
                                    g1_kind &kind) noexcept {
        return internal::code(g1_race_swap_word(get(), slot, word, &old, internal::Out(kind)));
    }

    // g1_race_compare_exchange_word
    [[nodiscard]] g1_code compare_exchange_word(std::uint32_t slot, std::uint64_t expected,
                                                std::uint64_t word, std::uint64_t &found,
                                                g1_kind &kind) noexcept {
        return internal::code(g1_race_compare_exchange_word(get(), slot, expected, word, &found,
                                                            internal::Out(kind)));
    }

    // g1_race_take_log
    template <typename Cards> g1_code take_log(Cards &cards, std::uint32_t &count) noexcept {
        return internal::code(
            g1_race_take_log(get(), internal::elements(cards), std::size(cards), &count));
    }

    // g1_racer_counts
    g1_code counts(std::uint64_t &null, std::uint64_t &same_region, std::uint64_t &already_dirty,
                   std::uint64_t &logged) noexcept {
        return internal::code(
            g1_racer_counts(get(), &null, &same_region, &already_dirty, &logged));
    }
};

// A sweeper, by which a refinement thread refines. The thread moves it into a local, and back
// before a pause.
class Sweeper : public Lent<g1_sweeper> {
public:
    // g1_race_refine
    g1_code refine(std::uint32_t card) noexcept {
        return internal::code(g1_race_refine(get(), card));
    }

    // g1_sweeper_counts
    g1_code counts(std::uint64_t &refined, std::uint64_t &cleaned,
                   std::uint64_t &references) noexcept {
        return internal::code(g1_sweeper_counts(get(), &refined, &cleaned, &references));
    }
};

// A reader, by which a thread reads a pause. The thread moves it into a local, and back before the
// reading ends. If an open one is destroyed, the reading cannot end any more.
class Reader : public Lent<g1_reader> {
public:
    // g1_reader_target
    g1_code target(std::uint32_t slot, std::uint32_t &target) noexcept {
        return internal::code(g1_reader_target(get(), slot, &target));
    }

    // g1_reader_word
    g1_code word(std::uint32_t slot, std::uint64_t &word) noexcept {
        return internal::code(g1_reader_word(get(), slot, &word));
    }

    // g1_reader_is_pending
    g1_code is_pending(std::uint32_t card, bool &pending) noexcept {
        return internal::code(g1_reader_is_pending(get(), card, internal::Out(pending)));
    }

    // g1_reader_has
    g1_code has(std::uint32_t card, std::uint32_t region, bool &has) noexcept {
        return internal::code(g1_reader_has(get(), card, region, internal::Out(has)));
    }

    // g1_reader_next_member
    g1_code next_member(std::uint32_t region, std::uint32_t from, std::uint32_t &card) noexcept {
        return internal::code(g1_reader_next_member(get(), region, from, &card));
    }
};

// The handles of a container of racers, sweepers or readers in an array, as g1.h (and g1_refiner.h)
// takes them. They are in the array from its beginning on, and at its end their owners' again.
// If the container has more of them than `most`, none is in the array.
template <typename Owners, typename Handle, std::size_t most> class Row {
public:
    explicit Row(Owners &all) noexcept : owners(all) {
        if (fits()) {
            Handle *handle = handles;
            for (auto &owner : owners) {
                *handle++ = owner.release();
            }
        }
    }

    Row(const Row &) = delete;
    Row &operator=(const Row &) = delete;

    ~Row() {
        if (fits()) {
            const Handle *handle = handles;
            for (auto &owner : owners) {
                owner.reset(*handle++);
            }
        }
    }

    bool fits() const noexcept { return std::size(owners) <= most; }
    std::size_t size() const noexcept { return std::size(owners); }
    Handle *data() noexcept { return handles; }

private:
    Owners &owners;
    Handle handles[most]{};
};

template <typename Racers> using RacerRow = Row<Racers, g1_racer, G1_RACERS>;
template <typename Sweepers> using SweeperRow = Row<Sweepers, g1_sweeper, G1_SWEEPERS>;
template <typename Readers> using ReaderRow = Row<Readers, g1_reader, G1_RACERS + G1_SWEEPERS>;

namespace internal {

// Makes a call that takes all racers and sweepers, or refuses more than an array here holds.
template <typename Racers, typename Sweepers, typename Call>
g1_code with_rows(Racers &racers, Sweepers &sweepers, Call call) noexcept {
    RacerRow<Racers> racing(racers);
    SweeperRow<Sweepers> sweeping(sweepers);
    if (!racing.fits() || !sweeping.fits()) {
        return G1_BAD_HANDLES;
    }
    return code(call(racing.data(), racing.size(), sweeping.data(), sweeping.size()));
}

} // namespace internal

// A concurrent heap. If it is destroyed while it races or readers read it, its memory is not freed.
class ConcurrentHeap : public Owned<g1_heap, g1_heap_close> {
public:
    // g1_heap_open
    [[nodiscard]] g1_code open(const g1_counts &counts, std::uint32_t racers,
                               std::uint32_t sweepers) noexcept {
        return internal::code(g1_heap_open(get(), &counts, racers, sweepers));
    }

    // g1_heap_resume
    template <typename Racers, typename Sweepers>
    [[nodiscard]] g1_code resume(Racers &racers, Sweepers &sweepers) noexcept {
        return internal::with_rows(racers, sweepers, [this](auto... rows) noexcept {
            return g1_heap_resume(get(), rows...);
        });
    }

    // g1_heap_pause
    template <typename Racers, typename Sweepers>
    [[nodiscard]] g1_code pause(Racers &racers, Sweepers &sweepers) noexcept {
        return internal::with_rows(racers, sweepers, [this](auto... rows) noexcept {
            return g1_heap_pause(get(), rows...);
        });
    }

    // g1_heap_read
    template <typename Readers> [[nodiscard]] g1_code read(Readers &readers) noexcept {
        ReaderRow<Readers> reading(readers);
        if (!reading.fits()) {
            return G1_BAD_HANDLES;
        }
        return internal::code(g1_heap_read(get(), reading.data(), reading.size()));
    }

    // g1_heap_read_end
    template <typename Readers> [[nodiscard]] g1_code read_end(Readers &readers) noexcept {
        ReaderRow<Readers> reading(readers);
        if (!reading.fits()) {
            return G1_BAD_HANDLES;
        }
        return internal::code(g1_heap_read_end(get(), reading.data(), reading.size()));
    }

    // g1_heap_words
    g1_code words(const std::uint64_t *&words) noexcept {
        return internal::code(g1_heap_words(get(), &words));
    }

    // g1_heap_target
    g1_code target(std::uint32_t slot, std::uint32_t &target) noexcept {
        return internal::code(g1_heap_target(get(), slot, &target));
    }

    // g1_heap_word
    g1_code word(std::uint32_t slot, std::uint64_t &word) noexcept {
        return internal::code(g1_heap_word(get(), slot, &word));
    }

    // g1_heap_is_pending
    g1_code is_pending(std::uint32_t card, bool &pending) noexcept {
        return internal::code(g1_heap_is_pending(get(), card, internal::Out(pending)));
    }

    // g1_heap_status
    g1_code status(g1_totals &totals) noexcept {
        return internal::code(g1_heap_status(get(), &totals));
    }

    // g1_heap_members
    template <typename Cards>
    [[nodiscard]] g1_code members(std::uint32_t region, Cards &cards,
                                  std::uint32_t &count) noexcept {
        return internal::code(
            g1_heap_members(get(), region, internal::elements(cards), std::size(cards), &count));
    }

    // g1_heap_next_member
    g1_code next_member(std::uint32_t region, std::uint32_t from, std::uint32_t &card) noexcept {
        return internal::code(g1_heap_next_member(get(), region, from, &card));
    }

    // g1_heap_next_into
    template <typename Regions>
    g1_code next_into(const Regions &regions, std::uint32_t from, std::uint32_t &card) noexcept {
        return internal::code(g1_heap_next_into(get(), internal::elements(regions),
                                                std::size(regions), from, &card));
    }

    // g1_heap_next_dirty
    g1_code next_dirty(std::uint32_t from, std::uint32_t &card) noexcept {
        return internal::code(g1_heap_next_dirty(get(), from, &card));
    }

    // g1_heap_refine
    g1_code refine() noexcept { return internal::code(g1_heap_refine(get())); }

    // g1_heap_drain
    template <typename Cards>
    [[nodiscard]] g1_code drain(std::uint32_t region, Cards &cards, std::uint32_t &count) noexcept {
        return internal::code(
            g1_heap_drain(get(), region, internal::elements(cards), std::size(cards), &count));
    }

    // g1_heap_store
    g1_code store(std::uint32_t slot, std::uint32_t target, g1_kind &kind) noexcept {
        return internal::code(g1_heap_store(get(), slot, target, internal::Out(kind)));
    }

    // g1_heap_store_all
    template <typename Stores>
    g1_code store_all(const Stores &stores, std::size_t &stored) noexcept {
        return internal::code(
            g1_heap_store_all(get(), internal::elements(stores), std::size(stores), &stored));
    }

    // g1_heap_store_all
    g1_code store_all(const g1_reference *stores, std::size_t stores_length,
                      std::size_t &stored) noexcept {
        return store_all(internal::Elements(stores, stores_length), stored);
    }

    // g1_heap_store_words
    template <typename Words>
    g1_code store_words(std::uint32_t slot, const Words &words) noexcept {
        return internal::code(
            g1_heap_store_words(get(), slot, internal::elements(words), std::size(words)));
    }

    // g1_heap_store_words
    g1_code store_words(std::uint32_t slot, const std::uint64_t *words,
                        std::size_t words_length) noexcept {
        return store_words(slot, internal::Elements(words, words_length));
    }

    // g1_heap_store_data
    g1_code store_data(std::uint32_t slot, std::uint64_t word) noexcept {
        return internal::code(g1_heap_store_data(get(), slot, word));
    }

    // g1_heap_copy
    g1_code copy(std::uint32_t from, std::uint32_t to, std::uint32_t count) noexcept {
        return internal::code(g1_heap_copy(get(), from, to, count));
    }

    // g1_heap_clear
    [[nodiscard]] g1_code clear(std::uint32_t region, std::uint32_t &detail) noexcept {
        return internal::code(g1_heap_clear(get(), region, &detail));
    }

    // g1_heap_free
    template <typename Regions>
    [[nodiscard]] g1_code free(const Regions &regions, std::uint32_t &detail) noexcept {
        return internal::code(
            g1_heap_free(get(), internal::elements(regions), std::size(regions), &detail));
    }

    // g1_heap_redirect
    g1_code redirect(std::uint32_t from, std::uint32_t to, std::uint32_t &moved) noexcept {
        return internal::code(g1_heap_redirect(get(), from, to, &moved));
    }

    // g1_heap_wipe
    g1_code wipe(std::uint32_t region) noexcept {
        return internal::code(g1_heap_wipe(get(), region));
    }

    // g1_heap_forget
    [[nodiscard]] g1_code forget(std::uint32_t region) noexcept {
        return internal::code(g1_heap_forget(get(), region));
    }

    // g1_heap_verify
    template <typename References>
    g1_code verify(std::uint32_t first, std::uint32_t count, const References &references,
                   std::uint32_t &differing, std::uint32_t &missing) noexcept {
        return internal::code(g1_heap_verify(get(), first, count, internal::elements(references),
                                             std::size(references), &differing, &missing));
    }
};

// Refinement threads with their queue, which has an array of its own. If a refiner is destroyed, or
// another is moved into its place, while it refines, its threads end and their sweepers never come
// back: the heap of these cannot be paused any more.
class Refiner {
public:
    Refiner() noexcept = default;
    Refiner(Refiner &&) noexcept = default;
    ~Refiner() { end(); }

    Refiner &operator=(Refiner &&other) noexcept {
        if (this != &other) {
            end();
            state = std::move(other.state);
        }
        return *this;
    }

    bool is_open() const noexcept { return state != nullptr; }

    // g1_refiner_open. The array of the queue is taken here, and G1_NO_MEMORY says too that it was
    // refused.
    [[nodiscard]] g1_code open(std::size_t sweepers, std::size_t logs = G1_REFINER_LOGS,
                               std::size_t start = G1_REFINER_START,
                               std::size_t stop = G1_REFINER_STOP) noexcept {
        if (is_open()) {
            return G1_ALREADY_OPEN;
        }
        std::unique_ptr<State> made(new (std::nothrow) State{});
        if (made != nullptr) {
            made->logs.reset(new (std::nothrow) g1_log[logs]);
            made->sweepers = sweepers;
        }
        if (made == nullptr || made->logs == nullptr) {
            return G1_NO_MEMORY;
        }
        g1_code code = internal::code(
            g1_refiner_open(&made->refiner, made->logs.get(), logs, sweepers, start, stop));
        if (code == G1_DONE) {
            state = std::move(made);
        }
        return code;
    }

    // g1_refiner_close
    g1_code close() noexcept {
        g1_code code = internal::code(g1_refiner_close(get()));
        if (code == G1_DONE) {
            state.reset();
        }
        return code;
    }

    // g1_refiner_resume
    template <typename Sweepers> [[nodiscard]] g1_code resume(Sweepers &sweepers) noexcept {
        SweeperRow<Sweepers> row(sweepers);
        return row.fits() ? internal::code(g1_refiner_resume(get(), row.data(), row.size()))
                          : G1_BAD_HANDLES;
    }

    // g1_refiner_pause
    template <typename Sweepers>
    [[nodiscard]] g1_code pause(g1_queued queued, Sweepers &sweepers) noexcept {
        SweeperRow<Sweepers> row(sweepers);
        return row.fits() ? internal::code(g1_refiner_pause(get(), queued, row.data(), row.size()))
                          : G1_BAD_HANDLES;
    }

    // g1_refiner_hand_on
    g1_code hand_on(Racer &racer) noexcept {
        return internal::code(g1_refiner_hand_on(get(), racer.get()));
    }

    // g1_refiner_read, or zeros for a closed refiner
    g1_refiner_counts counts() noexcept {
        g1_refiner_counts counts{};
        if (is_open()) {
            g1_refiner_read(get(), &counts);
        }
        return counts;
    }

    // g1_refiner_store
    g1_code store(Racer &racer, std::uint32_t slot, std::uint32_t target, g1_kind &kind) noexcept {
        return internal::code(
            g1_refiner_store(get(), racer.get(), slot, target, internal::Out(kind)));
    }

    // g1_refiner_swap
    g1_code swap(Racer &racer, std::uint32_t slot, std::uint32_t target, std::uint32_t &old,
                 g1_kind &kind) noexcept {
        return internal::code(
            g1_refiner_swap(get(), racer.get(), slot, target, &old, internal::Out(kind)));
    }

    // g1_refiner_compare_exchange
    [[nodiscard]] g1_code compare_exchange(Racer &racer, std::uint32_t slot, std::uint32_t expected,
                                           std::uint32_t target, std::uint32_t &found,
                                           g1_kind &kind) noexcept {
        return internal::code(g1_refiner_compare_exchange(get(), racer.get(), slot, expected,
                                                          target, &found, internal::Out(kind)));
    }

    // g1_refiner_swap_word
    g1_code swap_word(Racer &racer, std::uint32_t slot, std::uint64_t word, std::uint64_t &old,
                      g1_kind &kind) noexcept {
        return internal::code(
            g1_refiner_swap_word(get(), racer.get(), slot, word, &old, internal::Out(kind)));
    }

    // g1_refiner_compare_exchange_word
    [[nodiscard]] g1_code compare_exchange_word(Racer &racer, std::uint32_t slot,
                                                std::uint64_t expected, std::uint64_t word,
                                                std::uint64_t &found, g1_kind &kind) noexcept {
        return internal::code(g1_refiner_compare_exchange_word(
            get(), racer.get(), slot, expected, word, &found, internal::Out(kind)));
    }

    // g1_refiner_store_all
    template <typename Stores>
    g1_code store_all(Racer &racer, const Stores &stores, std::size_t &stored) noexcept {
        return internal::code(g1_refiner_store_all(
            get(), racer.get(), internal::elements(stores), std::size(stores), &stored));
    }

    // g1_refiner_store_words
    template <typename Words>
    g1_code store_words(Racer &racer, std::uint32_t slot, const Words &words,
                        std::size_t &stored) noexcept {
        return internal::code(g1_refiner_store_words(get(), racer.get(), slot,
                                                     internal::elements(words), std::size(words),
                                                     &stored));
    }

private:
    // It stays at its place while it is open.
    struct State {
        g1_refiner refiner{};
        std::unique_ptr<g1_log[]> logs;
        std::size_t sweepers = 0;
    };

    g1_refiner *get() noexcept {
        static g1_refiner closed{};
        return is_open() ? &state->refiner : &closed;
    }

    void end() noexcept {
        if (is_open()) {
            g1_sweeper lost[G1_SWEEPERS]{};
            g1_refiner_pause(get(), G1_DROP_QUEUED, lost, state->sweepers); // if it is not paused
            close();
        }
    }

    std::unique_ptr<State> state;
};

} // namespace garbage_first

#endif
