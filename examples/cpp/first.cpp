// Stores three references into region 1 at once, and asks at a pause which cards to scan.
#include <g1.hpp>

#include <array>
#include <cstdint>
#include <iostream>

using Cards = std::array<std::uint32_t, 8>;

constexpr g1_counts counts{4, 2, 4};

int main() {
    garbage_first::Core core;
    g1_code code = core.open(counts, 4, 1024);
    if (code != G1_DONE) {
        std::cerr << g1_code_text(code) << '\n';
        return 1;
    }

    const std::array<g1_reference, 3> stores{{{0, 8}, {16, 9}, {24, 10}}};
    Cards logged, cards, refined;
    g1_batch batch;
    std::uint32_t count, refined_count;
    code = core.store_all(stores, logged, batch);
    if (code == G1_DONE) {
        code = core.drain(1, cards, count, refined, refined_count);
    }
    if (code != G1_DONE) {
        std::cerr << g1_code_text(code) << '\n';
        return 1;
    }
    for (std::uint32_t i = 0; i < count; i++) {
        std::cout << "scan card " << cards[i] << '\n';
    }
}
