// The proved stretch and loads beside std::mt19937, filling the same rows in one run. Each side makes its generator new
// every time.
#include "pairing.h"
#include "sides.hpp"

#include <algorithm>
#include <array>
#include <cstdint>
#include <cstdio>
#include <random>

namespace {

using Array = std::array<std::uint32_t, PAIRING_MOST_SEED_WORDS>;

// The rows of a load; a stretch has no message.
struct Rows {
    Row key, message;
};

// Rounds of which the fastest and the median count. Each round runs both sides once, so that a slow spell of the
// machine meets both.
const int rounds = 1000;

const double goal = 0.2;

Array array_of(std::uint32_t seed) {
    Array array;
    for (std::uint32_t &word : array)
        word = seed++;
    return array;
}

__attribute__((noinline)) void library_stretch(std::uint32_t w, std::uint32_t seed, Rows &rows) {
    accepted(pairing_stretch(w, seed, rows.key.data(), rows.key.size()));
}

__attribute__((noinline)) void library_load(std::uint32_t w, std::uint32_t seed, Rows &rows) {
    accepted(pairing_load(w, seed, rows.key.data(), rows.key.size(), rows.message.data(), rows.message.size()));
}

__attribute__((noinline)) void library_load_array(std::uint32_t w, std::uint32_t seed, Rows &rows) {
    const Array array = array_of(seed);
    accepted(pairing_load_array(w, array.data(), array.size(), rows.key.data(), rows.key.size(), rows.message.data(),
                                rows.message.size()));
}

// The published initialisation by array, as a seed sequence: std::mt19937 takes its state from one.
struct ByArray {
    using result_type = std::uint32_t;

    Array array;

    template <class Place> void generate(Place state, Place end) const {
        const std::uint32_t size = static_cast<std::uint32_t>(end - state);
        state[0] = 19650218;
        for (std::uint32_t i = 1; i < size; i++)
            state[i] = 1812433253 * mixed(state[i - 1]) + i;
        std::uint32_t i = 1;
        const auto set = [&](std::uint32_t word) {
            state[i] = word;
            if (++i == size) {
                state[0] = state[size - 1];
                i = 1;
            }
        };
        for (std::uint32_t step = 0; step < size; step++) {
            const std::uint32_t j = step % PAIRING_MOST_SEED_WORDS;
            set((state[i] ^ mixed(state[i - 1]) * 1664525) + array[j] + j);
        }
        for (std::uint32_t step = 1; step < size; step++)
            set((state[i] ^ mixed(state[i - 1]) * 1566083941) - i);
        state[0] = 0x80000000;
    }

    static std::uint32_t mixed(std::uint32_t word) { return word ^ word >> 30; }
};

void fill_rows(std::uint32_t w, std::mt19937 &generator, Rows &rows) {
    const std::uint32_t dropped = 32 - w;
    for (Row *row : {&rows.key, &rows.message})
        for (std::uint32_t &word : *row)
            word = static_cast<std::uint32_t>(generator()) >> dropped;
}

__attribute__((noinline)) void standard(std::uint32_t w, std::uint32_t seed, Rows &rows) {
    std::mt19937 generator(seed);
    fill_rows(w, generator, rows);
}

__attribute__((noinline)) void standard_array(std::uint32_t w, std::uint32_t seed, Rows &rows) {
    ByArray sequence{array_of(seed)};
    std::mt19937 generator(sequence);
    fill_rows(w, generator, rows);
}

using Side = void (*)(std::uint32_t w, std::uint32_t seed, Rows &rows);

void measure(Side library, Side standard, std::uint32_t w, Rows &rows) {
    Times of_library, of_standard;
    for (std::uint32_t seed = 1; seed <= static_cast<std::uint32_t>(rounds); seed++) {
        of_standard.add(1, [&] { standard(w, seed, rows); });
        const Rows due(rows);
        std::fill(rows.key.begin(), rows.key.end(), 0);
        std::fill(rows.message.begin(), rows.message.end(), 0);
        of_library.add(1, [&] { library(w, seed, rows); });
        if (rows.key != due.key || rows.message != due.message)
            stop("the rows differ\n");
    }
    const double ratio = of_library.fastest() / of_standard.fastest();
    const double of_medians = of_library.median() / of_standard.median();
    const double count = static_cast<double>(rows.key.size() + rows.message.size());
    std::printf("w %2u: library %.1f us (%.0f million words/s), std::mt19937 %.1f us\n", static_cast<unsigned>(w),
                of_library.fastest() / 1e3, 1e3 * count / of_library.fastest(), of_standard.fastest() / 1e3);
    std::printf("w %2u: library / std::mt19937 %.3f (%.3f)  goal %.1f: %s\n", static_cast<unsigned>(w), ratio,
                of_medians, goal, ratio <= goal ? "met" : "missed");
}

void measure_widths(const char *name, Side library, Side standard, std::size_t message_words) {
    Rows rows{Row(PAIRING_MOST_KEY_WORDS), Row(message_words)};
    std::printf("\n%s, %zu words:\n", name, rows.key.size() + rows.message.size());
    for (std::uint32_t w : {32u, 16u, 8u, 1u})
        measure(library, standard, w, rows);
}

} // namespace

int main() {
    std::printf("The longest stretch and loads, %d rounds; whole calls of the library.\n", rounds);
    std::printf("Times: fastest call. Ratios: of the fastest calls, and of the medians in brackets.\n");
    measure_widths("Stretch", library_stretch, standard, 0);
    measure_widths("Load", library_load, standard, PAIRING_MOST_WORDS);
    measure_widths("Load from an array of eight words", library_load_array, standard_array, PAIRING_MOST_WORDS);
}
