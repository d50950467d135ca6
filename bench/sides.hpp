// What the benchmarks in C++ share: words to work on, the times of a side, and the end of a run whose sides differ, or
// in which the library refuses.
#ifndef SIDES_HPP
#define SIDES_HPP

#include "pairing.h"

#include <algorithm>
#include <chrono>
#include <cstddef>
#include <cstdint>
#include <cstdio>
#include <cstdlib>
#include <vector>

using Row = std::vector<std::uint32_t>;

[[noreturn]] inline void stop(const char *why) {
    std::fputs(why, stderr);
    std::exit(1);
}

inline void accepted(std::uint32_t answer) {
    if (answer != PAIRING_ACCEPTED)
        stop("the library refuses\n");
}

// Words of w bits, the same in every run.
inline Row words(std::size_t count, std::uint32_t from, std::uint32_t w = 32) {
    Row row(count);
    for (std::uint32_t &word : row) {
        from = from * 1664525 + 1013904223;
        word = from >> (32 - w);
    }
    return row;
}

// What one side takes, in nanoseconds a call, of which the fastest and the median count.
struct Times {
    std::vector<double> all;

    // Runs the side, which makes so many calls.
    template <class Side> void add(std::size_t calls, const Side &side) {
        const auto start = std::chrono::steady_clock::now();
        side();
        const std::chrono::duration<double, std::nano> time = std::chrono::steady_clock::now() - start;
        all.push_back(time.count() / static_cast<double>(calls));
    }

    double fastest() const { return *std::min_element(all.begin(), all.end()); }

    double median() const {
        std::vector<double> sorted(all);
        std::sort(sorted.begin(), sorted.end());
        return sorted[sorted.size() / 2];
    }
};

#endif
