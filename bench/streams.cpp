// Short pushes through a lent row beside the same pushes by value, in one run. The loops of both sides are proved code
// (crates/bench_streams), so that nothing but the row stands between them.
#include "pairing.h"
#include "sides.hpp"

#include <array>
#include <cstddef>
#include <cstdint>
#include <cstdio>

extern "C" {
std::uint32_t bench_stream_by_value(std::uint32_t rounds, std::uint32_t n, const std::uint32_t *first,
                                    std::size_t first_words, const std::uint32_t *message, std::size_t message_words,
                                    const std::uint32_t *key, std::size_t key_words, std::uint32_t *out,
                                    std::size_t out_words);
void bench_stream_by_row(std::uint32_t rounds, const std::uint32_t *message, std::size_t message_words,
                         const std::uint32_t *key, std::size_t key_words, std::uint32_t *state,
                         std::size_t state_words);
}

namespace {

using Digest = std::array<std::uint32_t, PAIRING_MOST_DIGEST_WORDS>;

// As many pushes of 16 words as a stream takes, and batches of them of which the fastest and the median count.
const std::uint32_t pushes = 4096;
const int batches = 400;
const double goal = 20;

struct Part {
    Row first, message, key;
};

Digest by_value(const Part &part) {
    Digest out{};
    accepted(bench_stream_by_value(pushes, static_cast<std::uint32_t>(part.first.size()), part.first.data(),
                                   part.first.size(), part.message.data(), part.message.size(), part.key.data(),
                                   part.key.size(), out.data(), out.size()));
    return out;
}

Digest by_row(const Part &part) {
    std::array<std::uint32_t, PAIRING_STREAM_WORDS> state{};
    Digest out{};
    accepted(pairing_stream_open(32, 32, static_cast<std::uint32_t>(part.first.size()), part.first.data(),
                                 part.first.size(), state.data(), state.size()));
    bench_stream_by_row(pushes, part.message.data(), part.message.size(), part.key.data(), part.key.size(),
                        state.data(), state.size());
    accepted(pairing_stream_read(state.data(), state.size(), out.data(), out.size()));
    return out;
}

void measure(std::uint32_t n, std::size_t count) {
    const Part part{words(n, 1), words(count, 2), words(count, 3)};
    Times value, row;
    for (int batch = 0; batch < batches; batch++) {
        Digest of_value, of_row;
        value.add(pushes, [&] { of_value = by_value(part); });
        row.add(pushes, [&] { of_row = by_row(part); });
        if (of_value != of_row)
            stop("the two sides read different digests\n");
    }
    std::printf("n %u, push of %2zu words: by value %6.1f ns, by row %6.1f ns, more %5.1f ns (medians %5.1f), ratio %.2f\n", n,
                count, value.fastest(), row.fastest(), row.fastest() - value.fastest(), row.median() - value.median(),
                row.fastest() / value.fastest());
}

} // namespace

int main() {
    std::printf("goal: at most %.0f ns more a push\n", goal);
    for (const std::uint32_t n : {1u, 8u})
        for (const std::size_t count : {0, 1, 2, 4, 8, 16})
            measure(n, count);
}
