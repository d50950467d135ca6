// One edit of the longest message beside the digest of the whole message as it then is, in one run.
#include "pairing.h"
#include "sides.hpp"

#include <array>
#include <cstddef>
#include <cstdint>
#include <cstdio>

namespace {

using State = std::array<std::uint32_t, PAIRING_INCREMENTAL_WORDS>;
using Digest = std::array<std::uint32_t, PAIRING_MOST_DIGEST_WORDS>;

// The edits of a round, since one is too short for the clock, and the rounds of which the fastest and the median count.
const std::size_t edits = 4096;
const int rounds = 400;

struct Label {
    Row message, key;
    State state;
};

// Each place once in a round of as many edits, spread over the whole message.
std::size_t place(std::size_t edit) { return edit * 40503 % PAIRING_MOST_WORDS; }

void edit_all(Label &label, const Row &news) {
    for (std::size_t i = 0; i < edits; i++)
        accepted(pairing_incremental_edit(label.state.data(), label.state.size(), label.message.data(),
                                          label.message.size(), label.key.data(), label.key.size(), place(i), news[i]));
}

void measure(std::uint32_t w, std::uint32_t n) {
    Label label{words(PAIRING_MOST_WORDS, 1, w), words(PAIRING_MOST_WORDS + n, 2, w), {}};
    accepted(pairing_incremental_open(w, w, n, label.message.data(), label.message.size(), label.key.data(),
                                      label.key.size(), label.state.data(), label.state.size()));
    Times edit, digest;
    for (int round = 0; round < rounds; round++) {
        const Row news = words(edits, static_cast<std::uint32_t>(3 + round), w);
        edit.add(edits, [&] { edit_all(label, news); });
        Digest whole{}, read{};
        digest.add(1, [&] {
            accepted(pairing_digest_words(w, w, n, label.message.data(), label.message.size(), label.key.data(),
                                          label.key.size(), whole.data(), whole.size()));
        });
        accepted(pairing_incremental_read(label.state.data(), label.state.size(), read.data(), read.size()));
        if (read != whole)
            stop("the two sides read different digests\n");
    }
    std::printf("w %2u, n %u: edit %6.1f ns (%6.1f), digest %8.0f ns (%8.0f), digest / edit %5.0f (%5.0f)\n",
                static_cast<unsigned>(w), static_cast<unsigned>(n), edit.fastest(), edit.median(), digest.fastest(),
                digest.median(), digest.fastest() / edit.fastest(), digest.median() / edit.median());
}

} // namespace

int main() {
    std::printf("One edit of %d words, and the digest of them all: fastest, and medians in brackets.\n",
                PAIRING_MOST_WORDS);
    for (const std::uint32_t w : {32u, 16u})
        for (const std::uint32_t n : {1u, 8u})
            measure(w, n);
}
