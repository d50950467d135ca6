// The proved stretch against std::mt19937.
#include "common/calls.hpp"
#include "pairing.h"

namespace {

const std::size_t most = PAIRING_MOST_KEY_WORDS;

// Around each refill, and the ends.
const std::size_t lengths[] = {0, 1, 2, 623, 624, 625, 1247, 1248, 1249, most - 1, most};

// Stretches: every place must be as due, and all around as it was.
bool is(std::uint32_t w, std::uint32_t seed, std::size_t words, std::uint32_t answer_due, const Row &due) {
    Lent out(words);
    calls++;
    return pairing_stretch(w, seed, out.data(), out.size()) == answer_due && out.is(due);
}

// Accepted, and each word the upper w bits of the next output.
bool stretches(std::uint32_t w, std::uint32_t seed, std::size_t words) {
    return is(w, seed, words, PAIRING_ACCEPTED, upper_bits(w, plain_outputs(seed, words)));
}

bool refuses(std::uint32_t w, std::size_t words, std::uint32_t answer) {
    return is(w, 5489, words, answer, {});
}

bool every_width_and_length() {
    for (std::uint32_t w = 1; w <= 32; w++)
        for (std::size_t words : lengths)
            for (std::uint32_t seed : {0u, 1u, 5489u, 19650218u, 0x7fffffffu, 0x80000000u, 0xffffffffu})
                if (!stretches(w, seed, words))
                    return false;
    return true;
}

bool every_short_length() {
    for (std::size_t words = 0; words <= 1300; words++)
        if (!stretches(32, 4357, words) || !stretches(13, 4357, words))
            return false;
    return true;
}

bool small_seeds() {
    for (std::uint32_t seed = 0; seed < 10000; seed++)
        if (!stretches(1 + seed % 32, seed, 600 + seed % 701))
            return false;
    return true;
}

bool seeds_of_one_bit() {
    for (unsigned bit = 0; bit < 32; bit++)
        if (!stretches(32, std::uint32_t{1} << bit, 1300) || !stretches(32, ~(std::uint32_t{1} << bit), 1300))
            return false;
    return true;
}

bool random_seeds() {
    std::minstd_rand random(1);
    for (int i = 0; i < 10000; i++) {
        const std::uint32_t seed = static_cast<std::uint32_t>(random() << 16 ^ random());
        if (!stretches(1 + random() % 32, seed, random() % 1300))
            return false;
    }
    return true;
}

bool refused_long() {
    for (std::uint32_t w : {1u, 8u, 31u, 32u})
        for (std::size_t words : {most + 1, most + 2, 2 * most})
            if (!refuses(w, words, PAIRING_LONG))
                return false;
    return true;
}

bool refused_width() {
    for (std::uint32_t w : {0u, 33u, 64u, 256u, 0xffffffffu})
        for (std::size_t words : lengths)
            if (!refuses(w, words, PAIRING_WIDTH))
                return false;
    return true;
}

bool refused_width_before_long() {
    return refuses(0, most + 1, PAIRING_WIDTH) && refuses(33, most + 1, PAIRING_WIDTH);
}

const Test tests[] = {
    {"every_width_and_length", every_width_and_length},
    {"every_short_length", every_short_length},
    {"small_seeds", small_seeds},
    {"seeds_of_one_bit", seeds_of_one_bit},
    {"random_seeds", random_seeds},
    {"refused_long", refused_long},
    {"refused_width", refused_width},
    {"refused_width_before_long", refused_width_before_long},
};

} // namespace

int main() { return run(tests); }
