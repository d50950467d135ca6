// Prints by std::mt19937 the lines that the program run_mt19937 prints.
#include <cstddef>
#include <cstdint>
#include <cstdio>
#include <limits>
#include <random>
#include <sstream>
#include <vector>

namespace {

using Words = std::vector<std::uint32_t>;

const std::uint64_t size = std::mt19937::state_size;

// Answers of a next: accepted, and refused for its state.
const unsigned accepted = 0;
const unsigned state = 8;

void print_outputs(std::uint32_t seed, int from, int to) {
    std::mt19937 g(seed);
    for (int place = 1; place <= to; place++) {
        const unsigned long output = g();
        if (from <= place) {
            std::printf("%lu %d %lu\n", static_cast<unsigned long>(seed), place, output);
        }
    }
}

// A generator that has given some outputs.
std::mt19937 after(std::uint32_t seed, std::uint64_t outputs) {
    std::mt19937 g(seed);
    g.discard(outputs);
    return g;
}

// The state words after the given number of refills, read where all are used up: there the library shows them whole.
Words words(std::uint32_t seed, std::uint64_t refills) {
    std::stringstream text;
    text << after(seed, refills * size);
    Words row(size);
    for (std::uint32_t &word : row)
        text >> word;
    return row;
}

std::uint32_t folded(const Words &row) {
    std::uint32_t fold = 0;
    for (std::uint32_t word : row)
        fold = (fold << 1 | fold >> 31) ^ word;
    return fold;
}

void print_next(std::uint64_t at, unsigned answer, std::uint64_t word, std::uint64_t at_after, const Words &row) {
    std::printf("next %llu %u %llu %llu %lu\n", static_cast<unsigned long long>(at), answer,
                static_cast<unsigned long long>(word), static_cast<unsigned long long>(at_after),
                static_cast<unsigned long>(folded(row)));
}

// A position above 624: the number, the word 0, and the state as it was.
void print_refused(std::uint32_t seed, std::uint64_t refills, std::uint64_t at) {
    print_next(at, state, 0, at, words(seed, refills));
}

// A position from 0 to 624; before the first refill only 624.
void print_accepted(std::uint32_t seed, std::uint64_t refills, std::uint64_t at) {
    const std::uint64_t before = refills * size + at - size;
    const bool refill = at == size;
    print_next(at, accepted, after(seed, before)(), refill ? 1 : at + 1, words(seed, refills + refill));
}

void print_positions(std::uint32_t seed) {
    print_accepted(seed, 0, size);
    print_refused(seed, 0, size + 1);
    print_refused(seed, 0, std::numeric_limits<std::uint32_t>::max());
    print_refused(seed, 0, std::numeric_limits<std::uint64_t>::max());
    print_accepted(seed, 1, 0);
    print_accepted(seed, 1, size - 1);
    print_accepted(seed, 1, size);
    print_refused(seed, 1, size + 1);
}

} // namespace

int main() {
    print_outputs(5489, 10000, 10000);
    print_outputs(5489, 1, 5);
    print_outputs(0, 1, 5);
    print_outputs(1, 622, 627);
    print_outputs(19650218, 1246, 1251);
    print_outputs(4294967295u, 1, 5);
    print_positions(5489);
}
