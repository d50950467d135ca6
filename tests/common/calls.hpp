// What the C++ tests of the library's calls share: the generator's words by std::mt19937, rows lent between guard
// words, and the running of a list of tests.
#ifndef CALLS_HPP
#define CALLS_HPP

#include <algorithm>
#include <cstddef>
#include <cstdint>
#include <cstdio>
#include <random>
#include <vector>

using Row = std::vector<std::uint32_t>;

// Calls of the library in the test that runs.
inline unsigned long calls;

// The upper w bits of each output: divided by 2^(32-w), rounded down.
inline Row upper_bits(std::uint32_t w, Row outputs) {
    for (std::uint32_t &word : outputs)
        word = static_cast<std::uint32_t>(word / (std::uint64_t{1} << (32 - w)));
    return outputs;
}

// The first outputs of a plain seed.
inline Row plain_outputs(std::uint32_t seed, std::size_t words) {
    std::mt19937 generator(seed);
    Row outputs;
    while (outputs.size() < words)
        outputs.push_back(static_cast<std::uint32_t>(generator()));
    return outputs;
}

// A row to be written, between guard words.
class Lent {
    // What stands in the row, and around it, before the call.
    static constexpr std::uint32_t held = 0xdeadbeef;
    static constexpr std::size_t guards = 8;

    Row all;

public:
    explicit Lent(std::size_t words) : all(guards + words + guards, held) {}

    std::uint32_t *data() { return all.data() + guards; }

    std::size_t size() const { return all.size() - 2 * guards; }

    // Whether the first places are as due, and every other place and the guard words as they were.
    bool is(const Row &due) const {
        Row all_due(all.size(), held);
        std::copy(due.begin(), due.end(), all_due.begin() + guards);
        return all == all_due;
    }
};

struct Test {
    const char *name;
    bool (*passes)();
};

// Ends as Rust's test harness does, so that the gate can add it up.
template <std::size_t Count> int run(const Test (&tests)[Count]) {
    unsigned passed = 0, failed = 0;
    std::printf("running %u tests\n", static_cast<unsigned>(Count));
    for (const Test &test : tests) {
        calls = 0;
        const bool passes = test.passes();
        std::printf("test %s ... %s (%lu calls)\n", test.name, passes ? "ok" : "FAILED", calls);
        if (passes)
            passed++;
        else
            failed++;
    }
    std::printf("test result: %s. %u passed; %u failed; 0 ignored; 0 measured; 0 filtered out\n",
                failed ? "FAILED" : "ok", passed, failed);
    return failed != 0;
}

#endif
