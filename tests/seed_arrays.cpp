// Seed arrays against the table on standard input, which tests/seed_arrays.py prints by CPython's generator, and loads
// of plain seeds against std::mt19937.
#include "common/calls.hpp"
#include "pairing.h"

#include <iostream>
#include <sstream>
#include <string>

namespace {

// The words of a load's two rows.
struct Lengths {
    std::size_t key, message;
};

const Lengths most{PAIRING_MOST_KEY_WORDS, PAIRING_MOST_WORDS};

// Refused by no entry; refused by every entry, as Long.
const Lengths fit{5, 3}, long_both{most.key + 1, most.message + 1};

// Around each refill, and a row that is empty.
const std::size_t lengths[] = {0, 1, 2, 623, 624, 625, 1247, 1248, 1249};

const std::uint32_t some_widths[] = {1, 8, 31, 32};
const std::uint32_t some_seeds[] = {0, 1, 5489, 19650218, 0x7fffffff, 0x80000000, 0xffffffff};

// How many arrays the table has, and how many outputs of each; the first array has those of the longest load.
const std::size_t arrays = 585;
const std::size_t outputs = 1000;
const std::size_t most_outputs = most.key + most.message;

struct Case {
    Row seed, outputs;
};

std::vector<Case> table;

// Whether there is a line, of numbers and nothing else.
bool read_line(Row &row) {
    std::string line;
    if (!std::getline(std::cin, line))
        return false;
    std::istringstream text(line);
    for (std::uint32_t word; text >> word;)
        row.push_back(word);
    return text.eof();
}

// Whether standard input is the whole table and no more.
bool read_table() {
    for (std::size_t i = 0; i < arrays; i++) {
        Case read;
        if (!read_line(read.seed) || read.seed.empty() || read.seed.size() > PAIRING_MOST_SEED_WORDS ||
            !read_line(read.outputs) || read.outputs.size() != (i == 0 ? most_outputs : outputs))
            return false;
        table.push_back(read);
    }
    return std::cin.peek() == std::istream::traits_type::eof();
}

// Stretches: the row must be as due, the seed as it was.
bool stretch_is(std::uint32_t w, const Row &seed, std::size_t words, std::uint32_t answer_due, const Row &due) {
    const Row seed_due(seed);
    Lent out(words);
    calls++;
    return pairing_stretch_array(w, seed.data(), seed.size(), out.data(), out.size()) == answer_due && out.is(due) &&
           seed == seed_due;
}

std::uint32_t load(std::uint32_t w, std::uint32_t seed, Lent &key, Lent &message) {
    return pairing_load(w, seed, key.data(), key.size(), message.data(), message.size());
}

std::uint32_t load(std::uint32_t w, const Row &seed, Lent &key, Lent &message) {
    return pairing_load_array(w, seed.data(), seed.size(), key.data(), key.size(), message.data(), message.size());
}

// Loads from either kind of seed: both rows must be as due, the seed as it was.
template <class Seed>
bool load_is(std::uint32_t w, const Seed &seed, Lengths words, std::uint32_t answer_due, const Row &key_due,
             const Row &message_due) {
    const Seed seed_due(seed);
    Lent key(words.key), message(words.message);
    calls++;
    return load(w, seed, key, message) == answer_due && key.is(key_due) && message.is(message_due) && seed == seed_due;
}

// Accepted, and the words those of the table.
bool stretches(std::uint32_t w, const Case &known, std::size_t words) {
    const auto start = known.outputs.begin();
    return stretch_is(w, known.seed, words, PAIRING_ACCEPTED, upper_bits(w, Row(start, start + words)));
}

// Accepted, and the key's words those of the outputs, the message's those of the outputs that follow.
template <class Seed> bool loads(std::uint32_t w, const Seed &seed, Lengths words, const Row &known) {
    const auto cut = known.begin() + words.key;
    return load_is(w, seed, words, PAIRING_ACCEPTED, upper_bits(w, Row(known.begin(), cut)),
                   upper_bits(w, Row(cut, cut + words.message)));
}

template <class Seed> bool load_refused(std::uint32_t w, const Seed &seed, Lengths words, std::uint32_t answer) {
    return load_is(w, seed, words, answer, {}, {});
}

// Both calls that take a seed array. The stretch has the key's length.
bool array_refused(std::uint32_t w, std::size_t seed_words, Lengths words, std::uint32_t answer) {
    const Row seed(seed_words, 5489);
    return stretch_is(w, seed, words.key, answer, {}) && load_refused(w, seed, words, answer);
}

bool every_array_at_every_width() {
    for (const Case &known : table)
        for (std::uint32_t w = 1; w <= 32; w++)
            if (!stretches(w, known, outputs))
                return false;
    return true;
}

bool every_short_length() {
    for (std::size_t words = 0; words <= 1300; words++)
        if (!stretches(32, table[0], words) || !stretches(13, table[0], words))
            return false;
    return true;
}

bool every_array_loaded() {
    std::uint32_t w = 0;
    for (const Case &known : table)
        for (std::size_t key : {0, 1, 2, 623, 624, 625, 999, 1000}) {
            w = w % 32 + 1;
            if (!loads(w, known.seed, {key, outputs - key}, known.outputs) ||
                !loads(32, known.seed, {key, outputs - key}, known.outputs))
                return false;
        }
    return true;
}

bool every_cut() {
    for (std::size_t key = 0; key <= 1300; key++)
        if (!loads(32, table[0].seed, {key, 1300 - key}, table[0].outputs) ||
            !loads(13, table[0].seed, {key, 1300 - key}, table[0].outputs))
            return false;
    return true;
}

bool plain_loads() {
    for (std::uint32_t seed : some_seeds) {
        const Row known = plain_outputs(seed, 2500);
        for (std::uint32_t w = 1; w <= 32; w++)
            for (std::size_t key : lengths)
                for (std::size_t message : lengths)
                    if (!loads(w, seed, {key, message}, known))
                        return false;
    }
    return true;
}

bool longest_rows() {
    const Row plain = plain_outputs(5489, most_outputs);
    for (std::uint32_t w : some_widths)
        if (!stretches(w, table[0], most.key) || !loads(w, table[0].seed, most, table[0].outputs) ||
            !loads(w, 5489u, most, plain))
            return false;
    return true;
}

bool one_word_is_not_the_plain_seed() {
    for (std::uint32_t seed : some_seeds) {
        Row plain(outputs), array(outputs);
        calls += 2;
        if (pairing_stretch(32, seed, plain.data(), plain.size()) != PAIRING_ACCEPTED ||
            pairing_stretch_array(32, &seed, 1, array.data(), array.size()) != PAIRING_ACCEPTED || plain == array)
            return false;
    }
    return true;
}

// Before Seed and Long.
bool refused_width() {
    for (std::uint32_t w : {0u, 33u, 64u, 256u, 0xffffffffu})
        for (Lengths words : {Lengths{0, 0}, fit, long_both}) {
            if (!load_refused(w, 5489u, words, PAIRING_WIDTH))
                return false;
            for (std::size_t seed_words : {0, 1, 8, 9})
                if (!array_refused(w, seed_words, words, PAIRING_WIDTH))
                    return false;
        }
    return true;
}

// Before Long.
bool refused_seed() {
    for (std::uint32_t w : some_widths)
        for (Lengths words : {Lengths{0, 0}, fit, long_both})
            for (std::size_t seed_words : {0, 9, 10, 16, 624, 625})
                if (!array_refused(w, seed_words, words, PAIRING_SEED))
                    return false;
    return true;
}

// By the key row alone, by the message row alone, and by both.
bool refused_long() {
    const Lengths too_long[] = {
        {most.key + 1, 0},
        {most.key + 1, most.message},
        {0, most.message + 1},
        {most.key, most.message + 1},
        {1, most.key},
        {most.key, most.key},
        long_both,
    };
    const Row one(1, 5489), eight(8, 5489);
    for (std::uint32_t w : some_widths) {
        for (Lengths words : too_long)
            if (!load_refused(w, 5489u, words, PAIRING_LONG) || !load_refused(w, one, words, PAIRING_LONG) ||
                !load_refused(w, eight, words, PAIRING_LONG))
                return false;
        for (std::size_t words : {most.key + 1, most.key + 2, 2 * most.key})
            if (!stretch_is(w, one, words, PAIRING_LONG, {}) || !stretch_is(w, eight, words, PAIRING_LONG, {}))
                return false;
    }
    return true;
}

const Test tests[] = {
    {"every_array_at_every_width", every_array_at_every_width},
    {"every_short_length", every_short_length},
    {"every_array_loaded", every_array_loaded},
    {"every_cut", every_cut},
    {"plain_loads", plain_loads},
    {"longest_rows", longest_rows},
    {"one_word_is_not_the_plain_seed", one_word_is_not_the_plain_seed},
    {"refused_width", refused_width},
    {"refused_seed", refused_seed},
    {"refused_long", refused_long},
};

} // namespace

int main() {
    if (!read_table()) {
        std::fputs("seed_arrays: standard input is not the table of seed arrays\n", stderr);
        return 1;
    }
    return run(tests);
}
