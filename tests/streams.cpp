// Streams and incremental digests from C++: their readings against sums of whole messages, made word by word in 128
// bits.
#include "common/calls.hpp"
#include "pairing.h"

#include <array>

namespace {

using State = std::array<std::uint32_t, PAIRING_STREAM_WORDS>;

struct Settings {
    std::uint32_t w, b, n;
};

struct Input {
    Row message, key;
};

std::mt19937 &draws() {
    static std::mt19937 generator(19650218);
    return generator;
}

std::uint32_t draw(std::uint32_t from, std::uint32_t to) {
    return std::uniform_int_distribution<std::uint32_t>(from, to)(draws());
}

Settings drawn_settings() {
    const std::uint32_t w = draw(1, 32);
    return {w, draw(1, w), draw(1, 8)};
}

Row drawn(std::uint32_t w, std::size_t words) {
    Row row(words);
    for (std::uint32_t &word : row)
        word = static_cast<std::uint32_t>(draws()()) >> (32 - w);
    return row;
}

Input drawn_input(const Settings &s, std::size_t words) { return {drawn(s.w, words), drawn(s.w, words + s.n)}; }

// The digest of the first so many words (003, equation 2), nothing reduced before the end.
Row digest(const Settings &s, const Input &in, std::size_t words) {
    __extension__ using Wide = unsigned __int128;
    Row due;
    for (std::size_t i = 0; i < s.n; i++) {
        Wide sum = 0;
        for (std::size_t j = 0; j < words; j++) {
            const Wide m = in.message[j];
            sum += m * in.key[i + j] + ((m * in.key[i + j + 1]) >> s.w);
        }
        due.push_back(static_cast<std::uint32_t>(sum % (Wide{1} << s.w) % (Wide{1} << s.b)));
    }
    return due;
}

bool opens(const Settings &s, const Input &in, State &state) {
    calls++;
    return pairing_stream_open(s.w, s.b, s.n, in.key.data(), s.n, state.data(), state.size()) == PAIRING_ACCEPTED;
}

// Pushes the words from one place to another, with the key words that follow those so far.
bool pushes(const Settings &s, const Input &in, std::size_t from, std::size_t to, State &state) {
    calls++;
    return pairing_stream_push(state.data(), state.size(), in.message.data() + from, to - from,
                               in.key.data() + s.n + from, to - from) == PAIRING_ACCEPTED;
}

bool reads(const Settings &s, const Input &in, std::size_t words, const State &state) {
    Lent out(s.n + 2);
    calls++;
    return pairing_stream_read(state.data(), state.size(), out.data(), out.size()) == PAIRING_ACCEPTED &&
           out.is(digest(s, in, words));
}

bool parts_of_any_length() {
    for (int run = 0; run < 400; run++) {
        const Settings s = drawn_settings();
        const Input in = drawn_input(s, 200);
        State state{};
        if (!opens(s, in, state) || !reads(s, in, 0, state))
            return false;
        for (std::size_t at = 0; at < in.message.size();) {
            const std::size_t end = std::min<std::size_t>(at + draw(0, 30), in.message.size());
            if (!pushes(s, in, at, end, state) || !reads(s, in, end, state))
                return false;
            at = end;
        }
    }
    return true;
}

// A state is a value: two copies go on by themselves, each with its own words.
bool copies_go_on_apart() {
    for (int run = 0; run < 200; run++) {
        const Settings s = drawn_settings();
        const Input one = drawn_input(s, 60);
        Input two = one;
        for (std::size_t j = 30; j < 60; j++)
            two.message[j] = drawn(s.w, 1)[0];
        State state{};
        if (!opens(s, one, state) || !pushes(s, one, 0, 30, state))
            return false;
        State copy = state;
        if (!pushes(s, one, 30, 60, state) || !pushes(s, two, 30, 60, copy) || !reads(s, one, 60, state) ||
            !reads(s, two, 60, copy))
            return false;
    }
    return true;
}

// A refused push leaves the state, so that the stream goes on as if it had not been.
bool refused_pushes_change_nothing() {
    for (int run = 0; run < 200; run++) {
        Settings s = drawn_settings();
        s.w = std::min(s.w, 31u);
        s.b = std::min(s.b, s.w);
        const Input in = drawn_input(s, 40);
        State state{};
        if (!opens(s, in, state) || !pushes(s, in, 0, 20, state))
            return false;
        const State before = state;
        const Row large(3, 1u << s.w), fit(3, 0);
        calls += 3;
        if (pairing_stream_push(state.data(), state.size(), fit.data(), 3, fit.data(), 2) != PAIRING_KEY ||
            pairing_stream_push(state.data(), state.size(), large.data(), 3, fit.data(), 3) != PAIRING_WORD ||
            pairing_stream_push(state.data(), state.size(), fit.data(), 3, large.data(), 3) != PAIRING_WORD ||
            state != before || !pushes(s, in, 20, 40, state) || !reads(s, in, 40, state))
            return false;
    }
    return true;
}

// Rows of other lengths: no state for a push or a reading, and for an opening too few places or places to spare.
bool rows_of_other_lengths() {
    const Settings s{8, 8, 2};
    const Input in{{3, 7}, {10, 20, 100, 250}};
    State state{};
    if (!opens(s, in, state))
        return false;
    for (std::size_t words = 0; words <= 30; words++) {
        Lent row(words), out(2);
        const bool room = words >= state.size();
        calls += 3;
        if (pairing_stream_open(s.w, s.b, s.n, in.key.data(), s.n, row.data(), row.size()) !=
                (room ? PAIRING_ACCEPTED : PAIRING_TRAY) ||
            !row.is(room ? Row(state.begin(), state.end()) : Row{}))
            return false;
        const bool own = words == state.size();
        if (pairing_stream_read(row.data(), row.size(), out.data(), out.size()) !=
                (own ? PAIRING_ACCEPTED : PAIRING_STATE) ||
            !out.is(own ? Row{0, 0} : Row{}))
            return false;
        if (!own && (pairing_stream_push(row.data(), row.size(), in.message.data(), 2, in.key.data() + 2, 2) !=
                         PAIRING_STATE ||
                     !row.is(room ? Row(state.begin(), state.end()) : Row{})))
            return false;
    }
    return true;
}

// Any word at any place, one after the other: the reading is that of the whole message as it then is.
bool edits_at_any_place() {
    for (int run = 0; run < 200; run++) {
        const Settings s = drawn_settings();
        Input in = drawn_input(s, 60);
        std::array<std::uint32_t, PAIRING_INCREMENTAL_WORDS> state{};
        calls++;
        if (pairing_incremental_open(s.w, s.b, s.n, in.message.data(), in.message.size(), in.key.data(), in.key.size(),
                                     state.data(), state.size()) != PAIRING_ACCEPTED)
            return false;
        for (int edit = 0; edit < 20; edit++) {
            Lent out(s.n + 2);
            calls += 2;
            if (pairing_incremental_edit(state.data(), state.size(), in.message.data(), in.message.size(),
                                         in.key.data(), in.key.size(), draw(0, 59),
                                         drawn(s.w, 1)[0]) != PAIRING_ACCEPTED ||
                pairing_incremental_read(state.data(), state.size(), out.data(), out.size()) != PAIRING_ACCEPTED ||
                !out.is(digest(s, in, 60)))
                return false;
        }
    }
    return true;
}

const Test tests[] = {
    {"parts_of_any_length", parts_of_any_length},
    {"copies_go_on_apart", copies_go_on_apart},
    {"refused_pushes_change_nothing", refused_pushes_change_nothing},
    {"rows_of_other_lengths", rows_of_other_lengths},
    {"edits_at_any_place", edits_at_any_place},
};

} // namespace

int main() { return run(tests); }
