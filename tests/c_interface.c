/* Calls every entry of include/pairing.h from C. Ends as Rust's test harness does, so that the gate can add it up. */
#include "pairing.h"

#include <stdio.h>
#include <string.h>

#define WORDS(row) (sizeof(row) / sizeof((row)[0]))

static const uint32_t message[] = {3, 7};
static const uint32_t key[] = {10, 20, 100, 250};

static int accepted(void)
{
    uint32_t out[] = {1, 2, 3, 4};
    const uint32_t due[] = {0xac, 0xff, 3, 4};
    uint32_t answer = pairing_digest_words(8, 8, 2, message, WORDS(message), key, WORDS(key), out, WORDS(out));
    return answer == PAIRING_ACCEPTED && memcmp(out, due, sizeof due) == 0;
}

static int accepted_with_bits_dropped(void)
{
    uint32_t out[2] = {0};
    const uint32_t due[] = {0x0c, 0x0f};
    uint32_t answer = pairing_digest_words(8, 4, 2, message, WORDS(message), key, WORDS(key), out, WORDS(out));
    return answer == PAIRING_ACCEPTED && memcmp(out, due, sizeof due) == 0;
}

static int accepted_without_a_message(void)
{
    uint32_t out[] = {9, 9};
    const uint32_t seven = 7;
    uint32_t answer = pairing_digest_words(8, 8, 1, message, 0, &seven, 1, out, WORDS(out));
    return answer == PAIRING_ACCEPTED && out[0] == 0 && out[1] == 9;
}

static int accepted_at_the_most_words(void)
{
    static uint32_t zeros[PAIRING_MOST_WORDS + PAIRING_MOST_DIGEST_WORDS];
    uint32_t out[PAIRING_MOST_DIGEST_WORDS];
    const uint32_t due[PAIRING_MOST_DIGEST_WORDS] = {0};
    uint32_t answer;
    memset(out, 0xff, sizeof out);
    answer = pairing_digest_words(32, 32, PAIRING_MOST_DIGEST_WORDS, zeros, PAIRING_MOST_WORDS, zeros, WORDS(zeros),
                                  out, WORDS(out));
    return answer == PAIRING_ACCEPTED && memcmp(out, due, sizeof due) == 0;
}

/* A call to be refused: its settings, and the counts of the rows that are lent. */
struct refusal {
    uint32_t due, w, b, n;
    size_t message_places, key_words, out_words;
};

/* Whether each call answers its number and leaves the output as it was. Exactly one of words and bytes is the message. */
static int all_refused(const struct refusal *calls, size_t count, const uint32_t *words, const uint8_t *bytes)
{
    static const uint32_t keys[] = {10, 20, 100, 250, 256}, before[] = {11, 12, 13};
    uint32_t out[] = {11, 12, 13};
    size_t i;
    for (i = 0; i < count; i++) {
        const struct refusal *call = &calls[i];
        uint32_t answer = words ? pairing_digest_words(call->w, call->b, call->n, words, call->message_places, keys,
                                                       call->key_words, out, call->out_words)
                                : pairing_digest_bytes(call->w, call->b, call->n, bytes, call->message_places, keys,
                                                       call->key_words, out, call->out_words);
        if (answer != call->due || memcmp(out, before, sizeof before) != 0)
            return 0;
    }
    return 1;
}

static int refused(void)
{
    static const uint32_t words[PAIRING_MOST_WORDS + 1] = {3, 7, 300};
    static const struct refusal calls[] = {
        {PAIRING_WIDTH, 0, 0, 2, 2, 4, 3},
        {PAIRING_WIDTH, 33, 8, 2, 2, 4, 3},
        {PAIRING_KEPT, 8, 0, 2, 2, 4, 3},
        {PAIRING_KEPT, 8, 9, 2, 2, 4, 3},
        {PAIRING_COUNT, 8, 8, 0, 2, 2, 3},
        {PAIRING_COUNT, 8, 8, 9, 2, 4, 3},
        {PAIRING_LONG, 32, 32, 2, PAIRING_MOST_WORDS + 1, 4, 3},
        {PAIRING_KEY, 8, 8, 2, 2, 3, 3},
        {PAIRING_KEY, 8, 8, 2, 2, 5, 3},
        {PAIRING_TRAY, 8, 8, 2, 2, 4, 1},
        {PAIRING_TRAY, 8, 8, 2, 2, 4, 0},
        /* a message word, then only the key's last word */
        {PAIRING_WORD, 8, 8, 1, 3, 4, 3},
        {PAIRING_WORD, 8, 8, 3, 2, 5, 3},
    };
    return all_refused(calls, WORDS(calls), words, NULL);
}

/* Bytes 01 02 03, closed by 80, are the words 0x0201 0x8003. */
static int bytes_accepted(void)
{
    const uint8_t bytes[] = {0x01, 0x02, 0x03};
    const uint32_t words[] = {0x0201, 0x8003};
    uint32_t out[] = {1, 2, 3}, due[] = {1, 2, 3};
    uint32_t answer = pairing_digest_bytes(16, 16, 2, bytes, WORDS(bytes), key, WORDS(key), out, WORDS(out));
    uint32_t answer_due = pairing_digest_words(16, 16, 2, words, WORDS(words), key, WORDS(key), due, WORDS(due));
    return answer == PAIRING_ACCEPTED && answer_due == PAIRING_ACCEPTED && memcmp(out, due, sizeof due) == 0 &&
           out[2] == 3;
}

/* Under the key 1 0 a digest word is the message word: the first bytes, and the one that closes them. */
static int bytes_lowest_first(void)
{
    const uint8_t bytes[] = {0x81, 0x92, 0xa3};
    const uint32_t one_zero[] = {1, 0};
    const uint32_t due[] = {0x80, 0x8081, 0x809281, 0x80a39281};
    size_t i;
    for (i = 0; i < WORDS(due); i++) {
        uint32_t out = 9;
        if (pairing_digest_bytes(32, 32, 1, bytes, i, one_zero, 2, &out, 1) != PAIRING_ACCEPTED || out != due[i])
            return 0;
    }
    return 1;
}

/* Four bytes fill a word of 32 bits, and the one that closes them is a word of its own: the digest under 0 1 0. */
static int bytes_that_fill_their_last_word(void)
{
    const uint8_t bytes[] = {0x81, 0x92, 0xa3, 0xb4};
    const uint32_t first[] = {1, 0, 0}, second[] = {0, 1, 0};
    uint32_t out = 9;
    return pairing_digest_bytes(32, 32, 1, bytes, WORDS(bytes), first, 2, &out, 1) == PAIRING_KEY && out == 9 &&
           pairing_digest_bytes(32, 32, 1, bytes, WORDS(bytes), first, 3, &out, 1) == PAIRING_ACCEPTED &&
           out == 0xb4a39281 &&
           pairing_digest_bytes(32, 32, 1, bytes, WORDS(bytes), second, 3, &out, 1) == PAIRING_ACCEPTED && out == 0x80;
}

/* Bytes 05 and 05 00 are as many words, but others. */
static int bytes_with_a_zero_at_the_end(void)
{
    const uint8_t bytes[] = {5, 0};
    const uint32_t one_zero[] = {1, 0};
    uint32_t five = 9, with_zero = 9;
    return pairing_digest_bytes(32, 32, 1, bytes, 1, one_zero, 2, &five, 1) == PAIRING_ACCEPTED && five == 0x8005 &&
           pairing_digest_bytes(32, 32, 1, bytes, 2, one_zero, 2, &with_zero, 1) == PAIRING_ACCEPTED &&
           with_zero == 0x800005;
}

/* No bytes are the word 0x80: 0x80 * 3 + 0x80 * 2 div 256 = 385, which is 0x81 modulo 256. */
static int bytes_accepted_without_a_message(void)
{
    const uint8_t byte = 5;
    const uint32_t three_two[] = {3, 2};
    uint32_t out[] = {9, 9};
    return pairing_digest_bytes(8, 8, 1, &byte, 0, three_two, 1, out, WORDS(out)) == PAIRING_KEY && out[0] == 9 &&
           pairing_digest_bytes(8, 8, 1, &byte, 0, three_two, 2, out, WORDS(out)) == PAIRING_ACCEPTED &&
           out[0] == 0x81 && out[1] == 9;
}

/* Widths 8, 16 and 32: the most words pass, a byte more does not. The key is 1 under the last word, whose highest byte
 * closes the zeros. */
static int bytes_at_the_most_words(void)
{
    static uint8_t bytes[4 * PAIRING_MOST_WORDS];
    static uint32_t last[PAIRING_MOST_WORDS + 1];
    size_t word;
    last[PAIRING_MOST_WORDS - 1] = 1;
    for (word = 1; word <= 4; word *= 2) {
        uint32_t w = 8 * (uint32_t)word, due = (uint32_t)0x80 << (w - 8), out = 9;
        size_t most = word * PAIRING_MOST_WORDS - 1;
        if (pairing_digest_bytes(w, w, 1, bytes, most + 1, last, WORDS(last), &out, 1) != PAIRING_LONG || out != 9)
            return 0;
        if (pairing_digest_bytes(w, w, 1, bytes, most, last, WORDS(last), &out, 1) != PAIRING_ACCEPTED || out != due)
            return 0;
    }
    return 1;
}

static int bytes_refused(void)
{
    static const uint8_t bytes[] = {255, 255, 255};
    static const struct refusal calls[] = {
        {PAIRING_WIDTH, 0, 0, 2, 3, 4, 3},  {PAIRING_WIDTH, 24, 8, 2, 3, 3, 3}, {PAIRING_WIDTH, 33, 8, 2, 3, 3, 3},
        {PAIRING_KEPT, 16, 0, 2, 3, 4, 3},  {PAIRING_KEPT, 16, 17, 2, 3, 4, 3}, {PAIRING_COUNT, 16, 8, 0, 3, 2, 3},
        {PAIRING_COUNT, 16, 8, 9, 3, 4, 3}, {PAIRING_KEY, 16, 8, 2, 3, 3, 3},   {PAIRING_KEY, 16, 8, 2, 3, 5, 3},
        {PAIRING_TRAY, 16, 8, 2, 3, 4, 1},  {PAIRING_TRAY, 16, 8, 2, 3, 4, 0},  {PAIRING_WORD, 8, 8, 1, 3, 5, 3},
    };
    return all_refused(calls, WORDS(calls), NULL, bytes);
}

/* The digest is 255, and bytes beyond the code keep what they held. */
static int code_accepted(void)
{
    const uint32_t largest[] = {255, 255};
    uint8_t out[] = {1, 2, 3};
    const uint8_t due[] = {0x55, 2, 3};
    uint32_t answer = pairing_digest_code(8, 2, largest, 1, largest, 2, out, WORDS(out));
    return answer == PAIRING_ACCEPTED && memcmp(out, due, sizeof due) == 0;
}

/* Under the key 123456789 0 the digest of the message 1 is that number. */
static int code_of_every_size(void)
{
    const uint32_t one = 1, number[] = {123456789, 0};
    static const uint8_t due[PAIRING_MOST_CODE_DIGITS][PAIRING_MOST_CODE_BYTES + 1] = {
        {0x09, 9, 9, 9, 9, 9},
        {0x89, 9, 9, 9, 9, 9},
        {0x07, 0x89, 9, 9, 9, 9},
        {0x67, 0x89, 9, 9, 9, 9},
        {0x05, 0x67, 0x89, 9, 9, 9},
        {0x45, 0x67, 0x89, 9, 9, 9},
        {0x03, 0x45, 0x67, 0x89, 9, 9},
        {0x23, 0x45, 0x67, 0x89, 9, 9},
        {0x01, 0x23, 0x45, 0x67, 0x89, 9},
    };
    uint32_t d;
    for (d = 1; d <= PAIRING_MOST_CODE_DIGITS; d++) {
        uint8_t out[PAIRING_MOST_CODE_BYTES + 1];
        memset(out, 9, sizeof out);
        if (pairing_digest_code(32, d, &one, 1, number, 2, out, (d + 1) / 2) != PAIRING_ACCEPTED ||
            memcmp(out, due[d - 1], sizeof out) != 0)
            return 0;
    }
    return 1;
}

/* At each width a code has as many digits as 10^d is not above 2^w, and at least one. */
static int code_digits(void)
{
    static const uint32_t far_too_many[] = {11, 64, 256, 0x80000000u, 0xffffffffu};
    const uint32_t zeros[] = {0, 0};
    uint32_t w, d;
    size_t i;
    for (w = 1; w <= 32; w++) {
        uint64_t power = 1;
        for (d = 0; d <= 10; d++, power *= 10) {
            int passes = d > 0 && power <= (uint64_t)1 << w;
            uint8_t out[] = {9, 9, 9, 9, 9, 9};
            uint32_t answer = pairing_digest_code(w, d, zeros, 1, zeros, 2, out, WORDS(out));
            if (answer != (uint32_t)(passes ? PAIRING_ACCEPTED : PAIRING_DIGITS) || out[0] != (passes ? 0 : 9) ||
                out[5] != 9)
                return 0;
        }
        for (i = 0; i < WORDS(far_too_many); i++) {
            uint8_t out = 9;
            if (pairing_digest_code(w, far_too_many[i], zeros, 1, zeros, 2, &out, 1) != PAIRING_DIGITS || out != 9)
                return 0;
        }
    }
    return 1;
}

/* The last word alone is 1, and so is the key word under it. */
static int code_at_the_most_words(void)
{
    static uint32_t words[PAIRING_MOST_WORDS + 1], keys[PAIRING_MOST_WORDS + 2];
    uint8_t out[] = {9, 9};
    words[PAIRING_MOST_WORDS - 1] = keys[PAIRING_MOST_WORDS - 1] = 1;
    return pairing_digest_code(32, 2, words, PAIRING_MOST_WORDS + 1, keys, PAIRING_MOST_WORDS + 2, out, 2) ==
               PAIRING_LONG &&
           out[0] == 9 &&
           pairing_digest_code(32, 2, words, PAIRING_MOST_WORDS, keys, PAIRING_MOST_WORDS + 1, out, 2) ==
               PAIRING_ACCEPTED &&
           out[0] == 1 && out[1] == 9;
}

static int code_refused(void)
{
    static const uint32_t words[PAIRING_MOST_WORDS + 1] = {3, 7, 9, 600}, keys[] = {10, 20, 100, 256, 1};
    static const struct {
        uint32_t due, w, d;
        size_t message_words, key_words, out_bytes;
    } calls[] = {
        {PAIRING_WIDTH, 0, 0, 2, 3, 2},
        {PAIRING_WIDTH, 33, 2, 2, 3, 2},
        {PAIRING_DIGITS, 8, 0, 2, 3, 2},
        {PAIRING_DIGITS, 8, 3, 2, 3, 2},
        {PAIRING_DIGITS, 3, 1, 2, 3, 2},
        /* before all else but the width */
        {PAIRING_DIGITS, 8, UINT32_MAX, PAIRING_MOST_WORDS + 1, 0, 0},
        {PAIRING_LONG, 8, 2, PAIRING_MOST_WORDS + 1, 0, 0},
        {PAIRING_KEY, 8, 2, 2, 2, 0},
        {PAIRING_KEY, 8, 2, 2, 4, 2},
        {PAIRING_TRAY, 8, 2, 3, 4, 0},
        {PAIRING_TRAY, 32, 3, 2, 3, 1},
        /* only the message's last word, then only the key's */
        {PAIRING_WORD, 9, 2, 4, 5, 2},
        {PAIRING_WORD, 8, 2, 3, 4, 2},
    };
    size_t i;
    for (i = 0; i < WORDS(calls); i++) {
        uint8_t out[] = {11, 12};
        uint32_t answer = pairing_digest_code(calls[i].w, calls[i].d, words, calls[i].message_words, keys,
                                              calls[i].key_words, out, calls[i].out_bytes);
        if (answer != calls[i].due || out[0] != 11 || out[1] != 12)
            return 0;
    }
    return 1;
}

/* The key's first three words, and its last three: the two digest words of the key as a whole. */
static int peers_accepted(void)
{
    static const uint32_t keys[] = {10, 20, 100, 20, 100, 250};
    uint32_t out[] = {1, 2, 3, 4};
    const uint32_t due[] = {0xac, 0xff, 3, 4};
    uint32_t answer = pairing_digest_peers(8, 8, 1, 2, message, WORDS(message), keys, WORDS(keys), out, WORDS(out));
    return answer == PAIRING_ACCEPTED && memcmp(out, due, sizeof due) == 0;
}

/* Each row is the word digest under the peer's key, for every number of peers and digest words. */
static int peers_of_every_number(void)
{
    enum { MOST = PAIRING_MOST_PEERS, WIDE = PAIRING_MOST_DIGEST_WORDS, LONG = 67 };
    static uint32_t words[LONG], keys[MOST * (LONG + WIDE)];
    uint32_t p, n, q, word = 1;
    size_t i;
    for (i = 0; i < WORDS(words); i++)
        words[i] = word = word * 1664525 + 1013904223;
    for (i = 0; i < WORDS(keys); i++)
        keys[i] = word = word * 1664525 + 1013904223;
    for (p = 1; p <= MOST; p++)
        for (n = 1; n <= WIDE; n++) {
            uint32_t out[MOST * WIDE + 1] = {0}, own[WIDE];
            size_t each = LONG + n;
            out[p * n] = 9;
            if (pairing_digest_peers(32, 32, n, p, words, LONG, keys, p * each, out, p * n) != PAIRING_ACCEPTED ||
                out[p * n] != 9)
                return 0;
            for (q = 0; q < p; q++)
                if (pairing_digest_words(32, 32, n, words, LONG, keys + q * each, each, own, n) != PAIRING_ACCEPTED ||
                    memcmp(out + q * n, own, n * sizeof own[0]) != 0)
                    return 0;
        }
    return 1;
}

static int peers_at_the_most_words(void)
{
    static uint32_t zeros[2 * (PAIRING_MOST_WORDS + 1)];
    uint32_t out[] = {9, 9, 9};
    return pairing_digest_peers(32, 32, 1, 2, zeros, PAIRING_MOST_WORDS + 1, zeros, WORDS(zeros), out, 2) ==
               PAIRING_LONG &&
           out[0] == 9 &&
           pairing_digest_peers(32, 32, 1, 2, zeros, PAIRING_MOST_WORDS, zeros, WORDS(zeros), out, 2) ==
               PAIRING_ACCEPTED &&
           out[0] == 0 && out[1] == 0 && out[2] == 9;
}

static int peers_refused(void)
{
    static const uint32_t words[PAIRING_MOST_WORDS + 1] = {3, 7, 600}, keys[] = {10, 20, 100, 20, 100, 256, 1};
    static const struct {
        uint32_t due, w, b, n, p;
        size_t message_words, keys_words, out_words;
    } calls[] = {
        {PAIRING_WIDTH, 0, 0, 0, 0, 2, 6, 2},
        {PAIRING_KEPT, 8, 9, 0, 0, 2, 6, 2},
        {PAIRING_COUNT, 8, 8, 9, 17, 2, 6, 2},
        {PAIRING_COUNT, 8, 8, 0, 0, 2, 6, 2},
        {PAIRING_PEERS, 8, 8, 1, 0, PAIRING_MOST_WORDS + 1, 0, 0},
        {PAIRING_PEERS, 8, 8, 1, PAIRING_MOST_PEERS + 1, 2, 6, 2},
        {PAIRING_PEERS, 8, 8, 1, UINT32_MAX, 2, 6, 2},
        {PAIRING_LONG, 8, 8, 1, 2, PAIRING_MOST_WORDS + 1, 0, 0},
        {PAIRING_KEY, 8, 8, 1, 2, 2, 5, 0},
        {PAIRING_KEY, 8, 8, 1, 2, 2, 7, 2},
        {PAIRING_KEY, 8, 8, 1, 2, 2, 3, 2},
        {PAIRING_TRAY, 8, 8, 1, 2, 2, 6, 1},
        {PAIRING_TRAY, 8, 8, 2, 1, 2, 4, 0},
        /* the last word of the last key, then the message's */
        {PAIRING_WORD, 8, 8, 1, 2, 2, 6, 2},
        {PAIRING_WORD, 9, 9, 3, 1, 3, 6, 3},
    };
    size_t i;
    for (i = 0; i < WORDS(calls); i++) {
        uint32_t out[] = {11, 12, 13};
        uint32_t answer = pairing_digest_peers(calls[i].w, calls[i].b, calls[i].n, calls[i].p, words,
                                               calls[i].message_words, keys, calls[i].keys_words, out,
                                               calls[i].out_words);
        if (answer != calls[i].due || out[0] != 11 || out[1] != 12 || out[2] != 13)
            return 0;
    }
    return 1;
}

/* The C++ standard fixes output 10,000 of seed 5489. */
static int stretched(void)
{
    static uint32_t row[10001];
    row[10000] = 9;
    return pairing_stretch(32, 5489, row, 10000) == PAIRING_ACCEPTED && row[9999] == 4123659995u && row[10000] == 9 &&
           pairing_stretch(16, 5489, row, 10000) == PAIRING_ACCEPTED && row[9999] == 4123659995u / 65536 &&
           row[10000] == 9;
}

static int stretched_to_the_most_words(void)
{
    static uint32_t row[PAIRING_MOST_KEY_WORDS + 1];
    static const uint32_t zeros[PAIRING_MOST_KEY_WORDS + 1];
    if (pairing_stretch(32, 1, row, WORDS(row)) != PAIRING_LONG || memcmp(row, zeros, sizeof zeros) != 0)
        return 0;
    return pairing_stretch(32, 1, row, PAIRING_MOST_KEY_WORDS) == PAIRING_ACCEPTED && row[0] == 1791095845 &&
           row[PAIRING_MOST_KEY_WORDS] == 0;
}

static int stretch_refused(void)
{
    uint32_t row[] = {11, 12};
    return pairing_stretch(0, 1, row, WORDS(row)) == PAIRING_WIDTH &&
           pairing_stretch(33, 1, row, WORDS(row)) == PAIRING_WIDTH && row[0] == 11 && row[1] == 12 &&
           pairing_stretch(1, 1, row, 0) == PAIRING_ACCEPTED && row[0] == 11 && row[1] == 12;
}

/* The array of the generator's published output file, and the outputs with which that file begins. */
static const uint32_t published[] = {0x123, 0x234, 0x345, 0x456};
static const uint32_t published_outputs[] = {1067595299u, 955945823u, 477289528u, 4107218783u, 4228976476u};

static int array_stretched(void)
{
    uint32_t row[] = {9, 9, 9, 9, 9, 9};
    size_t i;
    if (pairing_stretch_array(32, published, WORDS(published), row, 5) != PAIRING_ACCEPTED ||
        memcmp(row, published_outputs, sizeof published_outputs) != 0 || row[5] != 9 ||
        pairing_stretch_array(16, published, WORDS(published), row, 5) != PAIRING_ACCEPTED || row[5] != 9)
        return 0;
    for (i = 0; i < WORDS(published_outputs); i++)
        if (row[i] != published_outputs[i] / 65536)
            return 0;
    return 1;
}

/* Every size of array passes, and its last word counts: a zero there is another seed than the array without it. One
 * word is not the plain seed. */
static int array_of_every_size(void)
{
    static const uint32_t words[PAIRING_MOST_SEED_WORDS] = {5489, 0, 0, 0, 0, 0, 0, 0};
    uint32_t last[2], row[3];
    size_t size;
    if (pairing_stretch(32, words[0], last, 2) != PAIRING_ACCEPTED)
        return 0;
    for (size = 1; size <= PAIRING_MOST_SEED_WORDS; size++) {
        row[2] = 9;
        if (pairing_stretch_array(32, words, size, row, 2) != PAIRING_ACCEPTED || memcmp(row, last, sizeof last) == 0 ||
            row[2] != 9)
            return 0;
        memcpy(last, row, sizeof last);
    }
    return 1;
}

/* Output 10,000 again, as the message's last word; the key is the stretch of the seed. */
static int loaded(void)
{
    static uint32_t key_row[9991], message_row[11], due[9990];
    key_row[9990] = message_row[10] = 9;
    return pairing_load(32, 5489, key_row, 9990, message_row, 10) == PAIRING_ACCEPTED &&
           pairing_stretch(32, 5489, due, 9990) == PAIRING_ACCEPTED && memcmp(key_row, due, sizeof due) == 0 &&
           message_row[9] == 4123659995u && key_row[9990] == 9 && message_row[10] == 9 &&
           pairing_load(16, 5489, key_row, 9990, message_row, 10) == PAIRING_ACCEPTED && key_row[0] == due[0] / 65536 &&
           message_row[9] == 4123659995u / 65536;
}

/* The published outputs, cut at every place. */
static int array_loaded(void)
{
    enum { ALL = WORDS(published_outputs) };
    size_t cut;
    for (cut = 0; cut <= ALL; cut++) {
        uint32_t key_row[ALL + 1], message_row[ALL + 1];
        key_row[cut] = message_row[ALL - cut] = 9;
        if (pairing_load_array(32, published, WORDS(published), key_row, cut, message_row, ALL - cut) !=
                PAIRING_ACCEPTED ||
            memcmp(key_row, published_outputs, cut * sizeof key_row[0]) != 0 ||
            memcmp(message_row, published_outputs + cut, (ALL - cut) * sizeof key_row[0]) != 0 || key_row[cut] != 9 ||
            message_row[ALL - cut] != 9)
            return 0;
    }
    return 1;
}

/* Seed 1 begins with 1791095845; neither row is written beyond its end. */
static int loaded_to_the_most_words(void)
{
    static uint32_t key_row[PAIRING_MOST_KEY_WORDS + 1], message_row[PAIRING_MOST_WORDS + 1];
    key_row[PAIRING_MOST_KEY_WORDS] = message_row[PAIRING_MOST_WORDS] = 9;
    return pairing_load(32, 1, key_row, PAIRING_MOST_KEY_WORDS, message_row, PAIRING_MOST_WORDS) == PAIRING_ACCEPTED &&
           key_row[0] == 1791095845 &&
           pairing_load_array(32, published, WORDS(published), key_row, PAIRING_MOST_KEY_WORDS, message_row,
                              PAIRING_MOST_WORDS) == PAIRING_ACCEPTED &&
           key_row[0] == published_outputs[0] &&
           pairing_stretch_array(1, published, WORDS(published), key_row, PAIRING_MOST_KEY_WORDS) == PAIRING_ACCEPTED &&
           key_row[0] == published_outputs[0] >> 31 && key_row[PAIRING_MOST_KEY_WORDS] == 9 &&
           message_row[PAIRING_MOST_WORDS] == 9;
}

static void hold_nines(uint32_t *row, size_t words)
{
    while (words > 0)
        row[--words] = 9;
}

static int holds_nines(const uint32_t *row, size_t words)
{
    while (words > 0)
        if (row[--words] != 9)
            return 0;
    return 1;
}

static const uint32_t nine_words[PAIRING_MOST_SEED_WORDS + 1] = {1, 2, 3, 4, 5, 6, 7, 8, 9};

static int array_stretch_refused(void)
{
    static uint32_t row[PAIRING_MOST_KEY_WORDS + 1];
    static const struct {
        uint32_t due, w;
        size_t seed_words, out_words;
    } calls[] = {
        {PAIRING_WIDTH, 0, 8, 2},
        {PAIRING_WIDTH, 33, 0, WORDS(row)},
        {PAIRING_WIDTH, 0, 9, WORDS(row)},
        {PAIRING_SEED, 1, 0, 2},
        {PAIRING_SEED, 32, 9, 2},
        {PAIRING_SEED, 32, 0, WORDS(row)},
        {PAIRING_SEED, 1, 9, WORDS(row)},
        {PAIRING_LONG, 1, 1, WORDS(row)},
        {PAIRING_LONG, 32, 8, WORDS(row)},
    };
    size_t i;
    hold_nines(row, WORDS(row));
    for (i = 0; i < WORDS(calls); i++)
        if (pairing_stretch_array(calls[i].w, nine_words, calls[i].seed_words, row, calls[i].out_words) !=
                calls[i].due ||
            !holds_nines(row, WORDS(row)))
            return 0;
    return 1;
}

/* The plain seed's load answers the same, unless it is the array that is refused. */
static int load_refused(void)
{
    enum { KEY = PAIRING_MOST_KEY_WORDS, MESSAGE = PAIRING_MOST_WORDS };
    static uint32_t key_row[KEY + 1], message_row[KEY];
    static const struct {
        uint32_t due, w;
        size_t seed_words, key_words, message_words;
    } calls[] = {
        {PAIRING_WIDTH, 0, 8, 2, 2},
        {PAIRING_WIDTH, 33, 0, KEY + 1, MESSAGE + 1},
        {PAIRING_WIDTH, 0, 9, KEY + 1, MESSAGE + 1},
        {PAIRING_SEED, 1, 0, 2, 2},
        {PAIRING_SEED, 32, 9, 2, 2},
        {PAIRING_SEED, 32, 0, KEY + 1, 0},
        {PAIRING_SEED, 1, 9, 0, MESSAGE + 1},
        {PAIRING_LONG, 1, 1, KEY + 1, 0},
        {PAIRING_LONG, 32, 8, KEY + 1, MESSAGE},
        {PAIRING_LONG, 1, 1, 0, MESSAGE + 1},
        {PAIRING_LONG, 32, 8, KEY, MESSAGE + 1},
        /* as many as a key may have */
        {PAIRING_LONG, 32, 8, KEY, KEY},
    };
    size_t i;
    hold_nines(key_row, WORDS(key_row));
    hold_nines(message_row, WORDS(message_row));
    for (i = 0; i < WORDS(calls); i++)
        if (pairing_load_array(calls[i].w, nine_words, calls[i].seed_words, key_row, calls[i].key_words, message_row,
                               calls[i].message_words) != calls[i].due ||
            (calls[i].due != PAIRING_SEED && pairing_load(calls[i].w, 1, key_row, calls[i].key_words, message_row,
                                                          calls[i].message_words) != calls[i].due) ||
            !holds_nines(key_row, WORDS(key_row)) || !holds_nines(message_row, WORDS(message_row)))
            return 0;
    return 1;
}

/* A stream's state: w, b, n and the words taken; sums; key words; a place that nothing uses yet. */
struct stream {
    uint32_t numbers[4], sums[8], keys[8], last;
};

static int is_state(const uint32_t *row, const struct stream *due)
{
    return sizeof *due == PAIRING_STREAM_WORDS * sizeof row[0] && memcmp(row, due, sizeof *due) == 0;
}

/* Case G of document 01, and case C at the end. Places beyond the state and beyond the digest keep what they held. */
static int stream_read_at_every_moment(void)
{
    static const struct stream opened = {{8, 8, 2, 0}, {0}, {10, 20}, 0};
    static const struct stream after_one = {{8, 8, 2, 1}, {0x1e, 0x3d}, {20, 100}, 0};
    static const struct stream after_two = {{8, 8, 2, 2}, {0xac, 0xff}, {100, 250}, 0};
    enum { STATE = PAIRING_STREAM_WORDS };
    uint32_t row[STATE + 3], out[] = {9, 9, 9};
    hold_nines(row, WORDS(row));
    return pairing_stream_open(8, 8, 2, key, 2, row, WORDS(row)) == PAIRING_ACCEPTED && is_state(row, &opened) &&
           pairing_stream_read(row, STATE, out, 3) == PAIRING_ACCEPTED && out[0] == 0 && out[1] == 0 &&
           pairing_stream_push(row, STATE, message, 1, key + 2, 1) == PAIRING_ACCEPTED && is_state(row, &after_one) &&
           pairing_stream_read(row, STATE, out, 3) == PAIRING_ACCEPTED && out[0] == 0x1e && out[1] == 0x3d &&
           pairing_stream_push(row, STATE, message + 1, 1, key + 3, 1) == PAIRING_ACCEPTED &&
           is_state(row, &after_two) && pairing_stream_read(row, STATE, out, 2) == PAIRING_ACCEPTED && out[0] == 0xac &&
           out[1] == 0xff && out[2] == 9 && holds_nines(row + STATE, 3);
}

/* Case D: the sums have all bits until they are read. */
static int stream_with_bits_dropped(void)
{
    static const struct stream due = {{8, 4, 2, 2}, {0xac, 0xff}, {100, 250}, 0};
    uint32_t row[PAIRING_STREAM_WORDS], out[] = {9, 9};
    return pairing_stream_open(8, 4, 2, key, 2, row, WORDS(row)) == PAIRING_ACCEPTED &&
           pairing_stream_push(row, WORDS(row), message, 2, key + 2, 2) == PAIRING_ACCEPTED && is_state(row, &due) &&
           pairing_stream_read(row, WORDS(row), out, 2) == PAIRING_ACCEPTED && out[0] == 0x0c && out[1] == 0x0f;
}

/* A message cut at every place reads as the whole, for every number of digest words. */
static int stream_cut_at_every_place(void)
{
    enum { WIDE = PAIRING_MOST_DIGEST_WORDS, LONG = 41 };
    static uint32_t words[LONG], keys[LONG + WIDE];
    uint32_t n, word = 1;
    size_t i, cut;
    for (i = 0; i < WORDS(words); i++)
        words[i] = word = word * 1664525 + 1013904223;
    for (i = 0; i < WORDS(keys); i++)
        keys[i] = word = word * 1664525 + 1013904223;
    for (n = 1; n <= WIDE; n++)
        for (cut = 0; cut <= LONG; cut++) {
            uint32_t row[PAIRING_STREAM_WORDS], out[WIDE], whole[WIDE];
            const uint32_t *rest = keys + n;
            hold_nines(row, WORDS(row));
            if (pairing_stream_open(32, 32, n, keys, n, row, WORDS(row)) != PAIRING_ACCEPTED ||
                pairing_stream_push(row, WORDS(row), words, cut, rest, cut) != PAIRING_ACCEPTED ||
                pairing_stream_push(row, WORDS(row), words + cut, LONG - cut, rest + cut, LONG - cut) !=
                    PAIRING_ACCEPTED ||
                pairing_stream_read(row, WORDS(row), out, n) != PAIRING_ACCEPTED ||
                pairing_digest_words(32, 32, n, words, LONG, keys, LONG + n, whole, n) != PAIRING_ACCEPTED ||
                memcmp(out, whole, n * sizeof out[0]) != 0)
                return 0;
        }
    return 1;
}

/* The last word alone is 1, and 5 the key word under it. After the most words only an empty part passes. */
static int stream_at_the_most_words(void)
{
    enum { MOST = PAIRING_MOST_WORDS, STATE = PAIRING_STREAM_WORDS };
    static uint32_t words[MOST + 1], keys[MOST + 1];
    const uint32_t zero = 0;
    uint32_t row[STATE], before[STATE], out = 9;
    words[MOST - 1] = 1;
    keys[MOST - 2] = 5;
    if (pairing_stream_open(32, 32, 1, &zero, 1, row, STATE) != PAIRING_ACCEPTED)
        return 0;
    memcpy(before, row, sizeof row);
    if (pairing_stream_push(row, STATE, words, MOST + 1, keys, MOST + 1) != PAIRING_LONG ||
        memcmp(row, before, sizeof row) != 0 ||
        pairing_stream_push(row, STATE, words, MOST, keys, MOST) != PAIRING_ACCEPTED || row[3] != MOST)
        return 0;
    memcpy(before, row, sizeof row);
    return pairing_stream_push(row, STATE, &zero, 1, &zero, 1) == PAIRING_LONG &&
           pairing_stream_push(row, STATE, &zero, 0, &zero, 0) == PAIRING_ACCEPTED &&
           memcmp(row, before, sizeof row) == 0 && pairing_stream_read(row, STATE, &out, 1) == PAIRING_ACCEPTED &&
           out == 5;
}

/* A state that is copied as words goes on as the one that it was copied from. */
static int stream_copied(void)
{
    uint32_t row[PAIRING_STREAM_WORDS], copy[PAIRING_STREAM_WORDS];
    if (pairing_stream_open(8, 8, 2, key, 2, row, WORDS(row)) != PAIRING_ACCEPTED)
        return 0;
    memcpy(copy, row, sizeof row);
    return pairing_stream_push(row, WORDS(row), message, 2, key + 2, 2) == PAIRING_ACCEPTED &&
           memcmp(copy, row, sizeof row) != 0 &&
           pairing_stream_push(copy, WORDS(copy), message, 2, key + 2, 2) == PAIRING_ACCEPTED &&
           memcmp(copy, row, sizeof row) == 0;
}

static int stream_open_refused(void)
{
    enum { STATE = PAIRING_STREAM_WORDS };
    static const uint32_t keys[] = {10, 20, 256, 1, 1, 1, 1, 1, 1};
    static const struct {
        uint32_t due, w, b, n;
        size_t key_words, state_words;
    } calls[] = {
        {PAIRING_WIDTH, 0, 0, 0, 3, 0},
        {PAIRING_WIDTH, 33, 8, 2, 2, STATE},
        {PAIRING_KEPT, 8, 0, 9, 3, 0},
        {PAIRING_KEPT, 8, 9, 2, 2, STATE},
        {PAIRING_COUNT, 8, 8, 0, 0, STATE},
        {PAIRING_COUNT, 8, 8, 0, 3, 0},
        {PAIRING_COUNT, 8, 8, 9, 9, STATE},
        {PAIRING_KEY, 8, 8, 2, 1, STATE},
        {PAIRING_KEY, 8, 8, 2, 0, STATE},
        /* before a row that is too short, and a word that is too large */
        {PAIRING_KEY, 8, 8, 2, 3, STATE - 1},
        {PAIRING_TRAY, 8, 8, 2, 2, STATE - 1},
        {PAIRING_TRAY, 8, 8, 2, 2, 0},
        {PAIRING_TRAY, 8, 8, 3, 3, STATE - 1},
        {PAIRING_WORD, 8, 8, 3, 3, STATE},
        {PAIRING_WORD, 8, 8, 8, 8, STATE + 3},
    };
    uint32_t row[STATE + 3];
    size_t i;
    hold_nines(row, WORDS(row));
    for (i = 0; i < WORDS(calls); i++)
        if (pairing_stream_open(calls[i].w, calls[i].b, calls[i].n, keys, calls[i].key_words, row,
                                calls[i].state_words) != calls[i].due ||
            !holds_nines(row, WORDS(row)))
            return 0;
    return 1;
}

/* Three words are left. What is pushed starts at one of four places. */
static int stream_push_refused(void)
{
    enum { STATE = PAIRING_STREAM_WORDS };
    static const uint32_t words[] = {3, 7, 256, 5}, keys[] = {100, 250, 1, 256};
    static const struct {
        uint32_t due;
        size_t state_words, from, message_words, key_words;
    } calls[] = {
        {PAIRING_STATE, STATE - 1, 0, 1, 1},
        {PAIRING_STATE, STATE + 1, 0, 1, 1},
        {PAIRING_STATE, 0, 0, 0, 0},
        {PAIRING_STATE, STATE - 1, 0, 4, 3},
        {PAIRING_LONG, STATE, 0, 4, 4},
        {PAIRING_LONG, STATE, 0, 4, 3},
        {PAIRING_KEY, STATE, 0, 2, 1},
        {PAIRING_KEY, STATE, 0, 0, 1},
        {PAIRING_KEY, STATE, 0, 1, 0},
        {PAIRING_KEY, STATE, 2, 1, 2},
        /* the message's last word, then only the key's */
        {PAIRING_WORD, STATE, 0, 3, 3},
        {PAIRING_WORD, STATE, 3, 1, 1},
    };
    static const struct stream state = {{8, 4, 2, PAIRING_MOST_WORDS - 3}, {255, 1}, {10, 20}, 0};
    uint32_t row[STATE + 1] = {0}, before[STATE + 1];
    size_t i;
    memcpy(row, &state, sizeof state);
    memcpy(before, row, sizeof row);
    for (i = 0; i < WORDS(calls); i++)
        if (pairing_stream_push(row, calls[i].state_words, words + calls[i].from, calls[i].message_words,
                                keys + calls[i].from, calls[i].key_words) != calls[i].due ||
            memcmp(row, before, sizeof row) != 0)
            return 0;
    return 1;
}

static int stream_read_refused(void)
{
    enum { STATE = PAIRING_STREAM_WORDS };
    static const struct {
        uint32_t due;
        size_t state_words, out_words;
    } calls[] = {
        {PAIRING_STATE, STATE - 1, 3}, {PAIRING_STATE, STATE + 1, 3}, {PAIRING_STATE, 0, 3},
        {PAIRING_STATE, STATE - 1, 1}, {PAIRING_STATE, STATE + 1, 0}, {PAIRING_TRAY, STATE, 1},
        {PAIRING_TRAY, STATE, 0},
    };
    static const struct stream state = {{8, 4, 2, PAIRING_MOST_WORDS}, {255, 1}, {10, 20}, 0};
    uint32_t row[STATE + 1] = {0}, before[STATE + 1], out[3];
    size_t i;
    memcpy(row, &state, sizeof state);
    memcpy(before, row, sizeof row);
    hold_nines(out, WORDS(out));
    for (i = 0; i < WORDS(calls); i++)
        if (pairing_stream_read(row, calls[i].state_words, out, calls[i].out_words) != calls[i].due ||
            memcmp(row, before, sizeof row) != 0 || !holds_nines(out, WORDS(out)))
            return 0;
    return 1;
}

/* A fit state with another word at one place, which makes it unfit. */
static int stream_state_refused(void)
{
    static const struct {
        size_t place;
        uint32_t word;
    } others[] = {
        {0, 0},  {0, 33},    {0, 7},          {0, UINT32_MAX}, {1, 0},          {1, 9},    {2, 0},  {2, 1},
        {2, 9},  {3, 65537}, {3, UINT32_MAX}, {4, 256},        {5, UINT32_MAX}, {6, 1},    {7, 1},  {8, 1},
        {9, 1},  {10, 1},    {11, 1},         {12, 256},       {13, 256},       {14, 1},   {15, 1}, {16, 256},
        {17, 1}, {18, 1},    {19, 1},         {20, 1},         {20, 0x10000u},
    };
    static const struct stream state = {{8, 4, 2, 3}, {255, 1}, {10, 20}, 0};
    const uint32_t one = 1;
    uint32_t row[PAIRING_STREAM_WORDS], before[PAIRING_STREAM_WORDS], out[] = {9, 9};
    size_t i;
    memcpy(row, &state, sizeof state);
    if (pairing_stream_push(row, WORDS(row), &one, 1, &one, 1) != PAIRING_ACCEPTED)
        return 0;
    for (i = 0; i < WORDS(others); i++) {
        memcpy(row, &state, sizeof state);
        row[others[i].place] = others[i].word;
        memcpy(before, row, sizeof row);
        if (pairing_stream_push(row, WORDS(row), &one, 1, &one, 1) != PAIRING_STATE ||
            pairing_stream_read(row, WORDS(row), out, 2) != PAIRING_STATE || memcmp(row, before, sizeof row) != 0 ||
            out[0] != 9 || out[1] != 9)
            return 0;
    }
    return 1;
}

static int match(void)
{
    const uint32_t same[] = {3, 7};
    return pairing_match(2, message, WORDS(message), same, WORDS(same)) == PAIRING_MATCH &&
           pairing_match(2, message, WORDS(message), message, WORDS(message)) == PAIRING_MATCH;
}

static int no_match(void)
{
    const uint32_t first_differs[] = {2, 7}, last_differs[] = {3, 6};
    return pairing_match(2, message, WORDS(message), first_differs, 2) == PAIRING_NO_MATCH &&
           pairing_match(2, message, WORDS(message), last_differs, 2) == PAIRING_NO_MATCH;
}

static int match_refused(void)
{
    return pairing_match(0, key, 0, key, 0) == PAIRING_COUNT && pairing_match(9, key, 4, key, 4) == PAIRING_COUNT &&
           pairing_match(2, key, 1, key, 2) == PAIRING_TRAY && pairing_match(2, key, 2, key, 3) == PAIRING_TRAY;
}

/* At a count of 0 a row may be NULL: message, key, output, and each row of a match. */
static int null_rows(void)
{
    const uint32_t seven = 7;
    uint32_t out[] = {9, 9};
    return pairing_digest_words(8, 8, 1, NULL, 0, &seven, 1, out, WORDS(out)) == PAIRING_ACCEPTED && out[0] == 0 &&
           out[1] == 9 && pairing_digest_words(8, 8, 1, NULL, 0, NULL, 0, out, WORDS(out)) == PAIRING_KEY &&
           pairing_digest_words(8, 8, 1, NULL, 0, &seven, 1, NULL, 0) == PAIRING_TRAY &&
           pairing_digest_words(8, 8, 1, message, WORDS(message), NULL, 0, NULL, 0) == PAIRING_KEY &&
           pairing_digest_words(0, 0, 0, NULL, 0, NULL, 0, NULL, 0) == PAIRING_WIDTH &&
           pairing_stretch(32, 1, NULL, 0) == PAIRING_ACCEPTED && pairing_stretch(33, 1, NULL, 0) == PAIRING_WIDTH &&
           pairing_match(1, NULL, 0, NULL, 0) == PAIRING_TRAY && pairing_match(1, NULL, 0, key, 1) == PAIRING_TRAY &&
           pairing_match(1, key, 1, NULL, 0) == PAIRING_TRAY && pairing_match(0, NULL, 0, NULL, 0) == PAIRING_COUNT;
}

static int null_bytes(void)
{
    const uint32_t one_zero[] = {1, 0};
    uint32_t w;
    for (w = 8; w <= 32; w *= 2) {
        uint32_t out[] = {9, 9};
        if (pairing_digest_bytes(w, w, 1, NULL, 0, one_zero, 2, out, WORDS(out)) != PAIRING_ACCEPTED ||
            out[0] != 0x80 || out[1] != 9 ||
            pairing_digest_bytes(w, w, 1, NULL, 0, one_zero, 1, out, WORDS(out)) != PAIRING_KEY ||
            pairing_digest_bytes(w, w, 1, NULL, 0, NULL, 0, out, WORDS(out)) != PAIRING_KEY ||
            pairing_digest_bytes(w, w, 1, NULL, 0, one_zero, 2, NULL, 0) != PAIRING_TRAY)
            return 0;
    }
    return pairing_digest_bytes(24, 8, 1, NULL, 0, NULL, 0, NULL, 0) == PAIRING_WIDTH;
}

static int null_code(void)
{
    const uint32_t seven = 7;
    uint8_t out[] = {9, 9};
    return pairing_digest_code(8, 2, NULL, 0, &seven, 1, out, WORDS(out)) == PAIRING_ACCEPTED && out[0] == 0 &&
           out[1] == 9 && pairing_digest_code(8, 2, NULL, 0, NULL, 0, out, WORDS(out)) == PAIRING_KEY &&
           pairing_digest_code(8, 2, message, WORDS(message), NULL, 0, out, WORDS(out)) == PAIRING_KEY &&
           pairing_digest_code(8, 2, NULL, 0, &seven, 1, NULL, 0) == PAIRING_TRAY &&
           pairing_digest_code(8, 0, NULL, 0, NULL, 0, NULL, 0) == PAIRING_DIGITS &&
           pairing_digest_code(0, 0, NULL, 0, NULL, 0, NULL, 0) == PAIRING_WIDTH;
}

static int null_peers(void)
{
    const uint32_t sevens[] = {7, 7};
    uint32_t out[] = {9, 9, 9};
    return pairing_digest_peers(8, 8, 1, 2, NULL, 0, sevens, 2, out, WORDS(out)) == PAIRING_ACCEPTED && out[0] == 0 &&
           out[1] == 0 && out[2] == 9 && pairing_digest_peers(8, 8, 1, 2, NULL, 0, NULL, 0, NULL, 0) == PAIRING_KEY &&
           pairing_digest_peers(8, 8, 1, 2, NULL, 0, sevens, 2, NULL, 0) == PAIRING_TRAY &&
           pairing_digest_peers(8, 8, 1, 0, NULL, 0, NULL, 0, NULL, 0) == PAIRING_PEERS &&
           pairing_digest_peers(0, 0, 0, 0, NULL, 0, NULL, 0, NULL, 0) == PAIRING_WIDTH;
}

static int null_streams(void)
{
    const uint32_t seven = 7;
    uint32_t row[PAIRING_STREAM_WORDS], before[PAIRING_STREAM_WORDS], out = 9;
    if (pairing_stream_open(8, 8, 1, &seven, 1, row, WORDS(row)) != PAIRING_ACCEPTED)
        return 0;
    memcpy(before, row, sizeof row);
    return pairing_stream_open(0, 0, 0, NULL, 0, NULL, 0) == PAIRING_WIDTH &&
           pairing_stream_open(8, 8, 1, NULL, 0, row, WORDS(row)) == PAIRING_KEY &&
           pairing_stream_open(8, 8, 1, NULL, 0, NULL, 0) == PAIRING_KEY &&
           pairing_stream_open(8, 8, 1, &seven, 1, NULL, 0) == PAIRING_TRAY &&
           pairing_stream_push(NULL, 0, NULL, 0, NULL, 0) == PAIRING_STATE &&
           pairing_stream_push(row, WORDS(row), NULL, 0, NULL, 0) == PAIRING_ACCEPTED &&
           pairing_stream_push(row, WORDS(row), &seven, 1, NULL, 0) == PAIRING_KEY &&
           pairing_stream_push(row, WORDS(row), NULL, 0, &seven, 1) == PAIRING_KEY &&
           pairing_stream_read(NULL, 0, NULL, 0) == PAIRING_STATE &&
           pairing_stream_read(NULL, 0, &out, 1) == PAIRING_STATE &&
           pairing_stream_read(row, WORDS(row), NULL, 0) == PAIRING_TRAY && out == 9 &&
           memcmp(row, before, sizeof row) == 0;
}

/* The seed, and each row of a load with the other row there. */
static int null_seeds(void)
{
    uint32_t plain_key[] = {9, 9}, plain_message[] = {9, 9}, array_key[] = {9, 9}, array_message[] = {9, 9};
    return pairing_stretch_array(32, published, WORDS(published), NULL, 0) == PAIRING_ACCEPTED &&
           pairing_stretch_array(32, NULL, 0, array_key, 1) == PAIRING_SEED && array_key[0] == 9 &&
           pairing_stretch_array(33, NULL, 0, NULL, 0) == PAIRING_WIDTH &&
           pairing_load(32, 1, NULL, 0, NULL, 0) == PAIRING_ACCEPTED &&
           pairing_load(32, 1, plain_key, 1, NULL, 0) == PAIRING_ACCEPTED &&
           pairing_load(32, 1, NULL, 0, plain_message, 1) == PAIRING_ACCEPTED && plain_key[0] == 1791095845 &&
           plain_message[0] == 1791095845 && pairing_load(33, 1, NULL, 0, NULL, 0) == PAIRING_WIDTH &&
           pairing_load_array(32, NULL, 0, array_key, 1, array_message, 1) == PAIRING_SEED && array_key[0] == 9 &&
           pairing_load_array(32, published, WORDS(published), array_key, 1, NULL, 0) == PAIRING_ACCEPTED &&
           pairing_load_array(32, published, WORDS(published), NULL, 0, array_message, 1) == PAIRING_ACCEPTED &&
           array_key[0] == published_outputs[0] && array_message[0] == published_outputs[0] &&
           pairing_load_array(0, NULL, 0, NULL, 0, NULL, 0) == PAIRING_WIDTH && plain_key[1] == 9 &&
           plain_message[1] == 9 && array_key[1] == 9 && array_message[1] == 9;
}

static int version(void)
{
    char text[32];
    snprintf(text, sizeof text, "%d.%d.%d", PAIRING_VERSION_MAJOR, PAIRING_VERSION_MINOR, PAIRING_VERSION_PATCH);
    return strcmp(text, PAIRING_VERSION) == 0;
}

/* The archive is the header's: 0.9.0 is 900. */
static int version_of_the_library(void)
{
    char text[32];
    uint32_t number = pairing_version();
    snprintf(text, sizeof text, "%u.%u.%u", (unsigned)(number / 10000), (unsigned)(number / 100 % 100),
             (unsigned)(number % 100));
    return number == PAIRING_VERSION_NUMBER && strcmp(text, PAIRING_VERSION) == 0;
}

static const struct {
    const char *name;
    int (*passes)(void);
} tests[] = {
    {"accepted", accepted},
    {"accepted_with_bits_dropped", accepted_with_bits_dropped},
    {"accepted_without_a_message", accepted_without_a_message},
    {"accepted_at_the_most_words", accepted_at_the_most_words},
    {"refused", refused},
    {"bytes_accepted", bytes_accepted},
    {"bytes_lowest_first", bytes_lowest_first},
    {"bytes_that_fill_their_last_word", bytes_that_fill_their_last_word},
    {"bytes_with_a_zero_at_the_end", bytes_with_a_zero_at_the_end},
    {"bytes_accepted_without_a_message", bytes_accepted_without_a_message},
    {"bytes_at_the_most_words", bytes_at_the_most_words},
    {"bytes_refused", bytes_refused},
    {"code_accepted", code_accepted},
    {"code_of_every_size", code_of_every_size},
    {"code_digits", code_digits},
    {"code_at_the_most_words", code_at_the_most_words},
    {"code_refused", code_refused},
    {"peers_accepted", peers_accepted},
    {"peers_of_every_number", peers_of_every_number},
    {"peers_at_the_most_words", peers_at_the_most_words},
    {"peers_refused", peers_refused},
    {"stretched", stretched},
    {"stretched_to_the_most_words", stretched_to_the_most_words},
    {"stretch_refused", stretch_refused},
    {"array_stretched", array_stretched},
    {"array_of_every_size", array_of_every_size},
    {"array_stretch_refused", array_stretch_refused},
    {"loaded", loaded},
    {"array_loaded", array_loaded},
    {"loaded_to_the_most_words", loaded_to_the_most_words},
    {"load_refused", load_refused},
    {"stream_read_at_every_moment", stream_read_at_every_moment},
    {"stream_with_bits_dropped", stream_with_bits_dropped},
    {"stream_cut_at_every_place", stream_cut_at_every_place},
    {"stream_at_the_most_words", stream_at_the_most_words},
    {"stream_copied", stream_copied},
    {"stream_open_refused", stream_open_refused},
    {"stream_push_refused", stream_push_refused},
    {"stream_read_refused", stream_read_refused},
    {"stream_state_refused", stream_state_refused},
    {"match", match},
    {"no_match", no_match},
    {"match_refused", match_refused},
    {"null_rows", null_rows},
    {"null_bytes", null_bytes},
    {"null_code", null_code},
    {"null_peers", null_peers},
    {"null_streams", null_streams},
    {"null_seeds", null_seeds},
    {"version", version},
    {"version_of_the_library", version_of_the_library},
};

int main(void)
{
    unsigned passed = 0, failed = 0;
    size_t i;
    printf("running %u tests\n", (unsigned)WORDS(tests));
    for (i = 0; i < WORDS(tests); i++) {
        int passes = tests[i].passes();
        printf("test %s ... %s\n", tests[i].name, passes ? "ok" : "FAILED");
        if (passes)
            passed++;
        else
            failed++;
    }
    printf("test result: %s. %u passed; %u failed; 0 ignored; 0 measured; 0 filtered out\n", failed ? "FAILED" : "ok",
           passed, failed);
    return failed != 0;
}
