/* Calls the entries of incremental digests from C. Ends as Rust's test harness does, so that the gate can add it up. */
#include "pairing.h"

#include <stdio.h>
#include <string.h>

#define WORDS(row) (sizeof(row) / sizeof((row)[0]))

static const uint32_t key[] = {10, 20, 100, 250};

/* Fills the row with words that look like any, and returns the last. */
static uint32_t fill(uint32_t *row, size_t words, uint32_t word)
{
    size_t i;
    for (i = 0; i < words; i++)
        row[i] = word = word * 1664525 + 1013904223;
    return word;
}

static void hold_nines(uint32_t *row, size_t words)
{
    while (words > 0)
        row[--words] = 9;
}

static int holds_nines(const uint32_t *row, size_t words)
{
    while (words > 0)
        if (row[--words] != 9)
            return 0;
    return 1;
}

/* Whether readings of a state of two digest words are refused with a row of another length and with too few places, and
 * leave state and output. The row has a word more than the state. */
static int reads_refused(uint32_t (*read)(const uint32_t *, size_t, uint32_t *, size_t), const uint32_t *row,
                         size_t words)
{
    const struct {
        uint32_t due;
        size_t state_words, out_words;
    } calls[] = {
        {PAIRING_STATE, words - 1, 3}, {PAIRING_STATE, words + 1, 3}, {PAIRING_STATE, 0, 3},
        {PAIRING_STATE, 0, 0},         {PAIRING_STATE, words - 1, 1}, {PAIRING_STATE, words + 1, 0},
        {PAIRING_TRAY, words, 1},      {PAIRING_TRAY, words, 0},
    };
    uint32_t before[PAIRING_STREAM_WORDS + 1], out[3];
    size_t i;
    memcpy(before, row, (words + 1) * sizeof row[0]);
    hold_nines(out, WORDS(out));
    for (i = 0; i < WORDS(calls); i++)
        if (read(row, calls[i].state_words, out, calls[i].out_words) != calls[i].due ||
            memcmp(row, before, (words + 1) * sizeof row[0]) != 0 || !holds_nines(out, WORDS(out)))
            return 0;
    return read(row, words, out, 2) == PAIRING_ACCEPTED;
}

/* An incremental digest's state: w, b, n and the message's words; sums. */
struct incremental {
    uint32_t numbers[4], sums[8];
};

static int is_incremental(const uint32_t *row, const struct incremental *due)
{
    return sizeof *due == PAIRING_INCREMENTAL_WORDS * sizeof row[0] && memcmp(row, due, sizeof *due) == 0;
}

/* Case C of document 01, its first word raised to 4, its second made 0; the sums follow by hand. Places beyond the
 * state and beyond the digest keep what they held. */
static int incremental_edited(void)
{
    static const struct incremental opened = {{8, 8, 2, 2}, {0xac, 0xff}};
    static const struct incremental after_one = {{8, 8, 2, 2}, {182, 19}};
    static const struct incremental after_two = {{8, 8, 2, 2}, {40, 81}};
    enum { STATE = PAIRING_INCREMENTAL_WORDS };
    uint32_t words[] = {3, 7, 9}, row[STATE + 3], out[] = {9, 9, 9};
    hold_nines(row, WORDS(row));
    return pairing_incremental_open(8, 8, 2, words, 2, key, 4, row, WORDS(row)) == PAIRING_ACCEPTED &&
           is_incremental(row, &opened) && words[0] == 3 && words[1] == 7 &&
           pairing_incremental_edit(row, STATE, words, 2, key, 4, 0, 4) == PAIRING_ACCEPTED &&
           is_incremental(row, &after_one) && words[0] == 4 && words[1] == 7 &&
           pairing_incremental_read(row, STATE, out, 3) == PAIRING_ACCEPTED && out[0] == 182 && out[1] == 19 &&
           pairing_incremental_edit(row, STATE, words, 2, key, 4, 1, 0) == PAIRING_ACCEPTED &&
           is_incremental(row, &after_two) && words[0] == 4 && words[1] == 0 && words[2] == 9 &&
           pairing_incremental_read(row, STATE, out, 2) == PAIRING_ACCEPTED && out[0] == 40 && out[1] == 81 &&
           out[2] == 9 && holds_nines(row + STATE, 3);
}

/* Case D: the sums have all bits until they are read. */
static int incremental_with_bits_dropped(void)
{
    static const struct incremental due = {{8, 4, 2, 2}, {182, 19}};
    uint32_t words[] = {3, 7}, row[PAIRING_INCREMENTAL_WORDS], out[] = {9, 9};
    return pairing_incremental_open(8, 4, 2, words, 2, key, 4, row, WORDS(row)) == PAIRING_ACCEPTED &&
           pairing_incremental_read(row, WORDS(row), out, 2) == PAIRING_ACCEPTED && out[0] == 0x0c && out[1] == 0x0f &&
           pairing_incremental_edit(row, WORDS(row), words, 2, key, 4, 0, 4) == PAIRING_ACCEPTED &&
           is_incremental(row, &due) && pairing_incremental_read(row, WORDS(row), out, 2) == PAIRING_ACCEPTED &&
           out[0] == 6 && out[1] == 3;
}

/* After an edit at each place, one after the other, the reading is the digest of the message as it then is. */
static int incremental_edited_at_every_place(void)
{
    enum { WIDE = PAIRING_MOST_DIGEST_WORDS, LONG = 41 };
    static uint32_t words[LONG], keys[LONG + WIDE], others[LONG];
    uint32_t n;
    size_t place;
    for (n = 1; n <= WIDE; n++) {
        uint32_t row[PAIRING_INCREMENTAL_WORDS], out[WIDE], whole[WIDE];
        fill(others, LONG, fill(keys, WORDS(keys), fill(words, LONG, n)));
        if (pairing_incremental_open(32, 32, n, words, LONG, keys, LONG + n, row, WORDS(row)) != PAIRING_ACCEPTED)
            return 0;
        for (place = 0; place < LONG; place++)
            if (pairing_incremental_edit(row, WORDS(row), words, LONG, keys, LONG + n, place, others[place]) !=
                    PAIRING_ACCEPTED ||
                words[place] != others[place] ||
                pairing_incremental_read(row, WORDS(row), out, n) != PAIRING_ACCEPTED ||
                pairing_digest_words(32, 32, n, words, LONG, keys, LONG + n, whole, n) != PAIRING_ACCEPTED ||
                memcmp(out, whole, n * sizeof out[0]) != 0)
                return 0;
    }
    return 1;
}

/* Zeros, of which the last word becomes 1 over the key word 5. No row of another length than the opened one passes. */
static int incremental_at_the_most_words(void)
{
    enum { MOST = PAIRING_MOST_WORDS, STATE = PAIRING_INCREMENTAL_WORDS };
    static uint32_t words[MOST + 1], keys[MOST + 2];
    uint32_t row[STATE], before[STATE], out = 9;
    hold_nines(row, STATE);
    keys[MOST - 1] = 5;
    if (pairing_incremental_open(32, 32, 1, words, MOST + 1, keys, MOST + 2, row, STATE) != PAIRING_LONG ||
        !holds_nines(row, STATE) ||
        pairing_incremental_open(32, 32, 1, words, MOST, keys, MOST + 1, row, STATE) != PAIRING_ACCEPTED ||
        row[3] != MOST)
        return 0;
    memcpy(before, row, sizeof row);
    return pairing_incremental_edit(row, STATE, words, MOST + 1, keys, MOST + 2, 0, 1) == PAIRING_LONG &&
           pairing_incremental_edit(row, STATE, words, MOST - 1, keys, MOST + 1, 0, 1) == PAIRING_LONG &&
           pairing_incremental_edit(row, STATE, words, MOST, keys, MOST + 1, MOST, 1) == PAIRING_PLACE &&
           memcmp(row, before, sizeof row) == 0 && words[0] == 0 && words[MOST] == 0 &&
           pairing_incremental_edit(row, STATE, words, MOST, keys, MOST + 1, MOST - 1, 1) == PAIRING_ACCEPTED &&
           words[MOST - 1] == 1 && words[MOST] == 0 &&
           pairing_incremental_read(row, STATE, &out, 1) == PAIRING_ACCEPTED && out == 5;
}

/* A state and a message that are copied go on as those that they were copied from. */
static int incremental_copied(void)
{
    uint32_t words[] = {3, 7}, other[] = {3, 7}, row[PAIRING_INCREMENTAL_WORDS], copy[PAIRING_INCREMENTAL_WORDS];
    if (pairing_incremental_open(8, 8, 2, words, 2, key, 4, row, WORDS(row)) != PAIRING_ACCEPTED)
        return 0;
    memcpy(copy, row, sizeof row);
    return pairing_incremental_edit(row, WORDS(row), words, 2, key, 4, 1, 9) == PAIRING_ACCEPTED &&
           memcmp(copy, row, sizeof row) != 0 &&
           pairing_incremental_edit(copy, WORDS(copy), other, 2, key, 4, 1, 9) == PAIRING_ACCEPTED &&
           memcmp(copy, row, sizeof row) == 0 && memcmp(words, other, sizeof words) == 0;
}

static int incremental_open_refused(void)
{
    enum { STATE = PAIRING_INCREMENTAL_WORDS };
    static const uint32_t words[PAIRING_MOST_WORDS + 1] = {3, 7, 256}, keys[] = {10, 20, 100, 250, 256, 1, 1, 1, 1, 1};
    static const struct {
        uint32_t due, w, b, n;
        size_t message_words, key_words, state_words;
    } calls[] = {
        {PAIRING_WIDTH, 0, 0, 0, 2, 4, 0},
        {PAIRING_WIDTH, 33, 8, 2, 2, 4, STATE},
        {PAIRING_KEPT, 8, 0, 9, 2, 4, 0},
        {PAIRING_KEPT, 8, 9, 2, 2, 4, STATE},
        {PAIRING_COUNT, 8, 8, 0, 2, 2, STATE},
        {PAIRING_COUNT, 8, 8, 9, PAIRING_MOST_WORDS + 1, 0, 0},
        {PAIRING_LONG, 8, 8, 2, PAIRING_MOST_WORDS + 1, 0, 0},
        {PAIRING_KEY, 8, 8, 2, 2, 3, STATE},
        {PAIRING_KEY, 8, 8, 2, 2, 5, STATE},
        {PAIRING_KEY, 8, 8, 2, 2, 0, STATE},
        /* before a row that is too short, and a word that is too large */
        {PAIRING_KEY, 8, 8, 2, 3, 4, STATE - 1},
        {PAIRING_TRAY, 8, 8, 2, 2, 4, STATE - 1},
        {PAIRING_TRAY, 8, 8, 2, 2, 4, 0},
        {PAIRING_TRAY, 8, 8, 2, 3, 5, STATE - 1},
        /* a message word, then only the key's last */
        {PAIRING_WORD, 8, 8, 1, 3, 4, STATE},
        {PAIRING_WORD, 8, 8, 3, 2, 5, STATE + 3},
    };
    uint32_t row[STATE + 3];
    size_t i;
    hold_nines(row, WORDS(row));
    for (i = 0; i < WORDS(calls); i++)
        if (pairing_incremental_open(calls[i].w, calls[i].b, calls[i].n, words, calls[i].message_words, keys,
                                     calls[i].key_words, row, calls[i].state_words) != calls[i].due ||
            !holds_nines(row, WORDS(row)))
            return 0;
    return 1;
}

/* Four words, of which the third is too large; so is the key's last word, which only the last place looks at. */
static int incremental_edit_refused(void)
{
    enum { STATE = PAIRING_INCREMENTAL_WORDS };
    static const uint32_t given[] = {3, 7, 256, 5, 1}, keys[] = {10, 20, 100, 250, 1, 256, 1};
    static const struct {
        uint32_t due;
        size_t state_words, message_words, key_words, place;
        uint32_t word;
    } calls[] = {
        {PAIRING_STATE, STATE - 1, 4, 6, 0, 1},
        {PAIRING_STATE, STATE + 1, 4, 6, 0, 1},
        {PAIRING_STATE, 0, 5, 5, 9, 256},
        {PAIRING_LONG, STATE, 3, 6, 0, 1},
        {PAIRING_LONG, STATE, 5, 7, 0, 1},
        {PAIRING_LONG, STATE, 0, 5, 9, 256},
        {PAIRING_KEY, STATE, 4, 5, 0, 1},
        {PAIRING_KEY, STATE, 4, 7, 0, 1},
        {PAIRING_KEY, STATE, 4, 0, 9, 256},
        {PAIRING_PLACE, STATE, 4, 6, 4, 1},
        {PAIRING_PLACE, STATE, 4, 6, 4, 256},
        {PAIRING_PLACE, STATE, 4, 6, SIZE_MAX, 1},
        {PAIRING_PLACE, STATE, 4, 6, (size_t)1 << 32, 1},
        /* the new word, the old one, the last key word under the place */
        {PAIRING_WORD, STATE, 4, 6, 0, 256},
        {PAIRING_WORD, STATE, 4, 6, 2, 1},
        {PAIRING_WORD, STATE, 4, 6, 3, 1},
    };
    static const struct incremental state = {{8, 4, 2, 4}, {255, 1}};
    uint32_t row[STATE + 1] = {0}, before[STATE + 1], words[WORDS(given)];
    size_t i;
    memcpy(row, &state, sizeof state);
    memcpy(before, row, sizeof row);
    memcpy(words, given, sizeof given);
    for (i = 0; i < WORDS(calls); i++)
        if (pairing_incremental_edit(row, calls[i].state_words, words, calls[i].message_words, keys, calls[i].key_words,
                                     calls[i].place, calls[i].word) != calls[i].due ||
            memcmp(row, before, sizeof row) != 0 || memcmp(words, given, sizeof given) != 0)
            return 0;
    return 1;
}

/* The others are too large. 3 gave 30 + 0 and 60 + 1, and 0 gives nothing: 255 - 30, and 1 - 61 + 256. */
static int incremental_words_not_looked_at(void)
{
    static const struct incremental due = {{8, 4, 2, 4}, {225, 196}};
    uint32_t row[PAIRING_INCREMENTAL_WORDS] = {8, 4, 2, 4, 255, 1};
    uint32_t words[] = {256, 3, UINT32_MAX, 256};
    const uint32_t left[] = {256, 0, UINT32_MAX, 256}, keys[] = {UINT32_MAX, 10, 20, 100, 256, 256};
    return pairing_incremental_edit(row, WORDS(row), words, 4, keys, 6, 1, 0) == PAIRING_ACCEPTED &&
           is_incremental(row, &due) && memcmp(words, left, sizeof left) == 0;
}

static int incremental_read_refused(void)
{
    const uint32_t row[PAIRING_INCREMENTAL_WORDS + 1] = {8, 4, 2, PAIRING_MOST_WORDS, 255, 1};
    return reads_refused(pairing_incremental_read, row, PAIRING_INCREMENTAL_WORDS);
}

/* A fit state with another word at one place, which makes it unfit. */
static int incremental_state_refused(void)
{
    static const struct {
        size_t place;
        uint32_t word;
    } others[] = {
        {0, 0},          {0, 33},  {0, 7},   {0, UINT32_MAX}, {1, 0}, {1, 9}, {2, 0}, {2, 1}, {2, 9},  {3, 65537},
        {3, UINT32_MAX}, {4, 256}, {5, 256}, {5, UINT32_MAX}, {6, 1}, {7, 1}, {8, 1}, {9, 1}, {10, 1}, {11, 1},
    };
    static const struct incremental state = {{8, 4, 2, 2}, {255, 1}};
    uint32_t row[PAIRING_INCREMENTAL_WORDS], before[PAIRING_INCREMENTAL_WORDS], words[] = {3, 7}, out[] = {9, 9};
    size_t i;
    memcpy(row, &state, sizeof state);
    if (pairing_incremental_edit(row, WORDS(row), words, 2, key, 4, 0, 3) != PAIRING_ACCEPTED)
        return 0;
    for (i = 0; i < WORDS(others); i++) {
        memcpy(row, &state, sizeof state);
        row[others[i].place] = others[i].word;
        memcpy(before, row, sizeof row);
        if (pairing_incremental_edit(row, WORDS(row), words, 2, key, 4, 0, 4) != PAIRING_STATE ||
            pairing_incremental_read(row, WORDS(row), out, 2) != PAIRING_STATE ||
            memcmp(row, before, sizeof row) != 0 || words[0] != 3 || words[1] != 7 || !holds_nines(out, 2))
            return 0;
    }
    return 1;
}

/* Without words there is no place. */
static int null_incremental(void)
{
    const uint32_t seven = 7;
    uint32_t row[PAIRING_INCREMENTAL_WORDS], before[PAIRING_INCREMENTAL_WORDS], word = 3, out = 9;
    if (pairing_incremental_open(8, 8, 1, NULL, 0, &seven, 1, row, WORDS(row)) != PAIRING_ACCEPTED)
        return 0;
    memcpy(before, row, sizeof row);
    return pairing_incremental_open(0, 0, 0, NULL, 0, NULL, 0, NULL, 0) == PAIRING_WIDTH &&
           pairing_incremental_open(8, 8, 1, NULL, 0, NULL, 0, row, WORDS(row)) == PAIRING_KEY &&
           pairing_incremental_open(8, 8, 1, NULL, 0, &seven, 1, NULL, 0) == PAIRING_TRAY &&
           pairing_incremental_open(8, 8, 1, &word, 1, NULL, 0, row, WORDS(row)) == PAIRING_KEY &&
           pairing_incremental_edit(NULL, 0, NULL, 0, NULL, 0, 0, 0) == PAIRING_STATE &&
           pairing_incremental_edit(row, WORDS(row), &word, 1, NULL, 0, 0, 0) == PAIRING_LONG && word == 3 &&
           pairing_incremental_edit(row, WORDS(row), NULL, 0, NULL, 0, 0, 0) == PAIRING_KEY &&
           pairing_incremental_edit(row, WORDS(row), NULL, 0, &seven, 1, 0, 0) == PAIRING_PLACE &&
           pairing_incremental_read(NULL, 0, NULL, 0) == PAIRING_STATE &&
           pairing_incremental_read(NULL, 0, &out, 1) == PAIRING_STATE &&
           pairing_incremental_read(row, WORDS(row), NULL, 0) == PAIRING_TRAY && out == 9 &&
           memcmp(row, before, sizeof row) == 0;
}

static const struct {
    const char *name;
    int (*passes)(void);
} tests[] = {
    {"incremental_edited", incremental_edited},
    {"incremental_with_bits_dropped", incremental_with_bits_dropped},
    {"incremental_edited_at_every_place", incremental_edited_at_every_place},
    {"incremental_at_the_most_words", incremental_at_the_most_words},
    {"incremental_copied", incremental_copied},
    {"incremental_open_refused", incremental_open_refused},
    {"incremental_edit_refused", incremental_edit_refused},
    {"incremental_words_not_looked_at", incremental_words_not_looked_at},
    {"incremental_read_refused", incremental_read_refused},
    {"incremental_state_refused", incremental_state_refused},
    {"null_incremental", null_incremental},
};

int main(void)
{
    unsigned passed = 0, failed = 0;
    size_t i;
    printf("running %u tests\n", (unsigned)WORDS(tests));
    for (i = 0; i < WORDS(tests); i++) {
        int passes = tests[i].passes();
        printf("test %s ... %s\n", tests[i].name, passes ? "ok" : "FAILED");
        if (passes)
            passed++;
        else
            failed++;
    }
    printf("test result: %s. %u passed; %u failed; 0 ignored; 0 measured; 0 filtered out\n", failed ? "FAILED" : "ok",
           passed, failed);
    return failed != 0;
}
