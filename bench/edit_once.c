/* edit_once W N T: opens an incremental digest of T words at width W, with N digest words, and edits it many times. For
 * bench/edit_instructions.sh, which counts the instructions of the edits alone. */
#include "pairing.h"

#include <stdio.h>
#include <stdlib.h>
#include <string.h>

static uint32_t message[PAIRING_MOST_WORDS], key[PAIRING_MOST_KEY_WORDS];

/* The next word of w bits. */
static uint32_t next(uint32_t w)
{
    static uint32_t word = 1;
    word = word * 1664525 + 1013904223;
    return word >> (32 - w);
}

/* Whether the digest is still that of the whole message. */
static int is_true(uint32_t w, uint32_t n, size_t t, const uint32_t *state)
{
    uint32_t read[PAIRING_MOST_DIGEST_WORDS], whole[PAIRING_MOST_DIGEST_WORDS];
    return pairing_incremental_read(state, PAIRING_INCREMENTAL_WORDS, read, n) == PAIRING_ACCEPTED &&
           pairing_digest_words(w, w, n, message, t, key, t + n, whole, n) == PAIRING_ACCEPTED &&
           memcmp(read, whole, n * sizeof read[0]) == 0;
}

int main(int arguments, char **argument)
{
    enum { EDITS = 1000 };
    uint32_t state[PAIRING_INCREMENTAL_WORDS], w, n;
    size_t t, i;
    if (arguments != 4)
        return 64;
    w = (uint32_t)strtoul(argument[1], NULL, 10);
    n = (uint32_t)strtoul(argument[2], NULL, 10);
    t = strtoul(argument[3], NULL, 10);
    if (w < 1 || w > 32 || n < 1 || n > PAIRING_MOST_DIGEST_WORDS || t < 1 || t > PAIRING_MOST_WORDS)
        return 64;
    for (i = 0; i < t; i++)
        message[i] = next(w);
    for (i = 0; i < t + n; i++)
        key[i] = next(w);
    if (pairing_incremental_open(w, w, n, message, t, key, t + n, state, PAIRING_INCREMENTAL_WORDS) != PAIRING_ACCEPTED)
        return 1;
    for (i = 0; i < EDITS; i++)
        if (pairing_incremental_edit(state, PAIRING_INCREMENTAL_WORDS, message, t, key, t + n, i * 40503 % t,
                                     next(w)) != PAIRING_ACCEPTED)
            return 1;
    printf("%d\n", EDITS);
    return !is_true(w, n, t, state);
}
