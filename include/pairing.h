/*
 * The proved pairing toolkit, for C and C++ on x86-64.
 *
 * Link libpairing.a. A row of words is lent as a pointer and its count of words, a
 * row of bytes as a pointer and its count of bytes.
 *
 * The caller's premises, on which every promise rests:
 *   - each pointer is aligned and stands at as many words or bytes as its count
 *     says; at a count of 0 it may be anything aligned, NULL too;
 *   - an output row, as a state that a call changes and a message that it edits are
 *     too, overlaps no other row of the same call, and nothing else writes a lent row
 *     while the call runs.
 * Nothing is asked of any number or word: a call that is not fit is refused.
 *
 * A call's tests run in the order in which the answers stand below, and the first
 * that holds is the answer; a call makes the tests of what it is given. A refusal
 * returns its number and nothing else: every lent row holds what it held.
 *
 * What makes a pairing safe:
 *   1. draw the key after both labels are fixed;
 *   2. keep it secret until then;
 *   3. use it once;
 *   4. every retry is another chance for two different labels to match.
 * The counts are over all keys, for two given labels; they say nothing of labels that
 * were made to suit a key. Under a key that is known beforehand such a label can be
 * searched for, which takes about half a second for a digest of one word of 32 bits.
 *
 * MT19937, which stretches a seed, is not a cryptographic generator. It need not be
 * one: the key is public by the time that a digest is made (Nguyen and Roscoe,
 * section 2). But a seed of s words makes at most 2^(32 * s) keys, and no count is
 * proved for those.
 *
 * What the counts cover: how many keys make two different messages agree is proved
 * over all keys of t + n words drawn uniformly, n being 1 for a code. Messages of
 * words have one length there; of bytes, any lengths (pairing_digest_bytes).
 */
#ifndef PAIRING_H
#define PAIRING_H

#include <stddef.h>
#include <stdint.h>

/* The version of this header and of the library that goes with it. */
#define PAIRING_VERSION_MAJOR 0
#define PAIRING_VERSION_MINOR 9
#define PAIRING_VERSION_PATCH 0
#define PAIRING_VERSION "0.9.0"

/* The same as a number. Where pairing_version() answers another, the library that is
 * linked is not this header's. */
#define PAIRING_VERSION_NUMBER \
    (PAIRING_VERSION_MAJOR * 10000u + PAIRING_VERSION_MINOR * 100u + PAIRING_VERSION_PATCH)

/* Makes a compiler that can warn do so where an answer is not used: a refused call
 * has written nothing. */
#if (defined(__cplusplus) && __cplusplus >= 201703L) || (defined(__STDC_VERSION__) && __STDC_VERSION__ >= 202311L)
#define PAIRING_USE_ANSWER [[nodiscard]]
#elif defined(__GNUC__)
#define PAIRING_USE_ANSWER __attribute__((warn_unused_result))
#elif defined(_MSC_VER)
#include <sal.h>
#define PAIRING_USE_ANSWER _Check_return_
#else
#define PAIRING_USE_ANSWER
#endif

#ifdef __cplusplus
extern "C" {
#endif

/* The answers. */
/* begin: made by tools/answers.py from answers.toml */
enum {
    /* Accepted: The call is fit, and its output is written. */
    PAIRING_ACCEPTED = 0,
    /* State: The row of a state does not have exactly its words, 21 for a stream and 12
     * for an incremental digest, or it holds a number outside its range, or something in
     * a place not in use. The state of a generator, which only calls from Rattle take,
     * has a position above 624. No command takes a state. */
    PAIRING_STATE = 8,
    /* Width: The width w is not 1 to 32; for bytes, not 8, 16 or 32. */
    PAIRING_WIDTH = 1,
    /* Digits: The code's digits d are 0, or 10^d is more than 2^w: widths 30 to 32 take
     * up to 9 digits, widths 1 to 3 none. */
    PAIRING_DIGITS = 9,
    /* Seed: The seed array has no words, or more than 8. */
    PAIRING_SEED = 11,
    /* Kept: The kept bits b are 0, or more than the width w. */
    PAIRING_KEPT = 2,
    /* Count: The digest words n are not 1 to 8. */
    PAIRING_COUNT = 3,
    /* Peers: The peers p are not 1 to 16. */
    PAIRING_PEERS = 10,
    /* Long: The message, or the message row of a load, has more than 65,536 words, for
     * bytes counted with the closing byte 0x80, in a stream with the words taken before;
     * or a stretch, or the key row of a load, has more than 65,544. In an edit: the
     * message does not have exactly as many words as the state counts. */
    PAIRING_LONG = 4,
    /* Key: The key does not have exactly n words more than the message, for bytes
     * counted with the closing byte 0x80; for a code, not one word more; for p peers,
     * the keys do not have p times as many words together. In a stream: the opening key
     * does not have n words, or a push has more words of one kind than of the other. */
    PAIRING_KEY = 5,
    /* Place: The place of an edit is not one of the message's words: counted from 0 it
     * is their number or more. */
    PAIRING_PLACE = 12,
    /* Tray: The output has fewer places than the call writes: n, for a code (d+1)/2
     * bytes rounded down, for p peers p times n, for an opened stream or incremental
     * digest the 21 or 12 words of its state. In a match: a row does not have exactly n
     * words. */
    PAIRING_TRAY = 6,
    /* Word: A word of the message, or of any key, has more than w bits: it is 2^w or
     * more. An edit looks at the word at the place, the new word and the n + 1 key words
     * under them alone. */
    PAIRING_WORD = 7,
    /* Match: The two digests agree at every place. */
    PAIRING_MATCH = 100,
    /* No match: The two digests, of n words each, differ at some place. */
    PAIRING_NO_MATCH = 101
};
/* end: made by tools/answers.py from answers.toml */

/* The most message words of one digest, stream or load. One byte closes a message of bytes,
 * so at width w it has at most w / 8 * PAIRING_MOST_WORDS - 1. */
#define PAIRING_MOST_WORDS 65536

/* The most words of one stretch, and of a load's key: a key for the longest message. */
#define PAIRING_MOST_KEY_WORDS 65544

/* The most words of a seed array. */
#define PAIRING_MOST_SEED_WORDS 8

/* The most words that a digest has, and so the largest n. */
#define PAIRING_MOST_DIGEST_WORDS 8

/* The most peers of one call, and so the largest p. */
#define PAIRING_MOST_PEERS 16

/* The most digits that a code has, at widths 30 to 32, and the most bytes. */
#define PAIRING_MOST_CODE_DIGITS 9
#define PAIRING_MOST_CODE_BYTES 5

/*
 * The sizes of states. A state is a row that the caller keeps between calls. The sizes
 * differ, so that one kind is never taken for another: a row of another length than
 * its kind's is PAIRING_STATE. The stream and the incremental digest have calls. The
 * other two sizes belong to later calls: parts that arrive out of turn, and the
 * exchange, whose state is of bytes.
 *
 * A state is numbers and nothing else. It may be copied, kept and sent as words, and
 * compared: states of equal words are answered alike. Every row is allowed as input
 * and has a defined outcome, whoever wrote it; one of its kind's length is PAIRING_STATE
 * where the numbers are not fit, and otherwise the call goes on from them.
 */
#define PAIRING_STREAM_WORDS 21
#define PAIRING_INCREMENTAL_WORDS 12
#define PAIRING_PARTS_WORDS 268
#define PAIRING_EXCHANGE_BYTES 2150

/* The version of the library that is linked, as PAIRING_VERSION_NUMBER writes it. */
PAIRING_USE_ANSWER
uint32_t pairing_version(void);

/*
 * Digests the message under the key: words of w bits, the low b bits of each
 * digest word kept, n digest words. The key has n words more than the message.
 *
 * Answers PAIRING_ACCEPTED with the digest in the first n places of out, places
 * from n on keeping what they held; or PAIRING_WIDTH, or one of PAIRING_KEPT to
 * PAIRING_WORD. Message and key are only read.
 */
PAIRING_USE_ANSWER
uint32_t pairing_digest_words(uint32_t w, uint32_t b, uint32_t n,
                              const uint32_t *message, size_t message_words,
                              const uint32_t *key, size_t key_words,
                              uint32_t *out, size_t out_words);

/*
 * Digests the words that the message's bytes make. The byte 0x80 closes them, also
 * where there are none, so that zero bytes at the end count; then the first byte is
 * lowest in its word, and zero bytes fill up the last word. w is 8, 16 or 32, and
 * message_bytes / (w / 8) + 1 words are made, the quotient rounded down; the key has
 * n words more. Answers and output as above.
 *
 * Two different messages that make at most T words each, equally many or not, have
 * any n named differences of digests, and so one digest, under at most
 * 2^(w * T + n + n * (w - b)) of the keys of T + n words, where each is digested under
 * as many first words of the key as it needs: this is proved.
 */
PAIRING_USE_ANSWER
uint32_t pairing_digest_bytes(uint32_t w, uint32_t b, uint32_t n,
                              const uint8_t *message, size_t message_bytes,
                              const uint32_t *key, size_t key_words,
                              uint32_t *out, size_t out_words);

/*
 * The code of the message under the key, to be read aloud: the last d decimal digits
 * of its one-word digest with all w bits kept, leading zeros included. It is packed
 * two digits to a byte, the higher digit in the upper half; an odd d has a zero digit
 * before it. The key has one word more than the message.
 *
 * Answers PAIRING_ACCEPTED with the code in the first (d + 1) / 2 bytes of out, the
 * quotient rounded down, bytes beyond keeping what they held; or PAIRING_WIDTH,
 * PAIRING_DIGITS, or one of PAIRING_LONG to PAIRING_WORD. Message and key are only
 * read.
 *
 * Two different messages of t words have one code under at most
 * (2 * F + 1) * 2^(w * t + 1) of the keys of t + 1 words, where F is (2^w - 1) / 10^d
 * rounded down: this is proved.
 */
PAIRING_USE_ANSWER
uint32_t pairing_digest_code(uint32_t w, uint32_t d,
                             const uint32_t *message, size_t message_words,
                             const uint32_t *key, size_t key_words,
                             uint8_t *out, size_t out_bytes);

/*
 * Digests the message under the keys of p peers, walking it once: the keys lie end to
 * end, each of n words more than the message, and so do the digests, each of n words.
 *
 * Answers PAIRING_ACCEPTED with the p digests in the first p * n places of out, places
 * beyond keeping what they held; or PAIRING_WIDTH, or one of PAIRING_KEPT to
 * PAIRING_WORD, PAIRING_PEERS among them. Message and keys are only read.
 *
 * Digest i is what pairing_digest_words writes under key i alone, whatever the other
 * keys are; of those, only a word of 2^w or more reaches it, by refusing the call for
 * all. This is proved, of keys whose lengths together are right: the lengths of single
 * keys are not seen here, so hand on only keys that have been measured.
 */
PAIRING_USE_ANSWER
uint32_t pairing_digest_peers(uint32_t w, uint32_t b, uint32_t n, uint32_t p,
                              const uint32_t *message, size_t message_words,
                              const uint32_t *keys, size_t keys_words,
                              uint32_t *out, size_t out_words);

/*
 * Opens a stream, which digests a message in parts: it has taken no words, and key has
 * its first n key words. w, b and n are as for pairing_digest_words.
 *
 * Answers PAIRING_ACCEPTED with the state in the first PAIRING_STREAM_WORDS places of
 * state, places beyond keeping what they held; or PAIRING_WIDTH, PAIRING_KEPT,
 * PAIRING_COUNT, PAIRING_KEY where key is not n words, PAIRING_TRAY where state has
 * fewer places, or PAIRING_WORD. What state holds before is not looked at. The key is
 * only read.
 *
 * The words of the state, counted from 0: w, b, n and the words taken; from 4 on n
 * sums of w bits, in eight places; from 12 on the last n key words, in eight places;
 * at 20 nothing yet. What is not in use is 0. It holds key words, so it is as secret
 * as the key.
 */
PAIRING_USE_ANSWER
uint32_t pairing_stream_open(uint32_t w, uint32_t b, uint32_t n,
                             const uint32_t *key, size_t key_words,
                             uint32_t *state, size_t state_words);

/*
 * Takes a part of the message, none among them, with the key words that follow those
 * given before, as many as the part has words.
 *
 * Answers PAIRING_ACCEPTED with the state after it in state; or PAIRING_STATE where
 * state is not exactly PAIRING_STREAM_WORDS words or not fit: w, b or n out of range,
 * more than PAIRING_MOST_WORDS words taken, a sum or key word of 2^w or more, a place
 * not in use that is not 0; or PAIRING_LONG where the words taken and these are more
 * than PAIRING_MOST_WORDS, PAIRING_KEY where one part has more words than the other,
 * or PAIRING_WORD. Message and key are only read.
 */
PAIRING_USE_ANSWER
uint32_t pairing_stream_push(uint32_t *state, size_t state_words,
                             const uint32_t *message, size_t message_words,
                             const uint32_t *key, size_t key_words);

/*
 * Reads the digest of the words taken so far under the key words so far. Of a state
 * that was opened and pushed by these calls it is the one that pairing_digest_words
 * writes of them, however they were cut into parts: this is proved. Of any other fit
 * state it is the n sums that it holds, modulo 2^b. Pushing may go on.
 *
 * Answers PAIRING_ACCEPTED with the digest in the first n places of out, places beyond
 * keeping what they held; or PAIRING_STATE as above, or PAIRING_TRAY. The state is
 * only read.
 */
PAIRING_USE_ANSWER
uint32_t pairing_stream_read(const uint32_t *state, size_t state_words,
                             uint32_t *out, size_t out_words);

/*
 * Opens an incremental digest, which follows a message while single words of it are
 * replaced: the digest of the message under the key. w, b, n and the key are as for
 * pairing_digest_words.
 *
 * Answers PAIRING_ACCEPTED with the state in the first PAIRING_INCREMENTAL_WORDS
 * places of state, places beyond keeping what they held; or PAIRING_WIDTH,
 * PAIRING_KEPT, PAIRING_COUNT, PAIRING_LONG where message has more than
 * PAIRING_MOST_WORDS words, PAIRING_KEY, PAIRING_TRAY where state has fewer places, or
 * PAIRING_WORD. What state holds before is not looked at. Message and key are only
 * read.
 *
 * The words of the state, counted from 0: w, b, n and the message's words; from 4 on n
 * sums of w bits, in eight places. What is not in use is 0. It holds no key words. Its
 * sums have all w bits, of which a reading shows b.
 */
PAIRING_USE_ANSWER
uint32_t pairing_incremental_open(uint32_t w, uint32_t b, uint32_t n,
                                  const uint32_t *message, size_t message_words,
                                  const uint32_t *key, size_t key_words,
                                  uint32_t *state, size_t state_words);

/*
 * Puts word at a place of the message, counted from 0, and corrects the state: each of
 * the n sums loses what the old word gave and gains what the new one gives, modulo
 * 2^w. As built, what this takes does not grow with the message; that is not part of
 * the promise.
 *
 * Answers PAIRING_ACCEPTED with that one message word and the state written, and
 * nothing else; or PAIRING_STATE where state is not exactly PAIRING_INCREMENTAL_WORDS
 * words or not fit: w, b or n out of range, more than PAIRING_MOST_WORDS message words,
 * a sum of 2^w or more, a place not in use that is not 0; or PAIRING_LONG where message
 * does not have exactly the words that the state counts, PAIRING_KEY where key does not
 * have n more, PAIRING_PLACE where place is not below the message's words, or
 * PAIRING_WORD where the old word, the new one or one of the n + 1 key words from place
 * on is 2^w or more. No other word is looked at. The key is only read.
 *
 * The state is that of the message only while every change goes through this call,
 * under the key of the opening: what else writes the message is not seen here. And a
 * label that is edited under a key is not fixed before it: a pairing takes another key,
 * drawn after the last edit.
 */
PAIRING_USE_ANSWER
uint32_t pairing_incremental_edit(uint32_t *state, size_t state_words,
                                  uint32_t *message, size_t message_words,
                                  const uint32_t *key, size_t key_words,
                                  size_t place, uint32_t word);

/*
 * Reads the digest: the n sums that the state holds, modulo 2^b. Of a state that was
 * opened by pairing_incremental_open and changed by edits under the same key alone, of
 * a message that nothing else has written, it is what pairing_digest_words writes of
 * the message as it is now: this is proved. Editing may go on.
 *
 * Answers PAIRING_ACCEPTED with the digest in the first n places of out, places beyond
 * keeping what they held; or PAIRING_STATE as above, or PAIRING_TRAY. The state is
 * only read.
 */
PAIRING_USE_ANSWER
uint32_t pairing_incremental_read(const uint32_t *state, size_t state_words,
                                  uint32_t *out, size_t out_words);

/*
 * Fills the whole of out with key words, each the upper w bits of the next output of
 * MT19937 made new from the seed: the output divided by 2^(32-w), rounded down. So
 * each is below 2^w, and no digest of that width refuses such a key as PAIRING_WORD.
 * Below width 32 both ends need 0.5 or later: before it the key words were others.
 *
 * Answers PAIRING_ACCEPTED; or PAIRING_WIDTH, or PAIRING_LONG where out has more
 * than PAIRING_MOST_KEY_WORDS places.
 */
PAIRING_USE_ANSWER
uint32_t pairing_stretch(uint32_t w, uint32_t seed, uint32_t *out, size_t out_words);

/*
 * As pairing_stretch, with MT19937 made new from a seed array of 1 to
 * PAIRING_MOST_SEED_WORDS words by its published initialisation by array. An array of
 * one word is not the plain seed of that word. Arrays of different lengths can make one
 * generator, as 2 and 2, 1 do: both ends agree on the length too.
 *
 * Answers PAIRING_ACCEPTED; or PAIRING_WIDTH, PAIRING_SEED, or PAIRING_LONG where out
 * has more than PAIRING_MOST_KEY_WORDS places. The seed is only read.
 */
PAIRING_USE_ANSWER
uint32_t pairing_stretch_array(uint32_t w, const uint32_t *seed, size_t seed_words,
                               uint32_t *out, size_t out_words);

/*
 * A load for a test bench, the same each time: fills the whole of key, then the whole
 * of message from the outputs that follow, each word by the rule of pairing_stretch.
 * So the key is the stretch of the seed, and key and message end to end are one longer
 * row of such words.
 *
 * Answers PAIRING_ACCEPTED; or PAIRING_WIDTH, or PAIRING_LONG where key has more than
 * PAIRING_MOST_KEY_WORDS places or message more than PAIRING_MOST_WORDS.
 */
PAIRING_USE_ANSWER
uint32_t pairing_load(uint32_t w, uint32_t seed,
                      uint32_t *key, size_t key_words,
                      uint32_t *message, size_t message_words);

/*
 * As pairing_load, from a seed array as pairing_stretch_array takes it.
 *
 * Answers as pairing_load, and PAIRING_SEED. The seed is only read.
 */
PAIRING_USE_ANSWER
uint32_t pairing_load_array(uint32_t w, const uint32_t *seed, size_t seed_words,
                            uint32_t *key, size_t key_words,
                            uint32_t *message, size_t message_words);

/*
 * Compares two digests of n words.
 *
 * Answers PAIRING_MATCH or PAIRING_NO_MATCH; or PAIRING_COUNT or PAIRING_TRAY.
 * Both rows are only read, and may be one row. As built, every place is looked at
 * wherever the first difference stands; that is not part of the promise.
 */
PAIRING_USE_ANSWER
uint32_t pairing_match(uint32_t n,
                       const uint32_t *first, size_t first_words,
                       const uint32_t *second, size_t second_words);

#ifdef __cplusplus
}
#endif

#endif
