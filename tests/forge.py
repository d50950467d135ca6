"""Forges a byte message under a key that is known: `forge.py SEED MESSAGE OTHER` prints OTHER with spaces and eight
characters after it, which has the digest of MESSAGE under the key stretched from the plain seed SEED (w = b = 32, n = 1).

The last two whole words of what is forged are free. What each adds to the sum is its own affair, so the sums of some
first words stand in a table, and each second word asks it for the one number that is still wanting. A table of 2^17 words
and as many questions make 2^34 pairs for 2^32 digests."""

import itertools
import random
import sys

WORD = 2**32
SIZE = 624
TABLE = 2**17

# The characters of the free words. The more, the fewer of each word are the same in two pairs.
CHARACTERS = b"abcdefghijklmnopqrstuvwxyzABCDEFGHIJKLMNOPQRSTUVWXYZ0123456789-."


def stretched(seed, words):
    """The key: outputs of MT19937, which CPython has too, made new from a plain seed as published in 2002."""
    state = [seed]
    for place in range(1, SIZE):
        state.append((1812433253 * (state[-1] ^ state[-1] >> 30) + place) % WORD)
    generator = random.Random()
    generator.setstate((random.Random.VERSION, (*state, SIZE), None))
    return [generator.getrandbits(32) for _ in range(words)]


def closed_words(message):
    """The bytes, 0x80 after them and zeros, as words with the first byte lowest."""
    closed = message + b"\x80" + bytes(-(len(message) + 1) % 4)
    return [int.from_bytes(closed[i : i + 4], "little") for i in range(0, len(closed), 4)]


def adds(word, key, place):
    """What the message word at the place adds to the sum."""
    return (word * key[place] + (word * key[place + 1] >> 32)) % WORD


def digest(message, key):
    return sum(adds(word, key, place) for place, word in enumerate(closed_words(message))) % WORD


def free_words():
    """Words of four characters, in an order in which neighbours share little."""
    letters = random.Random(1)
    while True:
        yield bytes(letters.choices(CHARACTERS, k=4))


def forged(seed, message, other):
    """The other message with eight characters after it, and the digest that both have."""
    stem = other + b" " * (-len(other) % 4)
    first = len(stem) // 4
    key = stretched(seed, max(len(closed_words(message)), first + 3) + 1)
    due = (digest(message, key) - digest(stem + bytes(8), key)) % WORD
    table = {}
    for free in itertools.islice(free_words(), TABLE):
        table[adds(int.from_bytes(free, "little"), key, first)] = free
    for free in free_words():
        wanting = (due - adds(int.from_bytes(free, "little"), key, first + 1)) % WORD
        if wanting in table:
            return stem + table[wanting] + free, digest(message, key)


def main():
    seed, message, other = int(sys.argv[1]), *(text.encode() for text in sys.argv[2:4])
    found, both = forged(seed, message, other)
    key = stretched(seed, len(closed_words(found)) + 1)
    assert digest(found, key) == both and found != message
    print(found.decode(), end="")


if __name__ == "__main__":
    main()
