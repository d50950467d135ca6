"""Prints the table that tests/seed_arrays.cpp reads: for each seed array a line of its words and a line of its outputs,
by CPython's own generator."""

import itertools
import random
import sys

SIZE = 624
MOST_WORDS = 8
ONES = 2**32 - 1

# As many outputs as two refills need; for the published array, as many as the longest load has words.
OUTPUTS = 1000
MOST_OUTPUTS = 65544 + 65536

# The array of the published output file, and the outputs with which that file begins.
PUBLISHED = (0x123, 0x234, 0x345, 0x456)
PUBLISHED_OUTPUTS = [1067595299, 955945823, 477289528, 4107218783, 4228976476]


def first_filling():
    """The state of the plain seed 19650218, from which every array starts."""
    state = [19650218]
    for place in range(1, SIZE):
        last = state[-1]
        state.append((1812433253 * (last ^ last >> 30) + place) % 2**32)
    return state


FIRST_FILLING = first_filling()


def initialised(array):
    """The state after the published initialisation by array: 624 steps and then 623, through the places 1 to 623 again
    and again. Each time word 623 is done, word 0 becomes that word."""
    state = FIRST_FILLING.copy()
    for step in range(SIZE + SIZE - 1):
        place = step % (SIZE - 1) + 1
        mixed = state[place - 1] ^ state[place - 1] >> 30
        if step < SIZE:
            turn = step % len(array)
            word = (state[place] ^ mixed * 1664525) + array[turn] + turn
        else:
            word = (state[place] ^ mixed * 1566083941) - place
        state[place] = word % 2**32
        if place == SIZE - 1:
            state[0] = state[place]
    state[0] = 2**31
    return state


def generator(array):
    """CPython's generator, made new from the array.

    It splits a whole number into words of 32 bits, lowest first, and initialises itself by that array. So an array is
    the number of its words, unless it ends in a zero word that the number does not have; to such an array the generator
    is set by the state from above, which must be CPython's own for all others."""
    state = (random.Random.VERSION, (*initialised(array), SIZE), None)
    made = random.Random(sum(word << 32 * place for place, word in enumerate(array)))
    if len(array) > 1 and array[-1] == 0:
        made.setstate(state)
    elif made.getstate() != state:
        sys.exit(f"seed_arrays: the states of {array} differ")
    return made


def outputs(array, count):
    made = generator(array)
    return [made.getrandbits(32) for _ in range(count)]


def mixtures():
    """Every row of zeros and ones of every length."""
    for length in range(1, MOST_WORDS + 1):
        yield from itertools.product((0, ONES), repeat=length)


def single_bits():
    """A bit alone at each place of each length; every bit of a word is among them."""
    places = ((length, place) for length in range(1, MOST_WORDS + 1) for place in range(length))
    for number, (length, place) in enumerate(places):
        yield tuple(1 << number % 32 if at == place else 0 for at in range(length))


def linear_words():
    word = 1
    while True:
        word = (word * 1664525 + 1013904223) % 2**32
        yield word


def other_words():
    """Words without a pattern: of each length three arrays, and with a zero first and a zero last."""
    words = linear_words()
    for length in range(1, MOST_WORDS + 1):
        for _ in range(3):
            yield tuple(itertools.islice(words, length))
        if length > 1:
            yield (0, *itertools.islice(words, length - 1))
            yield (*itertools.islice(words, length - 1), 0)


def print_case(array, count):
    for row in array, outputs(array, count):
        print(" ".join(map(str, row)))


if __name__ == "__main__":
    if outputs(PUBLISHED, len(PUBLISHED_OUTPUTS)) != PUBLISHED_OUTPUTS:
        sys.exit("seed_arrays: the outputs are not the published ones")
    print_case(PUBLISHED, MOST_OUTPUTS)
    for array in itertools.chain(mixtures(), single_bits(), other_words()):
        print_case(array, OUTPUTS)
