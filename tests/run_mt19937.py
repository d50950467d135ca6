"""Prints by CPython's generator the lines of seed arrays that the program run_mt19937 prints."""

import functools

from seed_arrays import MOST_WORDS, ONES, OUTPUTS, PUBLISHED, generator, outputs

# Answers of a making: accepted, and refused for its seed.
ACCEPTED = 0
SEED = 11


def turned(fold, word):
    """The words so far, turned by one bit, with one more."""
    return (fold << 1 | fold >> 31) % 2**32 ^ word


def print_made(array):
    """The generator with its position last; a refused making has zeros."""
    if 0 < len(array) <= MOST_WORDS:
        answer, (*words, position) = ACCEPTED, generator(array).getstate()[1]
    else:
        answer, words, position = SEED, [], 0
    print("made", len(array), answer, position, functools.reduce(turned, words, 0))


for place, output in enumerate(outputs(PUBLISHED, OUTPUTS), 1):
    print("array", place, output)
for row in [0] * 9, [ONES] * 9, range(1, 10):
    for count in range(10):
        print_made(row[:count])
