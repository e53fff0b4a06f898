"""Words that differ from a word as a slip of the fingers does."""

import re
from functools import lru_cache
from typing import Iterable, Optional

MOST_SLIPS = 2


def slips(one: str, other: str, most: int = MOST_SLIPS) -> int:
    """How many letters have to be put in, left out, changed, or swapped with their neighbour, to come from one
    word to the other; `most` and 1 where there are more than `most`."""
    while one and other and one[0] == other[0]:
        one, other = one[1:], other[1:]
    while one and other and one[-1] == other[-1]:
        one, other = one[:-1], other[:-1]
    if abs(len(one) - len(other)) > most:
        return most + 1
    before, row = [], list(range(len(other) + 1))
    for i, letter in enumerate(one, 1):
        earlier, before, row = before, row, [i]
        for j, against in enumerate(other, 1):
            least = min(before[j] + 1, row[j - 1] + 1, before[j - 1] + (letter != against))
            if i > 1 and j > 1 and letter == other[j - 2] and one[i - 2] == against:
                least = min(least, earlier[j - 2] + 1)
            row.append(least)
        if min(row) > most:
            return most + 1
    return row[-1]


@lru_cache(maxsize=None)
def letters_of(word: str) -> frozenset[str]:
    """The letters of a word. A slip puts one more in, and leaves one out, at most."""
    return frozenset(word)


@lru_cache(maxsize=None)
def without_numbers(word: str) -> str:
    """A word with one letter in the place of each number. Names that differ in a number alone are no slip."""
    return re.sub(r"[0-9]+", "0", word)


def nearest(word: str, words: Iterable[str], most: int = MOST_SLIPS) -> Optional[str]:
    """The word that is most like this one and differs as a slip does, in at most so many letters; None where
    there is none. Short words are like too many others, so they differ in one letter or in none, and any word
    may differ in upper and lower case."""
    most = min(most, 2 if len(word) > 5 else 1 if len(word) > 2 else 0)
    best, least = None, most + 1
    plain, lower, letters = without_numbers(word), word.lower(), letters_of(word)
    for other in words:
        if other == word or abs(len(other) - len(word)) > most:
            continue
        same = other.lower() == lower
        if not same and (len(letters ^ letters_of(other)) > 2 * most or without_numbers(other) == plain):
            continue
        found = 0 if same else slips(word, other, most)
        if found < least or (found == least and best is not None and other < best):
            best, least = other, found
    return best if least <= most else None
