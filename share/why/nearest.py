#!/usr/bin/env python3
"""The nearest of some words to a wrong one: nearest.py WORD prints that of the lines of standard input, or nothing where none is near."""

import difflib
import sys
from collections.abc import Iterable

# How alike two words have to be, from 0 to 1, and how many letters have to begin a longer word.
NEAR = 0.6
BEGINS = 3


def nearest(word: str, words: Iterable[str], near: float = NEAR) -> str | None:
    """The word that differs in case alone, else one that begins the wrong word, else the one that is most alike."""
    named, small = list(words), word.lower()
    for fits in (lambda other: other == small, lambda other: len(other) >= BEGINS and small.startswith(other)):
        found = next((other for other in named if fits(other.lower())), None)
        if found:
            return found
    return next(iter(difflib.get_close_matches(word, named, n=1, cutoff=near)), None)


if __name__ == "__main__":
    print(nearest(sys.argv[1], sys.stdin.read().splitlines()) or "")
