"""Loss lists, as NAKs carry them (section 3.2.5 and appendix A)."""
from __future__ import annotations

from typing import Sequence

from .numbers import SEQUENCE_NUMBERS, Run
from .packets import sequence_word, words, words_of

RANGE_BIT = 0x80000000
LONGEST_SPAN = 1 << 30
RUNS_WRITTEN = 32


def distance(first: int, last: int) -> int:
    """How far a word of 31 bits is behind another, upwards."""
    return (last - first) % SEQUENCE_NUMBERS


def read(body: bytes) -> list[Run] | None:
    """The runs of words that a list names. None if its length isn't a multiple of four, a first word has no last word behind it, or
    a last word is 2^30 or more past its first."""
    if len(body) % 4:
        return None
    runs = []
    rest = list(words_of(body))
    while rest:
        first = rest.pop(0)
        last = first
        if first & RANGE_BIT:
            first &= ~RANGE_BIT
            if not rest or rest[0] & RANGE_BIT:
                return None
            last = rest.pop(0)
        if distance(first, last) >= LONGEST_SPAN:
            return None
        runs.append(Run(first, last))
    return runs


def names(runs: Sequence[Run], number: int) -> bool:
    """Whether one of the runs of words names the number."""
    word = sequence_word(number)
    return any(distance(run.first, word) <= distance(run.first, run.last) for run in runs)


def write(runs: Sequence[Run]) -> bytes:
    """The list of the first 32 runs of numbers: a run of one number is a word, a longer one a range."""
    text = b""
    for run in runs[:RUNS_WRITTEN]:
        first, last = sequence_word(run.first), sequence_word(run.last)
        text += words(first) if run.first == run.last else words(RANGE_BIT | first, last)
    return text
