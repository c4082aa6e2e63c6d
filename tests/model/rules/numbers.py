"""Words of the wire and the whole numbers for which they stand (sections 3 and 3.1 of the draft)."""
from __future__ import annotations

from typing import Iterable, NamedTuple

SEQUENCE_NUMBERS = 1 << 31
WORDS = 1 << 32
MOMENTS = 1 << 62
MILLISECOND = 1000
SECOND = 1_000_000


class Run(NamedTuple):
    """Numbers that follow one another, both ends included."""

    first: int
    last: int


def in_window(word: int, front: int, width: int) -> int | None:
    """The number n with front <= n < front + width that equals the word modulo 2^31; None if there is none. The width is at most
    2^31, so there is never more than one."""
    distance = (word - front) % SEQUENCE_NUMBERS
    return front + distance if word < SEQUENCE_NUMBERS and distance < width else None


def lift(stamp: int, near: int) -> int:
    """The time t with near - 2^31 <= t < near + 2^31 that equals the stamp modulo 2^32."""
    least = near - WORDS // 2
    return least + (stamp - least) % WORDS


def runs_of(numbers: Iterable[int]) -> list[Run]:
    """The maximal runs of ascending numbers."""
    runs: list[Run] = []
    for number in numbers:
        if runs and runs[-1].last == number - 1:
            runs[-1] = Run(runs[-1].first, number)
        else:
            runs.append(Run(number, number))
    return runs
