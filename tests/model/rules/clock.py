"""A publisher's clock, as its ACKACKs show it (section 4.7): which samples count, and the base that its deadlines have by them."""
from __future__ import annotations

from typing import NamedTuple

from .numbers import MILLISECOND, SECOND, lift

SHORTEST_WINDOW = SECOND
LONGEST_WINDOW = 10 * SECOND
SLACK = 2 * MILLISECOND
LONGEST_MOVE = 1000  # A move is at most the time since the last window closed, divided by this.


class Sample(NamedTuple):
    """An ACKACK that confirmed a Full ACK: when it arrived, its timestamp, and the round trip that it showed."""

    moment: int
    stamp: int
    round_trip: int


class Correction(NamedTuple):
    """A drift window that closed: how late its sample was, how far that is from the reference, which is the lateness of the session's first
    one, the longest move that was allowed, and the move of the base."""

    moment: int
    lateness: int
    distance: int
    longest: int
    move: int


class Clock:
    """What is known of a publisher's clock. Every sample is kept, in the drift window to which it belongs: `closed` are those that closed,
    `expired` those that took too long, `current` is the one that collects samples, empty if there is none."""

    def __init__(self, opening: int, stamp: int) -> None:
        self.opening = opening
        self.stamp = stamp
        self.closed: list[list[Sample]] = []
        self.expired: list[list[Sample]] = []
        self.current: list[Sample] = []

    def take(self, sample: Sample) -> bool:
        """A window closes with the first sample that is a second or more after its first one. A sample ten seconds or more after that one
        begins another window in its place. Returns whether a window closed."""
        if self.current and sample.moment - self.current[0].moment >= LONGEST_WINDOW:
            self.expired.append(self.current)
            self.current = []
        self.current.append(sample)
        if sample.moment - self.current[0].moment < SHORTEST_WINDOW:
            return False
        self.closed.append(self.current)
        self.current = []
        return True

    def corrections(self) -> list[Correction]:
        """What each closed window did, from the session's opening on."""
        found: list[Correction] = []
        base, moved = self.opening, self.opening
        for window in self.closed:
            moment, late = window[-1].moment, self.lateness(chosen(window), base)
            distance = late - found[0].lateness if found else 0
            longest = (moment - moved) // LONGEST_MOVE
            found.append(Correction(moment, late, distance, longest, max(-longest, min(longest, wanted_move(distance)))))
            base, moved = base + found[-1].move, moment
        return found

    def base(self) -> int:
        """What stands in the opening's place in deadlines."""
        return self.opening + sum(it.move for it in self.corrections())

    def expected(self, now: int, base: int) -> int:
        """The timestamp that a packet should have that is sent now."""
        return self.stamp + now - base

    def lateness(self, it: Sample, base: int) -> int:
        """By how much a sample's timestamp is behind the expected one, less half of the round trip."""
        near = self.expected(it.moment, base)
        return near - lift(it.stamp, near) - it.round_trip // 2


def wanted_move(distance: int) -> int:
    """A base moves later by a whole distance, and earlier only by what is beyond the slack."""
    return distance if distance >= 0 else min(0, distance + SLACK)


def chosen(window: list[Sample]) -> Sample:
    """The sample with the shortest round trip, the last of equal ones."""
    shortest = min(it.round_trip for it in window)
    return [it for it in window if it.round_trip == shortest][-1]
