"""Counts the cases of the rules by which deadlines follow a publisher's clock: samples, drift windows, and how the base moves."""
from __future__ import annotations

from typing import Iterator, NamedTuple

from rules.clock import LONGEST_WINDOW, SHORTEST_WINDOW, Clock, Correction, Sample, chosen, wanted_move
from rules.numbers import WORDS, lift
from rules.publisher import LONGEST_SAMPLE, Publisher
from rules.route import Route

SAMPLES = (
    "drift window begun", "drift window begun in place of an expired one", "drift window expired after exactly ten seconds",
    "sample with a shorter round trip counts", "sample with an equal round trip counts", "sample with a longer round trip doesn't count",
    "sample at the longest round trip", "sample with a timestamp past 2^32", "sample half a turn late or early",
)
CORRECTIONS = (
    "drift window closed: it gives the reference", "drift window closed after exactly a second", "drift window closed just before it expires",
    "drift window closed by a sample that doesn't count", "base moves later", "base moves earlier", "base stands at the reference",
    "base stands within the slack", "base moves later, cut", "base moves earlier, cut", "base of a standby moves", "base below 0",
)
DEADLINES = ("deadline by a base that has moved", "deadline before one of a lower number that waits", "standby with a moved base became active")
KINDS = (*SAMPLES, *CORRECTIONS, *DEADLINES)
FAR = WORDS // 2 - 100_000


class Was(NamedTuple):
    """A publisher's session before a turn: the samples of its current window, how many windows had closed and expired, its base, the
    numbers that it had received, and whether it was active."""

    current: list[Sample]
    closed: int
    expired: int
    base: int
    received: int
    is_active: bool


def before_turn(route: Route) -> dict[Publisher, Was]:
    return {it: was(it, it is route.active) for it in route.publishers()} if route.entry.is_live else {}


def was(it: Publisher, is_active: bool) -> Was:
    return Was(list(it.clock.current), len(it.clock.closed), len(it.clock.expired), it.base, len(it.received), is_active)


def reached(route: Route, before: dict[Publisher, Was]) -> Iterator[str]:
    """The cases of a turn."""
    for it, its in before.items():
        yield from of_sample(it, its)
        yield from of_deadline(it, its)
        if it is route.active and not its.is_active and it.base != it.opening.moment:
            yield "standby with a moved base became active"


def sample_of(clock: Clock, its: Was) -> Sample | None:
    """The sample of a turn, if there is one: the last of the window that it closed, or of the current one."""
    if len(clock.closed) > its.closed:
        return clock.closed[-1][-1]
    return clock.current[-1] if clock.current != its.current else None


def of_sample(it: Publisher, its: Was) -> Iterator[str]:
    clock, sample = it.clock, sample_of(it.clock, its)
    if sample is None:
        return
    has_expired = len(clock.expired) > its.expired
    if has_expired and sample.moment - its.current[0].moment == LONGEST_WINDOW:
        yield "drift window expired after exactly ten seconds"
    if has_expired or not its.current:
        yield "drift window begun in place of an expired one" if has_expired else "drift window begun"
    else:
        yield compared(sample.round_trip, min(other.round_trip for other in its.current))
    near = clock.expected(sample.moment, its.base)
    if sample.round_trip == LONGEST_SAMPLE:
        yield "sample at the longest round trip"
    if lift(sample.stamp, near) >= WORDS > clock.stamp:
        yield "sample with a timestamp past 2^32"
    if abs(near - lift(sample.stamp, near)) > FAR:
        yield "sample half a turn late or early"
    if len(clock.closed) > its.closed:
        yield from of_window(it, clock.closed[-1], clock.corrections()[-1], its)


def compared(round_trip: int, shortest: int) -> str:
    """Whether a sample counts beside those of its window."""
    if round_trip > shortest:
        return "sample with a longer round trip doesn't count"
    return "sample with a shorter round trip counts" if round_trip < shortest else "sample with an equal round trip counts"


def of_window(it: Publisher, window: list[Sample], found: Correction, its: Was) -> Iterator[str]:
    """What a window does that closes."""
    length = found.moment - window[0].moment
    if length == SHORTEST_WINDOW:
        yield "drift window closed after exactly a second"
    if length == LONGEST_WINDOW - 1:
        yield "drift window closed just before it expires"
    if chosen(window) is not window[-1]:
        yield "drift window closed by a sample that doesn't count"
    if len(it.clock.closed) == 1:
        yield "drift window closed: it gives the reference"
    elif found.move:
        yield f"base moves {'later' if found.move > 0 else 'earlier'}{', cut' if found.move != wanted_move(found.distance) else ''}"
    elif found.longest:
        yield "base stands at the reference" if found.distance == 0 else "base stands within the slack"
    if found.move and not its.is_active:
        yield "base of a standby moves"
    if it.base < 0:
        yield "base below 0"


def of_deadline(it: Publisher, its: Was) -> Iterator[str]:
    """What a moved base does to the deadline of a payload that was received."""
    if len(it.received) == its.received or it.base == it.opening.moment:
        return
    yield "deadline by a base that has moved"
    number, latest = list(it.received.items())[-1]
    if any(it.received[other].deadline > latest.deadline for other in it.waiting() if other < number):
        yield "deadline before one of a lower number that waits"
