"""Counts the cases of the rules by which all in flight is sent again without a NAK."""
from __future__ import annotations

from typing import Iterator, NamedTuple

from rules import packets
from rules.packets import Data
from rules.route import Route
from rules.subscriber import CREDIT_OF_PACKET, MOST_DOUBLINGS, RESEND_AFTER, RESENDS_UNTIL, Step, Subscriber

MOST_TRIES = MOST_DOUBLINGS + 1
REPORTS = (
    "all again to one that reports, after its wait", "all again to one that reports, after half of its delay",
    "not again to one that reports: once already", "not again to one that reports: silent for a second",
)
OTHERS = tuple(
    kind for mode in ("live", "buffer") for kind in (
        *(f"{mode}: all again, try {tries}" for tries in range(MOST_TRIES + 1)), f"{mode}: not again: its wait is longer by its tries",
        f"{mode}: not again: silent for a second",
    )
)
GROWTHS = ("tries begin anew", "tries begin anew below the front", "buffer: all again to one with PERIODICNAK")
KINDS = (*REPORTS, *OTHERS, *GROWTHS)
KINDS_BY_KEY = {"resend_percent": ("all again, and its credit holds some back",)}


class Was(NamedTuple):
    """A subscriber's session before a turn: when the last data packet was sent, the number behind the greatest that was sent, and how
    often all was sent again since more was acknowledged, and in all."""

    data_sent: int
    unsent: int
    tries: int
    history: int


def before_turn(route: Route) -> dict[Subscriber, Was]:
    return {it: Was(it.data_sent, it.unsent, it.tries, len(it.history)) for it in route.subscribers()}


def reached(route: Route, before: dict[Subscriber, Was]) -> Iterator[str]:
    """The cases of a turn."""
    for it, its in before.items():
        grown = it.history[its.history:]
        if Step.GROWTH in grown and its.tries:
            yield "tries begin anew below the front" if it.acked < it.expired else "tries begin anew"
        if Step.RESEND_OF_ALL in grown:
            yield from of_resend(it)
        elif it.is_open and it.front < its.unsent and not it.lost() and not is_sent_again(route, it):
            yield from of_silence(it, its, route.clock)


def is_sent_again(route: Route, it: Subscriber) -> bool:
    """Whether the turn sent a subscriber a packet again."""
    mine = (packets.read(reply.content) for reply in route.replies if reply.peer == it.opening.peer)
    return any(isinstance(packet, Data) and packet.destination == it.opening.asked.caller for packet in mine)


def wait_of(it: Subscriber) -> int:
    return it.rtt + 4 * it.variance + RESEND_AFTER


def of_resend(it: Subscriber) -> Iterator[str]:
    """All in flight was sent again."""
    if it.reports:
        yield f"all again to one that reports, after {'its wait' if wait_of(it) > it.delay // 2 else 'half of its delay'}"
    else:
        yield f"{it.entry.mode.value}: all again, try {min(it.tries - 1, MOST_TRIES)}"
    if not it.entry.is_live and it.opening.asked.sends_periodic_naks():
        yield "buffer: all again to one with PERIODICNAK"
    if it.entry.resend_percent is not None and it.lost() and it.credit < CREDIT_OF_PACKET:
        yield "all again, and its credit holds some back"


def of_silence(it: Subscriber, its: Was, now: int) -> Iterator[str]:
    """Nothing was sent again although something is in flight that waits for as long as it does at first."""
    quiet, mode = now - max(its.data_sent, it.growth), it.entry.mode.value
    least = max(wait_of(it), it.delay // 2) if it.reports else wait_of(it)
    if quiet < least:
        return
    is_late = it.reports and it.tries or not it.reports and quiet < wait_of(it) << min(it.tries, MOST_DOUBLINGS)
    if not is_late and now - it.heard >= RESENDS_UNTIL:
        yield "not again to one that reports: silent for a second" if it.reports else f"{mode}: not again: silent for a second"
    elif is_late:
        yield "not again to one that reports: once already" if it.reports else f"{mode}: not again: its wait is longer by its tries"
