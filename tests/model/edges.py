"""Moments at which something falls due in the model's sessions. A tape that comes just there, or a microsecond beside it, shows on which
side an event belongs."""
from __future__ import annotations

from typing import Iterator

from rules.clock import LONGEST_WINDOW, SHORTEST_WINDOW
from rules.hub import Hub
from rules.numbers import MILLISECOND
from rules.publisher import FULL_ACK_AFTER, Publisher
from rules.session import IDLE_AFTER, KEEPALIVE_AFTER, Session
from rules.session_keys import ANNOUNCED_AGAIN, GIVEN_UP_AFTER, GROUP_AHEAD, ROUTE_AHEAD
from rules.subscriber import CREDIT_AFTER, LEAST_THRESHOLD, RESENDS_UNTIL, Subscriber


def of_hub(hub: Hub) -> Iterator[int]:
    """Those of all open sessions, and of the limits on keys from passphrases."""
    for lane in hub.lanes:
        limit = lane.route.derivations
        yield from (limit.route - ROUTE_AHEAD, *(it - GROUP_AHEAD for it in limit.groups if it))
        for session in lane.route.open:
            yield from of_session(session)
            if isinstance(session, Publisher):
                yield from of_publisher(session)
            if isinstance(session, Subscriber):
                yield from of_subscriber(session)


def of_session(it: Session) -> Iterator[int]:
    """Its end, and its KEEPALIVE."""
    yield it.heard + IDLE_AFTER
    yield it.sent + KEEPALIVE_AFTER


def of_publisher(it: Publisher) -> Iterator[int]:
    """Its ACK, its NAK, the payload that is delivered next, a take-over, the ends of a drift window, and that of a session that drains."""
    yield FULL_ACK_AFTER + (it.full_acks[-1].moment if it.full_acks else it.opening.moment)
    yield it.nak_of_all + it.nak_interval()
    yield from (it.received[number].deadline for number in it.waiting()[:1])
    if it.entry.takeover_ms is not None:
        yield it.brought + MILLISECOND * it.entry.takeover_ms
    for sample in it.clock.current[:1]:
        yield from (sample.moment + SHORTEST_WINDOW, sample.moment + LONGEST_WINDOW)
    if it.shutdown_at is not None:
        yield IDLE_AFTER + (it.shutdown_at + it.delay if it.entry.is_live else max(it.shutdown_at, it.delivery))


def of_subscriber(it: Subscriber) -> Iterator[int]:
    """When all in flight is sent again, until when it may be, when a resend gets its credit, when the oldest payload is too old, and when a
    key is announced again or the session given up."""
    if it.keys is not None and it.keys.announced:
        yield from (it.keys.announced[-1] + ANNOUNCED_AGAIN, it.keys.announced[0] + GIVEN_UP_AFTER)
    wait = it.resend_wait()
    if wait is not None and it.front < it.next:
        yield max(it.data_sent, it.growth) + wait
        yield it.heard + RESENDS_UNTIL
    yield it.data_sent + CREDIT_AFTER
    oldest = it.queued[it.expired - it.initial:][:1]
    yield from (payload.origin + max(it.delay * 5 // 4, LEAST_THRESHOLD) for payload in oldest)
