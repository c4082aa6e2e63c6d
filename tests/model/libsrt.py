"""Counts what occurs on routes with `callers = "libsrt"`, by the rules that only they have: each kind is a case of a rule."""
from __future__ import annotations

from typing import Iterator, NamedTuple

import clock_cases
import resend_cases
from rules import handshakes, packets
from rules.configuration import Mode, site
from rules.handshakes import Refusal
from rules.hub import Lane
from rules.numbers import MILLISECOND
from rules.packets import Control, Data, Kind, Packet
from rules.publisher import LEAST_CAPACITY, LEAST_RATE, MOST_DELIVERED, MOST_RATE, RATE_PACKETS, Publisher
from rules.route import Close, Datagram, Item, Limit, Reply, Route
from rules.session import IDLE_AFTER, KEEPALIVE_AFTER, End, Session
from rules.subscriber import Subscriber

MODES = tuple(it.value for it in Mode)
REFUSAL_AT = 36
FULL_ACK_WORDS = 7


def in_both(*kinds: str) -> tuple[str, ...]:
    """These kinds, in each of both modes."""
    return tuple(f"{mode}: {kind}" for mode in MODES for kind in kinds)


# The publisher's reports.
REPORTS = (
    "first sample taken as it is", "sample after the first one", "rates before seventeen packets", "rates as they are measured",
    "rates at their least, measured", "rates at their most", "capacity above its least", "Full ACK without rates, live",
)
# SHUTDOWNs of publishers, and what becomes of a session that drains.
DRAINING = (
    *in_both(
        "SHUTDOWN of the active publisher, which drains", "SHUTDOWN of the active publisher with nothing to deliver",
        "SHUTDOWN of the standby with payloads to deliver", "drained in the event of its SHUTDOWN", "drained later",
        "drained, and the standby is active", "drained too long", "drained too long, and the standby is active",
        "delivers while it drains", "silent for five seconds while it drains", "sent nothing for a second while it drains",
        "closed while it drains",
    ),
    "live: passes a gap while it drains", "buffer: SHUTDOWN with payloads behind a gap alone", "buffer: drained up to a gap",
    "buffer: drains later than five seconds after its SHUTDOWN", "64 payloads delivered in an event while it drains",
)
# What comes for a session that drains.
IGNORED = (
    "while it drains: data ignored", "while it drains: a second SHUTDOWN ignored", "while it drains: another packet ignored",
    "while it drains: its conclusion opens another session", "while it drains: its conclusion is refused",
    "while it drains: its conclusion finds the other session", "while it drains: a third publisher is refused",
)
# Who is told of an end.
TOLD = (
    *in_both("publisher told of silence", "subscriber told of silence"), "publisher told of a lost window", "several told of silence in an event",
    "told of silence before an answer", "told of silence at a Close",
)
# The end of a file.
FILES = (
    "file ended at once", "file ended after it drained", "file ended with nothing queued", "file ended in the event of its publisher's end",
    "file ended later", "file ended for two in an event", "file ended and no KEEPALIVE was due", "file ended in place of a KEEPALIVE",
    "file not ended: the subscriber came later", "file not ended: its publisher fell silent", "file not ended: it drained too long",
    "file not ended: another publisher is open", "file not ended: not all is acknowledged",
)
KINDS = (*REPORTS, *DRAINING, *IGNORED, *TOLD, *FILES, *clock_cases.KINDS, *resend_cases.KINDS)
# Those that need another key too.
KINDS_BY_KEY = {
    "takeover_ms": ("while it drains: no take-over from it",),
    "reserved": ("while it drains: it counts as a publisher there",),
    "sessions_per_address": ("while it drains: it counts for its address",),
    **resend_cases.KINDS_BY_KEY,
}


class Was(NamedTuple):
    """What a session was like before a turn. The numbers of a publisher: delivered payloads, the position, samples, and when it brought
    data last."""

    drains: bool
    sent: int
    delivered: int = 0
    position: int = 0
    samples: int = 0
    brought: int = 0


class Before(NamedTuple):
    """What a route was like before a turn that applies an item: the open sessions, in the order of their openings, how often a limit was
    met, the publishers' clocks, and what was sent again to subscribers."""

    route: Route
    item: Item
    sessions: dict[Session, Was]
    limits_met: int
    clocks: dict[Publisher, clock_cases.Was]
    resends: dict[Subscriber, resend_cases.Was]

    @property
    def now(self) -> int:
        return self.route.clock

    @property
    def mode(self) -> str:
        return self.route.entry.mode.value


def was(session: Session) -> Was:
    if isinstance(session, Publisher):
        return Was(session.drains, session.sent, len(session.delivered), session.position, len(session.samples), session.brought)
    return Was(session.drains, session.sent)


def before_turn(lane: Lane) -> Before | None:
    """What is kept of a route with `callers = "libsrt"` before a turn; None if the turn applies nothing."""
    route = lane.route
    if not route.entry.is_libsrt or lane.waiting or not lane.inbox:
        return None
    clocks, resends = clock_cases.before_turn(route), resend_cases.before_turn(route)
    return Before(route, lane.inbox[0], {it: was(it) for it in route.open}, len(route.limits_met), clocks, resends)


def reached(before: Before) -> Iterator[str]:
    """The kinds of the turn that was made since then."""
    for session in before.sessions:
        if isinstance(session, Publisher):
            yield from of_samples(before, session)
            yield from of_draining(before, session)
    for reply in before.route.replies:
        yield from of_full_ack(before, reply)
    if isinstance(before.item, Datagram):
        packet = packets.read(before.item.content)
        if packet is not None:
            yield from of_shutdown(before, before.item, packet)
            yield from of_ignored(before, before.item, packet)
            yield from of_conclusion(before, before.item, packet)
    yield from of_told(before)
    yield from of_files(before)
    yield from clock_cases.reached(before.route, before.clocks)
    yield from resend_cases.reached(before.route, before.resends)


# ---- reports ----


def of_samples(before: Before, it: Publisher) -> Iterator[str]:
    if len(it.samples) > before.sessions[it].samples:
        yield "sample after the first one" if before.sessions[it].samples else "first sample taken as it is"


def of_full_ack(before: Before, reply: Reply) -> Iterator[str]:
    packet = packets.read(reply.content)
    if not isinstance(packet, Control) or packet.kind is not Kind.ACK or len(packet.body) != 4 * FULL_ACK_WORDS:
        return
    packets_rate, capacity, _ = packets.words_of(packet.body)[4:]
    if before.route.entry.is_live:
        yield "Full ACK without rates, live"
        return
    sender = next(it for it in before.route.publishers() if it.is_of(reply.peer, packet.destination) and not it.drains)
    if len(sender.new_at) <= RATE_PACKETS:
        yield "rates before seventeen packets"
    elif packets_rate in (LEAST_RATE, MOST_RATE):
        yield "rates at their least, measured" if packets_rate == LEAST_RATE else "rates at their most"
    else:
        yield "rates as they are measured"
    if capacity > LEAST_CAPACITY:
        yield "capacity above its least"


# ---- draining ----


def for_session(before: Before, item: Datagram, packet: Packet, it: Session) -> bool:
    """Whether a packet is for a session that is open in step 3."""
    ended_before = it.end in (End.IDLE, End.DRAINING_TOO_LONG)
    return not ended_before and it.opening.identity == packet.destination and it.opening.peer == item.peer


def of_shutdown(before: Before, item: Datagram, packet: Packet) -> Iterator[str]:
    """What a publisher's own SHUTDOWN does."""
    for it, its in before.sessions.items():
        is_its = isinstance(packet, Control) and packet.kind is Kind.SHUTDOWN and for_session(before, item, packet, it)
        if not is_its or its.drains or not isinstance(it, Publisher):
            continue
        if it.shutdown_at is not None:
            yield f"{before.mode}: SHUTDOWN of the active publisher, which drains"
            if not it.is_open:
                yield f"{before.mode}: drained in the event of its SHUTDOWN"
        elif it.can_still_deliver():
            yield f"{before.mode}: SHUTDOWN of the standby with payloads to deliver"
        elif it.has_waiting():
            yield "buffer: SHUTDOWN with payloads behind a gap alone"
        else:
            yield f"{before.mode}: SHUTDOWN of the active publisher with nothing to deliver"


def of_draining(before: Before, it: Publisher) -> Iterator[str]:
    """What becomes of a session that drained before this event, or drains since it."""
    its, now = before.sessions[it], before.now
    if it.shutdown_at is None:
        return
    came_out = len(it.delivered) - its.delivered
    if came_out and its.drains:
        yield f"{before.mode}: delivers while it drains"
    if came_out == MOST_DELIVERED:
        yield "64 payloads delivered in an event while it drains"
    if before.route.entry.is_live and came_out and it.position - its.position > came_out:
        yield "live: passes a gap while it drains"
    if it.is_open and its.drains:
        yield from of_lasting(before, it)
    if it.end is End.SHUTDOWN and it.has_waiting():
        yield "buffer: drained up to a gap"
    if it.end is End.SHUTDOWN and its.drains:
        yield f"{before.mode}: drained later"
        if now - it.shutdown_at >= IDLE_AFTER and not before.route.entry.is_live:
            yield "buffer: drains later than five seconds after its SHUTDOWN"
    if it.end is End.SHUTDOWN and before.route.active:
        yield f"{before.mode}: drained, and the standby is active"
    if it.end is End.DRAINING_TOO_LONG:
        yield f"{before.mode}: drained too long"
        if before.route.active in before.sessions:
            yield f"{before.mode}: drained too long, and the standby is active"
    if it.end is End.CLOSED:
        yield f"{before.mode}: closed while it drains"


def of_lasting(before: Before, it: Publisher) -> Iterator[str]:
    """What goes on while a session drains."""
    now, route = before.now, before.route
    if now - it.heard >= IDLE_AFTER:
        yield f"{before.mode}: silent for five seconds while it drains"
    if now - it.sent >= KEEPALIVE_AFTER:
        yield f"{before.mode}: sent nothing for a second while it drains"
    others = [its for other, its in before.sessions.items() if isinstance(other, Publisher) and other.is_open and other is not it]
    takeover = MILLISECOND * (route.entry.takeover_ms or 0)
    if route.entry.is_live and now - it.brought >= takeover > min((now - its.brought for its in others), default=takeover):
        yield "while it drains: no take-over from it"


def drains_in(before: Before) -> Publisher | None:
    """The session that drains before and behind a turn, if there is one."""
    return next((it for it, its in before.sessions.items() if its.drains and it.drains and isinstance(it, Publisher)), None)


def of_ignored(before: Before, item: Datagram, packet: Packet) -> Iterator[str]:
    """A packet that comes for a session which drains."""
    it = drains_in(before)
    if it is None or not for_session(before, item, packet, it):
        return
    if isinstance(packet, Data):
        yield "while it drains: data ignored"
    else:
        yield f"while it drains: {'a second SHUTDOWN' if packet.kind is Kind.SHUTDOWN else 'another packet'} ignored"


def of_conclusion(before: Before, item: Datagram, packet: Packet) -> Iterator[str]:
    """A conclusion that comes while a session drains."""
    draining, route = drains_in(before), before.route
    asked = handshakes.read(packet.body) if isinstance(packet, Control) and packet.kind is Kind.HANDSHAKE else None
    if draining is None or packet.destination != 0 or asked is None or asked.kind != handshakes.CONCLUSION:
        return
    new = [it for it in route.open if it not in before.sessions]
    refused = {int.from_bytes(it.content[REFUSAL_AT:REFUSAL_AT + 4], "big") for it in route.replies if it.content[:4] == packets.words(1 << 31)}
    if draining.is_of(item.peer, asked.caller):
        is_there = any(it.is_of(item.peer, asked.caller) and not it.drains for it in before.sessions if it.is_open)
        what = "finds the other session" if is_there else "opens another session" if new else "is refused"
        yield f"while it drains: its conclusion {what}"
    if Refusal.PEER in refused:
        yield "while it drains: a third publisher is refused"
    met = route.limits_met[before.limits_met:]
    if Limit.ADDRESS in met and site(draining.opening.peer) == site(item.peer):
        yield "while it drains: it counts for its address"
    free, publishers = len(route.free_slots()) + len(new), len(route.publishers())
    if new and isinstance(new[0], Subscriber) and free <= route.entry.reserved - (publishers - 1):
        yield "while it drains: it counts as a publisher there"


# ---- ends that are told ----


def of_told(before: Before) -> Iterator[str]:
    ended = [it for it in before.sessions if it.end is not None]
    silent = [it for it in ended if it.end is End.IDLE]
    for it in silent:
        yield f"{before.mode}: {'publisher' if isinstance(it, Publisher) else 'subscriber'} told of silence"
    if any(it.end is End.WINDOW_LOST for it in ended):
        yield "publisher told of a lost window"
    if len(silent) > 1:
        yield "several told of silence in an event"
    if silent and isinstance(before.item, Close):
        yield "told of silence at a Close"
    if silent and any(it.content[:4] == packets.words(1 << 31) for it in before.route.replies[len(silent):]):
        yield "told of silence before an answer"


# ---- the end of a file ----


def of_files(before: Before) -> Iterator[str]:
    route, last = before.route, before.route.last_end
    if route.entry.is_live or last is None:
        return
    ended = [it for it in before.sessions if it.end is End.FILE_ENDED and isinstance(it, Subscriber)]
    for it in ended:
        yield "file ended after it drained" if last.publisher.shutdown_at is not None else "file ended at once"
        yield "file ended in the event of its publisher's end" if last.publisher in before.sessions else "file ended later"
        is_due = before.now - before.sessions[it].sent >= KEEPALIVE_AFTER and len(sent_to(before, it)) == 1
        yield "file ended in place of a KEEPALIVE" if is_due else "file ended and no KEEPALIVE was due"
        if not it.queued:
            yield "file ended with nothing queued"
    if len(ended) > 1:
        yield "file ended for two in an event"
    for subscriber in route.subscribers():
        yield from of_going_on(before, subscriber)


def sent_to(before: Before, it: Session) -> list[Reply]:
    """The replies of an event to the caller of a session."""
    wanted = it.opening.asked.caller.to_bytes(4, "big")
    return [reply for reply in before.route.replies if reply.peer == it.opening.peer and reply.content[12:16] == wanted]


def of_going_on(before: Before, it: Subscriber) -> Iterator[str]:
    """Why a subscriber's session goes on although a publisher's ended."""
    last = before.route.last_end
    assert last is not None
    was_there = any(other is it for other in last.subscribers)
    if not was_there:
        if last.publisher.end is End.SHUTDOWN and it.has_all() and not before.route.publishers():
            yield "file not ended: the subscriber came later"
    elif last.publisher.end is not End.SHUTDOWN:
        if it.has_all() and not before.route.publishers():
            yield f"file not ended: {'it drained too long' if last.publisher.end is End.DRAINING_TOO_LONG else 'its publisher fell silent'}"
    elif before.route.publishers():
        if it.has_all():
            yield "file not ended: another publisher is open"
    else:
        yield "file not ended: not all is acknowledged"
