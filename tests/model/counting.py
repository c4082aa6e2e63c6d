"""Counts what occurs in random tapes: events, packets that come, replies, and what happens inside the model's sessions."""
from __future__ import annotations

from collections import Counter
from typing import Iterator, NamedTuple

import key_cases
import libsrt
import packets
from rules.hub import Hub
from rules.publisher import Publisher
from rules.route import Limit, Route
from rules.session import End, Session
from rules.subscriber import CREDIT_OF_PACKET, Step, Subscriber

NO_EVENT = "a line that is no event"
EVENTS = (
    NO_EVENT,
    *(f"arrival: {it}" for it in ("answer", "accepted", "full", *(f"dropped {cause}" for cause in range(1, 7)))),
    "tick: accepted", "tick: full", "turn: moved", "turn: applied", "turn: blocked", "turn: idle", "send: sent", "send: none",
    "opening: opened", "opening: open fault 1", "opening: open fault 2", "closing: closing", "closing: full", "closing: closed",
)
CONTROL = {
    0: "HANDSHAKE", 1: "KEEPALIVE", 2: "ACK", 3: "NAK", 4: "congestion warning", 5: "SHUTDOWN", 6: "ACKACK", 7: "DROPREQ",
    8: "PEERERROR", 0x7FFF: "user-defined",
}
COMES = tuple(f"comes: {it}" for it in ("data", "encrypted data", "conclusion", *CONTROL.values()))
REPLIES = (
    "lobby: induction", *(f"lobby: refused {it}" for it in (1002, 1004, 1008, 1011, 1014, 1015)),
    *(f"reply: refused {it}" for it in (1002, 1003, 1004, 1012)),
    *(f"reply: {it}" for it in (
        "conclusion", "conclusion with congestion text", "conclusion again", "data", "data again", "Full ACK", "Light ACK", "NAK",
        "NAK of 32 runs", "KEEPALIVE", "SHUTDOWN", "ACKACK", "DROPREQ",
    )),
)
HAPPENINGS = (
    *(f"session ended: {it.value}" for it in (End.IDLE, End.SHUTDOWN, End.WINDOW_LOST, End.CLOSED)),
    "64 payloads delivered in an event", "payload delivered live", "payload delivered in buffer mode", "number given up as too late",
    "number dropped on request", "round trip sampled", "standby became active", "all in flight resent", "payload expired",
    "payload not queued", "generation above 0", "numbers past 2^31", "timestamps past 2^32", f"no place: {Limit.SLOTS.value}",
)
HAPPENINGS_BY_KEY = {
    "publish_from": ("arrival: dropped 7",),
    "callers": (*(f"session ended: {it.value}" for it in (End.DRAINING_TOO_LONG, End.FILE_ENDED)), *libsrt.KINDS),
    "reserved": (f"no place: {Limit.RESERVED.value}",),
    "sessions_per_address": (f"no place: {Limit.ADDRESS.value}",),
    "takeover_ms": ("take-over",),
    "resend_percent": ("resend without credit",),
}
LETTERS = {"A": "arrival", "T": "tick", "U": "turn", "S": "send", "O": "opening", "C": "closing"}


def expected(keys: frozenset[str]) -> list[str]:
    """The kinds each of which has to occur if some routes have these optional keys."""
    by_key = [HAPPENINGS_BY_KEY, *([libsrt.KINDS_BY_KEY] if "callers" in keys else [])]
    by_key += [{it: key_cases.kinds_of(it, "callers" in keys) for it in keys}]
    return [*EVENTS, *COMES, *REPLIES, *HAPPENINGS, *(kind for its in by_key for key, kinds in its.items() if key in keys for kind in kinds)]


class Before(NamedTuple):
    """What a route was like before a turn: its active publisher, how much each publisher had delivered, how much was queued for each
    subscriber, and what else is kept of one with `callers = "libsrt"`, and of one with a passphrase."""

    route: Route
    active: Publisher | None
    delivered: dict[Publisher, int]
    queued: dict[Subscriber, int]
    libsrt: libsrt.Before | None
    keys: key_cases.Before | None


def kind_of_arrival(datagram: bytes) -> str:
    packet = packets.read(datagram)
    if isinstance(packet, packets.Data):
        return "encrypted data" if packet.word >> 27 & 3 else "data"
    assert packet is not None
    return "conclusion" if packet.destination == 0 else CONTROL[packet.kind]


class Tally:
    """How often each kind occurred."""

    def __init__(self) -> None:
        self.counts: Counter[str] = Counter()
        self.answered: set[int] = set()

    def add(self, kind: str, count: int = 1) -> None:
        self.counts[kind] += count

    # ---- lines ----

    def before(self, hub: Hub, line: str) -> Before | None:
        """What is kept of a route before a turn of it; None before any other event."""
        if not line.startswith("U "):
            return None
        lane = hub.lanes[int(line[2:])]
        route = lane.route
        delivered = {it: len(it.delivered) for it in route.publishers()}
        queued = {it: len(it.queued) for it in route.subscribers()}
        return Before(route, route.active, delivered, queued, libsrt.before_turn(lane), key_cases.before_turn(lane))

    def note(self, line: str, answer: str, before: Before | None) -> None:
        """Counts a line and its answer."""
        word, *fields = answer.split(" ")
        self.add(f"{LETTERS[line[0]]}: {answer if word in ('dropped', 'open') else word}")
        if line[0] == "A" and word == "accepted":
            self.add(f"comes: {kind_of_arrival(bytes.fromhex(line.split(' ')[4]))}")
        if word in ("answer", "sent"):
            for kind in self.kinds_of_reply(bytes.fromhex(fields[-1])):
                self.add(f"{'lobby' if word == 'answer' else 'reply'}: {kind}")
        if before and word == "applied":
            self.note_turn(before)

    def kinds_of_reply(self, datagram: bytes) -> Iterator[str]:
        packet = packets.read(datagram)
        if isinstance(packet, packets.Data):
            yield "data again" if packet.word & packets.AGAIN else "data"
            return
        assert packet is not None
        if packet.kind == packets.HANDSHAKE:
            yield from self.kinds_of_answer(packet.body)
        elif packet.kind == packets.ACK:
            yield "Full ACK" if packet.info else "Light ACK"
        else:
            yield CONTROL[packet.kind]
        if packet.kind == packets.NAK and len(packets.runs_of(packet.body)) == 32:
            yield "NAK of 32 runs"

    def kinds_of_answer(self, body: bytes) -> Iterator[str]:
        found = packets.read_handshake(body)
        assert found is not None
        if found.kind == packets.INDUCTION:
            yield "induction"
        elif found.kind != packets.CONCLUSION:
            yield f"refused {found.kind}"
        else:
            yield "conclusion again" if found.socket_id in self.answered else "conclusion"
            self.answered.add(found.socket_id)
            if packets.CONGESTION in found.blocks:
                yield "conclusion with congestion text"

    # ---- what happens inside ----

    def note_turn(self, before: Before) -> None:
        """Counts what an applied item did."""
        route, active = before.route, before.active
        grown = {it: len(it.delivered) - count for it, count in before.delivered.items()}
        self.add("64 payloads delivered in an event", sum(count == 64 for count in grown.values()))
        if active and route.active and route.active is not active and route.active in before.delivered:
            self.add("take-over" if active.is_open else "standby became active")
        for subscriber, count in before.queued.items():
            if subscriber.is_open and active and active is route.active and len(subscriber.queued) - count < grown[active]:
                self.add("payload not queued")
            if subscriber.is_open and subscriber.lost() and subscriber.credit < CREDIT_OF_PACKET:
                self.add("resend without credit")
        for kind in libsrt.reached(before.libsrt) if before.libsrt else ():
            self.add(kind)
        for kind in key_cases.reached(before.keys) if before.keys else ():
            self.add(kind)

    def note_sessions(self, hub: Hub) -> None:
        """Counts what came of all sessions of a tape."""
        self.answered.clear()
        for lane in hub.lanes:
            for limit in lane.route.limits_met:
                self.add(f"no place: {limit.value}")
            for session in lane.route.sessions:
                self.note_session(session)
                if isinstance(session, Publisher):
                    self.note_publisher(session)
                if isinstance(session, Subscriber):
                    self.note_subscriber(session)

    def note_session(self, session: Session) -> None:
        if session.end:
            self.add(f"session ended: {session.end.value}")
        self.add("generation above 0", session.opening.generation > 0)

    def note_publisher(self, it: Publisher) -> None:
        self.add("payload delivered live" if it.entry.is_live else "payload delivered in buffer mode", len(it.delivered))
        passed = range(it.initial, it.position)
        self.add("number given up as too late", sum(number not in it.received and number not in it.dropped for number in passed))
        self.add("number dropped on request", sum(number in it.dropped for number in passed))
        self.add("round trip sampled", len(it.samples))
        self.add("numbers past 2^31", it.position > packets.NUMBERS)
        self.add("timestamps past 2^32", it.opening.stamp + it.time(it.heard) >= packets.WORDS)

    def note_subscriber(self, it: Subscriber) -> None:
        self.add("all in flight resent", it.history.count(Step.RESEND_OF_ALL))
        self.add("payload expired", it.expired - it.initial)
