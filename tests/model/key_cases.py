"""Counts the cases of the rules by which sessions have keys: conclusions with a KMREQ, payloads under keys, renewals, and the keys that the
gateway makes for subscribers."""
from __future__ import annotations

from typing import Iterator, NamedTuple

from rules import handshakes, key_material, packets
from rules.handshakes import Block, Handshake, Refusal
from rules.hub import Lane
from rules.key_material import Keys, Which
from rules.lobby import ask_of, passphrase_of
from rules.packets import KMREQ, KMRSP, Control, Data, Kind, Packet
from rules.publisher import Publisher
from rules.route import Datagram, Item, Route
from rules.session import End, Session
from rules.session_keys import BAD_SECRET, GROUP_AHEAD, NO_SECRET
from rules.stream_ids import Role
from rules.subscriber import Subscriber

REFUSAL_AT = 36
MODES = ("live", "buffer")
ROLES = tuple(it.value for it in Role)


def of_role(role: str) -> tuple[str, ...]:
    """The cases of conclusions for a secured role."""
    return tuple(f"{role} with keys: {it}" for it in (
        "opened, 16 bytes", "opened, 24 bytes", "opened, 32 bytes", "its answer again", "its answer again, to another KMREQ", "refused: another passphrase",
        "refused before its key is derived", "ignored: its group derived too much",
    ))


PUBLISHED = (
    *of_role("publish"), "publish with keys: opened with both", "publish with keys: opened with the odd one", "publish with keys: two are open",
    *(f"{mode}: payload decrypted under the {name} key" for mode in MODES for name in ("even", "odd")), "packet in clear isn't received",
    "packet under a missing key isn't received", "packet under both keys isn't received", "packet decrypted when it comes again",
    *(f"keys renewed: {it}" for it in ("both", "the even one", "the odd one", "the same again")), "keys not renewed: NOSECRET", "keys not renewed: BADSECRET",
    "keys renewed while payloads wait", "keys of a standby renewed", "KMRSP of a publisher ignored", "while it drains: a KMREQ ignored",
)
REQUESTED = (
    *of_role("request"), "key announced with the opening", "key announced again", "key announced again after just 50 ms", "key confirmed",
    "KMRSP that confirms nothing", "KMRSP after the key is confirmed", "KMREQ of a subscriber ignored",
    *(f"{mode}: {it}" for mode in MODES for it in ("payload held", "held payloads go", "payload under a key of its own", "payload again under it")),
    "live: held payload expired", "buffer: payloads held back for one whose key isn't confirmed", "session with keys is told of its end: given up",
    "session with keys ends as others do: given up", "given up and silent at once", "KMREQ behind a DROPREQ", "KMREQ and a KEEPALIVE",
    "KMREQ before the SHUTDOWN at the end of a file",
    "key of a session that isn't the first",
)
KINDS_BY_KEY = {"publish_passphrase": PUBLISHED, "request_passphrase": REQUESTED}
# Those that only callers with libsrt, or only routes that follow the draft, can reach.
LIBSRT_KINDS = (
    "while it drains: a KMREQ ignored", "session with keys is told of its end: given up", "KMREQ before the SHUTDOWN at the end of a file",
)


class Was(NamedTuple):
    """What a session was like before a turn. A publisher: its keys and the numbers it had received. A subscriber: how many keys were
    confirmed, when its next one was announced, the next number to send, and those expired."""

    drains: bool
    keys: Keys = Keys()
    received: frozenset[int] = frozenset()
    confirmed: int = 0
    announced: tuple[int, ...] = ()
    next: int = 0
    expired: int = 0


class Before(NamedTuple):
    """What a route with a passphrase was like before a turn that applies an item: its open sessions, and when its groups of addresses may
    derive keys again."""

    route: Route
    item: Item
    sessions: dict[Session, Was]
    groups: list[int]
    limit: int


def was(it: Session) -> Was:
    if isinstance(it, Publisher) and it.keys:
        return Was(it.drains, keys=it.keys.keys, received=frozenset(it.received))
    if isinstance(it, Subscriber) and it.keys:
        return Was(it.drains, confirmed=it.keys.confirmed, announced=tuple(it.keys.announced), next=it.next, expired=it.expired)
    return Was(it.drains)


def before_turn(lane: Lane) -> Before | None:
    """What is kept of a route with a passphrase before a turn; None if the turn applies nothing."""
    route = lane.route
    has_passphrase = any(passphrase_of(route.entry, role) is not None for role in Role)
    if not has_passphrase or lane.waiting or not lane.inbox:
        return None
    limit = route.derivations
    return Before(route, lane.inbox[0], {it: was(it) for it in route.open}, list(limit.groups), limit.route)


def reached(before: Before) -> Iterator[str]:
    """The cases of the turn that was made since then."""
    if isinstance(before.item, Datagram):
        packet = packets.read(before.item.content)
        asked = handshakes.read(packet.body) if isinstance(packet, Control) and packet.kind is Kind.HANDSHAKE and packet.destination == 0 else None
        if asked is not None:
            yield from of_conclusion(before, before.item, asked)
        elif packet is not None:
            yield from of_packet(before, before.item, packet)
    for session, its in before.sessions.items():
        if isinstance(session, Subscriber) and session.keys:
            yield from of_subscriber(before, session, its)
    yield from of_opened(before)


# ---- conclusions ----


def of_conclusion(before: Before, item: Datagram, asked: Handshake) -> Iterator[str]:
    ask = ask_of(asked)
    if ask is None or passphrase_of(before.route.entry, ask.role) is None:
        return
    role, found = f"{ask.role.value} with keys:", [it for it in before.route.open if it.is_of(item.peer, asked.caller) and not it.drains]
    reasons = {int.from_bytes(it.content[REFUSAL_AT:REFUSAL_AT + 4], "big") for it in before.route.replies if it.content[:4] == packets.words(1 << 31)}
    limit = before.route.derivations
    if found and found[0] in before.sessions:
        opened_by = found[0].opening.asked.block(Block.KMREQ)
        yield f"{role} its answer again"
        if opened_by != asked.block(Block.KMREQ):
            yield f"{role} its answer again, to another KMREQ"
    elif found:
        yield f"{role} opened, {asked.key_material().key_length} bytes"  # type: ignore[union-attr]
        which = asked.key_material().which  # type: ignore[union-attr]
        if which is not Which.EVEN and ask.role is Role.PUBLISH:
            yield f"{role} opened with {'both' if which is Which.BOTH else 'the odd one'}"
        if sum(isinstance(it, Publisher) for it in before.route.open) == 2 and ask.role is Role.PUBLISH:
            yield f"{role} two are open"
    elif Refusal.BADSECRET in reasons:
        yield f"{role} refused: another passphrase"
    elif limit.groups == before.groups and limit.route == before.limit:
        group = before.groups[item.peer.ip[-1] % len(before.groups)]
        yield f"{role} {'ignored: its group derived too much' if group > before.route.clock + GROUP_AHEAD else 'refused before its key is derived'}"


def of_opened(before: Before) -> Iterator[str]:
    """A subscriber's session that opened in the turn."""
    for it in before.route.open:
        if isinstance(it, Subscriber) and it.keys and it not in before.sessions:
            if it.keys.announced:
                yield "key announced with the opening"
            if it.keys.seed.count:
                yield "key of a session that isn't the first"


# ---- packets ----


def of_packet(before: Before, item: Datagram, packet: Packet) -> Iterator[str]:
    for session, its in before.sessions.items():
        is_its = session.opening.identity == packet.destination and session.opening.peer == item.peer and session.end not in (End.IDLE, End.GIVEN_UP)
        if not is_its:
            continue
        if isinstance(session, Publisher) and session.keys:
            yield from of_data(session, its, packet) if isinstance(packet, Data) else of_renewal(before, session, its, packet)
        if isinstance(session, Subscriber) and session.keys and isinstance(packet, Control):
            yield from of_confirmation(session, its, packet)


def of_data(it: Publisher, its: Was, packet: Data) -> Iterator[str]:
    if its.drains:
        return
    if packet.encryption in (Which.NONE, Which.BOTH):
        yield f"packet {'in clear' if packet.encryption == Which.NONE else 'under both keys'} isn't received"
    elif its.keys.named(packet.encryption) is None:
        yield "packet under a missing key isn't received"
    elif len(it.received) > len(its.received):
        yield f"{it.entry.mode.value}: payload decrypted under the {Which(packet.encryption).name.lower()} key"
        if min(it.received) < list(it.received)[-1] < it.greatest:
            yield "packet decrypted when it comes again"


def of_renewal(before: Before, it: Publisher, its: Was, packet: Control) -> Iterator[str]:
    if packet.kind is not Kind.USER_DEFINED:
        return
    if packet.subtype == KMRSP:
        yield "KMRSP of a publisher ignored"
    if packet.subtype != KMREQ:
        return
    if its.drains:
        yield "while it drains: a KMREQ ignored"
        return
    (answer,) = (packets.read(reply.content) for reply in before.route.replies if reply.content[:4] == packets.words(0xFFFF0004))
    assert isinstance(answer, Control) and it.keys
    if answer.body in (NO_SECRET, BAD_SECRET):
        yield f"keys not renewed: {'NOSECRET' if answer.body == NO_SECRET else 'BADSECRET'}"
        return
    message = key_material.read(packet.body)
    assert message is not None
    yield f"keys renewed: {'the same again' if it.keys.keys == its.keys else NAMES[message.which]}"
    if it.has_waiting():
        yield "keys renewed while payloads wait"
    if it is not before.route.active:
        yield "keys of a standby renewed"


NAMES = {Which.EVEN: "the even one", Which.ODD: "the odd one", Which.BOTH: "both"}


def of_confirmation(it: Subscriber, its: Was, packet: Control) -> Iterator[str]:
    assert it.keys
    if packet.kind is not Kind.USER_DEFINED:
        return
    if packet.subtype == KMREQ:
        yield "KMREQ of a subscriber ignored"
    elif packet.subtype == KMRSP and it.keys.confirmed > its.confirmed:
        yield "key confirmed"
    elif packet.subtype == KMRSP:
        yield "KMRSP that confirms nothing" if its.confirmed == 0 else "KMRSP after the key is confirmed"


# ---- what subscribers are sent ----


def of_subscriber(before: Before, it: Subscriber, its: Was) -> Iterator[str]:
    assert it.keys
    now, mode = before.route.clock, it.entry.mode.value
    if it.end is End.GIVEN_UP:
        yield f"session with keys {'is told of its end' if it.entry.is_libsrt else 'ends as others do'}: given up"
    if it.end is End.IDLE and its.announced and now - its.announced[0] >= 5_000_000:
        yield "given up and silent at once"
    sent = sent_to(before, it)
    kinds = [packet.kind for packet in sent if isinstance(packet, Control)]
    data = [packet for packet in sent if isinstance(packet, Data)]
    if Kind.USER_DEFINED in kinds:
        yield "key announced again"
        if its.announced and now - its.announced[-1] == 50_000:
            yield "key announced again after just 50 ms"
        if Kind.DROPREQ in kinds:
            yield "KMREQ behind a DROPREQ"
        if Kind.KEEPALIVE in kinds:
            yield "KMREQ and a KEEPALIVE"
        if it.end is End.FILE_ENDED:
            yield "KMREQ before the SHUTDOWN at the end of a file"
    if data:
        yield f"{mode}: payload under a key of its own"
        if it.next - its.next < len(data):
            yield f"{mode}: payload again under it"
        if it.keys.confirmed == 1 and its.confirmed == 0:
            yield f"{mode}: held payloads go"
    if it.is_open and it.keys.confirmed == 0:
        yield from of_held(before, it, its)


def of_held(before: Before, it: Subscriber, its: Was) -> Iterator[str]:
    """A key isn't confirmed yet."""
    mode = it.entry.mode.value
    if it.queued:
        yield f"{mode}: payload held"
    if it.expired > its.expired:
        yield "live: held payload expired"
    active = before.route.active
    others = [other for other in before.route.subscribers() if other is not it]
    if not it.entry.is_live and it.room() == 0 and active and active.can_still_deliver() and any(other.room() for other in others):
        yield "buffer: payloads held back for one whose key isn't confirmed"


def sent_to(before: Before, it: Session) -> list[Packet]:
    """The packets of an event to the caller of a session."""
    read = (packets.read(reply.content) for reply in before.route.replies if reply.peer == it.opening.peer)
    return [packet for packet in read if packet is not None and packet.destination == it.opening.asked.caller]


def kinds_of(key: str, has_libsrt: bool) -> tuple[str, ...]:
    """The kinds that have to occur if routes may have this key."""
    return tuple(it for it in KINDS_BY_KEY.get(key, ()) if has_libsrt or it not in LIBSRT_KINDS)
