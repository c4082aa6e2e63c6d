"""Where a datagram goes before any session sees it: it is answered, dropped, or belongs to a route (section 4.3)."""
from __future__ import annotations

from dataclasses import dataclass
from enum import IntEnum
from typing import NamedTuple

from . import handshakes, packets, stream_ids
from .configuration import Entry, is_in
from .cookies import MINUTE, Peer, cookie, is_right
from .handshakes import CONCLUSION, INDUCTION, VERSION, Block, Handshake, Refusal
from .stream_ids import Ask, Role

INITIAL_TOP_BIT = 0x80000000


class Cause(IntEnum):
    """Why a datagram is dropped, by the numbers that are printed."""

    PACKET = 1
    UNKNOWN_ID = 2
    NOT_HANDSHAKE = 3
    HANDSHAKE = 4
    WRONG_KIND = 5
    WRONG_COOKIE = 6
    NOT_ALLOWED = 7


class Answer(NamedTuple):
    datagram: bytes


class Dropped(NamedTuple):
    cause: Cause


class ToRoute(NamedTuple):
    index: int


Class = Answer | Dropped | ToRoute


@dataclass
class Shown:
    """A route as the lobby knows it. A hidden one has no datagrams any more; its index isn't used again."""

    entry: Entry
    is_hidden: bool = False


def lets_in(entry: Entry, peer: Peer, role: Role) -> bool:
    """Whether the list of the role has the peer's address."""
    return is_in(entry.publish_from if role is Role.PUBLISH else entry.request_from, peer)


def passphrase_of(entry: Entry, role: Role) -> str | None:
    """The passphrase of a role, by the key that has its name; a role that has one is secured."""
    return getattr(entry, f"{role.value}_passphrase", None)


def key_length_of(entry: Entry) -> int | None:
    """The length that keys must have, if the route has one."""
    return getattr(entry, "pbkeylen", None)


def fits_key(entry: Entry, ask: Ask) -> bool:
    """Whether the Stream ID brings the key of its role, if the route has one."""
    key = entry.publish_key if ask.role is Role.PUBLISH else entry.request_key
    return key is None or ask.key == key


class Lobby:
    """The routes that there are, and where their datagrams go. Nothing here changes by a datagram."""

    def __init__(self, secret: bytes) -> None:
        self.secret = secret
        self.routes: list[Shown] = []

    def index_of(self, name: str) -> int | None:
        """The index of the route that is shown under this name."""
        return next((at for at, it in enumerate(self.routes) if it.entry.name == name and not it.is_hidden), None)

    def classify(self, peer: Peer, datagram: bytes, moment: int) -> Class:
        """What becomes of a datagram: the first rule that applies decides."""
        packet = packets.read(datagram)
        if packet is None:
            return Dropped(Cause.PACKET)
        if packet.destination != 0:
            return self.class_of_destination(packet.destination, peer)
        if not isinstance(packet, packets.Control) or packet.kind is not packets.Kind.HANDSHAKE:
            return Dropped(Cause.NOT_HANDSHAKE)
        asked = handshakes.read(packet.body)
        if asked is None:
            return Dropped(Cause.HANDSHAKE)
        if asked.kind == INDUCTION:
            return Answer(handshakes.induction_answer(asked, cookie(self.secret, peer, moment // MINUTE)))
        if asked.kind != CONCLUSION:
            return Dropped(Cause.WRONG_KIND)
        if not is_right(self.secret, peer, moment, asked.cookie):
            return Dropped(Cause.WRONG_COOKIE)
        return self.class_of_conclusion(asked, peer)

    def class_of_destination(self, destination: int, peer: Peer) -> Class:
        """The bits above the lowest 20 are the route's index and one. A peer that none of a route's lists has is kept out."""
        index = (destination >> 20) - 1
        if not 0 <= index < len(self.routes) or self.routes[index].is_hidden:
            return Dropped(Cause.UNKNOWN_ID)
        if not any(lets_in(self.routes[index].entry, peer, role) for role in Role):
            return Dropped(Cause.NOT_ALLOWED)
        return ToRoute(index)

    def class_of_conclusion(self, asked: Handshake, peer: Peer) -> Class:
        """A CONCLUSION with the right cookie: the refusals that need no route, the route that its Stream ID names, and, if the role is
        secured there, whether its KMREQ reads and has keys of the route's length."""
        reason = first_reason(asked, self.asks_for_secured(asked))
        if reason is not None:
            return Answer(handshakes.refusal(asked, reason))
        index = self.asked_route(asked, peer)
        if index is None:
            return Answer(handshakes.refusal(asked, Refusal.PEER))
        if self.asks_for_secured(asked) and not has_keys_for(asked, self.routes[index].entry):
            return Answer(handshakes.refusal(asked, Refusal.UNSECURE))
        return ToRoute(index)

    def asks_for_secured(self, asked: Handshake) -> bool:
        """Whether the Stream ID names a route whose asked role is secured."""
        ask = ask_of(asked)
        index = self.index_of(ask.name) if ask else None
        return ask is not None and index is not None and passphrase_of(self.routes[index].entry, ask.role) is not None

    def asked_route(self, asked: Handshake, peer: Peer) -> int | None:
        """The route that a Stream ID names and to which this peer may come in this role; None if there is none."""
        ask = ask_of(asked)
        index = self.index_of(ask.name) if ask else None
        if ask is None or index is None:
            return None
        entry = self.routes[index].entry
        return index if lets_in(entry, peer, ask.role) and fits_key(entry, ask) else None


def has_keys_for(asked: Handshake, entry: Entry) -> bool:
    """Whether there is one KMREQ that reads, with keys of the length that the route wants, if it wants one."""
    message = asked.key_material()
    return message is not None and key_length_of(entry) in (None, message.key_length)


def first_reason(asked: Handshake, is_secured: bool) -> Refusal | None:
    """The first reason to refuse a CONCLUSION whatever route it asks for: another version, an initial number of 32 bits, no HSREQ,
    encryption unless the role is secured, a packet filter, a connection group."""
    if asked.version != VERSION:
        return Refusal.VERSION
    if asked.initial & INITIAL_TOP_BIT or asked.block(Block.HSREQ) is None:
        return Refusal.ROGUE
    reasons = {Block.KMREQ: Refusal.UNSECURE, Block.FILTER: Refusal.FILTER, Block.GROUP: Refusal.GROUP}
    return next((it for block, it in reasons.items() if asked.block(block) is not None and not (block is Block.KMREQ and is_secured)), None)


def ask_of(asked: Handshake) -> Ask | None:
    """What the Stream ID of a CONCLUSION asks for; None if there is none, or it has a fault."""
    contents = asked.block(Block.STREAM_ID)
    return None if contents is None else stream_ids.read(handshakes.text_of(contents))
