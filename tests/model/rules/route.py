"""A route: its sessions, and what it replies to each item that it applies. The order of an event's steps is fixed."""
from __future__ import annotations

from dataclasses import dataclass
from enum import Enum
from typing import NamedTuple

from . import ciphers, handshakes, key_material, packets
from .configuration import Entry, site
from .cookies import Peer
from .handshakes import LONGEST_MTU, Delays, Handshake, Refusal
from .lobby import ask_of, first_reason, passphrase_of
from .packets import Control, Kind, Packet
from .publisher import Publisher
from .session import End, Opening, Session
from .session_keys import DerivationLimit, PublisherKeys, Secret, SeedSource, SubscriberKeys
from .stream_ids import Role
from .subscriber import Subscriber

LEAST_MTU = 76
MOST_PUBLISHERS = 2
GENERATIONS = 4096


class Datagram(NamedTuple):
    """An item: a datagram that arrived."""

    moment: int
    peer: Peer
    content: bytes


class Tick(NamedTuple):
    """An item: the time."""

    moment: int


class Close(NamedTuple):
    """An item: the route is closed."""

    moment: int


Item = Datagram | Tick | Close


class Reply(NamedTuple):
    """A datagram that is to be sent."""

    peer: Peer
    content: bytes


class Limit(Enum):
    """Why there is no place for a caller, in the order in which it is asked."""

    ADDRESS = "its address has all sessions that it may have"
    SLOTS = "no slot is free"
    RESERVED = "the free slots are kept for publishers"


@dataclass
class PublisherEnd:
    """The publisher's session that ended last, and who was subscribed then."""

    publisher: Publisher
    subscribers: list[Subscriber]


class Route:
    """A route with all sessions that ever were, in the order of their openings."""

    def __init__(self, entry: Entry, index: int) -> None:
        self.entry = entry
        self.index = index
        self.clock = 0
        self.is_closed = False
        self.sessions: list[Session] = []
        self.open: list[Session] = []
        self.active: Publisher | None = None
        self.last_end: PublisherEnd | None = None
        self.limits_met: list[Limit] = []
        self.derivations = DerivationLimit()
        self.seeds = SeedSource()
        self.replies: list[Reply] = []

    # ---- who is there ----

    def by_slot(self) -> list[Session]:
        """The open sessions, slots upwards."""
        return sorted(self.open, key=lambda it: it.opening.slot)

    def subscribers(self) -> list[Subscriber]:
        return [it for it in self.by_slot() if isinstance(it, Subscriber)]

    def publishers(self) -> list[Publisher]:
        """The open publishers, in the order of their openings."""
        return [it for it in self.open if isinstance(it, Publisher)]

    def choose_active(self) -> None:
        """The publisher that was active goes on to be while it is open; then it is the one that was opened first."""
        if self.active is None or not self.active.is_open:
            self.active = next(iter(self.publishers()), None)

    def finish(self, session: Session, end: End) -> None:
        """Ends a session."""
        session.end = end
        self.open.remove(session)
        if isinstance(session, Publisher):
            self.last_end = PublisherEnd(session, self.subscribers())
        self.choose_active()

    def reply(self, session: Session, content: bytes) -> None:
        self.replies.append(Reply(session.opening.peer, content))

    # ---- an event ----

    def step(self, item: Item) -> list[Reply]:
        """Applies an item and returns the replies, in their order. All happens at the route's clock, which never goes back."""
        self.replies = []
        self.clock = max(self.clock, item.moment)
        self.end_silent_sessions()
        self.take_over()
        for subscriber in self.subscribers():
            subscriber.expire(self.clock)
        if isinstance(item, Close):
            self.close()
        if isinstance(item, Datagram) and not self.is_closed:
            self.apply(item)
        self.deliver()
        for session in self.by_slot():
            if isinstance(session, Publisher):
                for content in session.report(self.clock):
                    self.reply(session, content)
        for subscriber in self.subscribers():
            self.serve(subscriber)
        return self.replies

    def end_silent_sessions(self) -> None:
        """Sessions of which nothing was heard for five seconds end, and those that didn't confirm a key for so long; callers with libsrt
        are told. One that drains has a time of its own, and isn't told."""
        for session in self.by_slot():
            if isinstance(session, Publisher) and session.drains:
                if session.drains_too_long(self.clock):
                    self.finish(session, End.DRAINING_TOO_LONG)
            elif end := session.end_of_silence(self.clock):
                if self.entry.is_libsrt:
                    self.reply(session, session.shutdown(self.clock))
                self.finish(session, end)

    def take_over(self) -> None:
        """The publisher that stands by becomes active where it brought data of late and the active one didn't, live only."""
        others = [it for it in self.publishers() if it is not self.active]
        if self.entry.takeover_ms is None or not self.entry.is_live or self.active is None or not others:
            return
        standby = others[0]
        if not self.active.drains and not standby.drains and not self.active.is_fresh(self.clock) and standby.is_fresh(self.clock):
            self.active = standby

    def close(self) -> None:
        """All sessions end and are told (section 3.2.7). From then on items only move the clock."""
        self.is_closed = True
        for session in self.by_slot():
            self.reply(session, session.shutdown(self.clock))
            self.finish(session, End.CLOSED)

    def apply(self, item: Datagram) -> None:
        """A datagram is a conclusion, or for an open session of its sender; others change nothing."""
        packet = packets.read(item.content)
        if packet is None:
            return
        if packet.destination == 0:
            self.apply_conclusion(item.peer, packet)
            return
        for session in list(self.open):
            if session.opening.identity == packet.destination and session.opening.peer == item.peer and not session.drains:
                session.heard = self.clock
                self.apply_packet(session, packet)

    def apply_packet(self, session: Session, packet: Packet) -> None:
        """A SHUTDOWN ends the session (section 3.2.7); what else comes is taken by its role."""
        if isinstance(packet, Control) and packet.kind is Kind.SHUTDOWN:
            self.shut_down(session)
        elif isinstance(session, Publisher):
            for content in session.answer_keys(packet, self.clock):
                self.reply(session, content)
            end = session.take(packet, self.clock)
            if end and self.entry.is_libsrt:
                self.reply(session, session.shutdown(self.clock))
            if end:
                self.finish(session, end)
        elif isinstance(session, Subscriber):
            for content in session.take(packet, self.clock):
                self.reply(session, content)

    def shut_down(self, session: Session) -> None:
        """For callers with libsrt the active publisher's session goes on while something of it can still be delivered: it drains."""
        if self.entry.is_libsrt and isinstance(session, Publisher) and session is self.active and session.can_still_deliver():
            session.shutdown_at = self.clock
        else:
            self.finish(session, End.SHUTDOWN)

    # ---- conclusions ----

    def apply_conclusion(self, peer: Peer, packet: Packet) -> None:
        """A conclusion gets the answer of its open session again, or is refused, or opens a session (section 4.3.1.2)."""
        asked = handshakes.read(packet.body) if isinstance(packet, Control) and packet.kind is Kind.HANDSHAKE else None
        ask = ask_of(asked) if asked else None
        if asked is None or ask is None or asked.kind != handshakes.CONCLUSION:
            return
        passphrase, message = passphrase_of(self.entry, ask.role), asked.key_material()
        if first_reason(asked, passphrase is not None) is not None or passphrase is not None and message is None:
            return
        opened = next((it for it in self.open if it.is_of(peer, asked.caller) and not it.drains), None)
        if opened:
            opened.heard = self.clock
            self.reply(opened, opened.opening.answer)
            return
        reason = self.reason_to_refuse(peer, asked, ask.role)
        if reason is not None:
            self.replies.append(Reply(peer, handshakes.refusal(asked, reason)))
        elif passphrase is None or message is None:
            self.open_session(peer, asked, ask.role, packet.stamp, None)
        elif self.derivations.allows(peer, self.clock):
            secret = Secret(message, ciphers.key_encrypting_key(passphrase, message.salt, message.key_length))
            if key_material.brought(secret.kek, message) is None:
                self.replies.append(Reply(peer, handshakes.refusal(asked, Refusal.BADSECRET)))
            else:
                self.open_session(peer, asked, ask.role, packet.stamp, secret)

    def free_slots(self) -> list[int]:
        return [it for it in range(self.entry.sessions) if it not in {it.opening.slot for it in self.open}]

    def reason_to_refuse(self, peer: Peer, asked: Handshake, role: Role) -> Refusal | None:
        """The first reason to refuse a conclusion at its route (section 4.3): the other mode; an MTU or a flow window with which nothing
        can be sent; a third publisher; no slot, or none for this caller."""
        if asked.asks_for_buffer_mode() == self.entry.is_live:
            return Refusal.MESSAGEAPI
        needs_all = role is Role.REQUEST and not self.entry.is_live
        if asked.mtu < (LONGEST_MTU if needs_all else LEAST_MTU) or asked.window == 0:
            return Refusal.ROGUE
        if role is Role.PUBLISH and len(self.publishers()) >= MOST_PUBLISHERS:
            return Refusal.PEER
        limit = self.limit_met(peer, role)
        if limit is None:
            return None
        self.limits_met.append(limit)
        return Refusal.RESOURCE

    def limit_met(self, peer: Peer, role: Role) -> Limit | None:
        """The first limit for which there is no place for a caller. Slots are kept for as many publishers as aren't there yet."""
        free, kept = len(self.free_slots()), self.entry.reserved - len(self.publishers())
        if self.has_its_share(peer):
            return Limit.ADDRESS
        if free == 0:
            return Limit.SLOTS
        return Limit.RESERVED if role is Role.REQUEST and free <= kept else None

    def has_its_share(self, peer: Peer) -> bool:
        """Whether as many sessions of the peer's site are open as the route allows, whatever their ports."""
        most = self.entry.sessions_per_address
        return most is not None and sum(site(it.opening.peer) == site(peer) for it in self.open) >= most

    def agreed(self, asked: Handshake) -> Delays:
        """The delays of both directions, live the greater of the route's and the caller's (section 4.4); in buffer mode 0."""
        if not self.entry.is_live:
            return Delays(0, 0)
        delays = asked.delays()
        return Delays(max(self.entry.latency_ms, delays.sender_ms), max(self.entry.latency_ms, delays.receiver_ms))

    def open_session(self, peer: Peer, asked: Handshake, role: Role, stamp: int, secret: Secret | None) -> None:
        """A session opens in the least free slot, with keys if its role is secured. Its socket ID tells the route, how many sessions the slot
        had before, and the slot."""
        slot = self.free_slots()[0]
        generation = sum(it.opening.slot == slot for it in self.sessions)
        identity = (self.index + 1 << 20) + (generation % GENERATIONS << 8) + slot
        delays = self.agreed(asked)
        key_length = secret.message.key_length if secret else None
        answer = handshakes.conclusion_answer(asked, self.entry.mode, delays, self.entry.buffer, identity, key_length)
        delay = delays.receiver_ms if role is Role.PUBLISH else delays.sender_ms
        opening = Opening(self.entry, peer, asked, stamp, slot, generation, identity, self.clock, delay, answer)
        session = self.publisher(opening, secret) if role is Role.PUBLISH else self.subscriber(opening, secret)
        self.sessions.append(session)
        self.open.append(session)
        self.choose_active()
        self.reply(session, answer)

    def publisher(self, opening: Opening, secret: Secret | None) -> Publisher:
        """A publisher's session with the keys that its conclusion brought."""
        keys = key_material.brought(secret.kek, secret.message) if secret else None
        return Publisher(opening, PublisherKeys(secret, keys) if secret and keys else None)

    def subscriber(self, opening: Opening, secret: Secret | None) -> Subscriber:
        """A subscriber's session with keys of its own."""
        if secret is None:
            return Subscriber(opening, None)
        seed = self.seeds.next(opening.peer, opening.asked.cookie, opening.identity)
        return Subscriber(opening, SubscriberKeys(secret, seed))

    # ---- delivery ----

    def deliver(self) -> None:
        """The active publisher delivers to every subscriber. Then, live, the one that stands by delivers to nobody. An active one that
        drains ends behind these deliveries, once nothing is left to deliver."""
        active, standbys = self.active, [it for it in self.publishers() if it is not self.active]
        if active:
            for payload in self.delivered_by(active):
                for subscriber in self.subscribers():
                    subscriber.feed(payload, self.clock)
        for standby in standbys:
            if self.entry.is_live:
                standby.deliver_due(self.clock)
        if active and active.drains and not active.can_still_deliver():
            self.finish(active, End.SHUTDOWN)

    def delivered_by(self, publisher: Publisher) -> list[bytes]:
        """What the active publisher delivers in this event; in buffer mode the subscriber with the least room holds it back, and without a
        subscriber it waits."""
        if self.entry.is_live:
            return publisher.deliver_due(self.clock)
        return publisher.deliver_unbroken(self.clock, min((it.room() for it in self.subscribers()), default=0))

    def serve(self, subscriber: Subscriber) -> None:
        """A subscriber's DROPREQ and data, and a KEEPALIVE; or, in its place, the SHUTDOWN at the end of a file."""
        for content in subscriber.emit(self.clock):
            self.reply(subscriber, content)
        if self.has_whole_file(subscriber):
            self.reply(subscriber, subscriber.shutdown(self.clock))
            self.finish(subscriber, End.FILE_ENDED)
        else:
            for content in subscriber.keepalive(self.clock):
                self.reply(subscriber, content)

    def has_whole_file(self, subscriber: Subscriber) -> bool:
        """Whether a caller with libsrt has acknowledged all in buffer mode, and the publisher that ended last had said so itself while
        this subscriber was there."""
        if self.entry.is_live or not self.entry.is_libsrt or self.publishers() or self.last_end is None:
            return False
        return self.last_end.publisher.end is End.SHUTDOWN and any(it is subscriber for it in self.last_end.subscribers) and subscriber.has_all()
