"""The keys of sessions: those that a publisher brings, and those that the gateway makes for a subscriber (section 6). How often a key is
derived from a passphrase is limited."""
from __future__ import annotations

import hashlib
import struct
from typing import NamedTuple

from . import ciphers, key_material
from .cookies import Peer
from .key_material import Keys, Message, Which
from .numbers import MILLISECOND, SECOND
from .packets import Data

NO_SECRET = bytes.fromhex("03000000")
BAD_SECRET = bytes.fromhex("04000000")
GROUPS = 64
GROUP_TIME, GROUP_AHEAD = 500 * MILLISECOND, 9_500 * MILLISECOND
ROUTE_TIME, ROUTE_AHEAD = 50 * MILLISECOND, 950 * MILLISECOND
FIRST_POOL = bytes(32)
PAYLOADS_OF_KEY = 1 << 24
ANNOUNCED_BEFORE = 1 << 16  # So many payloads before its first one a key is announced.
ANNOUNCED_AGAIN = 50 * MILLISECOND
GIVEN_UP_AFTER = 5 * SECOND


class DerivationLimit:
    """How often a route derives keys from its passphrases: it has a moment, and so has each group of addresses."""

    def __init__(self) -> None:
        self.route = 0
        self.groups = [0] * GROUPS

    def allows(self, peer: Peer, now: int) -> bool:
        """Whether a key may be derived for a caller now. If so it counts."""
        group = peer.ip[-1] % GROUPS
        if self.groups[group] > now + GROUP_AHEAD or self.route > now + ROUTE_AHEAD:
            return False
        self.groups[group] = max(self.groups[group], now) + GROUP_TIME
        self.route = max(self.route, now) + ROUTE_TIME
        return True


class Secret(NamedTuple):
    """What a session with keys keeps of its conclusion: the message of the KMREQ, and the key that encrypts keys, which the passphrase of the
    role gives with the message's salt."""

    message: Message
    kek: bytes


class PublisherKeys:
    """The keys that a publisher brought, at first with its conclusion."""

    def __init__(self, secret: Secret, keys: Keys) -> None:
        self.secret, self.keys = secret, keys

    def opened(self, packet: Data) -> Data:
        """A data packet with its payload in clear and KK 0, or with KK 3 if there is no key for it (section 6.3)."""
        key = self.keys.named(packet.encryption)
        if key is None:
            return packet._replace(encryption=Which.BOTH)
        payload = ciphers.ciphered(key, self.secret.message.salt, packet.number, packet.payload)
        return packet._replace(encryption=Which.NONE, payload=payload)

    def renew(self, contents: bytes) -> bytes:
        """Takes the keys of a KMREQ, and returns what the KMRSP says: the same, or what is wrong (section 6.1.6)."""
        message, mine = key_material.read(contents), self.secret.message
        if message is None or (message.salt, message.key_length) != (mine.salt, mine.key_length):
            return NO_SECRET
        keys = key_material.brought(self.secret.kek, message)
        if keys is None:
            return BAD_SECRET
        self.keys = self.keys.renewed(keys)
        return contents


class Seed(NamedTuple):
    """What a subscriber's keys are made from: the session's ID, how many sessions with such keys the route had before, and the pool."""

    identity: int
    count: int
    pool: bytes


class SeedSource:
    """From where a route has the seeds of its subscribers: the pool has the cookie and the peer of each of them."""

    def __init__(self) -> None:
        self.count = 0
        self.pool = FIRST_POOL

    def next(self, peer: Peer, cookie: int, identity: int) -> Seed:
        self.pool = hashlib.sha256(self.pool + struct.pack("!I", cookie) + peer.ip + struct.pack("!H", peer.port)).digest()
        self.count += 1
        return Seed(identity, self.count - 1, self.pool)


class SubscriberKeys:
    """The keys that the gateway makes for a subscriber, one after the other: each for 2^24 payloads. A key is announced by KMREQs until the
    subscriber has confirmed it; `confirmed` counts those, and `announced` has the times of the KMREQs of the next one."""

    def __init__(self, secret: Secret, seed: Seed) -> None:
        self.secret, self.seed = secret, seed
        self.confirmed = 0
        self.announced: list[int] = []

    def key(self, at: int) -> bytes:
        text = struct.pack("!IQQ", self.seed.identity, self.seed.count, at) + self.seed.pool
        return ciphers.digest_under(self.secret.kek, text)[:self.secret.message.key_length]

    def message(self, at: int) -> bytes:
        """The contents of the KMREQ that announces a key."""
        its = self.secret.message
        return key_material.write(which(at), its.salt, self.secret.kek, self.key(at), its.key_length)

    def announce(self, queued: int, now: int) -> bytes | None:
        """The contents of a KMREQ, if one is due after so many queued payloads: the next key is needed soon, and none was sent of late."""
        is_needed = PAYLOADS_OF_KEY * self.confirmed <= queued + ANNOUNCED_BEFORE
        if not is_needed or self.announced and now - self.announced[-1] < ANNOUNCED_AGAIN:
            return None
        self.announced.append(now)
        return self.message(self.confirmed)

    def confirm(self, contents: bytes) -> None:
        """A KMRSP with the message of the announced key confirms it."""
        if self.announced and contents == self.message(self.confirmed):
            self.confirmed += 1
            self.announced = []

    def is_given_up(self, now: int) -> bool:
        """Whether a key wasn't confirmed for five seconds."""
        return bool(self.announced) and now - self.announced[0] >= GIVEN_UP_AFTER

    def holds(self, index: int) -> bool:
        """Whether the payload with this index waits until its key is confirmed."""
        return index >= PAYLOADS_OF_KEY * self.confirmed

    def closed(self, index: int, word: int, payload: bytes) -> tuple[Which, bytes]:
        """The name of the key of the payload with this index, and the payload encrypted for the packet with this sequence number."""
        at = index // PAYLOADS_OF_KEY
        return which(at), ciphers.ciphered(self.key(at), self.secret.message.salt, word, payload)


def which(at: int) -> Which:
    """The name of a subscriber's key."""
    return Which.ODD if at % 2 == 0 else Which.EVEN
