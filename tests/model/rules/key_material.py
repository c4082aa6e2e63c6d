"""Key material messages: the form in which a handshake or a control packet carries keys (section 3.2.2)."""
from __future__ import annotations

from enum import IntEnum
from typing import NamedTuple

from . import ciphers

HEAD = 32
SHORTEST = 16
SIGN = bytes.fromhex("122029")
AES_CTR = 2
ENCAPSULATION = 2
SALT_WORDS = 4
WRAP_MORE = 8  # The bytes of a wrap beyond its keys.


class Which(IntEnum):
    """Which keys a message has, or under which a payload is (KK)."""

    NONE = 0
    EVEN = 1
    ODD = 2
    BOTH = 3


class Fault(IntEnum):
    """What is wrong with the contents of a KMREQ. The first in this order counts."""

    SHORT = 1
    SIGN = 2
    KEYS = 3
    KEKI = 4
    CIPHER = 5
    AUTHENTICATION = 6
    ENCAPSULATION = 7
    SALT_LENGTH = 8
    KEY_LENGTH = 9
    LENGTH = 10


class Message(NamedTuple):
    """A message that was read."""

    which: Which
    salt: bytes
    key_length: int
    wrap: bytes


class Keys(NamedTuple):
    """The keys of both names; None for one that isn't there."""

    even: bytes | None = None
    odd: bytes | None = None

    def named(self, which: int) -> bytes | None:
        """The key under which a payload with this KK is."""
        return {Which.EVEN: self.even, Which.ODD: self.odd}.get(Which(which))

    def renewed(self, by: Keys) -> Keys:
        """These keys, where others take the place of those of the same names."""
        return Keys(by.even or self.even, by.odd or self.odd)


def fault_of(contents: bytes) -> Fault | None:
    """The first fault of a message; None if it reads. The bits and bytes that are reserved may be anything."""
    if len(contents) < SHORTEST:
        return Fault.SHORT
    which, key_length = contents[3] & 3, 4 * contents[15]
    keys = key_length * (2 if which == Which.BOTH else 1)
    right = {
        Fault.SIGN: contents[:3] == SIGN,
        Fault.KEYS: which != Which.NONE,
        Fault.KEKI: contents[4:8] == bytes(4),
        Fault.CIPHER: contents[8] == AES_CTR,
        Fault.AUTHENTICATION: contents[9] == 0,
        Fault.ENCAPSULATION: contents[10] == ENCAPSULATION,
        Fault.SALT_LENGTH: contents[14] == SALT_WORDS,
        Fault.KEY_LENGTH: key_length in ciphers.KEY_LENGTHS,
        Fault.LENGTH: len(contents) == HEAD + WRAP_MORE + keys,
    }
    return next((it for it in sorted(right) if not right[it]), None)


def read(contents: bytes) -> Message | None:
    """The message of a KMREQ's contents; None if they have a fault."""
    if fault_of(contents) is not None:
        return None
    return Message(Which(contents[3] & 3), contents[16:HEAD], 4 * contents[15], contents[HEAD:])


def brought(kek: bytes, message: Message) -> Keys | None:
    """The keys that a message brings; None if this key doesn't unwrap them. Of two the even one is the first."""
    text = ciphers.unwrapped(kek, message.wrap)
    if text is None:
        return None
    first, last = text[:message.key_length], text[-message.key_length:]
    return Keys(None if message.which is Which.ODD else first, None if message.which is Which.EVEN else last)


def write(which: Which, salt: bytes, kek: bytes, keys: bytes, key_length: int) -> bytes:
    """The message that brings keys of this length, wrapped under the key that a passphrase gives."""
    head = SIGN + bytes([which]) + bytes(4) + bytes([AES_CTR, 0, ENCAPSULATION, 0, 0, 0, SALT_WORDS, key_length // 4])
    return head + salt + ciphers.wrapped(kek, keys)
