"""Packets as they come and as they are sent (section 3)."""
from __future__ import annotations

import struct
from enum import IntEnum
from typing import NamedTuple

from .numbers import SEQUENCE_NUMBERS, WORDS

HEADER = 16
LONGEST = 1472
CONTROL_BIT = 0x80000000
WHOLE_MESSAGE_IN_ORDER = 0xE0000000
RETRANSMITTED = 0x04000000
ENCRYPTION_AT = 27
MESSAGE_NUMBERS = (1 << 26) - 1


class Kind(IntEnum):
    """The types of control packets (section 3.2)."""

    HANDSHAKE = 0
    KEEPALIVE = 1
    ACK = 2
    NAK = 3
    CONGESTION_WARNING = 4
    SHUTDOWN = 5
    ACKACK = 6
    DROPREQ = 7
    PEERERROR = 8
    USER_DEFINED = 0x7FFF


KMREQ, KMRSP = 3, 4  # The subtypes of user-defined packets that mean something here (section 3.2.2).
SHORTEST_BODY = {Kind.ACK: 4, Kind.NAK: 4, Kind.DROPREQ: 8}


class Data(NamedTuple):
    """A data packet (section 3.1). Of its second word only KK is read."""

    number: int
    encryption: int
    payload: bytes
    stamp: int
    destination: int


class Control(NamedTuple):
    """A control packet (section 3.2). `information` is its second word; the subtype is looked at in user-defined packets alone."""

    kind: Kind
    subtype: int
    information: int
    body: bytes
    stamp: int
    destination: int


Packet = Data | Control


def read(datagram: bytes) -> Packet | None:
    """The packet of a datagram; None if it is shorter or longer than packets are, has no payload, is of an unknown type, or has less
    control information than its type needs."""
    if not HEADER <= len(datagram) <= LONGEST:
        return None
    first, second, stamp, destination = struct.unpack_from("!4I", datagram)
    body = datagram[HEADER:]
    if first < CONTROL_BIT:
        return Data(first, second >> ENCRYPTION_AT & 3, body, stamp, destination) if body else None
    number = first >> 16 & 0x7FFF
    if number not in set(Kind) or len(body) < SHORTEST_BODY.get(Kind(number), 0):
        return None
    return Control(Kind(number), first & 0xFFFF, second, body, stamp, destination)


def words_of(body: bytes) -> tuple[int, ...]:
    """The whole words of a body; one to three bytes behind them are left out."""
    return struct.unpack_from(f"!{len(body) // 4}I", body)


def words(*values: int) -> bytes:
    return struct.pack(f"!{len(values)}I", *values)


def sequence_word(number: int) -> int:
    """The 31 bits of a number."""
    return number % SEQUENCE_NUMBERS


def stamp_word(time: int) -> int:
    """The 32 bits of a time since a session's opening (section 3)."""
    return time % WORDS


def message_number(index: int) -> int:
    """The message number of a session's packet, counted from 0: from 1 to 2^26 - 1, and then from 1 again (section 3.1)."""
    return 1 + index % MESSAGE_NUMBERS


def write_data(number: int, encryption: int, message: int, again: bool, time: int, destination: int, payload: bytes) -> bytes:
    """A data packet with a whole message, in order; `encryption` is its KK, and `again` sets the flag R (section 3.1)."""
    flags = WHOLE_MESSAGE_IN_ORDER | encryption << ENCRYPTION_AT | (RETRANSMITTED if again else 0)
    return words(sequence_word(number), flags | message, stamp_word(time), destination) + payload


def write_control(kind: Kind, information: int, time: int, destination: int, body: bytes = b"", subtype: int = 0) -> bytes:
    """A control packet (section 3.2)."""
    return words(CONTROL_BIT | kind << 16 | subtype, information, stamp_word(time), destination) + body
