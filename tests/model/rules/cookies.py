"""The cookies that show that a caller receives what is sent to its address (section 4.3.1.1)."""
from __future__ import annotations

import hashlib
import struct
from typing import NamedTuple

MINUTE = 60_000_000


class Peer(NamedTuple):
    """A caller's address, of 16 bytes, and port."""

    ip: bytes
    port: int


def cookie(secret: bytes, peer: Peer, minute: int) -> int:
    """The first word of SHA-256 over the secret, the address, the port and the minute; 1 where that is 0."""
    hashed = hashlib.sha256(secret + peer.ip + struct.pack("!HQ", peer.port, minute)).digest()
    return int.from_bytes(hashed[:4], "big") or 1


def is_right(secret: bytes, peer: Peer, moment: int, given: int) -> bool:
    """Whether the cookie is that of the moment's minute, or of the minute before it."""
    minute = moment // MINUTE
    return given in {cookie(secret, peer, it) for it in (minute, minute - 1) if it >= 0}
