"""Handshakes as they come and as they are answered (section 3.2.1)."""
from __future__ import annotations

import struct
from enum import IntEnum
from typing import NamedTuple

from . import key_material
from .configuration import Mode
from .key_material import Message
from .packets import CONTROL_BIT, words

LENGTH = 48
VERSION = 5
INDUCTION = 1
CONCLUSION = 0xFFFFFFFF
INDUCTION_EXTENSION = 0x4A17
LONGEST_MTU = 1500
USUAL_WINDOW = 8192
LISTENER = 1
PERIODIC_NAK_FLAG = 0x10
STREAM_FLAG = 0x40
SRT_VERSION = 0x00010500
ANSWERED_FLAGS = {Mode.LIVE: 0x3F, Mode.BUFFER: 0x74}
HSREQ_EXTENSION = 1
KMREQ_EXTENSION = 2
CONFIG_EXTENSION = 4


class Block(IntEnum):
    """The types of extension blocks that mean something here (section 3.2.1.1)."""

    HSREQ = 1
    HSRSP = 2
    KMREQ = 3
    KMRSP = 4
    STREAM_ID = 5
    CONGESTION = 6
    FILTER = 7
    GROUP = 8


class Refusal(IntEnum):
    """The reasons of a refusal (section 4.3, table 7)."""

    PEER = 1002
    RESOURCE = 1003
    ROGUE = 1004
    VERSION = 1008
    BADSECRET = 1010
    UNSECURE = 1011
    MESSAGEAPI = 1012
    FILTER = 1014
    GROUP = 1015


class Delays(NamedTuple):
    """What a handshake says of delivery delays, in milliseconds (section 3.2.1.1)."""

    receiver_ms: int
    sender_ms: int


class Handshake(NamedTuple):
    """A handshake that was read. Its encryption and extension fields and its peer address aren't looked at. Blocks are those of a
    CONCLUSION, in order; any other handshake has none."""

    version: int
    initial: int
    mtu: int
    window: int
    kind: int
    caller: int
    cookie: int
    blocks: tuple[tuple[int, bytes], ...]

    def block(self, kind: Block) -> bytes | None:
        """The contents of the first block of this type."""
        return next((contents for it, contents in self.blocks if it == kind), None)

    def key_material(self) -> Message | None:
        """The message of the only KMREQ; None if there is none or more than one, or it has a fault."""
        found = [contents for it, contents in self.blocks if it == Block.KMREQ]
        return key_material.read(found[0]) if len(found) == 1 else None

    def has_flag(self, flag: int) -> bool:
        """Whether HSREQ has a flag (section 3.2.1.1.1)."""
        request = self.block(Block.HSREQ)
        return request is not None and bool(struct.unpack("!I", request[4:8])[0] & flag)

    def asks_for_buffer_mode(self) -> bool:
        return self.has_flag(STREAM_FLAG)

    def sends_periodic_naks(self) -> bool:
        return self.has_flag(PERIODIC_NAK_FLAG)

    def delays(self) -> Delays:
        """The delays that HSREQ asks for."""
        request = self.block(Block.HSREQ)
        return Delays(*struct.unpack("!2H", request[8:12])) if request is not None else Delays(0, 0)


def has_right_length(kind: int, contents: bytes) -> bool:
    """HSREQ has three words, a Stream ID at most 128, a congestion text one to four."""
    count = len(contents) // 4
    if kind == Block.HSREQ:
        return count == 3
    if kind == Block.STREAM_ID:
        return count <= 128
    return kind != Block.CONGESTION or 1 <= count <= 4


def read_blocks(rest: bytes) -> list[tuple[int, bytes]] | None:
    """The blocks behind a CONCLUSION. None if one goes past the end, one to three bytes are left over, a block hasn't the right
    length, or a second HSREQ, Stream ID or congestion text comes."""
    blocks: list[tuple[int, bytes]] = []
    while rest:
        if len(rest) < 4:
            return None
        kind, count = struct.unpack_from("!2H", rest)
        contents, rest = rest[4:4 + 4 * count], rest[4 + 4 * count:]
        repeated = kind in (Block.HSREQ, Block.STREAM_ID, Block.CONGESTION) and any(it == kind for it, _ in blocks)
        if len(contents) < 4 * count or not has_right_length(kind, contents) or repeated:
            return None
        blocks.append((kind, contents))
    return blocks


def read(body: bytes) -> Handshake | None:
    """The handshake of a body; None if it has fewer than 48 bytes or its blocks have a fault."""
    if len(body) < LENGTH:
        return None
    version, _, initial, mtu, window, kind, caller, cookie = struct.unpack_from("!8I", body)
    blocks = read_blocks(body[LENGTH:]) if kind == CONCLUSION else []
    if blocks is None:
        return None
    return Handshake(version, initial, mtu, window, kind, caller, cookie, tuple(blocks))


def text_of(contents: bytes) -> bytes:
    """The text of a Stream ID: each group of four bytes stands reversed on the wire, and zeros at the end are padding (section
    3.2.1.3)."""
    return b"".join(contents[at:at + 4][::-1] for at in range(0, len(contents), 4)).rstrip(b"\0")


def answer(asked: Handshake, extension: int, mtu: int, window: int, kind: int, identity: int, cookie: int, blocks: bytes = b"") -> bytes:
    """The datagram of an answer: type 0, timestamp 0, to the caller's socket ID, with the caller's initial number as it came, and zeros for
    the peer's address (section 3.2.1). The word `extension` has the field encryption in its upper half."""
    header = words(CONTROL_BIT, 0, 0, asked.caller)
    return header + words(VERSION, extension, asked.initial, mtu, window, kind, identity, cookie) + bytes(16) + blocks


def induction_answer(asked: Handshake, cookie: int) -> bytes:
    """The answer to an INDUCTION, with the cookie that the CONCLUSION has to bring (section 4.3.1.1)."""
    return answer(asked, INDUCTION_EXTENSION, LONGEST_MTU, USUAL_WINDOW, INDUCTION, LISTENER, cookie)


def refusal(asked: Handshake, reason: Refusal) -> bytes:
    """The answer to a CONCLUSION that is refused: its type is the reason (section 4.3)."""
    return answer(asked, 0, LONGEST_MTU, USUAL_WINDOW, reason, LISTENER, 0)


def conclusion_answer(asked: Handshake, mode: Mode, delays: Delays, window: int, identity: int, key_length: int | None) -> bytes:
    """The answer to a CONCLUSION that opens a session: HSRSP with the agreed delays, and the congestion text as it came (section
    4.3.1.2). With keys of some length KMRSP stands between them, with the words of KMREQ (section 3.2.1.2)."""
    blocks = struct.pack("!2H2I2H", Block.HSRSP, 3, SRT_VERSION, ANSWERED_FLAGS[mode], *delays)
    extension = HSREQ_EXTENSION
    if key_length is not None:
        contents = asked.block(Block.KMREQ) or b""
        blocks += struct.pack("!2H", Block.KMRSP, len(contents) // 4) + contents
        extension |= KMREQ_EXTENSION | key_length // 8 << 16
    text = asked.block(Block.CONGESTION)
    if text is not None:
        blocks += struct.pack("!2H", Block.CONGESTION, len(text) // 4) + text
        extension |= CONFIG_EXTENSION
    return answer(asked, extension, min(LONGEST_MTU, asked.mtu), window, CONCLUSION, identity, 0, blocks)
