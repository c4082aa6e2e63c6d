"""Packets, handshakes and loss lists in the form of draft-sharabayko-srt-01, sections 3, 3.2.1 and appendix A."""
from __future__ import annotations

import hashlib
import struct
from collections import namedtuple

HANDSHAKE, KEEPALIVE, ACK, NAK, SHUTDOWN, ACKACK, DROPREQ = 0, 1, 2, 3, 5, 6, 7
INDUCTION, CONCLUSION = 1, 0xFFFFFFFF
USER_DEFINED = 0x7FFF
HSREQ, HSRSP, KMREQ, KMRSP, STREAM_ID, CONGESTION, FILTER, GROUP = 1, 2, 3, 4, 5, 6, 7, 8  # KMREQ and KMRSP are subtypes of USER_DEFINED too.
FLAGS = {"live": 0xBF, "buffer": 0xE4}
PERIODIC_NAK = 0x10
SRT_VERSION = 0x00010501
NUMBERS = 1 << 31
MESSAGES = (1 << 26) - 1
WORDS = 1 << 32
AGAIN = 0x04000000  # The flag R of a data packet's second word.
LOOPBACK = bytes([1, 0, 0, 127]) + bytes(12)

Data = namedtuple("Data", "number word stamp destination payload")
Control = namedtuple("Control", "kind info stamp destination body subtype")
Handshake = namedtuple("Handshake", "version encryption extension initial mtu window kind socket_id cookie blocks")


def data(number: int, message: int, stamp: int, destination: int, payload: bytes, again: bool = False, flags: int = 0xC0000000) -> bytes:
    """A data packet with a whole message (PP 11, unless `flags` say otherwise), unencrypted, with the flag R if it is retransmitted."""
    word = flags | (AGAIN if again else 0) | message
    return struct.pack("!4I", number, word, stamp, destination) + payload


def control(kind: int, info: int, stamp: int, destination: int, body: bytes = b"", subtype: int = 0) -> bytes:
    return struct.pack("!4I", 0x80000000 | kind << 16 | subtype, info, stamp, destination) + body


def read(datagram: bytes) -> Data | Control | None:
    """The packet of a datagram, or None if it is too short for one."""
    if len(datagram) < 16:
        return None
    first, second, stamp, destination = struct.unpack_from("!4I", datagram)
    if first < 0x80000000:
        return Data(first, second, stamp, destination, datagram[16:])
    return Control(first >> 16 & 0x7FFF, second, stamp, destination, datagram[16:], first & 0xFFFF)


def words(*numbers: int) -> bytes:
    """Words of 32 bits in network order."""
    return struct.pack(f"!{len(numbers)}I", *numbers)


def words_of(body: bytes) -> tuple[int, ...]:
    """The 32-bit words of a body. One to three bytes after the last whole word are ignored."""
    return struct.unpack_from(f"!{len(body) // 4}I", body)


def block(kind: int, contents: bytes) -> bytes:
    """An extension block. The length of its contents must be a multiple of four bytes."""
    return struct.pack("!2H", kind, len(contents) // 4) + contents


def text_words(text: bytes) -> bytes:
    """A text in the form of Stream IDs: padded with zeros, each group of four bytes reversed (section 3.2.1.3)."""
    padded = text + bytes(-len(text) % 4)
    return b"".join(padded[at:at + 4][::-1] for at in range(0, len(padded), 4))


def hsreq(flags: int, receiver_ms: int, sender_ms: int, version: int = SRT_VERSION) -> bytes:
    return block(HSREQ, struct.pack("!2I2H", version, flags, receiver_ms, sender_ms))


def handshake(
    version: int, extension: int, initial: int, mtu: int, window: int, kind: int, socket_id: int, cookie: int, blocks: bytes = b"", peer: bytes = LOOPBACK
) -> bytes:
    """The body of a handshake; `peer` is the address that it carries (section 3.2.1)."""
    fields = (version, 0, extension, initial, mtu, window, kind, socket_id, cookie)
    return struct.pack("!IHH6I", *fields) + peer + blocks


def induction(initial: int, mtu: int, window: int, socket_id: int, peer: bytes = LOOPBACK) -> bytes:
    """The body of a caller's induction (section 4.3.1.1)."""
    return handshake(4, 2, initial, mtu, window, INDUCTION, socket_id, 0, peer=peer)


def extensions(request: bytes = b"", stream: bytes | None = None, congestion: bytes | None = None) -> bytes:
    """The extension blocks of a conclusion: its HSREQ, which is a block itself, a Stream ID and a congestion text."""
    texts = ((STREAM_ID, stream), (CONGESTION, congestion))
    return request + b"".join(block(kind, text_words(text)) for kind, text in texts if text is not None)


def read_handshake(body: bytes) -> Handshake | None:
    """The handshake of a body, or None if it is too short. Its blocks are a dictionary from types to contents."""
    if len(body) < 48:
        return None
    fields = struct.unpack_from("!IHH6I", body)
    blocks, rest = {}, body[48:]
    while len(rest) >= 4:
        kind, length = struct.unpack_from("!2H", rest)
        blocks[kind] = rest[4:4 + 4 * length]
        rest = rest[4 + 4 * length:]
    return Handshake(*fields, blocks)


def loss_list(runs: list[tuple[int, int]]) -> bytes:
    """The loss list of runs of numbers, each a pair of its first and its last number (appendix A)."""
    body = b""
    for first, last in runs:
        body += struct.pack("!I", first) if first == last else struct.pack("!2I", 0x80000000 | first, last)
    return body


def runs_of(body: bytes) -> list[tuple[int, int]]:
    """The runs of a loss list, each a pair of its first and its last number."""
    runs: list[tuple[int, int]] = []
    first = None
    for word in words_of(body):
        if first is not None:
            runs.append((first, word))
            first = None
        elif word & 0x80000000:
            first = word & 0x7FFFFFFF
        else:
            runs.append((word, word))
    return runs


def near(word: int, expected: int, size: int = NUMBERS) -> int:
    """The number congruent to `word` modulo `size` that is nearest to `expected`."""
    return expected + (word - expected + size // 2) % size - size // 2


def cookie(secret: bytes, ip: bytes, port: int, minute: int) -> int:
    """The cookie for a caller: the first word of SHA-256 over the secret, its address and port, and the minute (section 4.3.1.1)."""
    hashed = hashlib.sha256(secret + ip + struct.pack("!HQ", port, minute)).digest()
    return int.from_bytes(hashed[:4], "big")
