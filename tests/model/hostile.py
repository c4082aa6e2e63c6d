"""Datagrams that no right caller sends, and conclusions with one thing wrong."""
from __future__ import annotations

import struct
from random import Random
from typing import Callable, NamedTuple

import material
import packets
from callers import Target
from plots import SECRET


class Aim(NamedTuple):
    """Where a hostile datagram is sent: a session's ID, and numbers and a timestamp near its own."""

    session: int
    number: int
    stamp: int


# Spans of ranges, at the border of what is read.
SPANS = (0, 20, (1 << 30) - 1, 1 << 30)


def near_number(random: Random, aim: Aim) -> int:
    """A number beside the aim's, at the borders of windows, or anywhere."""
    far = (0, 1, 31, 32, 33, 1024, 8192, (1 << 30) - 1, 1 << 30, (1 << 31) - 1, random.randrange(1 << 31))
    return (aim.number + random.choice((-1, 1)) * random.choice(far)) % packets.NUMBERS


def data(random: Random, aim: Aim) -> bytes:
    """Data, also encrypted, with other flags, and with any timestamp."""
    stamp = random.choice((aim.stamp, aim.stamp, random.randrange(packets.WORDS)))
    flags = random.choice((0xE0000000, 0xC8000000, 0x18000000, 0x10000000, 0x20000000))
    payload = random.randbytes(random.randint(1, 20))
    return packets.data(near_number(random, aim), random.randrange(1 << 26), stamp, aim.session, payload, flags=flags)


def far_data(random: Random, aim: Aim) -> bytes:
    """The next data packet, with a timestamp half its circle away."""
    half = packets.WORDS // 2
    stamp = (aim.stamp + random.choice((half, half, half, half + 1, half + 1, half - 1))) % packets.WORDS
    return packets.data(aim.number % packets.NUMBERS, 1, stamp, aim.session, b"far")


def acknowledgement(random: Random, aim: Aim) -> bytes:
    words = [near_number(random, aim), *(random.choice((0, 5, 0xFFFFFFFF)) for _ in range(random.randint(0, 6)))]
    words[0] |= random.choice((0, 0, 0x80000000))
    return packets.control(packets.ACK, random.choice((0, 1, 0xFFFFFFFF)), aim.stamp, aim.session, packets.words(*words))


def loss_report(random: Random, aim: Aim) -> bytes:
    """A NAK with any words, so that some don't read, or with a range at the border of what is read."""
    words = [near_number(random, aim) | random.choice((0, 0x80000000)) for _ in range(random.randint(1, 6))]
    if random.random() < 0.4:
        words = [0x80000000 | aim.number % packets.NUMBERS, (aim.number + random.choice(SPANS)) % packets.NUMBERS]
    return packets.control(packets.NAK, 0, aim.stamp, aim.session, packets.words(*words) + random.choice((b"", b"", b"abc")))


def drop_request(random: Random, aim: Aim) -> bytes:
    first, last = near_number(random, aim), near_number(random, aim)
    last = random.choice((last, (first + random.choice(SPANS)) % packets.NUMBERS))
    body = packets.words(first | random.choice((0, 0, 0, 0x80000000)), last)
    return packets.control(packets.DROPREQ, random.randrange(1 << 26), aim.stamp, aim.session, body + random.choice((b"", b"more")))


def confirmation(random: Random, aim: Aim) -> bytes:
    return packets.control(packets.ACKACK, random.choice((0, 1, 2, 3, 0xFFFFFFFF)), aim.stamp, aim.session)


def other_control(random: Random, aim: Aim) -> bytes:
    """Control packets of any type, known or not, with any subtype and body."""
    kind = random.choice((0, 1, 2, 3, 4, 5, 6, 7, 8, 9, 0x7FFE, 0x7FFF))
    first = 0x80000000 | kind << 16 | random.choice((0, 1, 0xFFFF))
    body = random.randbytes(random.choice((0, 1, 3, 4, 7, 8, 12, 48, 60)))
    return packets.words(first, random.randrange(packets.WORDS), aim.stamp, aim.session) + body


def cut(random: Random, aim: Aim) -> bytes:
    """Any bytes, also too few or too many."""
    whole = data(random, aim) + bytes(1460)
    return whole[:random.choice((0, 1, 15, 16, 17, 1472, 1473))]


KINDS: tuple[Callable[[Random, Aim], bytes], ...] = (
    data, data, far_data, acknowledgement, loss_report, drop_request, confirmation, other_control, cut
)


def datagram(random: Random, aim: Aim) -> bytes:
    return random.choice(KINDS)(random, aim)


class Odd(NamedTuple):
    """A conclusion's fields, of which one is changed."""

    version: int
    initial: int
    mtu: int
    window: int
    kind: int
    cookie: int
    blocks: list[bytes]


def hsreq(flags: int) -> bytes:
    return packets.hsreq(flags, 120, 120)


def stream_block(text: bytes) -> bytes:
    return packets.block(packets.STREAM_ID, packets.text_words(text))


MORE_BLOCKS = (0, 2, 3, 3, 4, 7, 7, 8, 8, 9)
FAULTY_BLOCKS = (b"abc", packets.block(1, bytes(8)), packets.block(6, b""), packets.block(6, bytes(20)))
ODD_STREAM_IDS = (
    b"", b"#!::", b"#!::r=", b"nobody", b"#!::r=studio,r=files", b"#!::m=publish,m=publish,r=studio", b"#!::m=play,r=studio",
    b"\xff\xfe", b"#!:{r=studio}", b"studio\0x", b"#!::r,m=request", b"#!::R=studio", b"#!::r=studio,m=", b"studio ",
)


def key_blocks(random: Random, target: Target, role: bytes) -> list[bytes]:
    """The KMREQ of a conclusion that asks for a role with a passphrase."""
    its = target.material(random, "publish" if role == b",m=publish" else "request")
    return [] if its is None else [material.blocks(random, its)]


def odd_conclusion(random: Random, peer: tuple[bytes, int], moment: int, target: Target) -> bytes:
    """A conclusion that is right but for one or two things."""
    flags = packets.FLAGS[target.mode]
    role = random.choice((b",m=publish", b",m=request", b""))
    blocks = [hsreq(flags), stream_block(b"#!::r=" + target.name.encode() + role), *key_blocks(random, target, role)]
    it = Odd(5, random.randrange(1 << 31), 1500, 8192, packets.CONCLUSION, packets.cookie(SECRET, *peer, moment // 60_000_000), blocks)
    changes: tuple[Callable[[], Odd], ...] = (
        lambda: it._replace(version=random.choice((0, 4, 6))),
        lambda: it._replace(initial=it.initial | 0x80000000),
        lambda: it._replace(mtu=random.choice((0, 75, 76, 1499, 1500))),
        lambda: it._replace(window=0),
        lambda: it._replace(kind=random.choice((0, 0xFFFFFFFE, 0xFFFFFFFD, 1002))),
        lambda: it._replace(cookie=random.choice((0, 1, it.cookie ^ 1, packets.cookie(SECRET, *peer, max(0, moment // 60_000_000 - 1))))),
        lambda: it._replace(cookie=packets.cookie(SECRET, *peer, max(0, moment // 60_000_000 - 2))),
        lambda: it._replace(blocks=it.blocks[1:]),
        lambda: it._replace(blocks=it.blocks[:1]),
        lambda: it._replace(blocks=[hsreq(flags ^ 0x40), *it.blocks[1:]]),
        lambda: it._replace(blocks=[it.blocks[0], stream_block(random.choice(ODD_STREAM_IDS))]),
        lambda: it._replace(blocks=it.blocks + [packets.block(random.choice(MORE_BLOCKS), bytes(4 * random.randint(0, 3)))]),
        lambda: it._replace(blocks=it.blocks + [random.choice(it.blocks)]),
        lambda: it._replace(blocks=it.blocks + [random.choice(FAULTY_BLOCKS)]),
        lambda: it._replace(blocks=it.blocks + [struct.pack("!2H", 5, 129) + bytes(516)]),
        lambda: it._replace(blocks=it.blocks + [struct.pack("!2H", 6, 9) + bytes(8)]),
    )
    for change in random.sample(changes, random.choice((1, 1, 1, 2))):
        it = change()
    blocks = b"".join(it.blocks)
    body = packets.handshake(it.version, 5, it.initial, it.mtu, it.window, it.kind, random.randrange(packets.WORDS), it.cookie, blocks)
    return packets.control(packets.HANDSHAKE, 0, random.randrange(packets.WORDS), random.choice((0, 0, 0, 0, 1)), body)
