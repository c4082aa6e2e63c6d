"""The keys that callers of random tapes bring: messages that are right, and such with one thing wrong."""
from __future__ import annotations

from random import Random

import packets
from rules import ciphers, key_material
from rules.key_material import HEAD, Which

OTHER_NAME = {Which.EVEN: Which.ODD, Which.ODD: Which.EVEN}
WRONG_PASSPHRASE = "a wrong passphrase"
# Bytes of a message, each with values that it may not have, or that nobody looks at.
CHANGES = (
    (0, (0x02, 0x92, 0x22)), (1, (0, 0x21)), (2, (0, 0x28)), (3, (0, 3, 0xFD)), (4, (1,)), (7, (1,)), (8, (0, 1, 3)), (9, (1, 0xFF)), (10, (0, 1)),
    (11, (9,)), (12, (9,)), (13, (9,)), (14, (0, 3, 5)), (15, (0, 4, 5, 6, 8, 0xFF)), (16, (0,)), (31, (0,)), (HEAD, (0,)),
)


class Material:
    """A caller's salt and keys. `current` is the name of the one under which it sends."""

    def __init__(self, random: Random, passphrase: str, length: int) -> None:
        self.random, self.length = random, length
        self.salt = random.randbytes(16)
        self.kek = ciphers.key_encrypting_key(passphrase, self.salt, length)
        self.current = Which.EVEN if random.random() < 0.9 else Which.ODD
        self.keys = {self.current: random.randbytes(length)}

    def named(self, which: Which) -> bytes:
        """A key, which is made if there is none of that name."""
        return self.keys.setdefault(which, self.random.randbytes(self.length))

    def message(self, which: Which) -> bytes:
        """A message with these keys."""
        names = (Which.EVEN, Which.ODD) if which is Which.BOTH else (which,)
        return key_material.write(which, self.salt, self.kek, b"".join(self.named(it) for it in names), self.length)

    def first(self) -> bytes:
        """The message of a conclusion: most often of the current key alone."""
        return self.message(self.current if self.random.random() < 0.9 else Which.BOTH)

    def renewed(self) -> bytes:
        """A new key of the other name is made; the message has both keys, or seldom the new one alone."""
        other = OTHER_NAME[self.current]
        self.keys[other] = self.random.randbytes(self.length)
        return self.message(Which.BOTH if self.random.random() < 0.8 else other)

    def turn(self) -> None:
        """From here on the other key is in use."""
        self.current = OTHER_NAME[self.current]
        self.named(self.current)

    def encrypted(self, number: int, payload: bytes) -> tuple[Which, bytes]:
        """A payload and its KK: under the current key, now and then in clear or under another KK."""
        which = self.current
        if self.random.random() < 0.05:
            which = self.random.choice((Which.NONE, Which.NONE, OTHER_NAME[which], Which.BOTH))
        if which in (Which.NONE, Which.BOTH):
            return which, payload
        return which, ciphers.ciphered(self.named(which), self.salt, number, payload)


def changed(random: Random, message: bytes) -> bytes:
    """A message with one byte changed, or of another length."""
    if random.random() < 0.2:
        return random.choice((b"", message[:12], message[:16], message[:-4], message + bytes(4), message + bytes(56)))
    at, values = random.choice(CHANGES)
    its = bytearray(message)
    its[at] = random.choice(values)
    return bytes(its)


def other(random: Random, material: Material) -> bytes:
    """A message that reads, with another passphrase, salt, or length of keys."""
    passphrase = random.choice((WRONG_PASSPHRASE, "another one that is wrong"))
    it = Material(random, passphrase, random.choice((material.length, *ciphers.KEY_LENGTHS)))
    if random.random() < 0.5 and it.length == material.length:
        it.salt = material.salt
    return it.message(random.choice((Which.EVEN, Which.ODD, Which.BOTH)))


def block(message: bytes) -> bytes:
    """The extension block of a KMREQ; zeros pad the message to whole words."""
    return packets.block(packets.KMREQ, message + bytes(-len(message) % 4))


def blocks(random: Random, material: Material | None) -> bytes:
    """The KMREQ of a conclusion: most often the right one; none, two, or one with something wrong. A caller without keys seldom brings one."""
    if material is None:
        return block(Material(random, WRONG_PASSPHRASE, 16).first()) if random.random() < 0.03 else b""
    message = material.first()
    chance = random.random()
    if chance < 0.8:
        return block(message)
    if chance < 0.84:
        return b""
    if chance < 0.87:
        return block(message) + block(message)
    return block(changed(random, message) if chance < 0.95 else other(random, material))
