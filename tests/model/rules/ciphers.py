"""The cipher of encrypted sessions, and the keys that come of passphrases (section 6): AES by FIPS 197, counter mode, the wrap of keys by
RFC 3394, PBKDF2 and HMAC."""
from __future__ import annotations

import hashlib
import hmac
import struct
from functools import lru_cache
from operator import itemgetter

BLOCK = 16
KEY_LENGTHS = (16, 24, 32)
WRAP_START = bytes([0xA6] * 8)
WRAP_TURNS = 6
HALF = 8
KEK_ROUNDS = 2048
SALT_IN_COUNTER = 14


def double(byte: int) -> int:
    """Twice an element of the field of FIPS 197, section 4.2."""
    return byte << 1 ^ (0x11B if byte & 0x80 else 0)


def powers_of_three() -> list[int]:
    """All elements of the field but 0, as powers of 3."""
    powers = [1]
    while len(powers) < 255:
        powers.append(powers[-1] ^ double(powers[-1]))
    return powers


def substitutes() -> bytes:
    """The S-box: the inverse in the field, and then an affine map (FIPS 197, section 5.1.1)."""
    powers, table = powers_of_three(), bytearray(256)
    inverses = {power: powers[-at % 255] for at, power in enumerate(powers)}
    for byte in range(256):
        inverse = inverses.get(byte, 0)
        turned = [inverse << by | inverse >> 8 - by for by in range(5)]
        table[byte] = (turned[0] ^ turned[1] ^ turned[2] ^ turned[3] ^ turned[4] ^ 0x63) & 0xFF
    return bytes(table)


SUBSTITUTES = substitutes()
ORIGINALS = bytes(SUBSTITUTES.index(byte) for byte in range(256))
DOUBLES = bytes(double(byte) for byte in range(256))
# Byte row + 4 x column of a state; row r is shifted by r columns.
SHIFTED = itemgetter(*(row + 4 * ((column + row) % 4) for column in range(4) for row in range(4)))
SHIFTED_BACK = itemgetter(*(row + 4 * ((column - row) % 4) for column in range(4) for row in range(4)))
ROTATED = [itemgetter(*((row + by) % 4 + 4 * column for column in range(4) for row in range(4))) for by in range(4)]


def xor(*texts: bytes) -> bytes:
    """The exclusive or of texts of one length."""
    value = 0
    for text in texts:
        value ^= int.from_bytes(text, "big")
    return value.to_bytes(len(texts[0]), "big")


def mixed(state: bytes) -> bytes:
    """Each column times 2, 3, 1, 1 (FIPS 197, section 5.1.3)."""
    doubled = state.translate(DOUBLES)
    return xor(doubled, bytes(ROTATED[1](doubled)), *(bytes(ROTATED[by](state)) for by in (1, 2, 3)))


def unmixed(state: bytes) -> bytes:
    """Mixing four times changes nothing, so mixing three times more undoes it once."""
    return mixed(mixed(mixed(state)))


@lru_cache(4096)
def round_keys(key: bytes) -> list[bytes]:
    """The keys of the rounds (FIPS 197, section 5.2)."""
    length, constant = len(key) // 4, 1
    words = [key[at:at + 4] for at in range(0, len(key), 4)]
    while len(words) < 4 * (length + 7):
        word = words[-1]
        if len(words) % length == 0:
            word = xor((word[1:] + word[:1]).translate(SUBSTITUTES), bytes([constant, 0, 0, 0]))
            constant = double(constant)
        elif length > 6 and len(words) % length == 4:
            word = word.translate(SUBSTITUTES)
        words.append(xor(words[-length], word))
    return [b"".join(words[at:at + 4]) for at in range(0, len(words), 4)]


def encrypted_block(key: bytes, block: bytes) -> bytes:
    """A block under a key of 16, 24 or 32 bytes."""
    first, *middle, last = round_keys(key)
    state = xor(block, first)
    for it in middle:
        state = xor(mixed(bytes(SHIFTED(state.translate(SUBSTITUTES)))), it)
    return xor(bytes(SHIFTED(state.translate(SUBSTITUTES))), last)


def decrypted_block(key: bytes, block: bytes) -> bytes:
    first, *middle, last = round_keys(key)
    state = bytes(SHIFTED_BACK(xor(block, last))).translate(ORIGINALS)
    for it in reversed(middle):
        state = bytes(SHIFTED_BACK(unmixed(xor(state, it)))).translate(ORIGINALS)
    return xor(state, first)


def halves(text: bytes) -> list[bytes]:
    """A text in pieces of 64 bits."""
    return [text[at:at + HALF] for at in range(0, len(text), HALF)]


@lru_cache(4096)
def wrapped(key: bytes, text: bytes) -> bytes:
    """A text of whole halves, at least two, wrapped under a key (RFC 3394, section 2.2.1)."""
    first, rest = WRAP_START, halves(text)
    for turn in range(WRAP_TURNS):
        for at in range(len(rest)):
            block = encrypted_block(key, first + rest[at])
            first, rest[at] = xor(block[:HALF], struct.pack("!Q", len(rest) * turn + at + 1)), block[HALF:]
    return first + b"".join(rest)


@lru_cache(4096)
def unwrapped(key: bytes, text: bytes) -> bytes | None:
    """The text that was wrapped; None if it wasn't wrapped under this key (RFC 3394, section 2.2.2)."""
    first, *rest = halves(text)
    for turn in reversed(range(WRAP_TURNS)):
        for at in reversed(range(len(rest))):
            block = decrypted_block(key, xor(first, struct.pack("!Q", len(rest) * turn + at + 1)) + rest[at])
            first, rest[at] = block[:HALF], block[HALF:]
    return b"".join(rest) if first == WRAP_START else None


@lru_cache(4096)
def key_encrypting_key(passphrase: str, salt: bytes, length: int) -> bytes:
    """The key that a passphrase gives with the last 64 bits of a salt (section 6.1.4)."""
    return hashlib.pbkdf2_hmac("sha1", passphrase.encode(), salt[-HALF:], KEK_ROUNDS, length)


def digest_under(key: bytes, text: bytes) -> bytes:
    """HMAC-SHA256 (RFC 2104)."""
    return hmac.digest(key, text, "sha256")


def counter_block(salt: bytes, number: int, at: int) -> bytes:
    """The block from which the key stream's block `at` is made: the first 14 bytes of the salt, the last four of them xor the packet's
    sequence number, and the block's number (section 6.2.2)."""
    return xor(salt[:SALT_IN_COUNTER], struct.pack("!10xI", number)) + struct.pack("!H", at)


@lru_cache(4096)
def ciphered(key: bytes, salt: bytes, number: int, payload: bytes) -> bytes:
    """A payload, encrypted or decrypted in counter mode (sections 6.2.2 and 6.3.2): twice is as before."""
    count = -(-len(payload) // BLOCK)
    stream = b"".join(encrypted_block(key, counter_block(salt, number, at)) for at in range(count))
    return xor(payload, stream[:len(payload)])
