"""Vectors of ciphers, key material and sessions' keys: of the standards, of a caller with libsrt 1.5.1 that was recorded, and by Python's
hashlib and OpenSSL. The rules have to give the same."""
from __future__ import annotations

from typing import Iterator

from callers import IPV4
from rules import ciphers, key_material
from rules.cookies import Peer
from rules.key_material import Fault, Keys, Message, Which
from rules.session_keys import NO_SECRET, PAYLOADS_OF_KEY, PublisherKeys, Secret, SeedSource, SubscriberKeys

PASSPHRASE = "correct horse battery"
REQUEST_PASSPHRASE = "hold the line please"
TEXT = "00112233445566778899aabbccddeeff"
KEY = bytes(range(32)).hex()

# FIPS 197, C.1 to C.3: the block above under the first bytes of the key above.
BLOCKS = {16: "69c4e0d86a7b0430d8cdb78070b4c55a", 24: "dda97ca4864cdfe06eaf70a0ec0d7191", 32: "8ea2b7ca516745bfeafc49904b496089"}
# RFC 3394, 4.1 to 4.6: such a key, what is wrapped, and the wrap.
WRAPS = (
    (16, TEXT, "1fa68b0a8112b447aef34bd8fb5a7b829d3e862371d2cfe5"),
    (24, TEXT, "96778b25ae6ca435f92b5b97c050aed2468ab8a17ad84e5d"),
    (32, TEXT, "64e8c3f9ce0f5ba263e9777905818a2a93c8191e7d6e8ae7"),
    (24, TEXT + "0001020304050607", "031d33264e15d33268f24ec260743edce1c6c7ddee725a936ba814915c6762d2"),
    (32, TEXT + "0001020304050607", "a8f9bc1612c68b3ff6e6f4fbe30e71e4769c8b80a32cb8958cd5d17d6b254da1"),
    (32, TEXT + "000102030405060708090a0b0c0d0e0f", "28c9f404c4b810f4cbccb35cfb87f8263f5786e2d80ed326cbc7f0e71a99f43bfb988b9b7a02dd21"),
)
# Messages of libsrt's callers with this passphrase, and the beginning of a payload: its KK, its sequence number and which one it is.
RECORDED = (
    ("12202901000000000200020000000404b22d00091713ffa82786bbbbaeaa4d1e646a6b7596644c749d6338cbdc9ed23067850160788c150a",
     1, 0x7BE7714F, 0, "40cf66b35a456e91a2d3cfa222bb63e4ea21d37ecb147cf73dc14bf17fe59ebcbad3c6500fd942bb"),
    ("122029010000000002000200000004066dec1fc673e87d7897403b26976341f31cebb6f0722d4fd28e9c782f215aac8ab973bc02713bc901f5f35f7e2d340463",
     1, 0x3E48674C, 0, "3b1c981b8cf9df273106701e3573306583c98a6d653c3687e47a5497d3f86c2bc42f1151ef01505c"),
    ("1220290100000000020002000000040826a2c836af572b1310f94f2c95b7ad8bd335e632fb1cdb8d8e481e0c60aa801f22267d3dbcfbe6251eaadbb526605a0c"
     "21301424902becd1",
     1, 0x0BB4B475, 0, "c4ddaba1e461e5d89e94d9b4194e6ed15ce1067ef8eef0133ce264b188b8bf4eaca579b66c784af3"),
    ("12202903000000000200020000000404e00a1edda4eb360e727d691516da5ff8e810763a8be248e02841dce26fe88df15c0e0ebf4f8adff75003d2e67592e0ab"
     "740b340a2cbf5ceb",
     2, 0x117AA41A, 0xCA, "b2fa3b2ecd63751f59f67ee7a57bb511d5c36b9f9e8ed18594be3a037ff002600fe5db8f30503275"),
)
# The message of a publisher with this passphrase, and of one that brings both keys.
PUBLISHER = "1220290100000000020002000000040400112233445566778899aabbccddeeff097ad2a296802dd03b3cad778b2ef5ec61782692f95549e2"
BOTH = (
    "1220290300000000020002000000040400112233445566778899aabbccddeeff6fb33170e306ec34db4169bf930e9d2a98363146c9251e1c99a1280cf62712c3"
    "d456b5bddf92cde2"
)
EVEN, ODD = "000102030405060708090a0b0c0d0e0f", "404142434445464748494a4b4c4d4e4f"
# Changes of the publisher's message: a byte, its value, and the fault.
FAULTS = (
    (0, 0x92, Fault.SIGN), (1, 0x21, Fault.SIGN), (2, 0x28, Fault.SIGN), (3, 0x00, Fault.KEYS), (3, 0x03, Fault.LENGTH), (3, 0xFD, None), (7, 1, Fault.KEKI),
    (8, 0, Fault.CIPHER), (9, 1, Fault.AUTHENTICATION), (10, 0, Fault.ENCAPSULATION), (11, 9, None), (12, 9, None), (13, 9, None), (14, 0, Fault.SALT_LENGTH),
    (15, 0, Fault.KEY_LENGTH), (15, 5, Fault.KEY_LENGTH), (15, 6, Fault.LENGTH),
)
# A subscriber's message, the keys that are made for it, and what announces them.
SUBSCRIBER = "12202901000000000200020000000406ffeeddccbbaa9988776655443322110055d5c0a04098090aa97287b4eba8443d46d8ba88121ed8187cffdf8e770d9860"
OWN = (
    ("70148dbde4b9069409b001d28b068ead33a6aa8902f2d1ee",
     "12202902000000000200020000000406ffeeddccbbaa99887766554433221100dc889372e3baf5b1c57af328352736cf9be89aa4fe2442e42f2997e9fb2a84c5"),
    ("6e339edca1b71b3d4e93cdf45a92b0048b67c6586034e085",
     "12202901000000000200020000000406ffeeddccbbaa998877665544332211007e6d4dadf0c9a281b871ed36bf9040d0a9ae7ff5f501aba3a447dacd74904164"),
)


def of_hex(text: str) -> bytes:
    return bytes.fromhex(text)


def message_of(text: str) -> Message:
    message = key_material.read(of_hex(text))
    assert message is not None
    return message


def secret_of(text: str, passphrase: str) -> Secret:
    message = message_of(text)
    return Secret(message, ciphers.key_encrypting_key(passphrase, message.salt, message.key_length))


def brought(text: str, passphrase: str = PASSPHRASE) -> Keys | None:
    secret = secret_of(text, passphrase)
    return key_material.brought(secret.kek, secret.message)


def payload_of(which: int, length: int) -> bytes:
    """The beginning of a recorded caller's payload."""
    return b"CALLER--" + which.to_bytes(8, "little") + bytes((7 * at + 31 * which) % 256 for at in range(16, length))


def of_standards() -> Iterator[tuple[str, bool]]:
    for length, cipher in BLOCKS.items():
        key = of_hex(KEY)[:length]
        yield f"a block under {length} bytes", ciphers.encrypted_block(key, of_hex(TEXT)).hex() == cipher
        yield f"a block back under {length} bytes", ciphers.decrypted_block(key, of_hex(cipher)).hex() == TEXT
    for at, (length, text, wrap) in enumerate(WRAPS, 1):
        kek = of_hex(KEY)[:length]
        yield f"wrap {at}", ciphers.wrapped(kek, of_hex(text)).hex() == wrap
        yield f"wrap {at} back", ciphers.unwrapped(kek, of_hex(wrap)) == of_hex(text)
        yield f"wrap {at} under another key", ciphers.unwrapped(kek[::-1], of_hex(wrap)) is None


def of_recordings() -> Iterator[tuple[str, bool]]:
    for text, which, number, at, cipher in RECORDED:
        message, keys = message_of(text), brought(text)
        key = keys.named(which) if keys else None
        plain = ciphers.ciphered(key, message.salt, number, of_hex(cipher)) if key else b""
        yield f"a recorded payload under {message.key_length} bytes, KK {which}", plain == payload_of(at, len(cipher) // 2)


def of_messages() -> Iterator[tuple[str, bool]]:
    yield "a publisher's key", brought(PUBLISHER) == Keys(of_hex(EVEN), None)
    yield "its passphrase", secret_of(PUBLISHER, PASSPHRASE).kek.hex() == "551b5405cec6898daa3a42a4ddd2ee5a"
    yield "another passphrase", brought(PUBLISHER, REQUEST_PASSPHRASE) is None
    yield "both keys", brought(BOTH) == Keys(of_hex(EVEN), of_hex(ODD))
    yield "the odd key", brought(PUBLISHER[:6] + "02" + PUBLISHER[8:]) == Keys(None, of_hex(EVEN))
    for at, byte, fault in FAULTS:
        changed = bytearray(of_hex(PUBLISHER))
        changed[at] = byte
        yield f"byte {at} changed to {byte}", key_material.fault_of(bytes(changed)) is fault
    whole = of_hex(PUBLISHER)
    for length, fault in ((0, Fault.SHORT), (15, Fault.SHORT), (16, Fault.LENGTH), (55, Fault.LENGTH), (56, None)):
        yield f"{length} bytes", key_material.fault_of(whole[:length]) is fault
    yield "a byte more", key_material.fault_of(whole + b"\0") is Fault.LENGTH


def of_publishers() -> Iterator[tuple[str, bool]]:
    """One brings an even key, and later another odd one."""
    secret = secret_of(PUBLISHER, PASSPHRASE)
    it = PublisherKeys(secret, Keys(of_hex(EVEN), None))
    yield "a message with another salt", it.renew(of_hex(SUBSCRIBER)) == NO_SECRET
    changed = of_hex(PUBLISHER[:6] + "02" + PUBLISHER[8:])
    yield "the other key stays", it.renew(changed) == changed and it.keys == Keys(of_hex(EVEN), of_hex(EVEN))
    yield "both are replaced", it.renew(of_hex(BOTH)) == of_hex(BOTH) and it.keys == Keys(of_hex(EVEN), of_hex(ODD))


def of_subscribers() -> Iterator[tuple[str, bool]]:
    """A subscriber at 127.0.0.1:5001 with the session ID 00100001 and the cookie 6e4680bd."""
    secret = secret_of(SUBSCRIBER, REQUEST_PASSPHRASE)
    yield "its passphrase", secret.kek.hex() == "c2aafb283c3b6e64e6d8b75140c80a57af71cdb37506fe89"
    seed = SeedSource().next(Peer(IPV4 + bytes((127, 0, 0, 1)), 5001), 0x6E4680BD, 0x00100001)
    yield "its pool", seed.pool.hex() == "bae85233c707321f4d17f31164b15635664f0de13be640fab7ec4ad392132668"
    it = SubscriberKeys(secret, seed)
    for at, (key, message) in enumerate(OWN):
        yield f"its key {at}", it.key(at).hex() == key
        yield f"the message of its key {at}", it.message(at).hex() == message
    it.announce(0, 0)
    yield "no payload is sent", it.holds(0)
    it.confirm(it.message(1))
    yield "the message of the next key confirms nothing", it.holds(0)
    it.confirm(it.message(0))
    yield "its key is confirmed", not it.holds(0) and not it.holds(PAYLOADS_OF_KEY - 1) and it.holds(PAYLOADS_OF_KEY)
    yield "the next key isn't announced", it.announce(16_711_679, 0) is None
    yield "the next key is announced", it.announce(16_711_680, 0) == of_hex(OWN[1][1])
    it.confirm(it.message(0))
    yield "the message of the key before confirms nothing", it.holds(PAYLOADS_OF_KEY)
    it.confirm(it.message(1))
    yield "the next key is confirmed", not it.holds(PAYLOADS_OF_KEY)
    yield "a payload under the next key", it.closed(PAYLOADS_OF_KEY, 0x01000009, b"hi") == (Which.EVEN, of_hex("6211"))


def checked() -> list[tuple[str, bool]]:
    """Each vector, and whether the rules give it."""
    return [it for each in (of_standards, of_recordings, of_messages, of_publishers, of_subscribers) for it in each()]
