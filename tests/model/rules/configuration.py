"""Configurations: their keys, and the first fault of a wrong one. Python's tomllib reads the TOML."""
from __future__ import annotations

import re
import tomllib
from dataclasses import dataclass
from enum import Enum
from typing import Any, Callable, NamedTuple

from .cookies import Peer

Table = dict[str, Any]

MOST_ROUTES = 511
MOST_ROUNDS = 1_000_000_000
IPV4_PREFIX = bytes(10) + b"\xff\xff"
OCTET = r"(0|[1-9][0-9]{0,2})"
OCTETS = rf"{OCTET}\.{OCTET}\.{OCTET}\.{OCTET}"


class Mode(Enum):
    """How a route delivers: by time (section 4.2.1), or an unbroken stream (section 4.2.2)."""

    LIVE = "live"
    BUFFER = "buffer"


class Callers(Enum):
    """Whether sessions follow the draft alone, or do some things as callers with libsrt expect them."""

    DRAFT = "draft"
    LIBSRT = "libsrt"


class Fault(Enum):
    """What can be wrong with a configuration, by the numbers that are printed."""

    TOML = 1
    UNKNOWN_KEY = 2
    MISSING = 3
    WRONG_KIND = 4
    OUT_OF_RANGE = 5
    BAD_NAME = 6
    REPEATED_NAME = 7
    BAD_SECRET = 8
    BAD_ADDRESS = 9


class ConfigFault(Exception):
    """The first fault of a configuration, and its key."""

    def __init__(self, fault: Fault, key: str) -> None:
        super().__init__(f"config fault {fault.value} {key}")


class Network(NamedTuple):
    """The addresses of a family whose first bits are these: of 32 of IPv4, of 128 of IPv6."""

    width: int
    address: int
    bits: int

    def has(self, peer: Peer) -> bool:
        if is_ipv4(peer) != (self.width == 32):
            return False
        return (int.from_bytes(peer.ip[-self.width // 8:], "big") ^ self.address) >> (self.width - self.bits) == 0


@dataclass(frozen=True)
class Entry:
    """A route as it is configured. Keys that weren't given and have no usual value are None."""

    name: str
    mode: Mode
    latency_ms: int
    buffer: int
    sessions: int
    inbox: int
    outbox: int
    callers: Callers = Callers.DRAFT
    publish_from: tuple[Network, ...] | None = None
    request_from: tuple[Network, ...] | None = None
    publish_key: str | None = None
    request_key: str | None = None
    reserved: int = 0
    sessions_per_address: int | None = None
    takeover_ms: int | None = None
    resend_percent: int | None = None
    publish_passphrase: str | None = None
    request_passphrase: str | None = None
    pbkeylen: int | None = None
    expect: bool = False

    @property
    def is_live(self) -> bool:
        return self.mode is Mode.LIVE

    @property
    def is_libsrt(self) -> bool:
        return self.callers is Callers.LIBSRT


class Config(NamedTuple):
    """What a replay needs of a configuration."""

    secret: bytes
    entries: tuple[Entry, ...]


class Limits(NamedTuple):
    """The least and the greatest value of a number."""

    least: int
    most: int

    def allow(self, value: int) -> bool:
        return self.least <= value <= self.most


NUMBERS = {
    "latency_ms": Limits(20, 8000),
    "buffer": Limits(32, 8192),
    "sessions": Limits(1, 17),
    "inbox": Limits(16, 4096),
    "outbox": Limits(16, 4096),
}
TOP_KEYS = frozenset({"secret", "bind", "workers", "status", "route"})
ADDED_KEYS = (
    "callers", "publish_from", "request_from", "publish_key", "request_key", "reserved", "sessions_per_address", "takeover_ms",
    "resend_percent", "publish_passphrase", "request_passphrase", "pbkeylen", "expect",
)
PASSPHRASES = frozenset({"publish_passphrase", "request_passphrase"})
KEY_LENGTHS = (16, 24, 32)
ROUTE_KEYS = frozenset({"name", "mode", *NUMBERS, "open_round", "close_round", *ADDED_KEYS})


def is_name(text: str) -> bool:
    """Whether a text has the form of a route's name."""
    return re.fullmatch(r"[A-Za-z0-9._/-]{1,64}", text) is not None


def first_fault_of_entry(entry: Entry) -> Fault | None:
    """What keeps a route from being opened: its name's form, or a number outside its limits."""
    if not is_name(entry.name):
        return Fault.BAD_NAME
    return None if all(limits.allow(getattr(entry, key)) for key, limits in NUMBERS.items()) else Fault.OUT_OF_RANGE


def address_of(octets: list[str]) -> int | None:
    """The IPv4 address of four octets; None if one is over 255."""
    values = [int(it) for it in octets]
    return int.from_bytes(bytes(values), "big") if max(values) <= 255 else None


def groups_of(text: str) -> list[int] | None:
    """Groups of 1 to 4 hexadecimal digits with colons between them, or none; None if the text has another form."""
    if not text:
        return []
    return [int(it, 16) for it in text.split(":")] if re.fullmatch(r"[0-9A-Fa-f]{1,4}(:[0-9A-Fa-f]{1,4})*", text) else None


def ipv6_of(text: str) -> int | None:
    """The IPv6 address of eight groups, or of at most seven and one `::`; None if the text has another form, or is an IPv4 address."""
    front, elided, rest = text.partition("::")
    before, behind = groups_of(front), groups_of(rest)
    if before is None or behind is None:
        return None
    missing = 8 - len(before) - len(behind)
    if missing < 1 if elided else missing != 0:
        return None
    groups = before + missing * [0] + behind
    address = b"".join(it.to_bytes(2, "big") for it in groups)
    return None if address.startswith(IPV4_PREFIX) else int.from_bytes(address, "big")


def is_ipv4(peer: Peer) -> bool:
    return peer.ip.startswith(IPV4_PREFIX)


def site(peer: Peer) -> bytes:
    """What sessions are counted by: an IPv4 address, or the first 64 bits of an IPv6 address."""
    return peer.ip if is_ipv4(peer) else peer.ip[:8]


def is_in(given: tuple[Network, ...] | None, peer: Peer) -> bool:
    """Whether a peer's address is in a list: any is in one that wasn't given, and one that was has those of its networks."""
    return given is None or any(it.has(peer) for it in given)


def is_socket_address(text: str) -> bool:
    """Whether a text is `a.b.c.d:port` or `[X]:port` with an IPv6 address X, without leading zeros."""
    found = re.fullmatch(rf"(?:{OCTETS}|\[([^]]*)\]):(0|[1-9][0-9]{{0,4}})", text)
    if found is None or int(found[6]) > 65535:
        return False
    return (address_of(list(found.groups()[:4])) if found[5] is None else ipv6_of(found[5])) is not None


def network_of(text: str) -> Network | None:
    """The network of a text, an address or an address, a slash and a number of bits; None if it has another form, or a bit behind
    the first ones is set."""
    found = re.fullmatch(rf"(?:{OCTETS}|([0-9A-Fa-f:]*:[0-9A-Fa-f:]*))(?:/(0|[1-9][0-9]{{0,2}}))?", text)
    if found is None:
        return None
    width = 32 if found[5] is None else 128
    address = address_of(list(found.groups()[:4])) if found[5] is None else ipv6_of(found[5])
    bits = int(found[6] or width)
    if address is None or bits > width or address % (1 << (width - bits)):
        return None
    return Network(width, address, bits)


def wanted(table: Table, key: str) -> Any:
    """The value of a key that must be there."""
    if key not in table:
        raise ConfigFault(Fault.MISSING, key)
    return table[key]


def text(key: str, value: Any) -> str:
    if not isinstance(value, str):
        raise ConfigFault(Fault.WRONG_KIND, key)
    return value


def number(key: str, value: Any, least: int, most: int) -> int:
    if not isinstance(value, int) or isinstance(value, bool):
        raise ConfigFault(Fault.WRONG_KIND, key)
    if not least <= value <= most:
        raise ConfigFault(Fault.OUT_OF_RANGE, key)
    return value


def truth(key: str, value: Any) -> bool:
    if not isinstance(value, bool):
        raise ConfigFault(Fault.WRONG_KIND, key)
    return value


def choice(key: str, value: Any, values: Any) -> Any:
    """The member of an enumeration that a text names."""
    if text(key, value) not in [it.value for it in values]:
        raise ConfigFault(Fault.OUT_OF_RANGE, key)
    return values(value)


def access_key(key: str, value: Any) -> str:
    """The key that a caller's Stream ID must bring."""
    if not re.fullmatch(r"[A-Za-z0-9._~-]{1,64}", text(key, value)):
        raise ConfigFault(Fault.OUT_OF_RANGE, key)
    return value


def passphrase(key: str, value: Any) -> str:
    """What the keys of a role's sessions are wrapped with: 10 to 79 bytes in UTF-8."""
    if not 10 <= len(text(key, value).encode()) <= 79:
        raise ConfigFault(Fault.OUT_OF_RANGE, key)
    return value


def key_length(key: str, value: Any, has_passphrase: bool) -> int:
    """How many bytes the keys of callers have: they have keys only if a role has a passphrase."""
    if number(key, value, min(KEY_LENGTHS), max(KEY_LENGTHS)) not in KEY_LENGTHS or not has_passphrase:
        raise ConfigFault(Fault.OUT_OF_RANGE, key)
    return value


def networks(key: str, value: Any) -> tuple[Network, ...]:
    """One to sixteen networks; that each is a text is asked before their forms."""
    if not isinstance(value, list):
        raise ConfigFault(Fault.WRONG_KIND, key)
    if not 1 <= len(value) <= 16:
        raise ConfigFault(Fault.OUT_OF_RANGE, key)
    found = [network_of(it) for it in [text(key, it) for it in value]]
    if None in found:
        raise ConfigFault(Fault.BAD_ADDRESS, key)
    return tuple(it for it in found if it is not None)


def check_address(table: Table, key: str) -> None:
    if not is_socket_address(text(key, wanted(table, key))):
        raise ConfigFault(Fault.BAD_ADDRESS, key)


def check_unknown(table: Table, known: frozenset[str]) -> None:
    """The least unknown key counts, in the order of bytes."""
    unknown = sorted(set(table) - known)
    if unknown:
        raise ConfigFault(Fault.UNKNOWN_KEY, unknown[0])


def check_rounds(table: Table) -> None:
    """A route may open and close in rounds of a server: the second must be after the first. A replay doesn't use them."""
    opens = number("open_round", table.get("open_round", 0), 0, MOST_ROUNDS)
    if "close_round" in table:
        number("close_round", table["close_round"], opens + 1, MOST_ROUNDS)


def name_of(table: Table, earlier: list[Entry]) -> str:
    name = text("name", wanted(table, "name"))
    if not is_name(name):
        raise ConfigFault(Fault.BAD_NAME, "name")
    if any(it.name == name for it in earlier):
        raise ConfigFault(Fault.REPEATED_NAME, "name")
    return name


def added(table: Table, sessions: int) -> Table:
    """The values of the optional keys that were given, each looked at in its turn."""
    readers: dict[str, Callable[[str, Any], Any]] = {
        "callers": lambda key, value: choice(key, value, Callers),
        "publish_from": networks,
        "request_from": networks,
        "publish_key": access_key,
        "request_key": access_key,
        "reserved": lambda key, value: number(key, value, 0, min(2, sessions - 1)),
        "sessions_per_address": lambda key, value: number(key, value, 1, 17),
        "takeover_ms": lambda key, value: number(key, value, 100, 5000),
        "resend_percent": lambda key, value: number(key, value, 5, 1000),
        "publish_passphrase": passphrase,
        "request_passphrase": passphrase,
        "pbkeylen": lambda key, value: key_length(key, value, not PASSPHRASES.isdisjoint(table)),
        "expect": truth,
    }
    return {key: readers[key](key, table[key]) for key in ADDED_KEYS if key in table}


def entry_of(table: Table, earlier: list[Entry]) -> Entry:
    """A route's table: its keys are looked at in their order, and each is first missing, then of the wrong kind, then wrong in its
    own way."""
    check_unknown(table, ROUTE_KEYS)
    name = name_of(table, earlier)
    mode = choice("mode", wanted(table, "mode"), Mode)
    numbers = {key: number(key, wanted(table, key), *limits) for key, limits in NUMBERS.items()}
    check_rounds(table)
    return Entry(name, mode, **numbers, **added(table, numbers["sessions"]))


def secret_of(table: Table) -> bytes:
    secret = text("secret", wanted(table, "secret"))
    if not re.fullmatch(r"[0-9A-Fa-f]{64}", secret):
        raise ConfigFault(Fault.BAD_SECRET, "secret")
    return bytes.fromhex(secret)


def routes_of(table: Table) -> list[Table]:
    routes = wanted(table, "route")
    if not isinstance(routes, list) or not all(isinstance(it, dict) for it in routes):
        raise ConfigFault(Fault.WRONG_KIND, "route")
    if not 1 <= len(routes) <= MOST_ROUTES:
        raise ConfigFault(Fault.OUT_OF_RANGE, "route")
    return routes


def has_great_number(value: Any) -> bool:
    """Whether a number of more than 64 bits stands in a value."""
    if isinstance(value, dict):
        return any(has_great_number(it) for it in value.values())
    if isinstance(value, list):
        return any(has_great_number(it) for it in value)
    return isinstance(value, int) and not -1 << 63 <= value < 1 << 63


def table_of(content: bytes) -> Table:
    try:
        table = tomllib.loads(content.decode())
    except ValueError:
        raise ConfigFault(Fault.TOML, "-") from None
    if has_great_number(table):
        raise ConfigFault(Fault.TOML, "-")
    return table


def read(content: bytes) -> Config:
    """The configuration of a file. Raises its first fault: unknown keys at the top, the top keys in their order, then one route after
    the other."""
    table = table_of(content)
    check_unknown(table, TOP_KEYS)
    secret = secret_of(table)
    check_address(table, "bind")
    number("workers", wanted(table, "workers"), 1, 16)
    if "status" in table:
        check_address(table, "status")
    entries: list[Entry] = []
    for route in routes_of(table):
        entries.append(entry_of(route, entries))
    return Config(secret, tuple(entries))
