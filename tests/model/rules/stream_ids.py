"""Stream IDs: which route a caller asks for, and in which role (section 3.2.1.3 and appendix B)."""
from __future__ import annotations

from enum import Enum
from typing import NamedTuple

LIST_PREFIX = "#!::"


class Role(Enum):
    """What a caller wants of a route; the values are those of the key `m`."""

    PUBLISH = "publish"
    REQUEST = "request"


class Ask(NamedTuple):
    """A route's name, the role, and the access key that came with them, if one came."""

    name: str
    role: Role
    key: str | None


def parts_of(text: str) -> list[tuple[str, str]]:
    """The keys and values of a list, each part split at its first `=`; parts without one are skipped (section B.1)."""
    return [(key, value) for key, equals, value in (part.partition("=") for part in text.split(",")) if equals]


def read_list(text: str) -> Ask | None:
    """Of a list `r` names the route, `m` the role, and the first `k` brings a key; other keys are skipped. A second `r` or `m`, another
    role, or no name is a fault (section B.2)."""
    values = {}
    for key, value in parts_of(text):
        if key in ("r", "m") and key in values:
            return None
        if key == "m" and value not in (it.value for it in Role):
            return None
        values.setdefault(key, value)
    name = values.get("r", "")
    return Ask(name, Role(values.get("m", "request")), values.get("k")) if name else None


def read(text: bytes) -> Ask | None:
    """What a Stream ID asks for; None if it isn't UTF-8 or has another fault. A text that is no list is a route's name, and asks to
    request it."""
    try:
        decoded = text.decode()
    except UnicodeDecodeError:
        return None
    if decoded.startswith(LIST_PREFIX):
        return read_list(decoded[len(LIST_PREFIX):])
    return Ask(decoded, Role.REQUEST, None) if decoded else None
