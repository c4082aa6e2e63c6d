"""Random states of a configuration's file: valid ones that change the routes in some way, the same routes in other words, and invalid ones.
Whether a state is valid, and what it changes, is the model's to decide (reload_model.py)."""
from __future__ import annotations

import copy
import json
import random
from typing import Any, Callable

Table = dict[str, Any]

NAMES = ("news", "news2", "new", "News", "a/b.c_d-e", "0", "z" * 64, "guest")
ADDRESSES = ("127.0.0.1", "127.0.0.9", "127.0.0.17")
LISTS = (["127.0.0.1"], ["127.0.0.9"], ["127.0.0.8/29"], ["127.0.0.9", "127.0.0.17"], ["10.0.0.0/8", "127.0.0.1"], ["127.0.0.16/31"], ["127.0.0.0/8"],
         ["0.0.0.0/0"])
KEYS = ("b1f0-a~key", "b1f0-a~key2", "c2e1.other_key", "~" * 64)
MOST_ROUTES = 7  # With the one that stays; so the lines of a change find room in their second of the log.
NUMBERS: dict[str, tuple[int, ...]] = {
    "latency_ms": (20, 21, 80, 120, 400, 1000, 2000, 8000), "buffer": (32, 33, 40, 64), "sessions": (1, 2, 3, 4, 5), "inbox": (64, 65, 200),
    "outbox": (16, 64, 200),
}
OPTIONAL: dict[str, tuple[Any, ...]] = {
    "callers": ("draft", "libsrt"), "publish_from": LISTS, "request_from": LISTS, "publish_key": KEYS, "request_key": KEYS, "reserved": (0, 1, 2),
    "sessions_per_address": (1, 2, 3, 17), "takeover_ms": (100, 500, 600, 5000), "resend_percent": (5, 50, 1000),
}
# A route that opens while the gateway runs ignores these, and a route of its start isn't given them.
SCHEDULE: dict[str, tuple[int, ...]] = {"open_round": (0, 1, 999_999_999), "close_round": (1_000_000_000,)}
DEFAULT_TEXTS = ("open_round = 0", 'callers = "draft"', "reserved = 0")


# Routes.


def fitted(route: Table) -> Table:
    """The route with no more slots for publishers than it may have."""
    if "reserved" in route:
        route["reserved"] = min(route["reserved"], route["sessions"] - 1)
    return route


def any_route(chance: random.Random, name: str) -> Table:
    """A route of this name with any keys."""
    numbers = {key: chance.choice(values) for key, values in NUMBERS.items()}
    route = {"name": name, "mode": chance.choice(("live", "live", "live", "buffer")), **numbers}
    for key, values in OPTIONAL.items():
        if chance.random() < 0.35:
            route[key] = chance.choice(values)
    return fitted(route)


def add(chance: random.Random, routes: list[Table], gone: list[Table]) -> None:
    """Adds a route: one that was there before, perhaps with other keys, or another one."""
    used = {it["name"] for it in routes}
    again = [it for it in gone if it["name"] not in used]
    names = [it for it in NAMES if it not in used]
    if len(routes) == MOST_ROUTES or not names:
        return
    route = copy.deepcopy(chance.choice(again)) if again and chance.random() < 0.6 else any_route(chance, chance.choice(names))
    routes.insert(chance.randrange(len(routes) + 1), route)
    if chance.random() < 0.2:
        route.update({key: chance.choice(values) for key, values in SCHEDULE.items()})


def movable(routes: list[Table], steady: str) -> list[Table]:
    return [it for it in routes if it["name"] != steady]


def remove(chance: random.Random, routes: list[Table], steady: str) -> None:
    """Removes a route, unless it is the last one next to the one that stays."""
    if len(routes) > 2:
        routes.remove(chance.choice(movable(routes, steady)))


def rename(chance: random.Random, routes: list[Table], steady: str) -> None:
    names = [it for it in NAMES if it not in {one["name"] for one in routes}]
    if names:
        chance.choice(movable(routes, steady))["name"] = chance.choice(names)


def swap_names(chance: random.Random, routes: list[Table], steady: str) -> None:
    if len(routes) > 2:
        one, other = chance.sample(movable(routes, steady), 2)
        one["name"], other["name"] = other["name"], one["name"]


def swap_places(chance: random.Random, routes: list[Table]) -> None:
    one, other = chance.sample(range(len(routes)), 2)
    routes[one], routes[other] = routes[other], routes[one]


def change_key(chance: random.Random, routes: list[Table], steady: str) -> None:
    """Changes a key of a route to another value, or removes an optional one."""
    route = chance.choice(movable(routes, steady))
    key = chance.choice([*NUMBERS, *OPTIONAL, *OPTIONAL, "mode", "close_round"])
    if key in route and key in OPTIONAL and chance.random() < 0.4:
        del route[key]
    elif key == "mode":
        route[key] = "buffer" if route[key] == "live" else "live"
    else:
        route[key] = chance.choice(({**NUMBERS, **OPTIONAL, **SCHEDULE})[key])
    fitted(route)


def changed(chance: random.Random, before: list[Table], gone: list[Table], steady: str) -> list[Table]:
    """Some changes, one after the other, of these routes. `gone` are those that were there before; `steady` names the one that stays."""
    routes = copy.deepcopy(before)
    kinds: list[Callable[[], None]] = [
        lambda: add(chance, routes, gone), lambda: remove(chance, routes, steady), lambda: rename(chance, routes, steady),
        lambda: swap_names(chance, routes, steady), lambda: swap_places(chance, routes), lambda: change_key(chance, routes, steady),
    ]
    for kind in chance.choices(kinds, (4, 2, 1, 1, 1, 4), k=chance.choice((1, 1, 2, 3))):
        kind()
    return routes


def reordered(chance: random.Random, before: list[Table]) -> list[Table]:
    """The same routes in another order."""
    routes = copy.deepcopy(before)
    while [it["name"] for it in routes] == [it["name"] for it in before]:
        chance.shuffle(routes)
    return routes


# Their text.


def number_text(chance: random.Random, value: int) -> str:
    """A whole number in one of TOML's forms."""
    return chance.choice((str(value), str(value), f"{value:_}", f"+{value}", f"0x{value:x}", f"0o{value:o}")) if value >= 0 else str(value)


def value_text(chance: random.Random, key: str, value: Any) -> str:
    """A value in one of TOML's forms. An address of a list may have its length."""
    if type(value) is int:
        return number_text(chance, value)
    if key == "secret" and isinstance(value, str) and chance.random() < 0.2:
        value = value.upper()
    if isinstance(value, str) and value.isascii() and value.isprintable() and "'" not in value and chance.random() < 0.2:
        return f"'{value}'"
    if key in ("publish_from", "request_from") and isinstance(value, list) and chance.random() < 0.3:
        value = [f"{it}/32" if isinstance(it, str) and it.count(".") == 3 and "/" not in it else it for it in value]
        return "[\n  " + ",\n  ".join(json.dumps(it) for it in value) + ",\n]" if value else "[]"
    return json.dumps(value, ensure_ascii=False)


def lines_of(chance: random.Random, table: Table) -> list[str]:
    """The lines of a table's keys, in any order, with comments and blanks among them."""
    lines = [f"{json.dumps(key) if not key.isidentifier() else key}{chance.choice((' = ', '=', '  =  '))}{value_text(chance, key, it)}" for key, it in table.items()]
    if chance.random() < 0.5:
        chance.shuffle(lines)
    return [f"{it}{chance.choice(('', '', '', '  # a comment', chr(10)))}" for it in lines]


def text_of(chance: random.Random, top: Table, routes: list[Table]) -> str:
    """A file with these keys and routes."""
    lines = lines_of(chance, top)
    for route in routes:
        lines += ["[[route]]", *lines_of(chance, route)]
        defaults = [it for it in DEFAULT_TEXTS if it.split(" ")[0] not in route]
        lines += [it for it in defaults if chance.random() < 0.1]
    return "\n".join(lines) + chance.choice(("", "\n", "\n\n# the end\n"))


# What is invalid.


BAD_VALUES: dict[str, tuple[Any, ...]] = {
    "latency_ms": (19, 8001, "120", 1.5, True, -1), "buffer": (31, 8193, [], "many"), "sessions": (0, 18, 40, {}), "inbox": (15, 4097, False),
    "outbox": (15, 4097, "16"), "mode": ("fast", "Live", 5, ""), "name": ("", "Studio 1", "café", "x" * 65, 5, "a,b"), "open_round": (-1, 1_000_000_001, "0"),
    "close_round": (0, 1_000_000_001, 2.0), "callers": ("any", "Libsrt", 1), "publish_from": ([], ["127.0.0.1"] * 17, ["127.0.0.1/8"], ["::1"], "127.0.0.1", [1]),
    "request_from": ([], ["127.0.0.256"], ["127.0.0.1", 5], ["127.0.0.0/33"], ["localhost"], 7), "publish_key": ("", "two words", "k" * 65, 5),
    "request_key": ("é", "a/b", ["key"]), "reserved": (3, -1, "1"), "sessions_per_address": (0, 18), "takeover_ms": (99, 5001, 0.5), "resend_percent": (4, 1001, "50%"),
}
BAD_TOPS: dict[str, tuple[Any, ...]] = {
    "secret": ("", "00" * 31, "0g" * 32, 5), "bind": ("127.0.0.1", "localhost:9000", ":9000", "127.0.0.01:9000", 9000), "workers": (0, 17, "2", 1.5),
    "status": ("[::1]:9001", "127.0.0.1:65536", []), "worker": (2,), "latency_ms": (120,),
}
NEEDED = ("name", "mode", "latency_ms", "buffer", "sessions", "inbox", "outbox")


def bad_value(chance: random.Random, top: Table, routes: list[Table]) -> None:
    key = chance.choice(list(BAD_VALUES))
    chance.choice(routes)[key] = chance.choice(BAD_VALUES[key])


def bad_top(chance: random.Random, top: Table, routes: list[Table]) -> None:
    key = chance.choice(list(BAD_TOPS))
    top[key] = chance.choice(BAD_TOPS[key])


def missing_key(chance: random.Random, top: Table, routes: list[Table]) -> None:
    if chance.random() < 0.3:
        del top[chance.choice(("secret", "bind", "workers"))]
    else:
        del chance.choice(routes)[chance.choice(NEEDED)]


def unknown_key(chance: random.Random, top: Table, routes: list[Table]) -> None:
    chance.choice(routes)[chance.choice(("latency", "passphrase", "bind", "Mode", "key", "a b"))] = chance.choice((1, "x", []))


def same_name(chance: random.Random, top: Table, routes: list[Table]) -> None:
    one, other = chance.sample(routes, 2)
    one["name"] = other["name"]


def too_reserved(chance: random.Random, top: Table, routes: list[Table]) -> None:
    route = chance.choice(routes)
    route["sessions"] = chance.choice((1, 2))
    route["reserved"] = route["sessions"]


def no_round_left(chance: random.Random, top: Table, routes: list[Table]) -> None:
    chance.choice(routes).update(open_round=chance.choice((5, 1_000_000_000)), close_round=5)


def no_routes(chance: random.Random, top: Table, routes: list[Table]) -> None:
    routes.clear()
    if chance.random() < 0.5:
        top["route"] = []


def bad_name(chance: random.Random, top: Table, routes: list[Table]) -> None:
    chance.choice(routes)["name"] = chance.choice([it for it in BAD_VALUES["name"] if isinstance(it, str)])


def bad_secret(chance: random.Random, top: Table, routes: list[Table]) -> None:
    top["secret"] = chance.choice([it for it in BAD_TOPS["secret"] if isinstance(it, str)])


def bad_address(chance: random.Random, top: Table, routes: list[Table]) -> None:
    if chance.random() < 0.5:
        top["bind"] = chance.choice([it for it in BAD_TOPS["bind"] if isinstance(it, str)])
    else:
        chance.choice(routes)[chance.choice(("publish_from", "request_from"))] = ["127.0.0.1", chance.choice(("127.0.0.1/8", "::1", "", "127.1"))]


def wrong_kind(chance: random.Random, top: Table, routes: list[Table]) -> None:
    chance.choice(routes)[chance.choice(NEEDED)] = chance.choice((True, 1.5, [], {}))


FAULTS = (bad_value, missing_key, bad_name, unknown_key, wrong_kind, same_name, bad_secret, bad_address, bad_top, too_reserved, no_round_left, no_routes)


def faulty(chance: random.Random, top: Table, routes: list[Table], kind: int) -> bytes:
    """A file with these keys and routes, and a fault of this kind."""
    top, routes = copy.deepcopy(top), copy.deepcopy(routes)
    FAULTS[kind % len(FAULTS)](chance, top, routes)
    return text_of(chance, top, routes).encode()


def broken(chance: random.Random, text: str) -> bytes:
    """The file without a part of it, or with something in it that isn't TOML."""
    lines = text.encode().split(b"\n")
    at = chance.randrange(len(lines))
    kind = chance.randrange(6)
    if kind == 0:
        return text.encode()[:chance.randrange(len(text.encode()))]
    if kind == 1:
        return text.replace("[[route]]", "[route]").encode()
    more = (b"???", b"workers =", b'name = "news', b"\xff\xfe = 1", b"workers = 9223372036854775808", b"[[route]")[chance.randrange(6)]
    if kind in (2, 3):
        lines[at] = more
    else:
        lines.insert(at, more)
    return b"\n".join(lines)


def other_fixed(chance: random.Random, top: Table, port: int) -> Table:
    """The keys above the routes, some of which have other values that can't be used while the gateway runs."""
    others: Table = {"bind": f"127.0.0.1:{port}", "workers": top["workers"] % 16 + 1, "secret": bytes(range(7, 39)).hex()}
    if chance.random() < 0.5:
        others["status"] = f"127.0.0.1:{port}"
    chosen = chance.sample(sorted(others), chance.randint(1, len(others)))
    changed_top = {**top, **{key: others[key] for key in chosen}}
    if "status" not in chosen and chance.random() < 0.3:
        del changed_top["status"]
    return changed_top
