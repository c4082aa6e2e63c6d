"""A plain model of a gateway whose configuration's file changes: which routes are open under which index, what the log has to report of
each state of the file, and which callers a route admits. It shares no line with the crates. The rules of a valid configuration are those
of tests/model/rules, which Python's tomllib reads for."""
from __future__ import annotations

import ipaddress
import re
import tomllib
from collections import Counter
from dataclasses import dataclass, field
from typing import Any, NamedTuple

from rules import configuration as rules
from rules.configuration import ConfigFault, Fault

Table = dict[str, Any]

INDEXES = 511
LARGEST = 65_536
FEW_FROM, FEW_EACH = 400, 25  # From this index on, and at each so many further ones, the log warns that few are left.
FIXED = ("bind", "workers", "status", "secret")
PUBLISHERS = 2
# The value of each optional key of a route that isn't written.
DEFAULTS: Table = {
    "open_round": 0, "close_round": None, "callers": "draft", "publish_from": None, "request_from": None, "publish_key": None, "request_key": None,
    "reserved": 0, "sessions_per_address": None, "takeover_ms": None, "resend_percent": None,
}
# The form of the reason that the log has for each fault, after its line and the route that has it.
REASONS = {
    Fault.TOML: r"line \d+, column \d+: .+",
    Fault.UNKNOWN_KEY: r"{key}: unknown key.+",
    Fault.MISSING: r"{key} is missing; allowed .+",
    Fault.WRONG_KIND: r"{key}(?: = .+)?: (?:not a |value \d+ of the list isn't a text).+",
    Fault.OUT_OF_RANGE: r"{key}(?: = .+)?: (?:allowed |it has \d+ values; allowed |there are \d+; allowed |no round is left ).+",
    Fault.BAD_NAME: r"name = .+: allowed are .+",
    Fault.REPEATED_NAME: r"name = .+: route \d+ has this name",
    Fault.BAD_SECRET: r"secret: allowed are .+",
    Fault.BAD_ADDRESS: r"{key} = .+: (?:allowed is |value \d+ of the list is).+",
}


# What a file has.


class Reason(NamedTuple):
    """Why a configuration is invalid: the kind of its first fault, and the form of the text that reports it."""

    fault: Fault
    form: str


def reason_of(fault: ConfigFault, route: str) -> Reason:
    _, _, number, key = str(fault).split(" ", 3)
    kind = Fault(int(number))
    shown = re.escape(key) if re.fullmatch(r"[A-Za-z0-9_-]+", key) else re.escape(f'"{key}"')
    line = "" if kind == Fault.TOML else r"(?:line \d+: )?"
    return Reason(kind, line + re.escape(route) + REASONS[kind].format(key=shown))


def title_of(number: int, table: Table) -> str:
    """The words by which a text names a route: its number, and its name if that has the right form."""
    name = table.get("name")
    return f"route {number} ({name}): " if isinstance(name, str) and rules.is_name(name) else f"route {number}: "


def fault_above(content: bytes) -> ConfigFault | None:
    """The first fault that isn't a single route's: the rules read the file with all its routes but none of their keys."""
    try:
        table = rules.table_of(content)
        rules.check_unknown(table, rules.TOP_KEYS)
        rules.secret_of(table)
        rules.check_address(table, "bind")
        rules.number("workers", rules.wanted(table, "workers"), 1, 16)
        if "status" in table:
            rules.check_address(table, "status")
        rules.routes_of(table)
    except ConfigFault as fault:
        return fault
    return None


def why_invalid(content: bytes) -> Reason | None:
    """The first fault of a configuration; None if it is valid."""
    above = fault_above(content)
    if above:
        return reason_of(above, "")
    entries: list[rules.Entry] = []
    for number, table in enumerate(tomllib.loads(content.decode())["route"], 1):
        try:
            entries.append(rules.entry_of(table, entries))
        except ConfigFault as fault:
            title = f"route {number}: " if Fault.REPEATED_NAME.value == int(str(fault).split()[2]) else title_of(number, table)
            return reason_of(fault, title)
    return None


def keys_of(table: Table) -> Table:
    """The keys of a route without its name, as they can be compared: with the usual values, and networks instead of their texts."""
    keys = {**DEFAULTS, **{key: value for key, value in table.items() if key != "name"}}
    for key in ("publish_from", "request_from"):
        keys[key] = keys[key] and tuple(ipaddress.ip_network(it) for it in keys[key])
    return keys


def fixed_of(table: Table) -> Table:
    """The keys that can't change while the gateway runs."""
    return {**{key: table.get(key) for key in FIXED}, "secret": table["secret"].lower()}


# Who is admitted.


class Call(NamedTuple):
    """What a caller requests: a route's name, a role, and perhaps a key, from an address; `mode` is the caller's."""

    name: str
    role: str
    source: str
    key: str | None
    mode: str

    @property
    def stream_id(self) -> str:
        return f"#!::r={self.name},m={self.role}" + ("" if self.key is None else f",k={self.key}")


class Verdict(NamedTuple):
    """What a call gets: the code of its refusal, or 0; the cause that the log adds, or an empty text; and the members of the status page
    that count it, with that of a route's if `is_routes`."""

    code: int
    cause: str = ""
    counts: tuple[str, ...] = ()
    is_routes: bool = False


def kept_out(cause: str, member: str) -> Verdict:
    """What a caller gets that no route admits."""
    return Verdict(1002, cause, ("refusals_PEER", f"lobby_refused_{member}_total"))


def full(limit: str) -> Verdict:
    """What a caller gets for which a limit of a route leaves no session."""
    return Verdict(1003, "", ("refusals_RESOURCE", f"refused_{limit}_total"), True)


UNKNOWN = kept_out("unknown name", "unknown_name")
ADMITTED = Verdict(0, "", ("opened_sessions_total",), True)


class Bounds:
    """The least and the greatest value that each count may have: a caller that waited for its answer may have repeated its conclusion."""

    def __init__(self) -> None:
        self.values: dict[str, list[int]] = {}

    def add(self, name: str, least: int, most: int) -> None:
        bounds = self.values.setdefault(name, [0, 0])
        bounds[0], bounds[1] = bounds[0] + least, bounds[1] + most

    def wrong_of(self, found: Table, names: tuple[str, ...]) -> list[str]:
        """Which of these counts are missing, or out of their bounds."""
        bounds = {it: self.values.get(it, [0, 0]) for it in names}
        return [f"{it} is {found.get(it)}, and not {least} to {most}" for it, (least, most) in bounds.items() if not least <= found.get(it, -1) <= most]


@dataclass
class Route:
    """A route that is open, with the roles and addresses of its open sessions, and what it counted."""

    name: str
    keys: Table
    index: int
    held: list[tuple[str, str]] = field(default_factory=list)
    received: int = 0
    counts: Bounds = field(default_factory=Bounds)

    def admits(self, call: Call) -> Verdict:
        """What a call to this route gets."""
        networks, key = self.keys[f"{call.role}_from"], self.keys[f"{call.role}_key"]
        if networks is not None and not any(ipaddress.ip_address(call.source) in it for it in networks):
            return kept_out(f"not in {call.role}_from", f"{call.role}_from")
        if key is not None and call.key != key:
            return kept_out(f"{call.role}_key missing or wrong", f"{call.role}_key")
        return self.opens(call)

    def opens(self, call: Call) -> Verdict:
        """What a call gets that the lists and keys admit."""
        publishers = sum(role == "publish" for role, _ in self.held)
        free = self.keys["sessions"] - len(self.held)
        limit = self.keys["sessions_per_address"]
        if call.mode != self.keys["mode"]:
            return Verdict(1012, "", ("refusals_MESSAGEAPI",), True)
        if call.role == "publish" and publishers == PUBLISHERS:
            return Verdict(1002, "", ("refusals_PEER",), True)
        if limit is not None and sum(source == call.source for _, source in self.held) >= limit:
            return full("sessions_per_address")
        if free == 0:
            return full("sessions")
        kept = self.keys["reserved"] - publishers if call.role == "request" else 0
        return full("reserved") if free <= kept else ADMITTED

    @property
    def latency_ms(self) -> int:
        """The latency that it agrees upon with a caller that requests none."""
        return self.keys["latency_ms"] if self.keys["mode"] == "live" else 0


# What a run does.


class Model:
    """A run from its first configuration on, which is valid."""

    def __init__(self, content: bytes) -> None:
        table = tomllib.loads(content.decode())
        self.fixed = fixed_of(table)
        self.tables: list[Table] = table["route"]
        self.routes = [Route(it["name"], keys_of(it), index) for index, it in enumerate(self.tables)]
        self.names = [it.name for it in self.routes]  # By the indexes that were used.
        self.taken = self.refused = 0
        self.last: bytes | None = None  # The content that was read last; none before the first one that the run read.
        self.is_unread = False
        self.closed: list[Route] = []  # Those that the last state of the file closed,
        self.opened: list[Route] = []  # and those that it opened.
        self.waits: list[str] = []  # The forms of lines that may come before those: a route that it closes had sessions at the last look.
        self.counts = Bounds()
        self.outcomes: Counter[str] = Counter()  # What became of the states of the file, and of the routes.

    @property
    def used(self) -> int:
        return len(self.names)

    def route(self, name: str) -> Route | None:
        return next((it for it in self.routes if it.name == name), None)

    def unread(self, why: str) -> list[str]:
        """The forms of the log's lines where the file can't be read, for a reason of this form."""
        self.closed, self.opened, self.waits = [], [], []
        first, self.is_unread = not self.is_unread, True
        self.outcomes["unread"] += 1
        return [f"configuration can't be read: {why}"] if first else []

    def read(self, content: bytes) -> list[str]:
        """The forms of the log's lines, in order, where the file has this content, which is then in force unless a line reports why not."""
        if len(content) > LARGEST:
            return self.unread(f"larger than {LARGEST} bytes")
        self.is_unread, self.closed, self.opened, self.waits = False, [], [], []
        if content == self.last:
            return []
        self.last = content
        reason = why_invalid(content)
        if reason:
            return self.refuse(rf"{reason.form}(?:; \d+ more faults?)?", reason.fault.name)
        table = tomllib.loads(content.decode())
        differing = [key for key in FIXED if fixed_of(table)[key] != self.fixed[key]]
        if differing:
            also = f" (also: {', '.join(differing[1:])})" if differing[1:] else ""
            return self.refuse(re.escape(f"{differing[0]} can't change while the gateway runs{also}; restart it to change it"), "FIXED_KEYS")
        return self.change(table["route"])

    def refuse(self, why: str, kind: str) -> list[str]:
        self.refused += 1
        self.outcomes[f"refused {kind}"] += 1
        return [f"configuration not taken: {why}"]

    def change(self, tables: list[Table]) -> list[str]:
        """Puts the routes of a valid configuration in force."""
        before = {it.name: it for it in self.routes}
        after = [self.staying(before.get(it["name"]), it) for it in tables]
        opening = [it for it in after if it.index < 0]
        names = {it.name for it in after}
        gone = [it for it in self.routes if it.name not in names]
        changed = [it for it in opening if it.name in before]
        self.waits = [f"configuration closes {re.escape(it.name)}, which has sessions; it is taken if it stays so for 5 s" for it in gone]
        if not opening and not gone:
            self.outcomes["the same"] += 1
            self.routes, self.tables = after, tables
            return []
        if len(opening) > INDEXES - self.used:
            return self.refuse(f"{len(opening)} routes are to open, {INDEXES - self.used} indexes are left; restart the gateway", "NO_INDEXES")
        for index, it in enumerate(opening, self.used):
            it.index = index
        self.closed, self.opened = [*gone, *(before[it.name] for it in changed)], opening
        self.routes, self.tables, self.taken = after, tables, self.taken + 1
        counts = len(after) - len(opening), len(opening) - len(changed), len(gone), len(changed)
        self.outcomes.update(taken=1, **dict(zip(("routes stay", "routes open", "routes close", "routes change"), counts)))
        return [
            "configuration changed: {} routes stay, {} open, {} close, {} change".format(*counts),
            *(f"{re.escape(it.name)}: closed, it is no longer in the configuration" for it in gone),
            *(f"{re.escape(it.name)}: closed, to open again with other keys" for it in changed),
            *(rf"{re.escape(it.name)}: opened with index {it.index}, \d+ MB" for it in opening),
            *self.use(opening),
        ]

    @staticmethod
    def staying(before: Route | None, table: Table) -> Route:
        """The route of a table: the one before with its name if all keys are the same, or else a new one."""
        keys = keys_of(table)
        return before if before and before.keys == keys else Route(table["name"], keys, -1)

    def use(self, opening: list[Route]) -> list[str]:
        """Uses the indexes of these routes, and returns the form of the warning if there is one."""
        before = self.used
        self.names += [it.name for it in opening]
        marks = [max(0, (it - FEW_FROM + FEW_EACH) // FEW_EACH) for it in (before, self.used)]
        if marks[0] == marks[1]:
            return []
        return [f"{INDEXES - self.used} of {INDEXES} indexes are left; each route that opens while the gateway runs uses one, restart it in a quiet hour"]

    def verdict(self, call: Call) -> Verdict:
        """What a call gets while these routes are open."""
        route = self.route(call.name)
        return route.admits(call) if route else UNKNOWN

    def note(self, verdict: Verdict, route: Route | None, most: int) -> None:
        """Counts a call that got this verdict, and that may have been repeated `most` times in all."""
        counts = route.counts if verdict.is_routes and route else self.counts
        for it in verdict.counts:
            counts.add(it, 1, most if verdict.code else 1)
