"""The log of a gateway whose configuration's file changes, line by line: each refusal and each session of its callers has the lines that it
must have, in order and once, and no line is of anything else. Those about the configuration are compared by reload_seen.py; here they
tell which routes were open when."""
from __future__ import annotations

import re
from collections import Counter
from dataclasses import dataclass, field
from typing import Callable, Iterator

import packets
from caller import Caller
from lines import peer_of
from reload_model import Call, Table, Verdict
from running import UNBLOCKED

ROLES = {"publish": "publisher", "request": "subscriber"}
SHUTDOWN, CLOSED, STOPS = "its peer sent a SHUTDOWN", "its route was closed", "the gateway stops"
NOT_ALL, AT_END, SLOT = f"{SHUTDOWN}, and not all of it could be delivered", "the stream is at its end", "its slot was taken again"
# What happens on a machine that is too slow for what is compared.
SLOW = {
    r"\S+: \w+ \S+ ended, socket \S+, nothing arrived from its peer, .*": "a session was silent", r"lines left out \d+": "lines were left out",
    r"datagrams dropped by the kernel \d+": "datagrams were dropped",
}
LIMITS = ("refused_sessions_total", "refused_reserved_total", "refused_sessions_per_address_total")
OF_SESSION = r"(?P<name>\S+): (?P<role>publisher|subscriber) (?P<peer>\S+) "
SOCKET = r"socket 0x(?P<id>[0-9a-f]{8})"


@dataclass
class Refused:
    """A refused call, and how many lines it has."""

    caller: Caller
    call: Call
    verdict: Verdict
    lines: int = 0

    @property
    def most(self) -> int:
        """The most lines that it may have: one for each conclusion that was sent."""
        return self.caller.handshakes[packets.CONCLUSION]

    @property
    def reason(self) -> tuple[str, str, str]:
        """Its code, the name that it requested, and its cause: refusals of one address with the same ones are told in one line and counts."""
        return str(self.verdict.code), self.call.name, self.verdict.cause


@dataclass
class Session:
    """A session: its caller, the index and the keys of its route, whether its caller ended it, whether it was opened while its route closed,
    and the packets that its caller sent, if all of them were counted here."""

    caller: Caller
    call: Call
    index: int
    callers: str
    is_transit: bool = False
    is_over: bool = False
    sent: int | None = 0
    lines: list[str] = field(default_factory=list)

    @property
    def role(self) -> str:
        return ROLES[self.call.role]

    @property
    def latency(self) -> str | None:
        """The latency of its opening's line; buffer mode has none."""
        return str(self.caller.delays()[0]) if self.call.mode == "live" else None

    def reasons(self, is_closing: bool) -> set[str]:
        """The reasons for which it may have ended, if its route closes or doesn't."""
        is_libsrt = self.callers == "libsrt"
        found = {SHUTDOWN, SLOT} if self.is_over else set()
        if is_closing and (not self.is_over or is_libsrt or self.is_transit):
            found.add(CLOSED)
        if is_libsrt:
            found |= {NOT_ALL, STOPS} if self.call.role == "publish" else {AT_END}
        return found


class Journal:
    """What the callers of a gateway did, and the lines that the log has of it."""

    def __init__(self, names: list[str]) -> None:
        self.refused: list[Refused] = []
        # How often refusals were told as repeats, by their reason.
        self.again: Counter[tuple[str, str, str]] = Counter()
        self.sessions: dict[int, Session] = {}
        self.indexes = {name: index for index, name in enumerate(names)}  # Of the routes that are open.
        self.closing: set[int] = set()
        self.unseen: Counter[str] = Counter()
        self.limits: dict[str, list[int]] = {}
        self.reported = 0  # How many refusals have lines, from the first on.
        self.slow = ""  # What happened that makes the comparison worthless.

    # What callers do.

    def open(self, caller: Caller, call: Call, keys: Table, is_transit: bool = False) -> Session:
        """A call got a session."""
        self.sessions[caller.peer_id] = Session(caller, call, (caller.peer_id >> 20) - 1, keys["callers"], is_transit)
        return self.sessions[caller.peer_id]

    def refuse(self, caller: Caller, call: Call, verdict: Verdict) -> None:
        self.refused.append(Refused(caller, call, verdict))

    def causes(self, caller: Caller, code: int, name: str) -> set[str]:
        """The causes for which callers of this address were refused with this code and name."""
        return {it.verdict.cause for it in self.refused if (it.caller.here[0], it.verdict.code, it.call.name) == (caller.here[0], code, name)}

    def end(self, caller: Caller) -> None:
        """A caller ends its session."""
        self.sessions[caller.peer_id].is_over = True

    def send(self, caller: Caller, count: int) -> None:
        """A caller sends so many packets, each once."""
        session = self.sessions[caller.peer_id]
        session.sent = None if session.sent is None else session.sent + count

    def open_at(self, index: int) -> set[tuple[str, str, str]]:
        """The role, the peer and the socket ID of each session that is open at the route with this index."""
        return {(it.role, peer_of(it.caller), f"{it.caller.peer_id:08x}") for it in self.sessions.values() if it.index == index and not it.is_over}

    # What the log has. Each method takes a line of a form, and returns what is wrong with it.

    def take(self, texts: list[str]) -> Iterator[str]:
        """What is wrong with these lines, which are the next ones."""
        for text in texts:
            found = next(((method, it) for form, method in FORMS if (it := re.fullmatch(form, text))), None)
            wrong = found[0](self, found[1]) if found else "nothing happened that has such a line"
            if wrong:
                yield f"{text!r}: {wrong}"

    def slowness(self, found: re.Match[str]) -> str:
        self.slow = self.slow or next(why for form, why in SLOW.items() if re.fullmatch(form, found[0]))
        return ""

    def nothing(self, _: re.Match[str]) -> str:
        return ""

    def closed_route(self, found: re.Match[str]) -> str:
        if found["name"] not in self.indexes:
            return "no such route is open"
        self.closing.add(self.indexes.pop(found["name"]))
        return ""

    def opened_route(self, found: re.Match[str]) -> str:
        if found["name"] in self.indexes:
            return "a route of this name is open"
        self.indexes[found["name"]] = int(found["index"])
        return ""

    def refusal(self, found: re.Match[str]) -> str:
        # A port may have been another caller's before.
        numbers = [at for at, it in enumerate(self.refused) if peer_of(it.caller) == found["peer"]]
        if not numbers:
            return "no such caller was refused"
        number = next((it for it in numbers if it >= self.reported), numbers[-1])
        one = self.refused[number]
        if (found["code"], found["asked"] or "", found["cause"] or "") != one.reason:
            return f"it was refused with {one.reason}"
        one.lines += 1
        if one.lines == 1 and number < self.reported:
            return f"{self.refused[self.reported - 1].call}, which was refused later, has its line already"
        self.reported = max(self.reported, number + 1)
        return f"it has {one.lines} such lines, and sent {one.most} conclusions" if one.lines > one.most else ""

    def refused_again(self, found: re.Match[str]) -> str:
        reason = (found["code"], found["asked"] or "", found["cause"] or "")
        if reason not in {it.reason for it in self.refused if it.caller.here[0] == found["ip"]}:
            return "no such caller was refused"
        self.again[reason] += int(found["count"])
        return ""

    def session_of(self, found: re.Match[str]) -> tuple[Session | None, str]:
        """The session that a line names, and what the line has wrong of it."""
        one = self.sessions.get(int(found["id"], 16))
        if not one:
            return None, "no session has this socket"
        wanted = (one.call.name, one.role, peer_of(one.caller))
        its = (found["name"], found["role"], found["peer"])
        return one, "" if its == wanted else f"the session is {wanted}"

    def opened(self, found: re.Match[str]) -> str:
        one, wrong = self.session_of(found)
        if wrong or not one:
            return wrong
        if one.lines:
            return f"it has lines: {one.lines}"
        one.lines.append("opened")
        if found["latency"] != one.latency:
            return f"the latency is {one.latency} ms"
        others = [it for it in self.sessions.values() if it.index == one.index and it.call.role == "publish" and it is not one]
        return "no other publisher was there" if found["standby"] and (one.role != "publisher" or not others) else ""

    def ended(self, found: re.Match[str]) -> str:
        one, wrong = self.session_of(found)
        if wrong or not one:
            return wrong
        if one.lines[:1] != ["opened"] or "ended" in one.lines:
            return f"it has the lines {one.lines}"
        one.lines.append("ended")
        reasons = one.reasons(one.index in self.closing)
        if found["reason"] not in reasons:
            return f"it can have ended for {sorted(reasons)}"
        is_counted = one.role == "publisher" and one.sent is not None and found["reason"] in (SHUTDOWN, CLOSED)
        return f"{one.sent} packets were sent" if is_counted and int(found["packets"]) != one.sent else ""

    def between(self, found: re.Match[str]) -> str:
        """A line about a publisher's session that is open."""
        one = self.sessions.get(int(found["id"], 16))
        if not one or one.role != "publisher" or one.call.name != found["name"]:
            return "no publisher has this socket"
        return f"it has the lines {one.lines}" if one.lines[:1] != ["opened"] or "ended" in one.lines else ""

    def passed(self, found: re.Match[str]) -> str:
        self.unseen[found["name"]] += int(found["count"])
        return ""

    def limited(self, found: re.Match[str]) -> str:
        sums = self.limits.setdefault(found["name"], [0, 0, 0])
        counts = [int(it) for it in found.groups()[1:]]
        self.limits[found["name"]] = [one + more for one, more in zip(sums, counts)]
        return "" if counts[1] or counts[2] else "neither limit refused a caller"

    # The end.

    def missing(self) -> Iterator[str]:
        """What the log lacks at its end."""
        for reason in {it.reason for it in self.refused}:
            those = [it for it in self.refused if it.reason == reason]
            told, most = sum(it.lines for it in those) + self.again[reason], sum(it.most for it in those)
            if not len(those) <= told <= most:
                yield f"the log has {told} refusals with {reason}, and not {len(those)} to {most}"
        half = [it for it in self.sessions.values() if it.lines and it.lines[-1] != "ended"]
        yield from (f"of the session of {it.call} the log has {it.lines}" for it in half)
        without = Counter(it.call.name for it in self.sessions.values() if not it.lines)
        for name in without.keys() | self.unseen.keys():
            if without[name] != self.unseen[name]:
                yield f"{without[name]} sessions of {name} have no lines, and the log has {self.unseen[name]} as unseen"
        yield from self.wrong_limits()

    def wrong_limits(self) -> Iterator[str]:
        """The sums of what limits refused that the log has in another way."""
        for name in {it.call.name for it in self.refused} | self.limits.keys():
            for at, member in enumerate(LIMITS):
                those = [it for it in self.refused if it.call.name == name and member in it.verdict.counts]
                least, most, found = len(those) if at else 0, sum(it.most for it in those), self.limits.get(name, [0, 0, 0])[at]
                if not least <= found <= most:
                    yield f"{name}: the log has {found} of {member}, and not {least} to {most}"


Method = Callable[[Journal, "re.Match[str]"], str]
FORMS: tuple[tuple[str, Method], ...] = (
    *((it, Journal.slowness) for it in SLOW),
    (r'(?P<peer>\S+) refused, (?P<code>\d+) \w+(?:, asked for "(?P<asked>[^"]*)")?(?:, (?P<cause>.+))?', Journal.refusal),
    (r'(?P<ip>\S+) refused (?P<count>\d+) more times, (?P<code>\d+) \w+(?:, asked for "(?P<asked>[^"]*)")?(?:, (?P<cause>.+))?', Journal.refused_again),
    (rf"{OF_SESSION}opened(?P<standby> as standby)?, {SOCKET}(?:, latency (?P<latency>\d+) ms)?", Journal.opened),
    (rf"{OF_SESSION}ended, {SOCKET}, (?P<reason>.+), after \d+ ms, (?P<packets>\d+) packets, \d+ bytes, \d+ lost, \d+ resent(?:, clock drift .+)?",
     Journal.ended),
    (rf"{OF_SESSION}(?:took over|fills its window and waits, buffer is too small|sends packets that arrive too late), {SOCKET}", Journal.between),
    (r"(?P<name>\S+): (?P<count>\d+) sessions opened and ended unseen", Journal.passed),
    (r"(?P<name>\S+): refused by its limits, 1003 RESOURCE: (\d+) no free session, (\d+) reserved, (\d+) sessions_per_address", Journal.limited),
    (r"(?P<name>\S+): closed, .*", Journal.closed_route),
    (r"(?P<name>\S+): opened with index (?P<index>\d+), .*", Journal.opened_route),
    (rf"serving at .*|{UNBLOCKED}|warning: .*|configuration .*|\d+ of 511 indexes .*|stopping, by a signal|stopped", Journal.nothing),
)
