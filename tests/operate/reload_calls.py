"""Callers from inside and outside of the lists, with and without keys, to a gateway whose configuration's file changes: each has to be
admitted or refused as the model computes it."""
from __future__ import annotations

import time
from typing import Callable, NamedTuple

import packets
import reload_files as files
from caller import Caller, Refused, Subscriber
from lines import refused_line
from reload_log import ROLES
from reload_model import ADMITTED, DEFAULTS, UNKNOWN, Call, Route, Verdict
from reload_seen import SECONDS, Compared, Plan

LINES = 35  # Lines of a second to which one can be added. Of more than 50 the log leaves some out, and the line waited for may be one.
FILL = 7  # Calls to a route whose sessions stay open, so that its limits are met.


class Guest(Caller):
    """A publisher that sends no data, and stays."""

    def rest(self):
        return 0.05


class GuestPlayer(Subscriber):
    """A subscriber that stays."""

    def rest(self):
        return 0.05


class Stay(NamedTuple):
    """A session that stays open from change to change, and its route."""

    caller: Caller
    call: Call
    route: Route


def index_of(caller: Caller) -> int:
    """The index of the route that a session is at, by its socket ID."""
    return (caller.peer_id >> 20) - 1


def calls_to(route: Route) -> list[Call]:
    """Calls to a route from each address in both roles, with its key, another one and none, and one by a caller of the other mode."""
    mode, other = route.keys["mode"], "buffer" if route.keys["mode"] == "live" else "live"
    found = []
    for role in ROLES:
        keys = {route.keys[f"{role}_key"], files.KEYS[0], files.KEYS[1], None}
        found += [Call(route.name, role, source, key, mode) for source in files.ADDRESSES for key in sorted(keys, key=str)]
        found += [Call(route.name, role, source, route.keys[f"{role}_key"], other) for source in files.ADDRESSES]
    return found


class Called(Compared):
    """A gateway that is called. `stays` are the sessions that are open from change to change."""

    def __init__(self, plan: Plan, number: int) -> None:
        super().__init__(plan, number)
        self.stays: list[Stay] = []

    def caller(self, call: Call, kind: Callable[..., Caller] = Caller) -> Caller:
        return kind(self.run.address, call.stream_id, mode=call.mode, receiver_ms=0, sender_ms=0, source=call.source)

    def code_of(self, caller: Caller, call: Call) -> int:
        """Calls. Returns the code of its refusal, or 0 if it has a session, perhaps at a route that closes."""
        try:
            caller.call(SECONDS)
        except Refused as refused:
            caller.socket.close()
            return refused.code
        index, route = index_of(caller), self.model.route(call.name)
        keys = next((it.keys for it in (*self.model.routes, *self.model.closed) if it.index == index), DEFAULTS)
        self.journal.open(caller, call, keys, not route or route.index != index)
        return 0

    def close(self, caller: Caller) -> None:
        """Ends a caller's session."""
        self.journal.end(caller)
        caller.close()

    def cause_of(self, caller: Caller, code: int, call: Call, first: int, wanted: str = UNKNOWN.cause) -> str:
        """The cause that the log has of a refusal. A repeat of an earlier one may be counted, and then has no line: its cause is the wanted one,
        if an earlier one had it, or that of an earlier one."""
        form = refused_line(code, caller, call.name) + "(?:, (.+))?"
        before = self.journal.causes(caller, code, call.name)
        if not before:
            return self.run.line(form, SECONDS, first)[1][1] or ""
        until = time.monotonic() + 1.0
        while not (found := self.run.find(form, first)) and time.monotonic() < until:
            time.sleep(0.01)
        return (found[1][1] or "") if found else wanted if wanted in before else min(before)

    def note(self, call: Call, verdict: Verdict, route: Route | None, caller: Caller) -> None:
        self.model.note(verdict, route, caller.handshakes[packets.CONCLUSION])
        if verdict.code:
            self.journal.refuse(caller, call, verdict)
        self.tally.calls[f"{verdict.code} {verdict.cause}".strip()] += 1

    def try_call(self, call: Call, kind: Callable[..., Caller] = Caller) -> Caller | None:
        """Calls once, and expects what the model has for it. Returns the caller if its session is open."""
        self.pace(LINES)
        self.run.pace_refusals()
        verdict, route, first = self.model.verdict(call), self.model.route(call.name), len(self.run.lines)
        caller = self.caller(call, kind)
        code = self.code_of(caller, call)
        if verdict.code and not code:
            self.raise_if_slow(2)  # A session that was silent leaves its place to others.
        self.expect(code == verdict.code, f"{call} gets {code or 'a session'}, and not {verdict}; {route}")
        cause = self.cause_of(caller, code, call, first, verdict.cause) if code else ""
        self.note(call, verdict, route, caller)
        if code:
            self.expect(cause == verdict.cause, f"the cause for {call} is {cause!r}, and not {verdict}")
            return None
        assert route
        found = (index_of(caller), *caller.delays(), caller.answer.window)
        wanted = (route.index, route.latency_ms, route.latency_ms, route.keys["buffer"])
        self.expect(found == wanted, f"{call} is at the route of index, delays and buffer {found}, and not {wanted}")
        route.held.append((call.role, call.source))
        return caller

    def end(self, caller: Caller, call: Call, route: Route) -> None:
        self.close(caller)
        route.held.remove((call.role, call.source))

    # Routes that open and close.

    def arrive(self, call: Call, route: Route) -> None:
        """Calls until the call is at a route that has just opened: until the one before has closed, its name is that one's or nobody's."""
        until = time.monotonic() + SECONDS
        while True:
            self.pace(LINES)
            self.run.pace_refusals()
            first, caller = len(self.run.lines), self.caller(call)
            code = self.code_of(caller, call)
            if not code and index_of(caller) == route.index:
                self.model.note(ADMITTED, route, 1)
                self.close(caller)
                return
            self.transit(caller, code, call, first)
            self.expect(time.monotonic() < until, f"{call} gets {code or index_of(caller)}, and doesn't arrive at {route}")

    def leave(self, call: Call) -> None:
        """Calls until no route has the name, after one has closed."""
        until = time.monotonic() + SECONDS
        while True:
            self.pace(LINES)
            self.run.pace_refusals()
            first, caller = len(self.run.lines), self.caller(call)
            code = self.code_of(caller, call)
            if self.transit(caller, code, call, first) == UNKNOWN.cause:
                return
            self.expect(time.monotonic() < until, f"{call} gets {code or index_of(caller)}, and the route is closed")

    def transit(self, caller: Caller, code: int, call: Call, first: int) -> str:
        """Counts a call that met a route that closes, or none. Returns the cause of its refusal."""
        time.sleep(0.02)
        if not code:
            self.close(caller)
            return ""
        cause = self.cause_of(caller, code, call, first)
        before = next((it for it in self.model.closed if it.name == call.name), None)
        verdict = UNKNOWN if cause == UNKNOWN.cause or before is None else before.admits(call)
        self.expect((verdict.code, verdict.cause) == (code, cause), f"{call} gets {code} {cause}, and {before} has closed")
        self.note(call, verdict, before, caller)
        return cause

    @staticmethod
    def is_found(route: Route) -> bool:
        """Whether a session was opened at a route, so that it is known to have its name."""
        return route.counts.values.get(ADMITTED.counts[0], [0])[0] > 0

    # Routes that are open.

    def send_some(self, caller: Caller, call: Call, route: Route) -> None:
        """Sends a few packets, if the session ends at its SHUTDOWN whatever was delivered."""
        if call.role == "publish" and route.keys["callers"] == "draft":
            count = self.chance.randint(1, 5)
            for at in range(count):
                caller.send(packets.data((caller.initial + at) % packets.NUMBERS, 1 + at, caller.stamp(), caller.peer_id, bytes(64)))
            route.received += count
            self.journal.send(caller, count)

    def sample(self, route: Route, is_new: bool) -> None:
        """Calls a route in ways of which each has another outcome, those that it admits first."""
        calls = calls_to(route)
        self.chance.shuffle(calls)
        chosen: dict[tuple[Verdict, str], Call] = {}
        for call in calls:
            chosen.setdefault((route.admits(call), call.role), call)
        admitted = [call for (verdict, _), call in chosen.items() if verdict.code == 0]
        others = [call for (verdict, _), call in chosen.items() if verdict.code]
        if is_new and not self.new_is_there(route, admitted):
            return
        for call in admitted:
            caller = self.try_call(call)
            if caller:
                self.send_some(caller, call, route)
                self.end(caller, call, route)
        for call in others[:3]:
            self.try_call(call)

    def new_is_there(self, route: Route, admitted: list[Call]) -> bool:
        """Waits until a route that opened is found, if it can be found out by a call."""
        if admitted:
            self.arrive(admitted[0], route)
        return bool(admitted)

    def fill(self, route: Route) -> None:
        """Opens sessions until the route's limits have refused some. Ends them, the subscribers first and then the publisher that stands
        by, so that none takes over."""
        calls = [it for it in calls_to(route) if not route.admits(it).code]
        opened: list[tuple[Caller, Call]] = []
        for _ in range(FILL if calls else 0):
            for caller, _ in opened:
                caller.send_control(packets.KEEPALIVE)  # A repeated refusal is waited for, and five silent seconds end a session.
            call = self.chance.choice(calls)
            caller = self.try_call(call)
            if caller:
                opened.append((caller, call))
        for caller, call in sorted(reversed(opened), key=lambda it: it[1].role == "publish"):
            self.end(caller, call, route)
        if route.keys["takeover_ms"]:
            route.counts.add("take_overs_total", 0, 1)  # The first publisher may have been silent for so long.

    def stay(self, route: Route) -> None:
        """Opens a session that stays, unless the route may end it at the end of a file."""
        roles = ("request",) if route.keys["takeover_ms"] else tuple(ROLES)  # A publisher without data would let others take over.
        calls = [it for it in calls_to(route) if it.role in roles and not route.admits(it).code]
        if not calls or (route.keys["mode"], route.keys["callers"]) == ("buffer", "libsrt"):
            return
        call = self.chance.choice(calls)
        caller = self.try_call(call, GuestPlayer if call.role == "request" else Guest)
        if caller:
            caller.start()
            self.stays.append(Stay(caller, call, route))

    def expect_stays(self) -> None:
        """Expects that sessions are open while their route is, and that those of routes that closed got a SHUTDOWN."""
        closed = [it for it in self.stays if it.route not in self.model.routes]
        for it in closed:
            self.expect(it.caller.shut.wait(SECONDS), f"{it.call} got no SHUTDOWN of {it.route.name}")
            it.caller.stop()
            form = rf"\S+: {ROLES[it.call.role]} \S+ ended, socket 0x{it.caller.peer_id:08x}, its route was closed, after .*"
            self.run.line(form, SECONDS)
        self.stays = [it for it in self.stays if it not in closed]
        for it in self.stays:
            if it.caller.shut.is_set():
                self.raise_if_slow(2)
            self.expect(not it.caller.shut.is_set(), f"{it.call} got a SHUTDOWN, and {it.route.name} is the same")
