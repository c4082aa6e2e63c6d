"""What the keys `takeover_ms`, `callers` and `resend_percent` of a route do, which no answer to a caller has: the routes that a change opens
have to have those of the file."""
from __future__ import annotations

import copy
import time
from typing import Callable

import packets
import reload_files as files
from caller import Caller
from lines import ended_line
from reload_calls import Called, calls_to
from reload_model import DEFAULTS, Call, Route
from reload_seen import SECONDS, STEADY, Stalled

SILENT_MS = 700  # How long a publisher is silent, so that another one takes over if takeover_ms is less.
AT_ONCE = (100,)  # Values of takeover_ms that are too short for what is expected on a busy machine.
DRAINING = (1000, 2000)  # Latencies of the routes where a publisher's last packet is waited for,
RESENDING = (20, 21, 80, 120, 400)  # and of those where a packet is requested again before it is too old.
NAKS = 200
QUICK = 0.4  # The seconds in which a publisher isn't silent for any other value.
MOST_PACKETS = 30  # They find room in any window.


class Probed(Called):
    """A gateway whose routes are called in all ways."""

    def first_of(self, route: Route, role: str) -> Call | None:
        """A call in this role that opens a session now; None if there is none."""
        calls = [it for it in calls_to(route) if it.role == role and not route.admits(it).code]
        return self.chance.choice(calls) if calls else None

    def send_one(self, publisher: Caller, route: Route) -> None:
        publisher.send(packets.data(publisher.initial, 1, publisher.stamp(), publisher.peer_id, bytes(64)))
        route.received += 1
        self.journal.send(publisher, 1)

    def is_for_two(self, route: Route, call: Call) -> bool:
        """Whether two publishers may call a live route so, whose sessions end at their SHUTDOWN."""
        first = copy.deepcopy(route)
        first.held.append((call.role, call.source))
        is_live_draft = (route.keys["mode"], route.keys["callers"]) == ("live", "draft")
        return is_live_draft and not any(role == "publish" for role, _ in route.held) and first.admits(call).code == 0

    def silence(self, route: Route) -> None:
        """A publisher is silent while another one sends: that one takes over if the route has a short time for it."""
        calls = [it for it in calls_to(route) if it.role == "publish" and not route.admits(it).code and self.is_for_two(route, it)]
        if not calls or route.keys["takeover_ms"] in AT_ONCE:
            return
        call, began = self.chance.choice(calls), time.monotonic()
        first, second = (self.try_call(call) for _ in range(2))
        assert first and second
        takes_over = (route.keys["takeover_ms"] or SILENT_MS) < SILENT_MS
        is_quick = time.monotonic() - began < QUICK and self.speak(route, first, {first: 1, second: 0}, 0)
        if is_quick:
            self.speak(route, second, {first: int(not takes_over), second: int(takes_over)}, SILENT_MS)
        self.tally.calls["take-over" if takes_over else "no take-over"] += 1
        # On a machine that is too slow the first publisher is silent, too.
        route.counts.add("take_overs_total", int(is_quick and takes_over), int(takes_over) if is_quick else 2)
        for it in (first, second) if takes_over else (second, first):
            self.end(it, call, route)

    def speak(self, route: Route, publisher: Caller, active: dict[Caller, int], least_ms: int) -> bool:
        """Sends packets of a publisher, which find room in any window, for so long at least, until the page has which publishers are active.
        The page may lag by half a second, in which it has fewer packets. Returns whether the packets followed each other quickly."""
        began = last = time.monotonic()
        count, longest, wanted = 0, 0.0, {f"{it.peer_id:08x}": value for it, value in active.items()}
        while True:
            spent = time.monotonic() - began
            shown = next(it for it in self.page.state()["routes"] if it["name"] == route.name)
            found = {it["session"]: it["active"] for it in shown["sessions"] if it["session"] in wanted}
            is_whole = count and shown["publishers"]["received_packets_total"] == route.received + count
            is_enough = found == wanted and 1000 * spent >= least_ms
            if is_whole and (is_enough or count == MOST_PACKETS):
                break
            if spent > 4:
                raise Stalled("the page was slow")  # A session that is silent for five seconds ends.
            if count < MOST_PACKETS and not (count and is_enough):
                number = (publisher.initial + count) % packets.NUMBERS
                publisher.send(packets.data(number, 1 + count, publisher.stamp(), publisher.peer_id, bytes(64)))
                count, longest, last = count + 1, max(longest, time.monotonic() - last), time.monotonic()
            time.sleep(0.04)
        route.received += count
        self.journal.send(publisher, count)
        is_quick = longest < QUICK
        self.expect(found == wanted or not is_quick and not least_ms, f"{route.name}: active are {found}, and not {wanted}; {route}")
        return is_quick

    def drain(self, route: Route) -> None:
        """A publisher sends a packet and a SHUTDOWN: its session ends at once, or, with callers = "libsrt", once the packet is due."""
        call = self.first_of(route, "publish")
        if not call or route.latency_ms not in DRAINING or any(role == "publish" for role, _ in route.held):
            return
        began, caller = time.monotonic(), self.try_call(call)
        assert caller
        self.send_one(caller, route)
        self.end(caller, call, route)
        is_quick = time.monotonic() - began < QUICK / 2
        found = self.run.line(ended_line(route.name, "publisher", caller, "its peer sent a SHUTDOWN"), SECONDS)[1]
        drains = route.keys["callers"] == "libsrt"
        is_right = int(found["after"]) >= route.latency_ms if drains else int(found["after"]) < route.latency_ms or not is_quick
        self.expect(is_right, f"{found[0]}; {route}")
        self.tally.calls["drained" if drains else "not drained"] += 1

    def resend(self, route: Route) -> None:
        """A subscriber requests a packet again and again, and gets no more than `resend_percent` allows."""
        publish, request = self.first_of(route, "publish"), self.first_of(route, "request")
        if not publish or not request or route.latency_ms not in RESENDING or any(role == "publish" for role, _ in route.held):
            return
        after = copy.deepcopy(route)
        after.held.append(("publish", publish.source))
        if after.admits(request).code:
            return
        publisher, subscriber = self.try_call(publish), self.try_call(request)
        assert publisher and subscriber
        self.send_one(publisher, route)
        limit, began = route.keys["resend_percent"], time.monotonic()
        again = self.requested(subscriber)
        spent = time.monotonic() - began
        most = 64 + 10 + 2 + spent / 0.02
        if limit:
            self.expect(again <= most, f"{again} packets were sent again in {spent:.3f} s; {route}")
        elif again <= most:
            self.expect(spent > QUICK + route.latency_ms / 1000, f"only {again} packets were sent again in {spent:.3f} s; {route}")
        self.tally.calls["resends with a limit" if limit else "resends without a limit"] += 1
        self.end(subscriber, request, route)
        self.end(publisher, publish, route)

    def requested(self, subscriber: Caller) -> int:
        """Requests the first packet NAKS times once it has arrived, and returns how often it was sent again."""
        until, again, nak = time.monotonic() + SECONDS, 0, packets.loss_list([(subscriber.initial, subscriber.initial)])
        while not isinstance(subscriber.receive(0.1), packets.Data):
            self.expect(time.monotonic() < until, "a packet doesn't arrive")
        for at in range(NAKS):
            subscriber.send_control(packets.NAK, 0, nak)
            packet = subscriber.receive(0.002 if at < NAKS - 1 else 0.05)
            while packet is not None:
                again += isinstance(packet, packets.Data) and bool(packet.word & packets.AGAIN)
                packet = subscriber.receive(0)
        return again

    # All calls after a change.

    def trials(self) -> tuple[tuple[Callable[[Route], None], str, tuple[int, ...]], ...]:
        """What shows the value of a key, on routes of which latencies."""
        return (self.silence, "takeover_ms", files.NUMBERS["latency_ms"]), (self.drain, "callers", DRAINING), (self.resend, "resend_percent", RESENDING)

    def call_all(self) -> None:
        """Calls the routes that opened and closed with the last change, and some others."""
        for route in self.model.closed:
            if not self.model.route(route.name):
                self.leave(self.chance.choice(calls_to(route)))
        opened = self.model.opened
        for route in opened:
            self.sample(route, True)
        others = [it for it in self.model.routes if it not in opened and it.name != STEADY]
        for route in self.chance.sample(others, min(len(others), 1 if opened else 2)):
            self.sample(route, False)
        if self.chance.random() < 0.25:
            self.sample(self.chance.choice([it for it in self.model.routes if it.name == STEADY]), False)
        movable = [it for it in self.model.routes if it.name != STEADY and (it not in opened or self.is_found(it))]
        if movable and self.chance.random() < 0.3:
            self.fill(self.chance.choice(movable))
        for trial, key, latencies in self.trials():
            fitting = [it for it in movable if it.latency_ms in latencies]
            having = [it for it in fitting if it.keys[key] != DEFAULTS[key]]
            if fitting and self.chance.random() < 0.4:
                trial(self.chance.choice(having if having and self.chance.random() < 0.5 else fitting))
        if movable and len(self.stays) < 2 and self.chance.random() < 0.5:
            self.stay(self.chance.choice(movable))
