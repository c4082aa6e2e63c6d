"""The numbers of the status page: each count against callers that know it, in the metrics and in the JSON."""
from __future__ import annotations

import random
import re
import subprocess
import threading
import time
from contextlib import contextmanager
from typing import Any, Iterator, NamedTuple

import packets
from caller import SECOND, Caller, Publisher, Subscriber, endless, now, payload, start_all, stream
from cases import case
from expecting import expect, expect_refusal, expect_run, publish
from lines import NAMES, REFUSED_BLOCKS, TROUBLES, peer_of, took_over_line, trouble_line
from page import Metrics, Page
from proxy import Proxy
from running import Run, Shown, Skipped, expect_polite, files, flooded, live
from status_numbers import CODES, NAMES_OF, differing
from tracing import Held
from witness import Witness

LOOK = 1.5  # A scrape shows what happened up to so many seconds before it, or later.
BAD = dict(loss=0.05, double=0.1, late=0.1)
PROMTOOL = "promtool"
Counts = dict[str, int]


# What the page shows.


class Snapshot(NamedTuple):
    """What the page showed at a moment: the metrics and the JSON, each with when it was asked for."""

    asked: int
    metrics: Metrics
    asked_state: int
    state: dict[str, Any]


def snapshot(page: Page) -> Snapshot:
    asked, metrics = now(), page.metrics()
    return Snapshot(asked, metrics, now(), page.state())


def totals_in_metrics(metrics: Metrics, route: str, role: str) -> Counts:
    """What the metrics say that all sessions of a role counted on a route."""
    return {it: int(metrics.total(f"srtgw_route_{it}_total", route=route, role=role)) for it in NAMES_OF[role]}


def session_in_metrics(metrics: Metrics, route: str, role: str, caller: Caller) -> Counts:
    """What the metrics say that a caller's session counted."""
    labels = dict(route=route, role=role, session=f"{caller.peer_id:08x}")
    return {it: int(metrics.total(f"srtgw_session_{it}_total", **labels)) for it in NAMES_OF[role]}


def route_in(state: dict[str, Any], name: str) -> dict[str, Any]:
    found = [it for it in state["routes"] if it["name"] == name]
    expect(len(found) == 1, f"{len(found)} routes of the JSON are {name}")
    return found[0]


def totals_in_state(state: dict[str, Any], route: str, role: str) -> Counts:
    """The same of the JSON."""
    return counts_of(route_in(state, route)[f"{role}s"])


def session_in(state: dict[str, Any], route: str, caller: Caller) -> dict[str, Any]:
    """The session of a caller in the JSON."""
    found = [it for it in route_in(state, route)["sessions"] if it["session"] == f"{caller.peer_id:08x}"]
    expect(len(found) == 1, f"{len(found)} sessions are {caller.peer_id:08x}: {route_in(state, route)['sessions']}")
    return found[0]


def counts_of(session: dict[str, Any]) -> Counts:
    """What a session of the JSON counts, or all of a role."""
    return {it: session[f"{it}_total"] for it in NAMES_OF[session["role"]]}


# Counts over a bad line.


def added(*several: Counts) -> Counts:
    """The sums of counts with the same names."""
    return {name: sum(it[name] for it in several) for name in several[0]}


class CountedLine:
    """A line between one caller and the gateway that loses, doubles and reorders, and one who counts what goes over it."""

    def __init__(self, run: Run, seed: int) -> None:
        self.witness = Witness()
        self.proxy = Proxy(run.address, seed, seen=self.witness)

    def turn(self, bad: bool) -> None:
        """Begins or ends its losses."""
        for name, chance in BAD.items():
            setattr(self.proxy, name, chance if bad else 0.0)

    def counts(self, role: str, moment: int | None = None) -> Counts:
        """What a session of this role has to count up to a moment, or up to now: all that can be seen from the line."""
        return self.witness.published(moment) if role == "publisher" else self.witness.subscribed(moment)


def wrong_of_bounds(role: str, found: Counts, lines: list[CountedLine], asked: int) -> list[str]:
    """Which counts are less than what had happened LOOK before a scrape was asked for, or more than what has happened now."""
    least = added(*(it.counts(role, asked - int(LOOK * SECOND)) for it in lines))
    most = added(*(it.counts(role) for it in lines))
    return [f"{role}, {name}: {least[name]} <= {found[name]} <= {most[name]}" for name in least
            if not least[name] <= found[name] <= most[name]]


def expect_between(page: Page, route: str, lines: dict[str, list[CountedLine]]) -> None:
    """Expects that each count of a scrape is one that was right within LOOK before it, or right after."""
    seen = snapshot(page)
    time.sleep(0.3)  # What the gateway had sent by then has come.
    wrong = []
    for role, its in lines.items():
        wrong += wrong_of_bounds(role, totals_in_metrics(seen.metrics, route, role), its, seen.asked)
        wrong += wrong_of_bounds(role, totals_in_state(seen.state, route, role), its, seen.asked_state)
    expect(not wrong, f"while the stream flows: {'; '.join(wrong)}")


def expect_counts(found: Counts, wanted: Counts, what: str) -> None:
    wrong = {name: (found.get(name), right) for name, right in wanted.items() if found.get(name) != right}
    expect(not wrong, f"{what}: shown and right are {wrong}")


def is_quiet(lines: dict[str, list[CountedLine]]) -> bool:
    """Whether nothing that is counted went over the lines for LOOK."""
    before = {role: [it.counts(role) for it in its] for role, its in lines.items()}
    time.sleep(LOOK)
    return before == {role: [it.counts(role) for it in its] for role, its in lines.items()}


def expect_shown(seen: Snapshot, route: str, wanted: dict[str, list[tuple[Caller, Counts]]]) -> None:
    """Expects these counts of each caller and their sums of the route, in the metrics and in the JSON."""
    for role, its in wanted.items():
        both = added(*(counts for _, counts in its))
        expect_counts(totals_in_metrics(seen.metrics, route, role), both, f"the metrics of the {role}s")
        expect_counts(totals_in_state(seen.state, route, role), both, f"the JSON of all {role}s")
        for caller, counts in its:
            expect_counts(session_in_metrics(seen.metrics, route, role, caller), counts, f"the metrics of a {role}")
            expect_counts(counts_of(session_in(seen.state, route, caller)), counts, f"the JSON of a {role}")


def counted(count: int, callers: list[Caller], lines: list[CountedLine]) -> dict[str, list[tuple[Caller, Counts]]]:
    """What a publisher and subscribers of a whole stream have to have counted: what they know of themselves, and what went over
    their lines. Raises Wrong if a line was so good that a count is 0."""
    size = 1316 * count
    of_publisher = {"received_packets": count, "received_bytes": size, "delivered_packets": count, "late_packets": 0, "ahead_packets": 0,
                    "given_up_packets": 0}
    of_subscriber = {"queued_packets": count, "queued_bytes": size, "sent_packets": count, "given_up_packets": 0}
    first, *others = zip(callers, lines)
    found = {"publisher": [(caller, {**line.counts("publisher"), **of_publisher}) for caller, line in [first]],
             "subscriber": [(caller, {**line.counts("subscriber"), **of_subscriber}) for caller, line in others]}
    some = {"publisher": ("repeated_packets", "naks_sent", "reported_lost_packets"), "subscriber": ("resent_packets", "naks_taken")}
    for role, names in some.items():
        for _, counts in found[role]:
            expect(all(counts[it] > 0 for it in names), f"a {role}'s line is too good: {counts}")
    return found


@case("the status page counts what callers count, over lines that lose, double and reorder")
def counts_over_bad_lines():
    count = 1_500
    with Shown([live("studio", latency_ms=500), live("other")], "--no-time") as run:
        run.is_up()
        lines = [CountedLine(run, seed) for seed in (31, 32, 33)]
        by_role = {"publisher": lines[:1], "subscriber": lines[1:]}
        publisher = Publisher(lines[0].proxy.address, publish("studio"), stream(count), 4_000)
        subscribers = [Subscriber(it.proxy.address, "studio") for it in lines[1:]]
        start_all(*subscribers, publisher)
        for it in lines:
            it.turn(bad=True)
        while not publisher.exhausted:
            expect_between(run.page, "studio", by_role)
        expect(publisher.wait_delivered(20) and all(it.wait(10, count) for it in subscribers), "the stream doesn't flow")
        for it in lines:
            it.turn(bad=False)
        expect(is_quiet(by_role), "the lines don't become quiet")
        for index, it in enumerate(subscribers):
            expect_run(it.got, 0, count, f"subscriber {index}")
        wanted, seen = counted(count, [publisher, *subscribers], lines), snapshot(run.page)
        expect_shown(seen, "studio", wanted)
        for role in NAMES_OF:
            expect(not any(totals_in_metrics(seen.metrics, "other", role).values()), "another route counts")
        # The sums stay when the sessions end.
        for it in (publisher, *subscribers):
            it.close()
        time.sleep(LOOK)
        seen = snapshot(run.page)
        expect(route_in(seen.state, "studio")["sessions"] == [], "sessions are shown that ended")
        for role, its in wanted.items():
            expect_counts(totals_in_metrics(seen.metrics, "studio", role), added(*(counts for _, counts in its)), "after the end")
        for it in lines:
            it.proxy.stop()
        expect_polite(run.stop(), ["studio", "other"])


# Counts of callers that do what they shouldn't, or can't do better.


def sends(publisher: Caller, *indexes: int) -> None:
    """Sends data packets with these numbers, counted from the caller's initial one."""
    for index in indexes:
        number = (publisher.initial + index) % packets.NUMBERS
        publisher.send(packets.data(number, 1, publisher.stamp(), publisher.peer_id, payload(index)))


@contextmanager
def alive(*callers: Caller) -> Iterator[None]:
    """Callers that send a KEEPALIVE twice a second while the body runs, and acknowledge nothing."""
    over = threading.Event()

    def keep() -> None:
        while not over.wait(0.5):
            for it in callers:
                it.send_control(packets.KEEPALIVE)

    thread = threading.Thread(target=keep, daemon=True)
    thread.start()
    try:
        yield
    finally:
        over.set()
        thread.join()


def expect_session(run: Shown, route: str, caller: Caller, wanted: Counts) -> None:
    """Expects these counts of the only session of its role on a route."""
    time.sleep(LOOK)
    seen = snapshot(run.page)
    role = session_in(seen.state, route, caller)["role"]
    every = {**dict.fromkeys(NAMES_OF[role], 0), **wanted}
    expect_shown(seen, route, {role: [(caller, every)]})


def expect_told_once(run: Shown, route: str, trouble: str, caller: Caller) -> None:
    """Expects that the log has one line of what is wrong with a session, and none of anything else that is."""
    told = [it for it in run.texts() if any(re.fullmatch(trouble_line(route, its, caller), it) for its in TROUBLES)]
    expect(len(told) == 1 and re.fullmatch(trouble_line(route, trouble, caller), told[0]), f"of what is wrong the log tells {told}")


@case("the status page counts packets that come again, too late, ahead of the window or not at all")
def counts_packets_by_place():
    with Shown([live("studio", latency_ms=400, buffer=190)], "--no-time") as run:
        run.is_up()
        line = CountedLine(run, 41)
        publisher = Publisher(line.proxy.address, publish("studio"), [])
        publisher.call()
        with alive(publisher):
            sends(publisher, 0, 1, 2, 4, 2, 4)  # Number 3 is missing.
            sends(publisher, 1_000)  # It is past the window, whose packets wait for their time.
            time.sleep(1)
            sends(publisher, 3, 0, 2)
            told = {it: line.counts("publisher")[it] for it in ("naks_sent", "reported_lost_packets")}
            expect(told["naks_sent"] > 0, "the missing packet wasn't reported")
            wanted = {"received_packets": 4, "received_bytes": 4 * 1316, "delivered_packets": 4, "repeated_packets": 2, "late_packets": 3,
                      "ahead_packets": 1, "given_up_packets": 1, **told}
            expect_session(run, "studio", publisher, wanted)
        expect_told_once(run, "studio", "late", publisher)
        publisher.close()
        _, found = run.line(r"studio: publisher .* ended, .*, (\d+) packets, (\d+) bytes, (\d+) lost, (\d+) resent", LOOK)
        expect([int(it) for it in found.groups()] == [4, 4 * 1316, 1, 6], f"the log says {found[0]}")
        line.proxy.stop()
        run.stop()


@case("the status page counts data that comes in a subscriber's session")
def counts_misdirected():
    with Shown([live("studio")], "--no-time") as run:
        run.is_up()
        encoder = Subscriber(run.address, "studio")  # It lacks `m=publish`.
        encoder.call()
        sends(encoder, *range(7))
        expect_session(run, "studio", encoder, {"misdirected_packets": 7})
        sends(encoder, 7)
        expect_session(run, "studio", encoder, {"misdirected_packets": 8})
        expect_told_once(run, "studio", "misdirected", encoder)
        encoder.close()
        run.stop()


@case("the status page counts packets that a subscriber never acknowledges")
def counts_given_up():
    count = 50
    with Shown([live("studio")], "--no-time") as run:
        run.is_up()
        line = CountedLine(run, 42)
        publisher, subscriber = Publisher(run.address, publish("studio"), stream(count), 2_000), Subscriber(line.proxy.address, "studio")
        for it in (subscriber, publisher):
            it.call()
        with alive(subscriber):
            publisher.start()
            expect(publisher.wait_delivered(10), "the stream doesn't flow")
            time.sleep(2)  # A packet is kept for a second (section 4.6).
            counts = line.counts("subscriber")
            again = counts["resent_packets"]
            expect(counts["sent_packets"] == count and again > 0, f"it was sent {counts}")
            wanted = {"queued_packets": count, "queued_bytes": 1316 * count, "sent_packets": count, "resent_packets": again,
                      "given_up_packets": count}
            expect_session(run, "studio", subscriber, wanted)
        for it in (publisher, subscriber):
            it.close()
        line.proxy.stop()
        run.stop()


@case("the status page counts Full ACKs of a full window")
def counts_full_windows():
    """The subscriber acknowledges nothing, so that its own buffer fills, and then the publisher's window."""
    buffer = 40
    with Shown([files("files", buffer=buffer)], "--no-time") as run:
        run.is_up()
        line = CountedLine(run, 43)
        publisher = Publisher(line.proxy.address, publish("files"), stream(3 * buffer), 0, mode="buffer", congestion=b"file")
        subscriber = Subscriber(run.address, "files", mode="buffer", congestion=b"file")
        for it in (subscriber, publisher):
            it.call()
        with alive(subscriber):
            publisher.start()
            time.sleep(1)
            sends(publisher, *range(2 * buffer, 2 * buffer + 5))
            time.sleep(0.2)
            expect(is_quiet({"publisher": [line]}), "the publisher's line doesn't become quiet")
            full = line.counts("publisher")["full_window_acks"]
            expect(full > 0, "no Full ACK says that the window is full")
            wanted = {"received_packets": 2 * buffer, "received_bytes": 2 * buffer * 1316, "delivered_packets": buffer, "ahead_packets": 5,
                      "full_window_acks": full}
            expect_session(run, "files", publisher, wanted)
            state = run.page.state()
            of_publisher, of_subscriber = (session_in(state, "files", it) for it in (publisher, subscriber))
            used = (of_publisher["window_used_packets"], of_publisher["window_available_packets"], of_subscriber["free_packets"])
            expect(used == (buffer, 0, 0), f"in use, available and free are {used}")
        expect_told_once(run, "files", "full_window", publisher)
        for it in (publisher, subscriber):
            it.close()
        line.proxy.stop()
        run.stop()


@case("the status page counts take-overs, and shows who stands by")
def counts_take_overs():
    with Shown([live("studio")], "--no-time") as run:
        run.is_up()
        over = threading.Event()
        main, backup = (Publisher(run.address, publish("studio"), endless(over), 5_000) for _ in range(2))
        start_all(main, backup)
        time.sleep(LOOK)
        state = run.page.state()
        active = [session_in(state, "studio", it)["active"] for it in (main, backup)]
        expect(active == [1, 0], f"active are {active}")
        expect(route_in(state, "studio")["take_overs_total"] == 0, "nobody took over yet")
        main.close()
        run.line(took_over_line("studio", backup), LOOK)
        seen = snapshot(run.page)
        expect(session_in(seen.state, "studio", backup)["active"] == 1, "the backup isn't active")
        found = route_in(seen.state, "studio")["take_overs_total"], seen.metrics.total("srtgw_route_take_overs_total", route="studio")
        expect(found == (1, 1), f"take-overs are {found}")
        over.set()
        backup.close()
        run.stop()


@case("the status page counts refusals by their code")
def counts_refusals():
    """Those of the lobby, which knows no route, and those of routes."""
    with Shown([live("studio", sessions=3), files("files")], "--no-time") as run:
        run.is_up()
        held = [*(Publisher(run.address, publish("studio"), []) for _ in range(2)), Subscriber(run.address, "studio")]
        start_all(*held)
        refused = [*[(1002, None, dict(stream_id="nowhere"))] * 3,
                   (1004, None, dict(stream_id="studio", asks=False)),
                   (1008, None, dict(stream_id="studio", version=4)),
                   *((code, None, dict(stream_id="studio", more=more)) for code, more in REFUSED_BLOCKS.items()),
                   (1002, "studio", dict(stream_id=publish("studio"))),
                   *[(1003, "studio", dict(stream_id="studio"))] * 2,
                   (1004, "files", dict(stream_id=publish("files"), mode="buffer", mtu=75)),
                   (1012, "files", dict(stream_id="files"))]
        asked: dict[tuple[int, str | None], int] = {}
        for code, route, words in refused:
            caller = Caller(run.address, **words)
            expect_refusal(code, caller, f"{words}")
            asked[code, route] = asked.get((code, route), 0) + caller.handshakes[packets.CONCLUSION]
        time.sleep(LOOK)
        seen = snapshot(run.page)
        for route in (None, "studio", "files"):
            wanted = {code: asked.get((code, route), 0) for code in CODES}
            family, labels = ("srtgw_route_refusals_total", {"route": route}) if route else ("srtgw_lobby_refusals_total", {})
            place = route_in(seen.state, route) if route else seen.state
            found = ({it: int(seen.metrics.total(family, code=str(it), reason=NAMES[it], **labels)) for it in CODES},
                     {it: place[f"refusals_{NAMES[it]}"] for it in CODES})
            expect(found == (wanted, wanted), f"refused by {route or 'the lobby'} are {wanted}, and shown are {found}")
        for it in held:
            it.close()
        run.stop()


@case("the status page shows the state of each session")
def shows_states():
    count, buffer = 200, 1_024
    with Shown([live("studio", buffer=buffer), files("files")], "--no-time") as run:
        run.is_up()
        publisher = Publisher(run.address, publish("studio"), stream(count), 3_000, sender_ms=300)
        subscriber = Subscriber(run.address, "studio", receiver_ms=250, window=5_000)
        source = Publisher(run.address, publish("files"), [], mode="buffer", congestion=b"file")
        began = time.monotonic()
        start_all(subscriber, publisher, source)
        expect(publisher.wait_delivered(10) and subscriber.wait(5, count), "the stream doesn't flow")
        subscriber.stop()
        stopped = subscriber.sent / SECOND  # The clock of callers is time.monotonic().
        time.sleep(3)
        state, asked = run.page.state(), time.monotonic()
        shown = {it: session_in(state, route, it) for route, it in (("studio", publisher), ("studio", subscriber), ("files", source))}
        for it, session in shown.items():
            expect(session["peer"] == peer_of(it), f"the peer of {peer_of(it)} is {session['peer']}")
            lasted = session["open_seconds"]
            expect(abs(lasted - (asked - began)) <= LOOK, f"open for {asked - began:.1f} s is shown as {lasted} s")
        latencies = [shown[it].get("latency_seconds") for it in (publisher, subscriber, source)]
        expect(latencies == [0.3, 0.25, None], f"the latencies are {latencies}")
        silent = shown[subscriber]["silent_seconds"]
        expect(abs(silent - (asked - stopped)) <= LOOK, f"silent for {asked - stopped:.1f} s is shown as {silent}")
        expect(shown[publisher]["silent_seconds"] <= 1 + LOOK, f"a caller that sends is silent for {shown[publisher]['silent_seconds']} s")
        wanted = {publisher: {"active": 1, "window_used_packets": 0, "window_available_packets": buffer},
                  subscriber: {"free_packets": buffer, "in_flight_packets": 0, "flow_window_packets": 5_000}}
        for it, right in wanted.items():
            found = {name: shown[it][name] for name in right}
            expect(found == right, f"shown is {found}, and right {right}")
        trips = [shown[it].get("round_trip_seconds") for it in (publisher, subscriber, source)]
        expect(None not in trips[:2] and max(trips[:2]) < 0.1 and trips[2] is None, f"round trips over loopback, and one that nobody measured, are {trips}")
        for it in (publisher, subscriber, source):
            it.close()
        run.stop()


@case("the status page counts datagrams that the kernel dropped, and those of strangers")
def counts_drops():
    with Shown([live("studio")], "--no-time") as run:
        run.is_up()
        dropped = flooded(run)
        if not dropped:
            raise Skipped("the kernel drops nothing")
        time.sleep(LOOK)
        metrics, read = run.page.metrics(), 12_000 - dropped
        found = {it: metrics.total(f"srtgw_{it}_datagrams_total") for it in ("kernel_dropped", "poller_read", "poller_dropped")}
        wanted = {"kernel_dropped": dropped, "poller_read": read, "poller_dropped": read}
        expect(found == wanted, f"shown are {found}, and right are {wanted}")
        run.stop()


# Formats.


@case("the status page says the same in its JSON and in its metrics")
def says_the_same():
    with Shown([live("studio"), files("files"), live("idle")], "--no-time") as run:
        run.is_up()
        with all_kinds(run) as (callers, over):
            time.sleep(1)
            over.set()
            time.sleep(0.5)
            for it in callers:
                it.stop()
            expect_refusal(1002, Caller(run.address, "nowhere"), "a stranger")
            time.sleep(LOOK)
            seen = snapshot(run.page)
        wrong = differing(seen.state, seen.metrics)
        expect(not wrong, f"{len(wrong)} numbers differ: {wrong[:3]}")
        run.stop()


@contextmanager
def all_kinds(run: Run) -> Iterator[tuple[list[Caller], threading.Event]]:
    """Sessions of each kind, all of them with traffic: publisher, standby and subscribers of a live route, and both roles of a
    route in buffer mode. The event ends the streams."""
    over = threading.Event()
    buffered = dict(mode="buffer", congestion=b"file")
    callers = [Subscriber(run.address, "studio"), Subscriber(run.address, "studio", receiver_ms=300),
               Subscriber(run.address, "files", **buffered),
               *(Publisher(run.address, publish("studio"), endless(over), 4_000) for _ in range(2)),
               Publisher(run.address, publish("files"), endless(over), 4_000, **buffered)]
    start_all(*callers)
    try:
        yield callers, over
    finally:
        over.set()
        for it in callers:
            it.close()


@case("the status page's metrics by Prometheus' own tool, with sessions of each kind", needs=[PROMTOOL])
def metrics_by_promtool():
    with Shown([live("studio"), files("files"), live("a_route-with.each/sign")], "--no-time") as run:
        run.is_up()
        empty = run.page.right("/metrics")
        with all_kinds(run):
            time.sleep(LOOK)
            busy = run.page.right("/metrics")
        for name, text in (("without sessions", empty), ("with sessions", busy)):
            it = subprocess.run([PROMTOOL, "check", "metrics"], input=text, capture_output=True, text=True)
            expect((it.returncode, it.stdout, it.stderr) == (0, "", ""), f"{name}: {it.stdout}{it.stderr}")
            Metrics(text)
        expect(Metrics(empty).kinds == Metrics(busy).kinds, "families come and go")
        run.stop()


# Time.


def resident(pid: int) -> int:
    """The resident memory of a process, in kilobytes."""
    with open(f"/proc/{pid}/status") as file:
        return next(int(it.split()[1]) for it in file if it.startswith("VmRSS:"))


class Visitors:
    """Callers that open a session and end it again, both roles in turn, each from one socket with ever new socket IDs."""

    def __init__(self, run: Run, route: str) -> None:
        self.callers = [Publisher(run.address, publish(route), []), Subscriber(run.address, route)]
        self.count = 0

    def come(self, count: int) -> None:
        """Opens and ends so many sessions."""
        for it in self.callers:
            it.induce()
        for _ in range(count):
            caller = self.callers[self.count % len(self.callers)]
            caller.socket_id += 1
            caller.conclude()
            caller.send_control(packets.SHUTDOWN)
            self.count += 1


class Scraper(threading.Thread):
    """Scrapes again and again until it is stopped, and notes which counters of routes and of the gateway went back or were gone.
    Those of sessions end with them."""

    def __init__(self, page: Page) -> None:
        super().__init__(daemon=True)
        self.page, self.over = page, threading.Event()
        self.last: dict[Any, float] = {}
        self.wrong: list[str] = []
        self.count = 0

    def run(self) -> None:
        while not self.over.wait(0.02):
            counters = self.page.metrics().counters()
            self.wrong += [f"{name}{dict(labels)}: {before} and then {counters.get((name, labels))}"
                           for (name, labels), before in self.last.items() if counters.get((name, labels), -1) < before]
            self.last = {key: value for key, value in counters.items() if not key[0].startswith("srtgw_session_")}
            self.count += 1

    def wait(self, count: int) -> None:
        """Waits until it has scraped `count` times in all, for ten seconds at most."""
        until = time.monotonic() + 10
        while self.count < count and self.is_alive() and time.monotonic() < until:
            time.sleep(0.005)


@case("the status page over 10,000 sessions that come and go: no total goes back, and memory stays")
def sessions_come_and_go():
    first, steps = 1_000, 9
    with Shown([live("studio"), live("other")], "--no-time") as run:
        run.is_up()
        visitors, scraper = Visitors(run, "studio"), Scraper(run.page)
        scraper.start()
        visitors.come(first)
        before, seen = resident(run.process.pid), []
        for _ in range(steps):
            scraped = scraper.count
            visitors.come(first)
            seen.append(resident(run.process.pid))
            scraper.wait(scraped + 2)
        scraper.over.set()
        scraper.join(10)
        expect(not scraper.wrong, f"{len(scraper.wrong)} totals went back: {scraper.wrong[:3]}")
        expect(scraper.count >= 2 * steps, f"it was scraped {scraper.count} times only")
        expect(max(seen) <= 1.03 * before, f"after {first} sessions it had {before} KB, and later {seen}")
        time.sleep(LOOK)
        found = route_in(run.page.state(), "studio")
        opened = found["opened_sessions_total"]
        expect(opened == visitors.count == first * (1 + steps), f"{opened} of {visitors.count} sessions are counted")
        expect(found["sessions"] == [], f"sessions are shown that ended: {found['sessions']}")
        expect_polite(run.stop(), ["studio", "other"])


@case("the status page shows 511 routes within 20 ms")
def shows_many_routes():
    """It is asked at moments of chance, since it looks some fifty times a second whether anybody asks."""
    chance, names = random.Random(8), [f"r{index}" for index in range(511)]
    with Shown([live(it, buffer=32, sessions=2, inbox=16, outbox=136) for it in names], "--no-time") as run:
        run.is_up(60)
        time.sleep(LOOK)
        for path in ("/metrics", "/status.json"):
            spent, memory = [], []
            for _ in range(30):
                time.sleep(0.05 * chance.random())
                began = time.perf_counter()
                run.page.right(path)
                spent.append(time.perf_counter() - began)
                memory.append(resident(run.process.pid))
            print(f"  {path}: {1000 * min(spent):.1f} ms at least, {1000 * sorted(spent)[15]:.1f} ms in the middle")
            expect(min(spent) <= 0.02, f"{path} took {1000 * min(spent):.1f} ms at least")
            expect(memory[-1] <= 1.01 * memory[5], f"after the answers it had {memory} KB")
        seen = snapshot(run.page)
        expect([it["name"] for it in seen.state["routes"]] == names, "routes are missing, or in another order")
        its = {labels["route"] for labels, _ in seen.metrics.found("srtgw_route_opened_sessions_total")}
        expect(its == set(names), f"the metrics have {len(its)} routes")
        expect_polite(run.stop(), names)


def health_becomes(page: Page, wanted: int, seconds: float) -> float:
    """Waits until /healthz has this status. Returns how long that took."""
    began = time.monotonic()
    while page.health() != wanted:
        expect(time.monotonic() < began + seconds, f"/healthz isn't {wanted} within {seconds} s")
        time.sleep(0.02)
    return time.monotonic() - began


@case("the status page is unwell while the polling thread is held, and well again after it")
def unwell_while_held():
    """The polling thread is the first one of the process. The others run on while ptrace(2) holds it."""
    with Shown([live("studio")], "--no-time") as run:
        run.is_up()
        expect((run.page.health(), run.page.metrics().total("srtgw_up")) == (200, 1), "it isn't well")
        try:
            held = Held(run.process.pid)
        except PermissionError:
            raise Skipped("the system forbids ptrace") from None
        with held:
            spent = health_becomes(run.page, 503, 5)
            expect(spent >= 1, f"it is unwell after {spent:.1f} s already")
            expect(run.page.metrics().total("srtgw_up") == 0, "the metrics say that it is up")
            expect(run.page.state()["up"] == 0, "the JSON says that it is up")
            time.sleep(1)
            expect(run.page.health() == 503, "it is well while the thread is still held")
        print(f"  unwell after {spent:.1f} s, well again after {health_becomes(run.page, 200, 3):.1f} s")
        expect(run.page.metrics().total("srtgw_up") == 1, "the metrics say that it is down")
        expect_polite(run.stop(), ["studio"])


@case("the status page counts datagrams as the report does")
def counts_datagrams():
    count = 300
    with Shown([live("studio")], "--no-time") as run:
        run.is_up()
        publisher, subscriber = Publisher(run.address, publish("studio"), stream(count), 3_000), Subscriber(run.address, "studio")
        start_all(subscriber, publisher)
        expect(publisher.wait_delivered(10) and subscriber.wait(5, count), "the stream doesn't flow")
        for it in (publisher, subscriber):
            it.stop()
        stranger = Caller(run.address, "nowhere")
        expect_refusal(1002, stranger, "a stranger")
        chance = random.Random(6)
        for _ in range(9):
            stranger.send(chance.randbytes(15))
        time.sleep(LOOK)
        metrics = run.page.metrics()
        given = sum(it.given for it in (publisher, subscriber, stranger))
        answered = sum(it.handshakes[packets.INDUCTION] for it in (publisher, subscriber, stranger)) + stranger.handshakes[packets.CONCLUSION]
        wanted = {"read": given, "answered": answered, "dropped": 9, "full": 0, "memory": 0, "accepted": given - answered - 9}
        found = {it: int(metrics.total(f"srtgw_poller_{it}_datagrams_total")) for it in wanted}
        expect(found == wanted, f"shown are {found}, and right are {wanted}")
        end = run.stop()
        expect({it: end.report[it] for it in wanted} == wanted, f"the report is {end.report}")
        for it in ("sent", "lost"):
            shown = int(metrics.total(f"srtgw_poller_{it}_datagrams_total"))
            expect(shown <= end.report[it] <= shown + 20, f"{shown} datagrams are shown as {it}: {end.report}")
