"""Floods of refusals: the log stays short, its counts add up, and a stream of another route loses nothing."""
import fcntl
import json
import os
import re
import signal
import subprocess
import threading
import time

import packets
from caller import Caller, Publisher, Subscriber, start_all, stream
from cases import case
from expecting import Wrong, expect, expect_run, publish
from machine import drops_of
from running import STOP_SECONDS, TIME, Run, Shown, Skipped, can_block, expect_polite, files, flooded, live, seconds_of

LINES = 50  # In one second, besides those that say how many were left out.
REFUSALS = 10  # Of these the most about refused callers.
LEFT_OUT = r"lines left out (\d+)"
# The other lines of a run with the stream's two sessions: the start, the sessions' openings and ends, and the stop. No flood of
# refusals leaves out one of them.
OTHERS = r"serving at .*|steady: .* opened, .*|steady: .* ended, .*|stopping, .*|stopped"
EVENTS = 7
REQUEST = packets.hsreq(packets.FLAGS["live"], 120, 0)


class Flood(threading.Thread):
    """Makes conclusions from one socket, `count` times at `rate` a second, so many at once (`burst`), and counts the refusals
    that it receives: it is as slow as Python, so that some may be lost at its own socket. Each has a Stream ID of its own, with
    its number in front, unless all are to have the same one: then they are one caller that comes again and again."""

    def __init__(self, address, stream_id, count, rate, burst=1, same=False):
        super().__init__(daemon=True)
        self.caller, self.count, self.rate, self.burst, self.refused = Caller(address, stream_id), count, rate, burst, 0
        self.stream_id, self.same = stream_id, same
        self.caller.induce()

    def conclusion(self, number):
        """The body of a conclusion with the Stream ID of this number."""
        if not self.same:
            self.caller.blocks = packets.extensions(REQUEST, f"{number:05}{self.stream_id}".encode(), None)
        return self.caller.conclusion()

    def run(self):
        it = self.caller
        began, sent = time.monotonic(), 0
        while sent < self.count:
            due = min(self.count, int((time.monotonic() - began) * self.rate / self.burst) * self.burst)
            for number in range(sent, due):
                it.send(packets.control(packets.HANDSHAKE, 0, it.stamp(), 0, self.conclusion(number)))
            sent = max(sent, due)
            self.take(0.001)
        until = time.monotonic() + 5
        while self.refused < self.count and time.monotonic() < until:
            self.take(0.01)

    def expect_refused(self):
        """Expects a refusal of each conclusion, but for one in a hundred."""
        expect(0.99 * self.count <= self.refused <= self.count, f"{self.refused} refusals of {self.count} were received")

    def take(self, seconds):
        packet = self.caller.receive(seconds)
        while packet is not None:
            answer = packets.read_handshake(packet.body) if isinstance(packet, packets.Control) else None
            self.refused += answer is not None and answer.kind >= 1000
            packet = self.caller.receive(0)


def beside_a_stream(run, flood, count=2_400):
    """Plays a stream of 400 packets a second on the route `steady` while the flood comes. Returns how many inductions were made."""
    publisher, subscriber = Publisher(run.address, publish("steady"), stream(count), 2_500), Subscriber(run.address, "steady")
    start_all(subscriber, publisher)
    flood.start()
    flood.join()
    flows = publisher.wait_delivered(20) and subscriber.wait(10, count)
    lost = drops_of(run.address[1])
    expect(flows, f"the stream beside the flood stops: {len(subscriber.got)} of {count} payloads came, and the kernel dropped {lost} datagrams")
    expect_run(subscriber.got, 0, count, "the subscriber beside the flood")
    expect(publisher.dropped == subscriber.dropped == 0, "packets beside the flood were dropped")
    for one in (publisher, subscriber):
        one.close()
    return inductions(publisher, subscriber, flood.caller)


def inductions(*callers):
    return sum(it.handshakes[packets.INDUCTION] for it in callers)


def expect_few(run, seconds):
    """Expects that the log has at most 50 lines in each of its seconds, which needn't begin with those of the system's clock,
    besides those of the start and the stop."""
    times = [seconds_of(it.text[:24]) for it in run.lines if not re.fullmatch(f"{TIME} {LEFT_OUT}", it.text)]
    most = max(sum(first <= it < first + 1 for it in times) for first in times)
    expect(most <= 2 * LINES + 3, f"{most} lines came within a second")
    expect(len(times) <= LINES * (seconds + 2), f"{len(times)} lines came in {seconds:.1f} s")


def play_flood(routes, stream_id, line, count=20_000, rate=5_000, burst=1):
    """Plays a flood of conclusions that all are refused, each with a name of its own. Returns how many datagrams the lobby answered that
    weren't inductions."""
    with Run([live("steady", latency_ms=500, inbox=1024), *routes]) as run:
        run.is_up()
        began = time.monotonic()
        flood = Flood(run.address, stream_id, count, rate, burst)
        asked = beside_a_stream(run, flood)
        time.sleep(1.5)
        spent, dropped = time.monotonic() - began, drops_of(run.address[1])
        end = run.stop()
        expect(not dropped, f"the gateway is too slow: the kernel dropped {dropped} datagrams")
        expect_polite(end, ["steady", *(re.search('"(.*)"', it)[1] for it in routes)])
        expect_few(run, spent)
        texts = run.texts()
        expect(end.report["full"] == end.report["memory"] == 0, f"{end.report}")
        flood.expect_refused()
        told = [it for it in texts if re.fullmatch(line.format(flood.caller.here[1]), it)]
        expect(REFUSALS * 2 <= len(told) <= REFUSALS * (spent + 2), f"{len(told)} refusals are told in {spent:.1f} s")
        left_out = sum(int(found[1]) for found in (re.fullmatch(LEFT_OUT, it) for it in texts) if found)
        others = [it for it in texts if re.fullmatch(OTHERS, it)]
        expect(len(others) == EVENTS, f"the flood leaves out lines about sessions: {others}")
        expect(len(told) + left_out == count, f"{len(told)} refusals are told and {left_out} lines left out of {count}; beside them {others}")
        return end.report["answered"] - asked


def stopped_unread(run):
    """Stops a gateway whose log nobody reads, then reads what it said, and returns its end."""
    run.process.send_signal(signal.SIGTERM)
    try:
        run.process.wait(2 * STOP_SECONDS)
    except subprocess.TimeoutExpired:
        raise Wrong("the stop waits for whoever reads the log") from None
    run.read()
    return run.end()


@case("the page has the last lines of the log, and a flood of refused callers displaces no other of them")
def flood_displaces_no_event():
    with Shown([live("steady")], "--no-time") as run:
        run.is_up()
        history = json.loads(run.page.ask("/history.json").body)
        expect(history == {"minute": 0, "routes": [{"name": "steady", "minutes": [None] * 60}]}, f"the first minute has {history}")
        subscriber = Subscriber(run.address, "steady")
        start_all(subscriber)
        flood = Flood(run.address, "nowhere", 4_000, 500)
        flood.start()
        flood.join()
        events = json.loads(run.page.ask("/events.json").body)
        subscriber.close()
        texts = [it["text"] for it in events]
        expect(any(re.fullmatch(r"steady: subscriber \S+ opened, .*", it) for it in texts), f"no opening among {texts}")
        expect(len(texts) < LINES and REFUSALS <= len(texts), f"{len(texts)} lines: {texts}")
        expect(all(before["seconds"] <= after["seconds"] for before, after in zip(events, events[1:])), f"out of their order: {events}")
        expect(run.page.ask("/events.json", "HEAD").fields["content-length"].isdigit(), "HEAD has no length")
        run.stop()


@case("a log that nobody reads holds up nothing: no packet, no page, no change, and no stop")
def unread_log():
    if not can_block():
        raise Skipped("`env` can't start a program with signals blocked")
    with Shown([live("steady", latency_ms=500, inbox=1024)], "--no-time", reads=False) as run:
        Caller(run.address).induce(10)
        flood = Flood(run.address, "nowhere", 2_000, 500)
        beside_a_stream(run, flood)
        flood.expect_refused()
        expect(run.page.ask("/healthz").status == 200, "the page says that it doesn't serve")
        with open(run.file, "a") as it:
            it.write(live("later"))
        until = time.monotonic() + 3
        while b"later" not in run.page.ask("/status.json").body and time.monotonic() < until:
            time.sleep(0.05)
        caller = Subscriber(run.address, "later")
        start_all(caller)
        caller.close()
        expect_polite(stopped_unread(run), ["steady", "later"])
        # What still waits a second after the gateway's end is lost.
        expect(run.texts()[0].startswith("serving at "), f"the log begins with {run.texts()[0]!r}")


def with_small_pipe() -> None:
    """Lets the pipe of standard error hold one page."""
    fcntl.fcntl(2, 1031, 4096)  # F_SETPIPE_SZ


@case("what a log leaves out that nobody reads is counted once somebody reads it")
def read_again():
    if not can_block():
        raise Skipped("`env` can't start a program with signals blocked")
    with Run([live("steady")], "--no-time", reads=False, limit=with_small_pipe) as run:
        Caller(run.address).induce(10)
        # A line of such a name has 304 bytes, so that 10 a second fill the pipe and the 64 KiB that are kept in 22 seconds.
        flood = Flood(run.address, "\x01" * 300, 600, 20)
        flood.start()
        flood.join()
        flood.expect_refused()
        run.read()
        # Those for which there was no room are told in one line once all is written that waited.
        run.line(r"lines left out \d{3}", 5)
        expect_polite(run.stop(), ["steady"])
        told = [it for it in run.texts() if "\\x01" in it]
        left_out = sum(int(found[1]) for found in (re.fullmatch(LEFT_OUT, it) for it in run.texts()) if found)
        expect(200 <= len(told) <= 235, f"{len(told)} refusals are told, {left_out} lines left out")
        expect(len(told) + left_out == 600, f"{len(told)} refusals are told and {left_out} lines left out, of 600")


@case("what waits in the log at the stop is written before the gateway ends, if somebody reads it within a second")
def read_at_the_end():
    if not can_block():
        raise Skipped("`env` can't start a program with signals blocked")
    with Run([live("steady")], "--no-time", reads=False) as run:
        Caller(run.address).induce(10)
        flood = Flood(run.address, "\x01" * 300, 48, 8)
        flood.start()
        flood.join()
        flood.expect_refused()
        run.process.send_signal(signal.SIGTERM)
        time.sleep(0.5)
        expect(run.runs(), "it ends while its log waits for whoever reads it")
        run.read()
        expect_polite(run.end(), ["steady"])
        told = [it for it in run.texts() if "\\x01" in it]
        left_out = sum(int(found[1]) for found in (re.fullmatch(LEFT_OUT, it) for it in run.texts()) if found)
        expect(run.texts()[-1] == "stopped", f"the log ends with {run.texts()[-2:]}")
        expect(len(told) + left_out == 48, f"{len(told)} refusals are told and {left_out} lines left out, of 48")


@case("a log that can't be written stops nothing")
def unwritten_log():
    with open("/dev/full", "w") as full, Run([live("steady", latency_ms=500, inbox=1024)], "--no-time", limit=lambda: os.dup2(full.fileno(), 2)) as run:
        Caller(run.address).induce(10)
        beside_a_stream(run, Flood(run.address, "nowhere", 200, 1_000), 400)
        end = run.stop()
        expect_polite(end, ["steady"])
        expect(not run.lines and end.report["answered"] >= 203, f"{end.report}, {run.texts()}")


@case("what the kernel drops in a flood of refusals is told")
def drops_in_a_flood():
    with Run([live("steady", latency_ms=500, inbox=1024)], "--no-time") as run:
        run.is_up()
        flood = Flood(run.address, "nowhere", 2_500, 500)
        flood.start()
        time.sleep(1)
        flooded(run)
        flood.join()
        time.sleep(1.5)
        dropped = drops_of(run.address[1])
        expect_polite(run.stop(), ["steady"])
        if not dropped:
            raise Skipped("the kernel drops nothing")
        told = sum(int(found[1]) for found in (re.fullmatch(r"datagrams dropped by the kernel (\d+)", it) for it in run.texts()) if found)
        expect(told == dropped, f"{told} of {dropped} are told")


@case("20,000 conclusions that the lobby refuses")
def lobby_flood():
    line = r'127\.0\.0\.1:{} refused, 1002 PEER, asked for "\d+nowhere", unknown name'
    refused = play_flood([], "nowhere", line)
    expect(refused == 20_000, f"the lobby refused {refused}")


@case("6,000 conclusions in bursts of 200, more than wait for the log at once")
def bursts():
    line = r'127\.0\.0\.1:{} refused, 1002 PEER, asked for "\d+nowhere", unknown name'
    play_flood([], "nowhere", line, 6_000, 2_000, 200)


@case("20,000 conclusions that a route refuses")
def route_flood():
    """The flooded route is in buffer mode, and its caller wants live mode: it has one line, and one with a number each ten seconds."""
    with Run([live("steady", latency_ms=500, inbox=1024), files("files", inbox=4096, outbox=4096)], "--no-time") as run:
        run.is_up()
        flood = Flood(run.address, "files", 20_000, 5_000, same=True)
        asked = beside_a_stream(run, flood)
        time.sleep(1.5)
        dropped = drops_of(run.address[1])
        end = run.stop()
        expect(not dropped, f"the gateway is too slow: the kernel dropped {dropped} datagrams")
        expect_polite(end, ["steady", "files"])
        flood.expect_refused()
        refusal = r'1012 MESSAGEAPI, asked for "files"'
        first = [it for it in run.texts() if re.fullmatch(rf"127\.0\.0\.1:{flood.caller.here[1]} refused, {refusal}", it)]
        again = [int(found[1]) for found in (re.fullmatch(rf"127\.0\.0\.1 refused (\d+) more times, {refusal}", it) for it in run.texts()) if found]
        expect(len(first) == 1 and 1 <= len(again) <= 3, f"{len(first)} lines and {again} repeats of one caller")
        left_out = sum(int(found[1]) for found in (re.fullmatch(LEFT_OUT, it) for it in run.texts()) if found)
        expect(1 + sum(again) + left_out == 20_000, f"{sum(again)} refusals are told as repeats and {left_out} lines left out, of 20,000")
        expect(end.report["answered"] == asked, "the lobby refused some")
