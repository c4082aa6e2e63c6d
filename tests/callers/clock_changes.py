"""Clocks that are slow or fast, of real callers and of two encoders that take over from each other; and timestamps that jump, or wrap.

As in `clocks.py`, clocks are off by nearly as much as is followed, for some seconds."""
import multiprocessing
import threading
import time
from concurrent.futures import ProcessPoolExecutor
from contextlib import contextmanager
from itertools import groupby
from typing import NamedTuple

import packets
import tools
from access import closed, opens
from caller import SECOND, Publisher, Subscriber, delays_of, endless, now, stream
from cases import case, encoder
from clocks import MOST_LOST, MOST_SHIFT, usual
from expecting import expect, expect_run, publish
from proxy import SlowClock, is_conclusion
from running import Shown, live
from takeover import OTHER_NUMBERS, Paused, number_of, source_of_number

SKEW = 900
WINDOW = SECOND  # The least length of a drift window.
BEHIND = 3 * WINDOW  # The first window sets the reference, and the last sample that counts is up to two windows old.
SLACK = 2_000  # A fast clock is followed but for this, in microseconds.
CLOSE = 3_000  # By how much samples are off at most on a busy machine, in microseconds.
FASTEST = 1_000  # A correction moves by at most so many millionths of the time.


class State(NamedTuple):
    """What the status page shows of a publisher's session. Times are in microseconds."""

    session: str
    age: int
    correction: int
    given_up: int


def states(page, route):
    """What the page shows of the publishers of a route."""
    found = next(it for it in page.state()["routes"] if it["name"] == route)
    return [State(it["session"], round(SECOND * it["open_seconds"]), round(SECOND * it["publisher_clock_correction_seconds"]), it["given_up_packets_total"])
            for it in found["sessions"] if it["role"] == "publisher"]


def state_of(page, route, publisher):
    """What the page shows of one of our own publishers."""
    session = f"{publisher.peer_id:08x}"
    found = [it for it in states(page, route) if it.session == session]
    expect(found, f"{route}: the page doesn't show the session {session}")
    return found[0]


def only_state(page, route, seconds=10):
    """What the page shows of the only publisher of a route. Waits for its session for at most so many seconds."""
    until = time.monotonic() + seconds
    while not (found := states(page, route)):
        expect(time.monotonic() < until, f"{route}: no publisher opens a session")
        time.sleep(0.05)
    return found[0]


def expect_corrected(state, skew, since, what):
    """Expects that a clock that is slow by `skew` millionths is followed, where the first sample is of a session's age of `since`."""
    sign = 1 if skew > 0 else -1
    drifted = abs(skew) * (state.age - since) // SECOND
    most_behind = CLOSE + abs(skew) * BEHIND // SECOND + (SLACK if skew < 0 else 0)
    print(f"  {what}: corrected by {state.correction:+} us, {sign * drifted:+} us off", flush=True)
    expect(-CLOSE <= drifted - sign * state.correction <= most_behind, f"{what}: a clock that is {sign * drifted:+} us off is corrected by {state.correction:+} us")


def played(tables, plays):
    """The results of functions that are played at the same time against one gateway, each in a process of its own. `plays` has each function
    with its arguments after the gateway's address and its status page."""
    with Shown(tables, "--no-time") as run, ProcessPoolExecutor(len(plays), multiprocessing.get_context("spawn")) as pool:
        run.is_up()
        return [it.result() for it in [pool.submit(play, run.address, run.page, *words) for play, *words in plays]]


# Real callers.

LATENCY_MS = 30
INTERVAL = 0.005
DELAY = 0.01  # One way, in seconds. A packet that was lost is received 25 ms later, and passed over after 35.
LOSS = 0.02
REAL_SECONDS = 17
MARGIN = 4_000  # What is received less than this before it is passed over may be lost: that much a slow clock drifts until it is followed.
FEW = 2  # So many packets may be given up, however few were sent.


class Real(NamedTuple):
    """A real caller that publishes: its tool, and by how many millionths its clock is slow."""

    tool: str
    skew: int

    @property
    def route(self):
        return f"{self.tool}/{self.skew}ppm"


class Result(NamedTuple):
    """How many packets a real caller sent, its line lost, and the gateway gave up, and how many would have been late with a right clock too;
    what the status page showed, and the session's age at its first sample, in microseconds."""

    sent: int
    line_lost: int
    given_up: int
    late: int
    state: State
    since: int

    @property
    def lost_in_time(self):
        return max(0, self.given_up - self.late)


class Arrivals:
    """When packets reached the gateway over a line that makes their caller's clock slow by `skew` millionths: the first conclusion, the first
    ACKACK, and the first copy of each data packet."""

    def __init__(self, skew):
        self.skew, self.opening, self.conclusion, self.sampled, self.first = skew, None, 0, None, {}

    def note(self, goes_there, datagram):
        packet = packets.read(datagram)
        if not goes_there or packet is None:
            return
        if isinstance(packet, packets.Data):
            number = packets.near(packet.number, next(iter(self.first), packet.number))
            self.first.setdefault(number, (now(), self.sent_at(packet.stamp)))
        elif packet.kind == packets.ACKACK:
            self.sampled = self.sampled or now()
        elif self.opening is None and is_conclusion(packet):
            self.opening, self.conclusion = now(), packet.stamp

    def sent_at(self, stamp):
        """When a packet was sent by the caller's own clock, counted from its conclusion."""
        return (packets.near(stamp, self.conclusion, packets.WORDS) - self.conclusion) * SECOND // (SECOND - self.skew)

    def late(self, delay, until):
        """How many packets weren't received in time by a right clock, by a margin: before the next one is due, which passes over those that are
        missing. Packets that are passed over after `until` aren't counted."""
        count, passed = 0, until
        for number in range(max(self.first), min(self.first) - 1, -1):
            moment, sent = self.first.get(number, (None, None))
            if passed < until:
                count += moment is None or moment > passed - MARGIN
            if moment is not None:
                passed = self.opening + sent + delay
        return count


def is_spared(datagram):
    """Whether a line never loses a datagram: handshakes, SHUTDOWNs, NAKs, and what is sent again. So each lost packet is sent again once."""
    packet = packets.read(datagram)
    if isinstance(packet, packets.Data):
        return bool(packet.word & packets.AGAIN)
    return packet is not None and packet.kind in (packets.HANDSHAKE, packets.SHUTDOWN, packets.NAK)


@contextmanager
def publishing(real, address, wait_open):
    """A real caller that publishes until the block ends. The block begins once its session is open, as `wait_open` waits for it."""
    sink = dict(streamid=publish(real.route))
    if real.tool == tools.FFMPEG:
        with encoder(tools.srt(address, pkt_size=1316, **sink), REAL_SECONDS + 10):
            wait_open()
            yield
        return
    inlet, over = tools.Inlet(), threading.Event()
    feeding = threading.Thread(target=lambda: inlet.feed(endless(over), INTERVAL), daemon=True)
    with tools.transmit(inlet.address, tools.srt(address, **sink)):
        wait_open()
        feeding.start()
        try:
            yield
        finally:
            over.set()
            feeding.join(5)


def play_real(address, page, real):
    """Plays a real caller over a line of its own, and reads the status page."""
    arrivals = Arrivals(real.skew)
    line = SlowClock(address, len(real.route), real.skew, delay=DELAY, seen=arrivals.note, spares=is_spared)
    with publishing(real, line.address, lambda: only_state(page, real.route)):
        line.loss = LOSS
        time.sleep(REAL_SECONDS)
        state = only_state(page, real.route, 0)
        line.loss = 0
        time.sleep(1)
        given_up, until = only_state(page, real.route, 0).given_up, now()
    line.stop()
    late = arrivals.late(1000 * LATENCY_MS, until)
    return Result(len(arrivals.first), line.lost, given_up, late, state, arrivals.sampled - arrivals.opening)


@case("srt-live-transmit and ffmpeg over lines that make their clocks slow and lose 2 %, 30 ms", needs=[tools.SRT, tools.FFMPEG])
def real_callers_with_slow_clocks(_):
    """Beside them srt-live-transmit has a right clock. What a busy machine delays for too long is late with any clock, and isn't counted."""
    callers = [Real(tools.SRT, 0), Real(tools.SRT, SKEW), Real(tools.FFMPEG, SKEW)]
    found = dict(zip(callers, played([live(it.route, latency_ms=LATENCY_MS, callers="libsrt") for it in callers], [(play_real, it) for it in callers])))
    right = max(it.lost_in_time for real, it in found.items() if not real.skew)
    for real, it in found.items():
        print(f"  {real.route}: {it.sent} packets, {it.given_up} given up, {it.late} of them late with any clock", flush=True)
        expect(it.sent >= 20 * REAL_SECONDS and it.line_lost >= it.sent * LOSS / 2, f"{real.route}: the line lost {it.line_lost} of {it.sent} packets")
        if real.skew:
            expect_corrected(it.state, real.skew, it.since, real.route)
        else:
            expect(abs(it.state.correction) <= CLOSE, f"{real.route}: a right clock is corrected by {it.state.correction:+} us")
        most = 2 * right + max(FEW, MOST_LOST * it.sent)
        expect(it.lost_in_time <= most, f"{real.route}: {it.given_up} packets were given up, of which {it.late} were late, more than {most:.1f} others")


# A take-over between two clocks.

TAKEOVER_MS = 500
PAUSE = 0.9
FIRST_TURN, STANDS_BY, LAST_TURN = 2.0, 10.5, 1.2
AT_ONCE = 100  # Payloads, in half a second.


def turns_of(got):
    """The payloads of a viewer, in runs of payloads of one publisher: whose they are, and each with its arrival."""
    return [(source, list(run)) for source, run in groupby(got, lambda it: source_of_number(it[0]))]


def play_take_over(address, page, route, skew):
    """The main encoder is on the air, then the backup, and then the main one again, which stood by meanwhile. The main one's clock is slow by
    `skew` millionths, the backup's fast by as much."""
    viewer, main, backup = Subscriber(address, route), Paused(address, 0, route, skew=skew), Paused(address, OTHER_NUMBERS, route, skew=-skew)
    for one in (viewer, main, backup):
        opens(one, f"a caller of {route}").start()
    time.sleep(FIRST_TURN)
    main.sending.clear()
    time.sleep(PAUSE)
    main.sending.set()
    time.sleep(STANDS_BY)
    for one, its_skew, what in ((main, skew, "the standby"), (backup, -skew, "the one on the air")):
        expect_corrected(state_of(page, route, one), its_skew, 0, f"{route}: {what}")
    backup.sending.clear()
    time.sleep(PAUSE + LAST_TURN)
    closed(main, backup, viewer)
    turns = turns_of(viewer.got)
    expect([source for source, _ in turns] == ["main", "backup", "main"], f"{route}: on the air were {[source for source, _ in turns]}")
    for source, its in turns:
        first, last = (number_of(body) for body, _ in (its[0], its[-1]))
        expect(len(its) >= AT_ONCE, f"{route}: {len(its)} payloads of the {source} were delivered in its turn")
        expect([number_of(body) for body, _ in its] == list(range(first, last + 1)), f"{route}: of the {source}'s payloads {first} to {last} some are missing")
    first, between, last = (delays_of(its) for _, its in turns)
    shifts = (usual(last[:AT_ONCE]) - usual(first[:AT_ONCE]), usual(between[-AT_ONCE:]) - usual(between[:AT_ONCE]))
    print(f"  {route}: delays of the main one {shifts[0]:+} us after it stood by, of the backup {shifts[1]:+} us", flush=True)
    expect(max(map(abs, shifts)) <= MOST_SHIFT, f"{route}: the delays changed by {shifts} us")


# Timestamps that jump, and that wrap.

SIZE = 200
STREAM_INTERVAL = 10_000
STREAM_SECONDS = 11
WRAP_SECONDS = 14
BEFORE_JUMP = 3.0
BEFORE_WRAP = 4 * SECOND
JUMP = 3 * SECOND
LEAST_MOVE = 3_000  # After a jump the correction has moved by this much at the end of the stream.
DUE_AT_ONCE = 20_000  # The longest usual delay of payloads that are due when they are received, in microseconds.


class Shifted(Publisher):
    """A publisher whose timestamps are `ahead` of its time, in microseconds; that may be changed while it sends. It gives up nothing."""

    def __init__(self, address, route, seconds, ahead=0, skew=0):
        self.ahead, self.seconds, self.count = ahead, seconds, seconds * SECOND // STREAM_INTERVAL
        super().__init__(address, publish(route), stream(self.count, size=SIZE), STREAM_INTERVAL, skew=skew)

    def stamp(self):
        return (super().stamp() + self.ahead) % packets.WORDS

    def expire(self):
        pass


class Watched:
    """A publisher and a viewer of a route, and what the status page showed of the publisher about once a second."""

    def __init__(self, address, page, route, publisher):
        self.page, self.route, self.publisher, self.seen = page, route, publisher, []
        self.viewer = opens(Subscriber(address, route), "the viewer")
        opens(publisher, "the publisher")
        self.viewer.start()
        publisher.start()

    def take_snapshot(self):
        self.seen.append(state_of(self.page, self.route, self.publisher))

    def ends(self, seconds):
        """Waits for the end of the stream, whose last payloads are due so many seconds later at most. Expects that the session is open then,
        and that all payloads were delivered in order."""
        for _ in range(self.publisher.seconds + 10):
            if self.publisher.wait_all(1):
                break
            self.take_snapshot()
        self.viewer.wait(seconds + 5, self.publisher.count)
        self.take_snapshot()
        expect(not self.publisher.shut.is_set(), f"{self.route}: the session ended")
        closed(self.publisher, self.viewer)
        expect_run(self.viewer.got, 0, self.publisher.count, self.route)

    @property
    def correction(self):
        return self.seen[-1].correction

    def expect_slow_moves(self):
        """Expects that the correction was never more than a thousandth of the session's age, and moved no faster."""
        for before, after in zip([self.seen[0], *self.seen], self.seen):
            expect(SECOND * abs(after.correction) <= FASTEST * after.age, f"{self.route}: after {after.age} us the correction is {after.correction:+} us")
            time_of_move = after.age - before.age + BEHIND  # It is counted from the end of the window before.
            expect(SECOND * abs(after.correction - before.correction) <= FASTEST * time_of_move, f"{self.route}: the correction moved from {before} to {after}")

    def usual_delay(self, first, last):
        """The usual delay of the payloads that were sent between two moments."""
        return usual([delay for delay, (_, moment) in zip(delays_of(self.viewer.got), self.viewer.got) if first <= moment - delay < last])

    def expect_same_delay(self):
        """Expects that the delays of the last two seconds' payloads are those of the first two."""
        part = 2 * SECOND // STREAM_INTERVAL
        delays = delays_of(self.viewer.got)
        shift = usual(delays[-part:]) - usual(delays[:part])
        expect(abs(shift) <= MOST_SHIFT, f"{self.route}: the delays changed by {shift:+} us")


def play_jump(address, page, route, jump):
    """From a moment on all timestamps are later by `jump` microseconds, or earlier if it is negative."""
    publisher = Shifted(address, route, STREAM_SECONDS)
    watched = Watched(address, page, route, publisher)
    began = now()
    time.sleep(BEFORE_JUMP)
    watched.take_snapshot()
    publisher.ahead, jumped = jump, now()
    watched.ends(max(0, jump) / SECOND)
    watched.expect_slow_moves()
    moved = watched.correction * (-1 if jump > 0 else 1)
    expect(moved >= LEAST_MOVE, f"{route}: the correction is {watched.correction:+} us")
    before, after = watched.usual_delay(began, jumped), watched.usual_delay(jumped + SECOND // 2, jumped + 3 * SECOND // 2)
    print(f"  {route}: corrected by {watched.correction:+} us, delays of {before} and {after} us", flush=True)
    is_due = abs(after - before - jump) <= MOST_SHIFT if jump > 0 else after <= DUE_AT_ONCE
    expect(is_due, f"{route}: delays of {before} us before, and of {after} us after")


def play_wrap(address, page, route):
    """The timestamps of a slow clock wrap four seconds after the opening."""
    publisher = Shifted(address, route, WRAP_SECONDS, -BEFORE_WRAP, SKEW)
    watched = Watched(address, page, route, publisher)
    watched.ends(0)
    watched.expect_slow_moves()
    watched.expect_same_delay()
    expect(publisher.stamp() < packets.WORDS // 2, "no timestamp wrapped")
    expect_corrected(watched.seen[-2], SKEW, 0, route)


def play_neighbour(address, page, route):
    """A publisher with a right clock, beside the others."""
    watched = Watched(address, page, route, Shifted(address, route, WRAP_SECONDS))
    watched.ends(0)
    watched.expect_slow_moves()
    watched.expect_same_delay()
    expect(abs(watched.correction) <= CLOSE, f"{route}: a right clock is corrected by {watched.correction:+} us")


@case("a take-over between a slow clock and a fast one, timestamps that jump by three seconds, and that wrap")
def clocks_that_change(_):
    """All at the same time, each on a route of its own, beside one with a right clock. The take-over is played with either clock as main."""
    take_overs, others = {"slow": SKEW, "fast": -SKEW}, ("later", "earlier", "wraps", "right")
    tables = [live(it, takeover_ms=TAKEOVER_MS, callers="libsrt") for it in take_overs] + [live(it, callers="libsrt") for it in others]
    plays = [(play_take_over, it, skew) for it, skew in take_overs.items()]
    played(tables, [*plays, (play_jump, "later", JUMP), (play_jump, "earlier", -JUMP), (play_wrap, "wraps"), (play_neighbour, "right")])
