"""Publishers whose clocks are slow or fast, over lines that lose and delay: deadlines follow them.

A run of the gate can't last until a clock is off by what it is off after hours. So it is off by nearly as much as is followed, 900
millionths, for 30 seconds: by 27 milliseconds at the end, as after 22 minutes at 20 millionths, 4.5 at 100 and one at 500. A route of 30
milliseconds then has nothing left for resends if its deadlines stand still. `--long` has the real rates for ten minutes."""
import multiprocessing
import struct
from concurrent.futures import ProcessPoolExecutor
from typing import NamedTuple

import packets
from access import closed, opens
from caller import SECOND, Publisher, Subscriber, delays_of, indexes, now, stream
from cases import case, long_case
from expecting import expect, publish
from proxy import Proxy, opens_or_ends
from running import Run, live

INTERVAL = 10_000
SIZE = 200
LOSS = 0.02
DELAY = 0.005  # One way, in seconds, besides the jitter.
JITTER = 0.01
MARGIN = 3_000  # What arrives less than this before it is passed over, in microseconds, may be lost: deadlines are early by up to half a window.
MOST_LOST = 0.001
MOST_SHIFT = 8_000
SKEWS = (0, 900, -900)
GATE_SECONDS = 30
RATES = (0, 20, -20, 100, -100, 500, -500)
LONG_SECONDS = 600


class Leg(NamedTuple):
    """A publisher of a route: the route's latency, and by how many millionths its clock is slow."""

    latency_ms: int
    skew: int
    seconds: int

    @property
    def route(self):
        return f"{self.latency_ms}ms/{self.skew}ppm".replace("-", "fast").replace("ms/", ".")

    @property
    def count(self):
        return self.seconds * SECOND // INTERVAL


class Result(NamedTuple):
    """What came of a leg: how many packets the line lost, how many payloads weren't delivered, how many of those were received in time by a
    right clock, and by how much the delays of the last payloads are longer than those of the first ones, in microseconds."""

    line_lost: int
    lost: int
    lost_in_time: int
    shift: int


class Arrivals:
    """When packets reached the gateway: the conclusion, with its timestamp, and the first copy of each payload."""

    def __init__(self):
        self.opening = None
        self.first = {}

    def note(self, goes_there, datagram):
        if not goes_there:
            return
        packet = packets.read(datagram)
        if isinstance(packet, packets.Data):
            self.first.setdefault(struct.unpack_from("!Q", packet.payload)[0], (now(), struct.unpack_from("!Q", packet.payload, 8)[0]))
        elif packet.kind == packets.HANDSHAKE and packets.read_handshake(packet.body).kind == packets.CONCLUSION:
            self.opening = self.opening or (now(), packet.stamp)

    def in_time(self, delay, began):
        """The payloads that were received in time by a right clock, by a margin: before the next one is due, which passes over those that are
        missing. A caller's timestamp 0 is of the time `began`."""
        opened, stamp = self.opening
        late = opened - (began + stamp) + delay + INTERVAL - MARGIN
        return {index for index, (moment, made) in self.first.items() if moment <= made + late}


def play_leg(address, leg):
    """Plays a stream over a line, and looks at what a viewer without any line gets."""
    arrivals = Arrivals()
    line = Proxy(address, leg.skew + leg.latency_ms, late=1.0, hold=JITTER, delay=DELAY, seen=arrivals.note, spares=opens_or_ends)
    publisher = Publisher(line.address, publish(leg.route), stream(leg.count, size=SIZE), INTERVAL, skew=leg.skew, sender_ms=leg.latency_ms)
    viewer = opens(Subscriber(address, leg.route, receiver_ms=leg.latency_ms), "the viewer")
    opens(publisher, "the publisher")
    line.loss = LOSS
    viewer.start()
    publisher.start()
    publisher.wait_all(leg.seconds + 10)
    viewer.wait(1, leg.count)
    line.loss = 0
    closed(publisher, viewer)
    line.stop()
    missing = set(range(leg.count)) - set(indexes(viewer.got))
    delays, part = delays_of(viewer.got), 2 * SECOND // INTERVAL
    shift = usual(delays[-part:]) - usual(delays[:part])
    return Result(line.lost, len(missing), len(missing & arrivals.in_time(1000 * leg.latency_ms, publisher.began)), shift)


def usual(delays):
    """The delay that one in ten falls short of. No payload is delivered before its time, but a busy machine delivers some after it."""
    return sorted(delays)[len(delays) // 10]


def played(legs):
    """The results of these legs, each of a process of its own, so that they don't hold up one another."""
    tables = [live(it.route, latency_ms=it.latency_ms, callers="libsrt") for it in legs]
    with Run(tables, "--no-time") as run, ProcessPoolExecutor(len(legs), multiprocessing.get_context("spawn")) as pool:
        run.is_up()
        found = dict(zip(legs, pool.map(play_leg, [run.address] * len(legs), legs)))
    for leg, it in found.items():
        print(f"  {leg.route}: {it.lost} of {leg.count} lost, {it.lost_in_time} of them received in time; delays {it.shift:+} us", flush=True)
    return found


def expect_followed(legs):
    """Expects that whatever its clock a publisher's payloads keep their delay, and that no more of them are lost than with a right clock,
    but for a few where the clock is far off. What a busy machine loses it loses with any clock."""
    found = played(legs)
    right = max(it.lost_in_time for leg, it in found.items() if leg.skew == 0)
    for leg, it in found.items():
        most = 2 * right + leg.count * (MOST_LOST if abs(leg.skew) > 100 else MOST_LOST / 20)
        expect(it.line_lost >= leg.count * LOSS, f"{leg.route}: the line lost only {it.line_lost} packets")
        expect(it.lost_in_time <= most, f"{leg.route}: {it.lost_in_time} of {leg.count} payloads were lost that had been received in time, more than {most:.1f}")
        expect(abs(it.shift) <= MOST_SHIFT, f"{leg.route}: the delays changed by {it.shift} us")


@case("clocks that are slow and fast, for routes of 30 and 120 ms")
def followed_quickly(_):
    expect_followed([Leg(latency, skew, GATE_SECONDS) for latency in (30, 120) for skew in SKEWS])


for latency in (30, 120):
    long_case(f"clocks that are slow and fast by 20, 100 and 500 millionths, for ten minutes, {latency} ms")(
        lambda _, latency=latency: expect_followed([Leg(latency, rate, LONG_SECONDS) for rate in RATES]))
