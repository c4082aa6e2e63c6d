"""A subscriber that asks for everything again, hundreds and thousands of times in a second, and what `resend_percent` leaves of it."""
import time
from typing import NamedTuple

import packets
from access import closed, opens
from apart import OwnProcess
from caller import SECOND, Caller, Publisher, Subscriber, now, stream
from cases import case, over_a_line
from expecting import expect, expect_delays, expect_run, publish
from machine import drops_of
from running import Run, live

PERCENT = 50
FIRST = 64  # Resends that a session has at first.
PAUSE = SECOND // 50  # After so long without a data packet a session may send one again, whatever it has left, in microseconds.
INTERVAL = 1_000
COUNT = 6_000
BELOW = 2_000  # How far below the newest packet the flood asks.
STREAM_SECONDS = COUNT * INTERVAL / SECOND


class Flood(Caller):
    """A subscriber that acknowledges nothing, and sends a NAK of all that may be in flight `rate` times in a second. `new` and `again`
    count the data packets that were sent to it for the first time and again, `naks` what it sent."""

    def __init__(self, address, stream_id, rate):
        super().__init__(address, stream_id)
        self.rate, self.new, self.again, self.naks, self.top, self.asks_since = rate, 0, 0, 0, self.initial, 0

    def rest(self):
        return min(0.005, 1 / self.rate)

    def on_data(self, packet):
        number = packets.near(packet.number, self.top)
        self.top = max(self.top, number)
        if packet.word & packets.AGAIN:
            self.again += 1
        else:
            self.new += 1
        self.asks_since = self.asks_since or now()

    def wait_new(self, count, seconds):
        """Waits until `count` packets were received for the first time, for at most `seconds`."""
        until = now() + int(seconds * SECOND)
        while now() < until and self.new < count and self.is_alive():
            time.sleep(0.005)

    def on_time(self):
        super().on_time()
        if not self.asks_since:
            return
        first = max(self.initial, self.top - BELOW)
        body = packets.words(1 << 31 | first % packets.NUMBERS, self.top % packets.NUMBERS)
        due = (now() - self.asks_since) * self.rate // SECOND
        for _ in range(min(50, due - self.naks)):
            self.send_control(packets.NAK, 0, body)
            self.naks += 1


class Flooded(NamedTuple):
    """What a flood received and sent, and what went wrong, if anything did."""

    new: int
    again: int
    naks: int
    wrong: str


def flood_route(address, name, rate, over, told):
    """Floods a route until `over` is set, and for at most five seconds more until all packets were received. `told` gets a word when
    the session is open, and a Flooded at the end."""
    flood, wrong = Flood(address, name, rate), ""
    try:
        opens(flood, "the attacker")
        told.put("open")
        flood.start()
        over.wait()
        flood.wait_new(COUNT, 5)
    except Exception as why:
        wrong = f"{type(why).__name__}: {why}"
        told.put(wrong)
    finally:
        flood.close()
    told.put(Flooded(flood.new, flood.again, flood.naks, wrong))


class Attacker(OwnProcess):
    """A flood in a process of its own: its work holds up none of the honest callers."""

    def __init__(self, address, name, rate):
        super().__init__("the attacker", flood_route, address, name, rate)

    def end(self):
        found = super().end()
        expect(not found.wrong, f"the attacker: {found.wrong}")
        return found


class Stream:
    """A publisher of a route and two subscribers that are honest."""

    def __init__(self, address, name, count, interval):
        self.name, self.count = name, count
        self.publisher = Publisher(address, publish(name), stream(count), interval)
        self.viewers = [Subscriber(address, name) for _ in range(2)]

    def start(self):
        for one in (*self.viewers, self.publisher):
            opens(one, f"a caller of {self.name}").start()

    def expect_whole(self, seconds):
        """Expects that the stream ends within so many seconds, and that each viewer has all of it and was late for nothing."""
        expect(self.publisher.wait_delivered(seconds), f"{self.name}: the publisher's window isn't free after {seconds:.0f} s")
        for at, one in enumerate(self.viewers):
            one.wait(10, self.count)
            expect(one.dropped == 0, f"{self.name}: {one.dropped} packets for viewer {at} were given up")
            expect_run(one.got, 0, self.count, f"{self.name}: viewer {at}")
            expect_delays(one.got, 120)
        closed(self.publisher, *self.viewers)


def play_flood(rate):
    """Plays a flood beside honest viewers of its route, and of another one. They lose nothing, and the attacker gets the stream, half
    as much again, the first resends, and one in each 20 ms in which it is sent nothing else."""
    keys = dict(inbox=4096, resend_percent=PERCENT)
    with Run([live("flooded", **keys), live("neighbour")], "--no-time") as run:
        run.is_up()
        flooded, neighbour = Stream(run.address, "flooded", COUNT, INTERVAL), Stream(run.address, "neighbour", COUNT // 4, 4 * INTERVAL)
        opened, attacker = now(), Attacker(run.address, "flooded", rate)
        flooded.start()
        neighbour.start()
        try:
            flooded.expect_whole(STREAM_SECONDS + 20)
            neighbour.expect_whole(20)
            flood = attacker.end()
        finally:
            attacker.kill()
        spent, dropped = now() - opened, drops_of(run.address[1])
        end = run.stop()
    expect(not dropped and end.report["full"] == 0, f"the gateway is too slow: the kernel dropped {dropped} datagrams, and {end.report['full']} found no room in the inbox")
    expect(flood.naks >= 0.9 * rate * STREAM_SECONDS, f"only {flood.naks} NAKs were sent in {spent / SECOND:.1f} s")
    expect(0.99 * COUNT <= flood.new <= COUNT, f"the attacker received {flood.new} of {COUNT} packets")
    most = FIRST + PERCENT * COUNT // 100 + spent // PAUSE
    expect(flood.again <= most, f"{flood.again} packets were sent again beside {COUNT} new ones, more than {most}")
    expect(flood.again >= 0.9 * PERCENT * flood.new / 100, f"only {flood.again} of {flood.new} packets were sent again: this is no attack")


for nak_rate in (500, 2_000, 5_000):
    case(f"{nak_rate:,} NAKs in a second of all in flight")(lambda _, rate=nak_rate: play_flood(rate))


@case("5 % lost both ways, with resends of at most 20 %")
def honest_over_a_bad_line(_):
    """A viewer that loses much asks for much, and gets all of it."""
    with Run([live("lossy", latency_ms=500, resend_percent=20)]) as run:
        run.is_up()
        publisher, subscriber = over_a_line(run.address, "lossy", 500, "lost", loss=0.05)
    expect(publisher.resent >= 20 and subscriber.asked_again >= 10, "next to nothing was sent again")
    expect(publisher.dropped == 0 and subscriber.dropped == 0, "packets were given up")
