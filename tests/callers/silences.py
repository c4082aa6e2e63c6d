"""Players that die, lines that are black for two seconds, and players who are well: what is sent to them again without a NAK.

A source sends 7 packets each 40 ms. libsrt 1.5.1, as a listener with such a source, sent 1,575 packets to a player that was killed after
four seconds, each once. A player whose line was black for two seconds requests what the last second had of it: libsrt sent 175 packets
again."""
import time
from typing import NamedTuple

import packets
import tools
from access import closed, opens
from caller import SECOND, Publisher, Subscriber, indexes, stream
from cases import case, long_case
from expecting import expect, publish
from proxy import Proxy
from running import Run, live

PICTURE = 7
PICTURE_INTERVAL = SECOND // 25
ROUND_TRIPS = (0, 10, 40, 100)  # In milliseconds.
BEFORE, BLACK, AFTER = 4.0, 2.0, 4.5
TO_KILLED, AGAIN_TO_BLACK = 1_575, 175  # By libsrt.
MOST = 1.1
MOST_UNREQUESTED = 0.0005
LONG_SECONDS = 300
TAIL = 11


class Counts(NamedTuple):
    """Data packets that were sent to a player, for the first time and again, and those that its NAKs named."""

    new: int
    again: int
    named: int


class Watched:
    """A player behind a line with a round trip, who is counted. It sends NAKs at intervals (PERIODICNAK), or doesn't."""

    def __init__(self, address, name, round_trip_ms, reports):
        self.new = self.again = self.named = 0
        self.line = Proxy(address, round_trip_ms, delay=round_trip_ms / 2000, seen=self.note)
        self.outlet = tools.Outlet()
        self.player = tools.transmit(tools.srt(self.line.address, streamid=name, latency=120, nakreport=int(reports)), self.outlet.address)

    def note(self, goes_there, datagram):
        packet = packets.read(datagram)
        if isinstance(packet, packets.Data) and not goes_there:
            self.again += bool(packet.word & packets.AGAIN)
            self.new += not packet.word & packets.AGAIN
        elif isinstance(packet, packets.Control) and goes_there and packet.kind == packets.NAK:
            self.named += sum(1 + last - first for first, last in packets.runs_of(packet.body))

    @property
    def counts(self):
        return Counts(self.new, self.again, self.named)

    def end(self):
        self.player.end()
        self.line.stop()


class Group(NamedTuple):
    """What happens to players, one for each round trip."""

    what: str
    players: list[Watched]

    def counts(self):
        """The counts of each player, which are printed."""
        found = {round_trip: it.counts for round_trip, it in zip(ROUND_TRIPS, self.players)}
        for round_trip, it in found.items():
            print(f"  {self.what}, {round_trip} ms: {it.new} new, {it.again} again, {it.named} named by NAKs", flush=True)
        return found

    def expect_at_most(self, by_libsrt):
        """Expects that each player was sent at most a tenth more packets than libsrt sends."""
        for round_trip, it in self.counts().items():
            expect(it.new + it.again <= MOST * by_libsrt, f"{self.what}, {round_trip} ms: {it.again} packets were sent again beside {it.new} new ones")

    def expect_requested(self, sent, spare=0):
        """Expects that players who lose nothing are sent nothing again, or next to nothing; but for so many packets to spare. `sent` are those
        of the stream."""
        new, again, named = (sum(them) for them in zip(*self.counts().values()))
        expect(again - named <= spare + MOST_UNREQUESTED * new, f"{self.what}: {named} packets were requested, and {again} sent again beside {new} new ones")
        expect(new >= 0.99 * len(self.players) * sent, f"{self.what}: {new} packets were sent of {sent} for each player")


def end_all(groups):
    for group in groups:
        for it in group.players:
            it.end()


def watched(run, kinds):
    """Groups of players who are all there; each kind says whether they send NAKs at intervals."""
    groups = [Group(what, [Watched(run.address, "studio", it, reports) for it in ROUND_TRIPS]) for what, reports in kinds.items()]
    try:
        at = 0
        for _ in range(len(groups) * len(ROUND_TRIPS)):
            at = run.line(r"studio: subscriber \S+ opened.*", 10, at)[0] + 1
    except Exception:
        end_all(groups)
        raise
    return groups


def source(run, seconds):
    """A publisher that sends pictures for some seconds."""
    payloads = stream(PICTURE * round(seconds * SECOND / PICTURE_INTERVAL))
    publisher = opens(Publisher(run.address, publish("studio"), payloads, PICTURE_INTERVAL, burst=PICTURE), "the publisher")
    publisher.start()
    return publisher


def end_of(publisher, seconds):
    """Waits for the end of a stream and of what follows it, and returns how many packets it had."""
    publisher.wait_all(seconds + 10)
    time.sleep(1)
    closed(publisher)
    return publisher.next - publisher.initial


def table():
    return live("studio", sessions=17, inbox=4096, callers="libsrt")


@case("players that are killed, that see nothing for two seconds, and that are well", needs=[tools.SRT])
def killed_black_and_well(_):
    """All see one stream. A pause of the machine may cost a player who is well one picture."""
    with Run([table()], "--no-time") as run:
        run.is_up()
        groups = watched(run, {"killed": True, "killed, without PERIODICNAK": False, "black for two seconds": True, "well": True})
        killed, killed_mute, black, well = groups
        try:
            publisher = source(run, BEFORE + BLACK + AFTER)
            time.sleep(BEFORE)
            for it in killed.players + killed_mute.players:
                it.player.process.kill()
            for it in black.players:
                it.line.loss = 1.0
            time.sleep(BLACK)
            for it in black.players:
                it.line.loss = 0.0
            sent = end_of(publisher, AFTER)
        finally:
            end_all(groups)
    killed.expect_at_most(TO_KILLED)
    killed_mute.expect_at_most(TO_KILLED)
    black.expect_at_most(sent + AGAIN_TO_BLACK)
    well.expect_requested(sent, spare=PICTURE)


@long_case("players that are well for five minutes", needs=[tools.SRT])
def well_for_long(_):
    """Their libsrt sends NAKs at intervals, as it does if nothing else is said."""
    with Run([table()], "--no-time") as run:
        run.is_up()
        groups = watched(run, {"well": True})
        try:
            sent = end_of(source(run, LONG_SECONDS), LONG_SECONDS)
        finally:
            end_all(groups)
    groups[0].expect_requested(sent)


@case("the last packets of a stream are lost, and are sent again without a NAK", live("tail.lost", callers="libsrt"))
def lost_tail(address):
    """No NAK names what is lost at the end of a stream: nothing newer shows the gap."""
    for round_trip in (10, 50):
        last = 100 - TAIL
        line = Proxy(address, round_trip, loss=1.0, delay=round_trip / 2000, spares=lambda it: not is_first_of(it, last))
        viewer = opens(Subscriber(line.address, "tail.lost"), "the viewer")
        publisher = opens(Publisher(address, publish("tail.lost"), stream(100), 5_000), "the publisher")
        viewer.start()
        publisher.start()
        viewer.wait(4, 100)
        closed(publisher, viewer)
        line.stop()
        expect(line.lost == TAIL, f"the line lost {line.lost} packets")
        expect(indexes(viewer.got) == list(range(100)), f"{round_trip} ms: the viewer got {len(viewer.got)} of 100 payloads")


def is_first_of(datagram, last):
    """Whether a datagram is a payload from this one on, sent for the first time."""
    packet = packets.read(datagram)
    is_new = isinstance(packet, packets.Data) and not packet.word & packets.AGAIN
    return is_new and int.from_bytes(packet.payload[:8], "big") >= last
