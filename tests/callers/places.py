"""What one caller, and what viewers, may have of a route's places: `sessions_per_address` and `reserved`."""
import threading
import time

import packets
import tools
from access import closed, openings, opens
from caller import Caller, Publisher, Subscriber, stream
from cases import case, encoder, tools_relay
from expecting import expect, expect_refusal, expect_run, publish, refusal, request
from running import Run, live

PEER = 1002
RESOURCE = 1003
HERE, ELSEWHERE = "127.0.0.1", "127.0.0.2"
TOLD = "REJECT reported from HS processing: Resource allocation failure"


class Greedy(Caller):
    """One caller with one socket and one cookie that asks for a session again and again, each time with another socket ID of its
    own. It keeps what it gets open by a KEEPALIVE a second."""

    def __init__(self, address, stream_id, source):
        super().__init__(address, stream_id, source=source)
        self.sessions = {}
        self.induce()

    def ask(self, socket_id):
        """Asks for the session of this socket ID. Returns the code of its refusal, or 0."""
        self.socket_id = socket_id
        found = refusal(self.conclude)
        if not found:
            self.sessions[socket_id] = self.peer_id
        return found

    def keep(self):
        for self.peer_id in self.sessions.values():
            self.send_control(packets.KEEPALIVE)

    def leave(self, socket_id):
        self.peer_id = self.sessions.pop(socket_id)
        self.send_control(packets.SHUTDOWN)


@case("the seventeen sessions of one caller: two open, fifteen get 1003")
def seventeen(_):
    """Each caller asks from one port or from another each time; it is the address that counts."""
    with Run([live("one", sessions=17, sessions_per_address=2), live("each", sessions=17, sessions_per_address=2)]) as run:
        run.is_up()
        greedy = Greedy(run.address, "one", ELSEWHERE)
        found = [greedy.ask(socket_id) for socket_id in range(1, 18)]
        expect(found == [0] * 2 + [RESOURCE] * 15, f"of one port: {found}")
        expect(len(set(greedy.sessions.values())) == 2, f"its sessions are {greedy.sessions}")
        expect([greedy.ask(socket_id) for socket_id in (1, 2)] == [0, 0], "a conclusion that is repeated is refused")
        ports = [Caller(run.address, "each", source=ELSEWHERE) for _ in range(17)]
        found = [refusal(one.call) for one in ports]
        expect(found == [0] * 2 + [RESOURCE] * 15, f"of seventeen ports: {found}")
        publisher = Publisher(run.address, publish("one"), stream(100), 5_000, source=ELSEWHERE)
        expect_refusal(RESOURCE, publisher, "a publisher of an address that has two sessions")
        for route in ("one", "each"):
            others = [Subscriber(run.address, route, source=f"127.0.0.{last}") for last in (3, 4) for _ in range(2)]
            for one in others:
                opens(one, f"{one.here[0]} at {route}")
            expect_refusal(RESOURCE, Subscriber(run.address, route, source="127.0.0.3"), "a third session of 127.0.0.3")
            closed(*others)
        greedy.leave(1)
        time.sleep(0.1)
        opens(publisher, "a publisher of an address that has one session left")
        expect(greedy.ask(3) == RESOURCE, "a subscriber beside a publisher and a subscriber of its address")
        closed(publisher)


@case("one caller with a KEEPALIVE a second keeps nobody else out")
def greedy_beside_a_stream(_):
    """It asks for all places of the route again and again for seven seconds, longer than a silent session lasts."""
    with Run([live("studio", sessions=5, sessions_per_address=2)]) as run:
        run.is_up()
        over, found = threading.Event(), []
        greedy = Greedy(run.address, "studio", ELSEWHERE)

        def ask():
            socket_id = 0
            while not over.wait(0.05):
                socket_id += 1
                found.append(greedy.ask(socket_id))
                if socket_id % 20 == 0:
                    greedy.keep()

        asking = threading.Thread(target=ask, daemon=True)
        asking.start()
        try:
            time.sleep(0.5)
            publisher, viewer = Publisher(run.address, publish("studio"), stream(1_300), 5_000), Subscriber(run.address, "studio")
            for one in (viewer, publisher):
                opens(one, "the studio's own caller").start()
            flows = viewer.wait(10, 1_300)
        finally:
            over.set()
            asking.join(10)
        expect(flows and viewer.dropped == 0, f"{len(viewer.got)} payloads were received")
        expect_run(viewer.got, 0, 1_300)
        opens(third := Subscriber(run.address, "studio", source="127.0.0.3"), "a viewer in the last place")
        expect_refusal(RESOURCE, Subscriber(run.address, "studio", source="127.0.0.4"), "a sixth session of five")
        closed(publisher, viewer, third)
        expect(found[:2] == [0, 0] and set(found[2:]) == {RESOURCE} and len(found) >= 50, f"it got {found.count(0)} of {len(found)} sessions")


def expect_places(run, name, kept):
    """Plays viewers and both publishers of a route of five sessions, of which `kept` are for publishers."""
    viewers = [Subscriber(run.address, request(name), source=f"127.0.0.{10 + at}") for at in range(5)]
    found = [refusal(one.call) for one in viewers]
    expect(found == [0] * (5 - kept) + [RESOURCE] * kept, f"five viewers, {kept} places kept: {found}")
    encoders = []
    for at in range(kept):
        encoders.append(opens(Publisher(run.address, publish(name), stream(200), 5_000), f"publisher {at} of {name}"))
        expect_refusal(RESOURCE, viewers[-1], f"a viewer beside {at + 1} publishers and {5 - kept} viewers")
    extra = Publisher(run.address, publish(name), stream(1), 5_000)
    expect_refusal(PEER if kept == 2 else RESOURCE, extra, f"one more publisher of {name}")
    viewers[0].close()
    time.sleep(0.1)
    late = opens(Subscriber(run.address, request(name)), "a viewer in a place that is free, with as many publishers as places are kept")
    for one in (late, encoders[0]):
        one.start()
    late.wait(5, 200)
    expect_run(late.got, 0, 200, "the viewer that came late")
    closed(encoders[0])
    time.sleep(0.1)
    expect_refusal(RESOURCE, viewers[-1], "a viewer in the encoder's place")
    closed(opens(Publisher(run.address, publish(name), []), "the encoder that comes back"), late, *encoders[1:], *viewers[1:5 - kept])


@case("five viewers on a route of five sessions leave the encoder its place")
def kept_for_publishers(_):
    with Run([live("one", reserved=1), live("two", reserved=2)]) as run:
        run.is_up()
        expect_places(run, "one", 1)
        expect_places(run, "two", 2)


@case("both limits at once")
def both_limits(_):
    """A publisher is bound by its address's limit and not by the reserved places, a viewer by both."""
    with Run([live("studio", sessions=3, reserved=1, sessions_per_address=1)]) as run:
        run.is_up()
        first = opens(Subscriber(run.address, "studio"), "the first viewer")
        expect_refusal(RESOURCE, Publisher(run.address, publish("studio"), []), "a publisher of the viewer's address")
        second = opens(Subscriber(run.address, "studio", source=ELSEWHERE), "the second viewer")
        expect_refusal(RESOURCE, Subscriber(run.address, "studio", source="127.0.0.3"), "a third viewer")
        main = opens(Publisher(run.address, publish("studio"), [], source="127.0.0.3"), "the encoder")
        closed(first, second, main)


@case("ffmpeg gets the encoder's place, and the fifth srt-live-transmit is told", needs=[tools.SRT, tools.FFMPEG])
def real_viewers(_):
    with Run([live("studio", reserved=1)]) as run:
        run.is_up()
        outlets = [tools.Outlet() for _ in range(4)]
        viewers = [tools.transmit(tools.srt(run.address, streamid="studio"), it.address) for it in outlets]
        try:
            until = time.monotonic() + 5
            while time.monotonic() < until and len(openings(run, "studio")) < 4:
                time.sleep(0.05)
            expect(len(openings(run, "studio")) == 4, f"viewers of {openings(run, 'studio')} are connected")
            with tools.transmit(tools.srt(run.address, streamid="studio"), "file://con") as fifth:
                expect(fifth.wait_errors(TOLD, 5), f"the fifth viewer isn't told: {fifth.errors()[-300:]!r}")
            with encoder(tools.srt(run.address, streamid=publish("studio"), pkt_size=1316), 3):
                expect(all(it.wait(6, 80) for it in outlets), f"viewers got {[len(it.got) for it in outlets]} packets")
        finally:
            for one in viewers:
                one.end()


@case("the second srt-live-transmit of an address is told, and one of another address isn't", needs=[tools.SRT])
def real_callers_of_one_address(_):
    with Run([live("studio", sessions_per_address=1)]) as run:
        run.is_up()
        source = tools.srt_from("127.0.0.5", run.address, streamid=publish("studio"))
        sinks = [tools.srt_from(it, run.address, streamid="studio") for it in ("127.0.0.6", "127.0.0.7")]
        with tools.transmit(sinks[0], "file://con"):
            until = time.monotonic() + 5
            while time.monotonic() < until and not openings(run, "studio"):
                time.sleep(0.05)
            with tools.transmit(sinks[0], "file://con") as second:
                expect(second.wait_errors(TOLD, 5), f"the second one isn't told: {second.errors()[-300:]!r}")
        tools_relay(source, sinks, 240)
