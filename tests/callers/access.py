"""Who may call: callers from outside a route's lists, callers without its key, and 100,000 datagrams of strangers beside a stream.

All addresses are this machine's: the gateway listens at 127.0.0.1, and callers send from 127.0.0.0/8. Each case has a gateway of
its own, so that what was received from strangers can be counted."""
import collections
import itertools
import random
import re
import struct
import threading
import time

import packets
import tools
from caller import Caller, Publisher, Subscriber, endless, start_all, stream
from cases import case, encoder, tools_relay
from expecting import expect, expect_refusal, expect_run, publish, refusal, request
from machine import drops_of, queued_at
from running import Run, Shown, expect_polite, live

PEER = 1002
RESOURCE = 1003
HERE = "127.0.0.1"
CROWD = [f"127.0.0.{last}" for last in range(2, 12)]
ROOM = 50_000  # What may wait at the gateway's socket, in bytes, when more is sent to it.
FIRST_ID = 1 << 20  # The least socket ID of a session of the first route.
REJECTED = "REJECT reported from HS processing: Peer rejected connection"
OPENED = r"{}: (publisher|subscriber) (\S+):\d+ opened.*"


def opens(caller, what):
    """Expects that a call is accepted, and leaves its session open."""
    found = refusal(caller.call)
    expect(found == 0, f"{what}: refused with {found}")
    return caller


def viewed(run):
    """Waits until the gateway is up, and returns a subscriber of the route `studio` whose session is open."""
    run.is_up()
    viewer = opens(Subscriber(run.address, "studio"), "a viewer")
    viewer.start()
    return viewer


def closed(*callers):
    for one in callers:
        one.close()


def inductions(*callers):
    """How many inductions these callers sent. All else that a caller sends is for a route, if its conclusion is accepted."""
    return sum(one.handshakes[packets.INDUCTION] for one in callers)


def openings(run, route):
    """The addresses of all sessions that the log says were opened on a route."""
    return [found[2] for found in (re.fullmatch(OPENED.format(route), it) for it in run.texts()) if found]


# Lists of addresses.

# A list, addresses that are in it, and addresses that aren't: the first and the last of each network, and those beside it.
LISTS = [
    (["127.0.0.1"], ["127.0.0.1"], ["127.0.0.2", "127.1.0.1"]),
    (["127.0.0.8/29"], ["127.0.0.8", "127.0.0.15"], ["127.0.0.7", "127.0.0.16"]),
    (["127.0.0.4/32", "127.0.2.0/23"], ["127.0.0.4", "127.0.2.1", "127.0.3.255"], ["127.0.0.5", "127.0.1.255", "127.0.4.1"]),
    (["10.0.0.0/8", "127.128.0.0/9"], ["127.128.0.1", "127.255.0.1"], ["127.127.255.255", "127.0.0.1"]),
    (["0.0.0.0/0"], ["127.0.0.1", "127.255.255.254"], []),
    (["192.0.2.7"], [], ["127.0.0.1"]),
]


@case("lists of addresses, each for its own role")
def lists(_):
    tables = [live(f"{role}.{at}", **{f"{role}_from": given}) for at, (given, _, _) in enumerate(LISTS) for role in ("publish", "request")]
    with Run(tables) as run:
        run.is_up()
        for at, (given, inside, outside) in enumerate(LISTS):
            for role, other in (("publish", "request"), ("request", "publish")):
                name = f"{role}.{at}"
                for source in inside + outside:
                    asks, is_asked_freely = (Caller(run.address, f"#!::r={name},m={it}", source=source) for it in (role, other))
                    wanted = 0 if source in inside else PEER
                    found = refusal(asks.call)
                    expect(found == wanted, f"{source} at {role}_from = {given}: {found}, and not {wanted}")
                    closed(opens(is_asked_freely, f"{source}, for {other}, at {role}_from = {given}"))
                    if not wanted:
                        closed(asks)


@case("strangers outside publish_from get 1002 and hold no place")
def strangers_hold_no_place(_):
    """Two strangers would be enough to hold both publishers' places, and three to hold all of the route's."""
    with Run([live("listed", sessions=3, publish_from=[HERE], request_from=[HERE])]) as run:
        run.is_up()
        strangers = [Caller(run.address, ask("listed"), source=source) for source in CROWD for ask in (publish, request)]
        for one in strangers:
            expect_refusal(PEER, one, f"{one.here[0]}")
        main, backup = (Publisher(run.address, publish("listed"), stream(200), 5_000) for _ in range(2))
        viewer = Subscriber(run.address, request("listed"))
        for one in (main, backup, viewer):
            opens(one, "a caller of the list")
        expect_refusal(RESOURCE, Subscriber(run.address, request("listed")), "a fourth session of three")
        for one in strangers:
            expect(refusal(one.conclude) == PEER, f"{one.here[0]} isn't refused with all places in use")
        for one in (viewer, main):
            one.start()
        viewer.wait(5, 200)
        closed(viewer, main, backup)
        expect_run(viewer.got, 0, 200)
        time.sleep(1)
        expect(openings(run, "listed") == [HERE] * 3, f"sessions of {openings(run, 'listed')} were opened")


def for_sessions(route_index=0):
    """A datagram of each kind for each of the first sessions of a route, which anyone can guess."""
    first = (route_index + 1) * FIRST_ID
    for to in range(first, first + 4):
        yield packets.data(0, 1, 0, to, bytes(1316))
        for kind, info, body in (
            (packets.KEEPALIVE, 0, b""), (packets.ACK, 1, packets.words(5, 100, 50, 8192, 0, 0, 0)), (packets.NAK, 0, packets.words(1 << 31, 5)),
            (packets.SHUTDOWN, 0, b""), (packets.ACKACK, 1, b""), (packets.DROPREQ, 1, packets.words(0, 5)),
        ):
            yield packets.control(kind, info, 0, to, body)


@case("of strangers alone no datagram enters a route")
def nothing_enters(_):
    """Each of ten strangers calls in both roles, and sends a datagram of each kind to each of the first sessions."""
    with Run([live("listed", publish_from=[HERE], request_from=["127.0.0.0/31"])], "--no-time") as run:
        run.is_up()
        strangers = [Caller(run.address, ask("listed"), source=source) for source in CROWD for ask in (publish, request)]
        sent = 0
        for one in strangers:
            expect_refusal(PEER, one, f"{one.here[0]}")
            handshakes = one.given
            for datagram in for_sessions():
                one.send(datagram)
            sent += one.given - handshakes
            time.sleep(0.005)
        time.sleep(0.5)
        dropped, answered = drops_of(run.address[1]), sum(one.handshakes.total() for one in strangers)
        end = run.stop()
    expect(sent == 20 * 28 and not dropped, f"{sent} datagrams were sent, of which the kernel dropped {dropped}")
    wanted = {"read": answered + sent, "answered": answered, "accepted": 0, "full": 0, "dropped": sent, "memory": 0, "sent": answered, "lost": 0, "faults": 0}
    expect(end.report == wanted, f"the report is {end.report}, and not {wanted}")
    expect(openings(run, "listed") == [], f"sessions of {openings(run, 'listed')} were opened")


class Crowd(threading.Thread):
    """Strangers who send datagrams of all kinds to a route that hears another address only: data, acknowledgements, NAKs, drop
    requests and SHUTDOWNs to its open sessions' socket IDs, conclusions in both roles with right cookies and with wrong ones, and
    bytes without a meaning. At most `rate` are sent in a second, and fewer if the gateway is slower than that, until its socket took
    `count`. `answers` counts what comes back."""

    def __init__(self, address, name, sessions, count, rate):
        super().__init__(daemon=True)
        self.port, self.count, self.rate, self.sent, self.answers = address[1], count, rate, 0, collections.Counter()
        self.strangers = [Caller(address, ask(name), source=source) for source in CROWD for ask in (publish, request)]
        for one in self.strangers:
            one.induce()
        self.inductions, self.kinds = inductions(*self.strangers), list(self.datagrams(sessions))

    def datagrams(self, sessions):
        """For each stranger what it sends, without an end. They begin at different places."""
        chance = random.Random(1)
        for at, one in enumerate(self.strangers):
            it = packets.control(packets.HANDSHAKE, 0, 0, 0, one.conclusion())
            with_other_cookie = it[:44] + struct.pack("!I", one.cookie ^ 1) + it[48:]
            kinds = [*2 * (*for_sessions(), *self.for_open(sessions)), it, with_other_cookie, chance.randbytes(60)]
            yield itertools.cycle(kinds[3 * at:] + kinds[:3 * at])

    @staticmethod
    def for_open(sessions):
        for to, number in sessions:
            yield packets.data(number, 1, 0, to, bytes(1316))
            yield packets.control(packets.SHUTDOWN, 0, 0, to)
            yield packets.control(packets.NAK, 0, 0, to, packets.words(1 << 31 | number, number + 1000))

    def run(self):
        due = time.monotonic()
        while self.sent < self.count + drops_of(self.port):
            if queued_at(self.port) < ROOM:
                for one, kinds in zip(self.strangers, self.kinds):
                    one.send(next(kinds))
                self.sent += len(self.strangers)
            self.take()
            due += len(self.strangers) / self.rate
            time.sleep(max(0, due - time.monotonic()))
        time.sleep(0.5)
        self.take()

    def take(self):
        for one in self.strangers:
            packet = one.receive(0)
            while packet is not None:
                answer = packets.read_handshake(packet.body) if isinstance(packet, packets.Control) else None
                self.answers[answer.kind if answer else packet] += 1
                packet = one.receive(0)


@case("100,000 datagrams of strangers enter nothing, and the stream beside them loses nothing")
def crowd(_):
    listed = dict(publish_from=["127.0.0.1/32"], request_from=["127.0.0.1/32"])
    with Shown([live("listed", latency_ms=500, inbox=1024, **listed)], "--no-time") as run:
        run.is_up()
        over = threading.Event()
        publisher, subscriber = Publisher(run.address, publish("listed"), endless(over), 2_500), Subscriber(run.address, request("listed"))
        start_all(subscriber, publisher)
        throng = Crowd(run.address, "listed", [(one.peer_id, one.initial) for one in (publisher, subscriber)], 101_000, 10_000)
        throng.start()
        throng.join(120)
        over.set()
        flows = publisher.wait_delivered(10)
        count = publisher.next - publisher.initial
        flows = flows and subscriber.wait(5, count)
        closed(publisher, subscriber)
        time.sleep(0.5)
        dropped, opened = drops_of(run.address[1]), run.page.metrics().total("srtgw_route_opened_sessions_total")
        end = run.stop()
    expect(not throng.is_alive(), f"only {throng.sent} datagrams were sent in two minutes")
    expect(flows and publisher.dropped == subscriber.dropped == 0, f"the stream beside them stops or loses: {len(subscriber.got)} of {count} payloads were received, and the kernel dropped {dropped} datagrams")
    expect_run(subscriber.got, 0, count, "the subscriber beside them")
    expect_polite(end, ["listed"])
    counts, ours = end.report, publisher.given + subscriber.given
    asked = inductions(publisher, subscriber)
    expect(counts["read"] == throng.sent + throng.inductions + ours - dropped, f"{throng.sent} and {ours} were sent, {dropped} dropped by the kernel: {counts}")
    expect(throng.sent - dropped >= 100_000, f"only {throng.sent} were sent, and {dropped} dropped")
    expect(ours - asked - dropped <= counts["accepted"] <= ours - asked, f"{counts['accepted']} entered the route, and its callers sent it {ours - asked}")
    expect(counts["full"] == counts["memory"] == 0, f"{counts}")
    refused = throng.answers.pop(PEER, 0)
    expect(refused > 1_000 and not throng.answers, f"{refused} conclusions were refused with 1002; other answers: {throng.answers}")
    expect(opened == 2, f"{opened} sessions were opened")


# Keys.

KEY, OTHER_KEY = "aZ09-_.~rest", "v" * 64

# What a Stream ID brings for the key of its role, and whether that opens a session.
BROUGHT = [
    (f"k={KEY}", True), (f"k={KEY},k=wrong", True), (f"k,k={KEY}", True), (f"x=1,k={KEY},y=2", True),
    ("", False), ("k=", False), ("k", False), ("k=wrong", False), (f"k=wrong,k={KEY}", False), (f"k=,k={KEY}", False), (f"k={OTHER_KEY}", False),
    (f"k={KEY[:-1]}", False), (f"k={KEY}x", False), (f"k={KEY.upper()}", False), (f"K={KEY}", False), (f"k={KEY}=", False), (f"k=={KEY}", False), (f"key={KEY}", False),
]


@case("a key, and what is none")
def keys(_):
    tables = [live("studio", publish_key=KEY), live("gate", request_key=KEY, publish_key=OTHER_KEY), live("open")]
    with Run(tables) as run:
        run.is_up()
        for route, role in (("studio", "publish"), ("gate", "request")):
            for brought, is_right in BROUGHT:
                for text in (f"#!::r={route},m={role},{brought}".rstrip(","), f"#!::{brought},m={role},r={route}".replace("::,", "::")):
                    found = refusal((one := Caller(run.address, text)).call)
                    expect(found == (0 if is_right else PEER), f"{text!r}: {found or 'accepted'}")
                    if not found:
                        closed(one)
        for text in ("studio", "#!::r=studio", "#!::r=studio,k=wrong", f"#!::r=gate,m=publish,k={OTHER_KEY}", "open", "#!::r=open,m=publish,k=any", "#!::r=open,k="):
            closed(opens(Caller(run.address, text), repr(text)))
        for text in ("gate", "#!::r=gate", f"#!::r=gate,m=publish,k={KEY}", f"#!::r=gate,k={OTHER_KEY}", f"studio,m=publish,k={KEY}"):
            expect_refusal(PEER, Caller(run.address, text), repr(text))


@case("strangers without the key don't keep the encoder out")
def strangers_and_encoder(_):
    """Strangers ask for both publishers' places all the time, from the encoder's own address too."""
    with Run([live("studio", publish_key=KEY)]) as run:
        run.is_up()
        over, found = threading.Event(), collections.Counter()

        def ask():
            while not over.is_set():
                for source, brought in ((HERE, ""), (HERE, ",k=wrong"), ("127.0.0.2", f",k={KEY[:-1]}"), ("127.0.0.3", ",k=")):
                    found[refusal(Caller(run.address, publish("studio") + brought, source=source).call)] += 1

        asking = threading.Thread(target=ask, daemon=True)
        asking.start()
        try:
            time.sleep(0.5)
            right = f"{publish('studio')},k={KEY}"
            main, backup = (Publisher(run.address, right, stream(400, first), 5_000) for first in (0, 1000))
            viewer = Subscriber(run.address, "studio")
            for one in (main, backup, viewer):
                opens(one, "a caller with the key, or one that needs none")
            for one in (viewer, main):
                one.start()
            viewer.wait(10, 400)
        finally:
            over.set()
            asking.join(10)
        closed(viewer, main, backup)
        expect_run(viewer.got, 0, 400)
        expect(set(found) == {PEER} and found[PEER] >= 50, f"the strangers' answers: {dict(found)}")


@case("srt-live-transmit publishes with the key", needs=[tools.SRT])
def transmit_with_key(_):
    with Run([live("studio", publish_key="a-key.of~the_studio", request_key="v")]) as run:
        run.is_up()
        source = tools.srt(run.address, streamid="#!::r=studio,m=publish,k=a-key.of~the_studio")
        tools_relay(source, [tools.srt(run.address, streamid="#!::r=studio,m=request,k=v")], 240)
        for text in ("#!::r=studio,m=publish", "#!::r=studio,m=publish,k=a-key.of~the_studi", "#!::r=studio,m=publish,k=v", "#!::r=studio", "studio"):
            with tools.transmit("file://con", tools.srt(run.address, streamid=text), fed=True) as tool:
                expect(tool.wait_errors(REJECTED, 5), f"{text} isn't refused: {tool.errors()[-300:]!r}")


@case("srt-live-transmit from a listed address, and from others", needs=[tools.SRT])
def transmit_from_elsewhere(_):
    with Run([live("studio", publish_from=["127.0.0.4/31"], request_from=["127.0.0.9"])]) as run:
        run.is_up()
        source = tools.srt_from("127.0.0.5", run.address, streamid=publish("studio"))
        tools_relay(source, [tools.srt_from("127.0.0.9", run.address, streamid="studio")], 240)
        for text, elsewhere in ((publish("studio"), "127.0.0.6"), (publish("studio"), "127.0.0.9"), ("studio", "127.0.0.4"), ("studio", HERE)):
            with tools.transmit("file://con", tools.srt_from(elsewhere, run.address, streamid=text), fed=True) as tool:
                expect(tool.wait_errors(REJECTED, 5), f"{text} from {elsewhere} isn't refused: {tool.errors()[-300:]!r}")


@case("ffmpeg publishes with the key, from a listed address", needs=[tools.FFMPEG])
def ffmpeg_with_key(_):
    with Run([live("studio", publish_key=KEY, publish_from=[HERE])]) as run:
        viewer = viewed(run)
        with encoder(tools.srt(run.address, streamid=f"{publish('studio')},k={KEY}", pkt_size=1316), 2):
            viewer.wait(6, 100)
        time.sleep(0.5)
        with_key = len(viewer.got)
        with encoder(tools.srt(run.address, streamid=publish("studio"), pkt_size=1316), 2) as tool:
            expect(tool.ended(5), "ffmpeg without the key goes on")
        time.sleep(0.5)
        closed(viewer)
        expect(with_key >= 40 and len(viewer.got) == with_key, f"{with_key} packets were received with the key, {len(viewer.got) - with_key} without it")
