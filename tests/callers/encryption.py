"""Routes with passphrases: encoders under keys of each length, which they renew while they send, players that are announced keys of their
own, and callers that are refused. An observer on the line sees under which keys packets are."""
import collections
import re
import tempfile
import threading
import time

import packets
import running
import tools
from access import closed, opens, viewed
from caller import Caller, Publisher, Subscriber, endless, indexes, now, start_all, stream
from cases import case, continuous, tools_relay
from expecting import expect, expect_refusal, expect_run, publish, request
from libsrt import FILE, MEGABYTE, Transfer, expect_content, files
from proxy import Proxy
from running import Run
from takeover import OTHER_NUMBERS, TAKEOVER_MS, Fed, Watch, number_of, source_of_number, two_publishers

PUBLISH_PASSPHRASE = "correct horse battery"
WRONG_PASSPHRASE = "another horse battery"
BADSECRET, UNSECURE = 1010, 1011
LENGTHS = (16, 24, 32)
# libsrt announces new keys so many packets before it uses them.
RENEWALS = dict(kmrefreshrate=200, kmpreannounce=60)
FFMPEG_WORDS = ["-hide_banner", "-loglevel", "error", "-re", "-f", "lavfi"]
REJECTED = "REJECT reported from HS processing: "
INCORRECT, UNEXPECTED = "Incorrect passphrase", "Password required or unexpected"
# The contents of a KMREQ with a key of 16 bytes, wrapped by the passphrase of publishers.
KEYS = bytes.fromhex("1220290100000000020002000000040400112233445566778899aabbccddeeff097ad2a296802dd03b3cad778b2ef5ec61782692f95549e2")
SLACK_MS = 400  # A key is derived before a handshake is answered, so that a player's clock begins later.
UNANSWERED = 8
AT_ONCE, EACH_SECONDS = 20, 0.5  # So many callers of an address may have keys derived at once, and one more after so long.


def live(name="studio", **others):
    return running.live(name, callers="libsrt", **others)


def for_publishers(name="studio", **others):
    """The table of a route whose publishers need the passphrase."""
    return live(name, publish_passphrase=PUBLISH_PASSPHRASE, **others)


def sends(address, name="studio", length=16, passphrase=PUBLISH_PASSPHRASE, **options):
    """The address to which an encoder of libsrt publishes under keys of this length, which it renews."""
    return tools.srt(address, streamid=publish(name), passphrase=passphrase, pbkeylen=length, **{**RENEWALS, **options})


class Seen:
    """What an observer sees on a line: of each direction how many data packets have each KK, their payloads, and how many KMREQs and KMRSPs
    pass. `to` is the direction to the gateway."""

    def __init__(self):
        self.names, self.keys = collections.Counter(), collections.Counter()
        self.payloads = {True: set(), False: set()}

    def __call__(self, to, datagram):
        packet = packets.read(datagram)
        if isinstance(packet, packets.Data):
            self.names[to, packet.word >> 27 & 3] += 1
            self.payloads[to].add(packet.payload)
        elif packet is not None and packet.kind == packets.USER_DEFINED:
            self.keys[to, packet.subtype] += 1

    def expect_encrypted(self, to, who, both=False):
        """Expects that data packets of a direction were under keys alone; under both, one after the other, if that is said."""
        clear, even, odd, several = (self.names[to, it] for it in range(4))
        found = f"{who}: {clear} packets in clear, {even} under the even key, {odd} under the odd one, {several} under both"
        expect(clear == several == 0 and even + odd >= 100, found)
        expect(even and odd or not both, f"{found}: no key was renewed")


def observed(address, kind=Proxy):
    """A line to the gateway, and what is seen on it."""
    seen = Seen()
    return kind(address, 1, seen=seen), seen


# Encoders.


@case("srt-live-transmit publishes under keys of 16, 24 and 32 bytes, each renewed while it plays, to players in clear", needs=[tools.SRT])
def transmit_publishes(_):
    with Run([for_publishers(f"studio.{it}", latency_ms=300) for it in LENGTHS]) as run:
        run.is_up()
        for length in LENGTHS:
            name, (line, seen), (other, clear) = f"studio.{length}", observed(run.address), observed(run.address)
            tools_relay(sends(line.address, name, length), [tools.srt(it, streamid=name) for it in (run.address, other.address)], 600, 800, slack_ms=SLACK_MS)
            line.stop()
            other.stop()
            seen.expect_encrypted(True, f"the encoder with {length} bytes", both=True)
            asked, answered = seen.keys[True, packets.KMREQ], seen.keys[False, packets.KMRSP]
            expect(asked >= 3 and answered >= 3, f"{length} bytes: {asked} KMREQs and {answered} KMRSPs")
            expect(clear.names.keys() <= {(False, 0)}, f"the player in clear was sent packets with KK {dict(clear.names)}")


@case("srt-live-transmit publishes over a line that loses 5 %, KMREQs too", needs=[tools.SRT])
def transmit_over_a_bad_line(_):
    with Run([for_publishers(latency_ms=800)]) as run:
        run.is_up()
        line = Proxy(run.address, 11)

        def bad(yes):
            line.loss = 0.05 if yes else 0

        tools_relay(sends(line.address), [tools.srt(run.address, streamid="studio", latency=800)], 1600, 1000, bad, SLACK_MS)
        line.stop()
        expect(line.lost >= 20, f"the line lost only {line.lost} packets")


@case("ffmpeg publishes under keys that it renews, and each byte comes as it was made", needs=[tools.FFMPEG])
def ffmpeg_publishes(_):
    """ffmpeg writes the same transport stream to a file."""
    with Run([for_publishers()]) as run, tempfile.TemporaryDirectory(prefix="srtgw-keys-") as room:
        viewer, (line, seen) = viewed(run), observed(run.address)
        source = "testsrc=size=320x240:rate=25:duration=6"
        to_both = f"[f=mpegts]{room}/copy|[f=mpegts]{sends(line.address, length=32, kmrefreshrate=80, kmpreannounce=20, pkt_size=1316)}"
        words = [*FFMPEG_WORDS, "-i", source, "-c:v", "mpeg2video", "-b:v", "1M", "-map", "0", "-f", "tee", to_both]
        with tools.Tool([tools.FFMPEG, *words]) as tool:
            expect(tool.ended(30), "ffmpeg goes on")
            time.sleep(1)
        closed(viewer)
        line.stop()
        came = b"".join(body for body, _ in viewer.got)
        with open(f"{room}/copy", "rb") as file:
            made = file.read()
    seen.expect_encrypted(True, "ffmpeg", both=True)
    count, breaks = continuous(came)
    found = f"{len(came)} bytes of {len(made)} came, {count} packets with {breaks} breaks, or others"
    expect(len(came) >= 100_000 and made.startswith(came), f"{found}: {tool.errors()[-300:]!r}")


def to_gstreamer(element, address, stream_id, *more):
    """The words of GStreamer's element that calls the gateway."""
    host, port = address
    return [element, f"uri=srt://{host}:{port}", "mode=caller", f"streamid={stream_id}", *more]


@case("GStreamer publishes under a key, and each payload comes as it was made", needs=[tools.GSTREAMER])
def gstreamer_publishes(_):
    count = 500
    with Run([for_publishers()]) as run, tempfile.TemporaryDirectory(prefix="srtgw-keys-") as room:
        viewer, (line, seen) = viewed(run), observed(run.address)
        with open(f"{room}/payloads", "wb") as file:
            file.write(b"".join(stream(count)))
        source = ["filesrc", f"location={room}/payloads", "blocksize=1316"]
        sink = to_gstreamer("srtsink", line.address, publish("studio"), f"passphrase={PUBLISH_PASSPHRASE}", "pbkeylen=24")
        with tools.gstreamer(source, ["identity", "sleep-time=4000"], sink) as tool:
            expect(tool.ended(30), "GStreamer goes on")
            viewer.wait(5, count)
        closed(viewer)
        line.stop()
    seen.expect_encrypted(True, "GStreamer")
    expect_run(viewer.got, 0, count)


@case("two encoders with keys of their own: one is stopped, continued and killed, and the other takes over", needs=[tools.SRT])
def encoders_take_over(_):
    """Each of them renews its keys meanwhile, on the air and while it stands by."""
    keys = {"main": dict(passphrase=PUBLISH_PASSPHRASE, pbkeylen=16, **RENEWALS), "backup": dict(passphrase=PUBLISH_PASSPHRASE, pbkeylen=32, **RENEWALS)}
    with Run([for_publishers(takeover_ms=TAKEOVER_MS)]) as run:
        viewer = viewed(run)
        started = {"main": 0, "backup": OTHER_NUMBERS}
        again = lambda: Fed(run.address, 2 * OTHER_NUMBERS, **keys["backup"])
        two_publishers(run, Watch(viewer, source_of_number), lambda name: Fed(run.address, started[name], **keys[name]), again)
        closed(viewer)
        for name in started:
            numbers = [number_of(body) for body, _ in viewer.got if source_of_number(body) == name]
            expect(len(numbers) >= 300 and numbers == sorted(set(numbers)), f"payloads of the {name} came twice or out of order")
        indexes(viewer.got)


# Who may publish.


def key_block(contents=KEYS):
    return packets.block(packets.KMREQ, contents)


def changed(at, value):
    return KEYS[:at] + bytes([value]) + KEYS[at + 1:]


# What a conclusion has in place of the right KMREQ, and the code with which it is refused.
IN_PLACE = [
    ("no KMREQ", b"", UNSECURE), ("two", 2 * key_block(), UNSECURE), ("an empty one", key_block(b""), UNSECURE),
    ("one with another cipher", key_block(changed(8, 3)), UNSECURE),
    ("one that is too short", key_block(KEYS[:-4]), UNSECURE), ("one without keys", key_block(changed(3, 0)), UNSECURE),
    ("a key that can't be unwrapped", key_block(changed(55, 0xE3)), BADSECRET), ("another salt", key_block(changed(31, 0)), BADSECRET),
]


@case("who may publish: KMREQs that are right, malformed, missing and in vain")
def who_may_publish(_):
    tables = [for_publishers(), for_publishers("long", pbkeylen=32), live("clear")]
    with Run(tables) as run:
        run.is_up()
        for what, blocks, code in IN_PLACE:
            expect_refusal(code, Caller(run.address, publish("studio"), more=blocks), what)
        in_vain = {"studio": "a player with keys in vain", publish("clear"): "an encoder with keys in vain", publish("long"): "a key that is too short"}
        for text, what in in_vain.items():
            expect_refusal(UNSECURE, Caller(run.address, text, more=key_block()), what)
        expect_refusal(UNSECURE, Caller(run.address, publish("long")), "no KMREQ where the length is given")
        expect_refusal(1002, Caller(run.address, publish("nowhere")), "a route that isn't there")
        caller = opens(Caller(run.address, publish("studio"), more=key_block()), "an encoder with keys")
        expect(caller.answer[:3] == (5, 2, 3), f"its conclusion is answered with {caller.answer}")
        expect(caller.answer.blocks[packets.KMRSP] == KEYS, f"KMRSP is {caller.answer.blocks.get(packets.KMRSP)}")
        expect(caller.conclude() == caller.answer, "its conclusion again is answered otherwise")
        closed(caller, opens(Caller(run.address, "studio"), "a player in clear"))


# What an encoder and a player have of passphrases, and what they report.
IN_VAIN = [
    (publish("studio"), dict(passphrase=WRONG_PASSPHRASE), INCORRECT), (publish("other"), dict(), UNEXPECTED),
    ("other", dict(passphrase=PUBLISH_PASSPHRASE), UNEXPECTED),
    (publish("clear"), dict(passphrase=PUBLISH_PASSPHRASE), UNEXPECTED), (publish("long"), dict(passphrase=PUBLISH_PASSPHRASE, pbkeylen=16), UNEXPECTED),
]


def expect_rejected(address, in_vain):
    """Expects that srt-live-transmit reports why it is refused."""
    for text, options, reason in in_vain:
        with tools.transmit("file://con", tools.srt(address, streamid=text, **options), fed=True) as tool:
            expect(tool.wait_errors(REJECTED + reason, 10), f"{text} with {options} isn't refused with {reason!r}: {tool.errors()[-300:]!r}")


@case("srt-live-transmit reports a wrong passphrase, none, and one in vain", needs=[tools.SRT])
def transmit_is_refused(_):
    """It asks again every few milliseconds, so that each route has one of them."""
    with Run([for_publishers(), for_publishers("other"), for_publishers("long", pbkeylen=32), live("clear")]) as run:
        run.is_up()
        expect_rejected(run.address, IN_VAIN)
        expect(not [it for it in run.texts() if " opened" in it], f"sessions were opened: {run.texts()}")


@case("ffmpeg with a wrong passphrase and without one ends, and isn't on the air", needs=[tools.FFMPEG])
def ffmpeg_is_refused(_):
    with Run([for_publishers()]) as run:
        viewer = viewed(run)
        for options in (dict(passphrase=WRONG_PASSPHRASE), dict()):
            words = [*FFMPEG_WORDS, "-i", "testsrc=size=320x240:rate=25:duration=20", "-c:v", "mpeg2video", "-f", "mpegts"]
            with tools.Tool([tools.FFMPEG, *words, tools.srt(run.address, streamid=publish("studio"), pkt_size=1316, **options)]) as tool:
                expect(tool.ended(10) and tool.process.returncode != 0, f"with {options} it goes on: {tool.errors()[-300:]!r}")
        closed(viewer)
        expect(not viewer.got, f"{len(viewer.got)} payloads were received")


def asked_once(address, source, seconds):
    """Sends one conclusion with a key that can't be unwrapped, from this address. Returns the code of its refusal, or None if there is no
    answer within so many seconds."""
    one = Caller(address, publish("studio"), source=source, more=key_block(changed(55, 0xE3)))
    one.induce()
    one.send(packets.control(packets.HANDSHAKE, 0, one.stamp(), 0, one.conclusion()))
    packet = one.receive(seconds)
    one.socket.close()
    return packets.read_handshake(packet.body).kind if packet is not None else None


@case("many callers with wrong keys: few of them are answered, another address is let in, and a stream beside them loses nothing")
def many_strangers(_):
    over = threading.Event()
    with Run([for_publishers(), live("beside", latency_ms=500)]) as run:
        run.is_up()
        publisher, viewer = Publisher(run.address, publish("beside"), endless(over), 5_000), Subscriber(run.address, "beside")
        start_all(viewer, publisher)
        encoder = opens(Caller(run.address, publish("studio"), more=key_block()), "an encoder")
        answers, began = collections.Counter(), time.monotonic()
        while answers[None] < UNANSWERED and time.monotonic() < began + 20:
            answers[asked_once(run.address, "127.0.0.7", 0.3)] += 1
        spent = time.monotonic() - began
        most = AT_ONCE + spent / EACH_SECONDS
        is_limited = AT_ONCE <= answers[BADSECRET] <= most and answers.keys() <= {BADSECRET, None}
        expect(is_limited, f"in {spent:.1f} s: {dict(answers)}, and not {AT_ONCE} to {most:.0f} answers")
        expect(answers[None] == UNANSWERED, f"in {spent:.1f} s {answers[None]} callers weren't answered")
        expect(encoder.conclude() == encoder.answer, "the open session's conclusion isn't answered as before")
        backup = opens(Caller(run.address, publish("studio"), source="127.0.0.8", more=key_block()), "a caller of another address")
        over.set()
        expect(publisher.wait_delivered(10), "the window of the publisher beside it didn't become free")
        count = publisher.next - publisher.initial
        viewer.wait(5, count)
        closed(viewer, publisher, encoder, backup)
        expect_run(viewer.got, 0, count, "the viewer beside it")


# Players.

REQUEST_PASSPHRASE = "hold the line please"
# The contents of a KMREQ with a key of 24 bytes, wrapped by the passphrase of players.
PLAYER_KEYS = bytes.fromhex("12202901000000000200020000000406ffeeddccbbaa9988776655443322110055d5c0a04098090aa97287b4eba8443d46d8ba88121ed8187cffdf8e770d9860")
GIVEN_UP_AFTER = 5.0


def for_players(name="studio", **others):
    """The table of a route whose players need the passphrase."""
    return live(name, request_passphrase=REQUEST_PASSPHRASE, **others)


def plays(address, name="studio", passphrase=REQUEST_PASSPHRASE, **options):
    """The address from which a player of libsrt receives."""
    return tools.srt(address, streamid=name, passphrase=passphrase, **options)


def expect_players_encrypted(lines):
    """Expects that each player was announced a key, and that no two of them were sent the same bytes."""
    for at, (line, seen) in enumerate(lines):
        line.stop()
        seen.expect_encrypted(False, f"player {at}")
        announced, confirmed = seen.keys[False, packets.KMREQ], seen.keys[True, packets.KMRSP]
        expect(1 <= announced <= 20 and 1 <= confirmed <= announced, f"player {at}: {announced} KMREQs and {confirmed} KMRSPs")
    for at, (_, seen) in enumerate(lines):
        for _, other in lines[:at]:
            expect(not seen.payloads[False] & other.payloads[False], "two players were sent the same bytes")


@case("srt-live-transmit in clear to players with keys of 16, 24 and 32 bytes, and of no length that was given", needs=[tools.SRT])
def transmit_plays(_):
    with Run([for_players(latency_ms=300)]) as run:
        run.is_up()
        lines = [observed(run.address) for _ in range(4)]
        sinks = [plays(line.address, **options) for (line, _), options in zip(lines, [*(dict(pbkeylen=it) for it in LENGTHS), {}])]
        tools_relay(tools.srt(run.address, streamid=publish("studio")), sinks, 600, 600, slack_ms=SLACK_MS)
        expect_players_encrypted(lines)


def wait_for_players(run, count, seconds=15):
    """Waits until the log says that so many players' sessions were opened."""
    until = time.monotonic() + seconds
    while time.monotonic() < until and sum(bool(re.match(r"studio: subscriber \S+ opened", it)) for it in run.texts()) < count:
        time.sleep(0.02)


def pieces_of(contents, size=1316):
    """The payloads that a player wrote one behind the other."""
    return [(contents[at:at + size], 0) for at in range(0, len(contents) - size + 1, size)]


@case("ffmpeg and GStreamer play under keys, and write what was published", needs=[tools.FFMPEG, tools.GSTREAMER])
def others_play(_):
    """ffmpeg passes on what it receives, as data."""
    count = 500
    with Run([for_players(latency_ms=300)]) as run, tempfile.TemporaryDirectory(prefix="srtgw-keys-") as room:
        run.is_up()
        lines = [observed(run.address) for _ in range(2)]
        words = ["-hide_banner", "-loglevel", "error", "-probesize", "32", "-analyzeduration", "0", "-f", "data", "-i", plays(lines[0][0].address, pbkeylen=32)]
        source = to_gstreamer("srtsrc", lines[1][0].address, "studio", f"passphrase={REQUEST_PASSPHRASE}", "pbkeylen=16")
        with tools.Tool([tools.FFMPEG, *words, "-map", "0", "-c", "copy", "-f", "data", "-flush_packets", "1", "pipe:1"]) as ffmpeg, \
                tools.gstreamer(source, ["filesink", f"location={room}/came", "buffer-mode=2"]) as gstreamer:
            wait_for_players(run, 2)
            publisher = opens(Publisher(run.address, publish("studio"), stream(count), 5_000), "a publisher")
            publisher.start()
            expect(publisher.wait_delivered(20), "the publisher's window didn't become free")
            ffmpeg.wait_output(1316 * count, 5)
            time.sleep(1)
            closed(publisher)
        with open(f"{room}/came", "rb") as file:
            written = file.read()
        for who, came, tool in (("ffmpeg", bytes(ffmpeg.output), ffmpeg), ("GStreamer", written, gstreamer)):
            expect(len(came) == 1316 * count, f"{who} has {len(came)} bytes of {1316 * count}: {tool.errors()[-300:]!r}")
            expect_run(pieces_of(came), 0, count, who)
        expect_players_encrypted(lines)


class KeyLoss(Proxy):
    """A line that loses the first KMREQs and KMRSPs of each direction, so many of each."""

    def __init__(self, target, seed, first=3, **others):
        self.first, self.keys = first, collections.Counter()
        super().__init__(target, seed, **others)

    def take(self, out, peer, datagram):
        packet = packets.read(datagram)
        if isinstance(packet, packets.Control) and packet.kind == packets.USER_DEFINED:
            self.keys[peer is None, packet.subtype] += 1
            if self.keys[peer is None, packet.subtype] <= self.first:
                self.lost += 1
                return
        super().take(out, peer, datagram)


@case("keys on both sides, over lines that lose the first KMREQs and KMRSPs, and then 5 % of all", needs=[tools.SRT])
def both_sides_over_bad_lines(_):
    table = live(publish_passphrase=PUBLISH_PASSPHRASE, request_passphrase=REQUEST_PASSPHRASE, latency_ms=800)
    with Run([table]) as run:
        run.is_up()
        here, there = observed(run.address, KeyLoss), [observed(run.address, KeyLoss) for _ in range(2)]

        def bad(yes):
            for line, _ in (here, *there):
                line.loss = 0.05 if yes else 0

        sinks = [plays(line.address, pbkeylen=it, latency=800) for (line, _), it in zip(there, (16, 32))]
        tools_relay(sends(here[0].address, length=24), sinks, 1600, 600, bad, SLACK_MS)
        here[1].expect_encrypted(True, "the encoder", both=True)
        here[0].stop()
        expect_players_encrypted(there)
        expect(all(line.lost >= 10 for line, _ in (here, *there)), f"the lines lost only {[line.lost for line, _ in (here, *there)]} packets")


@case("a file under keys from srt-file-transmit to two of them, and all end by themselves", needs=[FILE])
def file_under_keys(_):
    table = files("archive", publish_passphrase=PUBLISH_PASSPHRASE, request_passphrase=REQUEST_PASSPHRASE)
    with Run([table], "--no-time") as run, Transfer(MEGABYTE, "archive") as transfer:
        run.is_up()
        lines = [observed(run.address) for _ in range(3)]
        receivers = [transfer.receiver(lines[at][0].address, at, passphrase=REQUEST_PASSPHRASE, pbkeylen=length) for at, length in enumerate((16, 32))]
        for at in range(len(receivers)):
            run.line(r"archive: subscriber \S+ opened.*", 10)
        sender = transfer.sender(lines[2][0].address, passphrase=PUBLISH_PASSPHRASE, pbkeylen=32, kmrefreshrate=500, kmpreannounce=100)
        expect(sender.ended(60), f"the sender goes on, {len(transfer.received())} bytes were received")
        for at, receiver in enumerate(receivers):
            expect(receiver.ended(30), f"receiver {at} goes on, {len(transfer.received(at))} bytes were received")
            expect_content(transfer.received(at), transfer.contents, f"receiver {at}")
        lines[2][1].expect_encrypted(True, "the sender")
        lines[2][0].stop()
        expect_players_encrypted(lines[:2])


# Who may play.


class KeyedSubscriber(Subscriber):
    """A player that confirms its keys, if it is to. `announced` has the messages of all KMREQs."""

    def __init__(self, address, stream_id, confirms=True, contents=PLAYER_KEYS, **others):
        super().__init__(address, stream_id, more=key_block(contents), **others)
        self.confirms, self.announced = confirms, []

    def on_control(self, packet):
        if packet.kind == packets.USER_DEFINED and packet.subtype == packets.KMREQ:
            self.announced.append(packet.body)
            if self.confirms:
                self.send(packets.control(packets.USER_DEFINED, 0, self.stamp(), self.peer_id, packet.body, packets.KMRSP))
        else:
            super().on_control(packet)


@case("who may play: passphrases that are right, wrong, missing and in vain")
def who_may_play(_):
    with Run([for_players(), for_players("long", pbkeylen=32), for_publishers("other")]) as run:
        run.is_up()
        wrong = PLAYER_KEYS[:-1] + bytes([PLAYER_KEYS[-1] ^ 1])
        for what, blocks, code in (("no KMREQ", b"", UNSECURE), ("two", 2 * key_block(PLAYER_KEYS), UNSECURE), ("keys of publishers", key_block(), BADSECRET),
                                   ("a key that can't be unwrapped", key_block(wrong), BADSECRET)):
            expect_refusal(code, Caller(run.address, request("studio"), more=blocks), what)
        expect_refusal(UNSECURE, Caller(run.address, "long", more=key_block(PLAYER_KEYS)), "a key that is too short")
        expect_refusal(UNSECURE, Caller(run.address, "other", more=key_block(PLAYER_KEYS)), "keys for a route without them")
        expect_refusal(UNSECURE, Caller(run.address, publish("studio"), more=key_block(PLAYER_KEYS)), "an encoder with keys in vain")
        caller = opens(Caller(run.address, "studio", more=key_block(PLAYER_KEYS)), "a player with keys")
        expect(caller.answer[:3] == (5, 3, 3) and caller.answer.blocks[packets.KMRSP] == PLAYER_KEYS, f"its conclusion is answered with {caller.answer}")
        closed(caller, opens(Caller(run.address, publish("studio")), "an encoder in clear"))


@case("srt-live-transmit as a player reports a wrong passphrase, none, and one in vain", needs=[tools.SRT])
def player_is_refused(_):
    with Run([for_players(), for_players("other"), live("clear")]) as run:
        run.is_up()
        expect_rejected(run.address, [
            ("studio", dict(passphrase=WRONG_PASSPHRASE), INCORRECT), ("other", dict(), UNEXPECTED), ("clear", dict(passphrase=REQUEST_PASSPHRASE), UNEXPECTED),
            (publish("other"), dict(passphrase=REQUEST_PASSPHRASE), UNEXPECTED),
        ])
        expect(not [it for it in run.texts() if " opened" in it], f"sessions were opened: {run.texts()}")


@case("a player that doesn't confirm its key is sent no payload, and ends after five seconds; one with the same KMREQ has another key")
def never_confirms(_):
    over = threading.Event()
    with Run([for_players()]) as run:
        run.is_up()
        publisher = Publisher(run.address, publish("studio"), endless(over), 10_000)
        players = [KeyedSubscriber(run.address, "studio", confirms) for confirms in (True, True, False)]
        began = now()
        start_all(*players, publisher)
        silent = players[2]
        expect(silent.shut.wait(GIVEN_UP_AFTER + 3), "who doesn't confirm isn't told of an end")
        spent = (now() - began) / 1e6
        expect(spent >= GIVEN_UP_AFTER, f"it ended after {spent:.1f} s")
        expect(not silent.got and len(silent.announced) >= 20, f"it was sent {len(silent.got)} payloads and {len(silent.announced)} KMREQs")
        over.set()
        expect(publisher.wait_delivered(10), "the publisher's window didn't become free")
        time.sleep(0.5)
        closed(publisher, *players[:2])
    messages = [set(it.announced) for it in players]
    expect(all(len(it) == 1 for it in messages) and len(set.union(*messages)) == 3, f"the keys of the players are {messages}")
    first, second = ({body for body, _ in it.got} for it in players[:2])
    expect(len(first) >= 200 and len(second) >= 200 and not first & second, f"{len(first & second)} of {len(first)} and {len(second)} payloads are the same")
