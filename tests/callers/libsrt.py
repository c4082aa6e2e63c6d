"""Routes with `callers = "libsrt"`: files at speed, files that end, publishers that drain, and callers who are told of their end."""
import multiprocessing
import os
import random
import tempfile
import threading
import time
from concurrent.futures import ProcessPoolExecutor

import gateway
import packets
import running
import tools
from access import closed, opens, viewed
from caller import Publisher, Subscriber, endless, indexes, start_all, stream
from cases import case, pieces
from expecting import Wrong, expect, expect_delays, expect_run, publish
from machine import drops_of
from proxy import Proxy, far_line
from running import Run, Skipped

FILE = "srt-file-transmit"
MEGABYTE = 1_000_000
BUFFERED = dict(mode="buffer", congestion=b"file")
LOSS = 0.05
TOLD_WITHIN = 0.2
WINDOW = 1024
PAYLOAD = 1316


def live(name, **others):
    return running.live(name, callers="libsrt", **others)


def files(name, sessions=5, **others):
    """The table of a route in buffer mode whose inbox holds a window of packets."""
    return gateway.route(name, "buffer", 120, WINDOW, sessions, 2 * WINDOW, 4 + 66 * sessions, callers="libsrt", **others)


def ended_by_gateway(caller, seconds, who):
    """Expects that a caller gets a SHUTDOWN within so many seconds."""
    expect(caller.shut.wait(seconds), f"{who} isn't told of the end")


def content_of(subscriber):
    return b"".join(body for body, _ in list(subscriber.got))


def expect_content(came, contents, who="the subscriber"):
    expect(came == contents, f"{who} has {len(came)} bytes of {len(contents)}, or others")


# Files with srt-file-transmit, which ends at a SHUTDOWN. It sets a file's name as its Stream ID while it connects already; so its address
# has the same Stream ID.


class Transfer:
    """A file that goes from one srt-file-transmit through a route to others."""

    def __init__(self, size, name):
        self.room = tempfile.TemporaryDirectory(prefix="srtgw-files-")
        self.name, self.contents, self.running = name, random.Random(size).randbytes(size), []
        self.path = f"{self.room.name}/{publish(name)}"
        with open(self.path, "wb") as file:
            file.write(self.contents)

    def __enter__(self):
        return self

    def __exit__(self, *why):
        for one in self.running:
            one.end()
        self.room.cleanup()

    def started(self, source, sink):
        self.running.append(tools.Tool([FILE, source, sink]))
        return self.running[-1]

    def sender(self, address, **options):
        return self.started(f"file://{self.path}", tools.srt(address, streamid=publish(self.name), **options))

    def receiver(self, address, at=0, **options):
        os.mkdir(f"{self.room.name}/received.{at}")
        return self.started(tools.srt(address, streamid=self.name, **options), f"file://{self.room.name}/received.{at}/file")

    def received(self, at=0):
        """The bytes that a receiver has written. It gives the file the name of its Stream ID, or the one that is asked for."""
        its = [it.path for it in os.scandir(f"{self.room.name}/received.{at}")]
        if not its:
            return b""
        with open(its[0], "rb") as file:
            return file.read()


def play_transfer(size, seconds, line_of=None):
    """A file goes from srt-file-transmit to srt-file-transmit, each over a line of its own if there are any, and both end by
    themselves."""
    with Run([files("archive")], "--no-time") as run, Transfer(size, "archive") as transfer:
        run.is_up()
        lines = [line_of(run.address, seed) for seed in (1, 2)] if line_of else []
        addresses = [it.address for it in lines] or [run.address] * 2
        receiver = transfer.receiver(addresses[1])
        run.line(r"archive: subscriber \S+ opened.*", 10)
        sender, began = transfer.sender(addresses[0]), time.monotonic()
        expect(sender.ended(seconds), f"the sender goes on after {seconds} s, {len(transfer.received())} bytes were received")
        expect(receiver.ended(seconds), f"the receiver goes on, {len(transfer.received())} bytes were received")
        spent = time.monotonic() - began
        expect_content(transfer.received(), transfer.contents, "the receiver")
        for line in lines:
            line.stop()
            expect(line.lost >= 100, f"a line lost only {line.lost} packets")
    if size >= MEGABYTE:
        print(f"  {8 * size / spent / 1e6:.0f} Mbit/s")


@case("srt-file-transmit to srt-file-transmit, 20 MB, and both end by themselves", needs=[FILE])
def transfer_ends(_):
    play_transfer(20 * MEGABYTE, 60)


@case("srt-file-transmit to srt-file-transmit, 20 MB over lines that lose 5 %, 20 ms", needs=[FILE])
def transfer_over_a_line(_):
    """libsrt's sender goes by the reported rates (`bench/files`)."""
    play_transfer(20 * MEGABYTE, 120, far_line)


@case("files of some bytes by srt-file-transmit, one after the other, and both end by themselves", needs=[FILE])
def small_transfers(_):
    """Also of one packet, and of a little more than a window."""
    for size in (1, 1456, 1457, 100_000, 1456 * (WINDOW + 1) + 7):
        play_transfer(size, 30)


@case("20 MB at speed from srt-file-transmit to a caller of our own", needs=[FILE])
def file_at_speed(_):
    """Without rates a megabyte takes a minute. Where a session doesn't drain, what wasn't delivered at its end is lost."""
    with Run([files("archive")], "--no-time") as run, Transfer(20 * MEGABYTE, "archive") as transfer:
        run.is_up()
        subscriber = opens(Subscriber(run.address, "archive", **BUFFERED), "the subscriber")
        subscriber.start()
        began = time.monotonic()
        expect(transfer.sender(run.address).ended(60), f"after a minute {len(subscriber.got)} pieces were received")
        spent = time.monotonic() - began
        time.sleep(1)
        closed(subscriber)
        came = content_of(subscriber)
    expect(len(came) >= len(transfer.contents) - 1456 * WINDOW, f"{len(came)} bytes were received in {spent:.0f} s")
    expect_content(came, transfer.contents[:len(came)])
    print(f"  {8 * len(came) / spent / 1e6:.0f} Mbit/s")


# Files with callers of our own.


def publisher_of(address, name, contents):
    return Publisher(address, publish(name), pieces(contents), 0, **BUFFERED)


@case("20 MB by callers of our own, and the subscriber is told of the end")
def own_file(_):
    contents = random.Random(20).randbytes(20 * MEGABYTE)
    with Run([files("archive")], "--no-time") as run:
        run.is_up()
        subscriber, publisher = Subscriber(run.address, "archive", **BUFFERED), publisher_of(run.address, "archive", contents)
        start_all(subscriber, publisher)
        expect(publisher.wait_all(120), f"after two minutes {len(subscriber.got)} pieces were received")
        publisher.close()
        ended_by_gateway(subscriber, 30, "the subscriber")
        expect_content(content_of(subscriber), contents)


@case("20 MB by callers of our own over lines that lose 5 %, 20 ms")
def own_file_over_a_line(_):
    contents = random.Random(21).randbytes(20 * MEGABYTE)
    with Run([files("archive")], "--no-time") as run:
        run.is_up()
        lines = [far_line(run.address, 1), far_line(run.address, 2)]
        subscriber, publisher = Subscriber(lines[0].address, "archive", **BUFFERED), publisher_of(lines[1].address, "archive", contents)
        start_all(subscriber, publisher)
        expect(publisher.wait_all(180), f"after three minutes {len(subscriber.got)} pieces were received")
        publisher.close()
        ended_by_gateway(subscriber, 30, "the subscriber")
        expect_content(content_of(subscriber), contents)
        for line in lines:
            line.stop()
            expect(line.lost >= 100, f"a line lost only {line.lost} packets")


class Slow(Subscriber):
    """A subscriber that takes a thousand packets in a second at most."""

    def on_data(self, packet):
        time.sleep(0.001)
        super().on_data(packet)


@case("two subscribers of a file, of which one is slow: both get all of it and are told of the end")
def slow_subscriber(_):
    contents = random.Random(22).randbytes(5 * MEGABYTE)
    with Run([files("archive")], "--no-time") as run:
        run.is_up()
        fast, slow = Subscriber(run.address, "archive", **BUFFERED), Slow(run.address, "archive", window=64, **BUFFERED)
        publisher = publisher_of(run.address, "archive", contents)
        start_all(fast, slow, publisher)
        expect(publisher.wait_all(60), f"after a minute {len(slow.got)} pieces were received")
        publisher.close()
        for one, who in ((fast, "the fast subscriber"), (slow, "the slow subscriber")):
            ended_by_gateway(one, 60, who)
            expect_content(content_of(one), contents, who)


@case("a subscriber that comes in the middle of a file gets the rest, and is told of its end too")
def in_the_middle(_):
    count = 3_000
    with Run([files("archive")], "--no-time") as run:
        run.is_up()
        first, publisher = Subscriber(run.address, "archive", **BUFFERED), Publisher(run.address, publish("archive"), stream(count), 1_000, **BUFFERED)
        start_all(first, publisher)
        expect(first.wait(30, count // 3), f"{len(first.got)} payloads were received")
        late = opens(Subscriber(run.address, "archive", **BUFFERED), "the late subscriber")
        late.start()
        expect(publisher.wait_all(60), f"{len(first.got)} payloads were received")
        publisher.close()
        for one, who in ((first, "the first subscriber"), (late, "the late subscriber")):
            ended_by_gateway(one, 30, who)
        expect_run(first.got, 0, count)
        expect(1 <= len(late.got) < count, f"the late subscriber got {len(late.got)} of {count} payloads")
        expect_run(late.got, count - len(late.got), len(late.got), "the late subscriber")


@case("a file's publisher closes at once, before anybody subscribes: who comes in time gets all of it")
def closes_before_anybody(_):
    count = WINDOW // 2
    with Run([files("archive")], "--no-time") as run:
        run.is_up()
        publisher = Publisher(run.address, publish("archive"), stream(count), 0, **BUFFERED)
        start_all(publisher)
        expect(publisher.wait_all(10), "packets weren't acknowledged")
        publisher.close()
        time.sleep(1)
        subscriber = opens(Subscriber(run.address, "archive", **BUFFERED), "the subscriber")
        subscriber.start()
        ended_by_gateway(subscriber, 20, "the subscriber")
        expect_run(subscriber.got, 0, count)


@case("a file's publisher falls silent: its subscriber isn't told that the file ended")
def falls_silent(_):
    with Run([files("archive")], "--no-time") as run:
        run.is_up()
        subscriber, publisher = Subscriber(run.address, "archive", **BUFFERED), Publisher(run.address, publish("archive"), stream(100), 0, **BUFFERED)
        start_all(subscriber, publisher)
        expect(publisher.wait_delivered(10) and subscriber.wait(10, 100), "the file isn't received")
        publisher.stop()
        expect_told_of_silence(publisher)
        expect(not subscriber.shut.wait(2), "the subscriber is told of an end")
        closed(subscriber)


def expect_told_of_silence(caller):
    """Expects that a caller which says nothing any more is sent a SHUTDOWN after five seconds."""
    until = caller.sent / 1e6 + 15  # The clock of callers is time.monotonic().
    while time.monotonic() < until:
        packet = caller.receive(0.1)
        if isinstance(packet, packets.Control) and packet.kind == packets.SHUTDOWN:
            silent = time.monotonic() - caller.sent / 1e6
            expect(silent >= 4.9, f"it is told after {silent:.1f} s already")
            return
    expect(False, "it isn't told that its session ended")


# Streams.


@case("a publisher's last payloads at its SHUTDOWN are delivered in their time")
def tail_is_delivered(_):
    count = 100
    with Run([live("studio", latency_ms=1000)], "--no-time") as run:
        run.is_up()
        subscriber, publisher = Subscriber(run.address, "studio"), Publisher(run.address, publish("studio"), stream(count), 5_000)
        start_all(subscriber, publisher)
        expect(publisher.wait_all(10), "packets weren't acknowledged")
        publisher.close()
        subscriber.wait(10, count)
        closed(subscriber)
        expect_run(subscriber.got, 0, count)
        expect_delays(subscriber.got, 1000)


@case("a publisher that closes at once and comes back: all payloads of both sessions are delivered")
def comes_back_at_once(_):
    count = 100
    with Run([live("studio", latency_ms=500)], "--no-time") as run:
        subscriber = viewed(run)
        for first in (0, count):
            publisher = Publisher(run.address, publish("studio"), stream(count, first), 5_000)
            start_all(publisher)
            expect(publisher.wait_all(10), "packets weren't acknowledged")
            publisher.close()
        subscriber.wait(10, 2 * count)
        closed(subscriber)
        found = indexes(subscriber.got)
        # The second session feeds when the first one has drained; what falls due before goes to nobody.
        expect(found[:count] == list(range(count)), f"of the first session's payloads {sum(it < count for it in found)} were received")
        rest = found[count:]
        expect(rest and rest == list(range(2 * count - len(rest), 2 * count)), f"of the second session's payloads {rest[:1]} to {rest[-1:]} were received")


@case("srt-live-transmit ends, and its last payloads are received", needs=[tools.SRT])
def transmit_ends(_):
    """It may keep back the last payload or two that it has read."""
    count = 300
    with Run([live("studio", latency_ms=500)], "--no-time") as run:
        subscriber = viewed(run)
        with tools.transmit("file://con", tools.srt(run.address, streamid=publish("studio"), latency=500), fed=True) as source:
            expect(source.wait_errors("SRT target connected", 10), f"it doesn't connect: {source.errors()[-300:]!r}")
            for one in stream(count):
                source.feed(one)
                time.sleep(0.004)
        subscriber.wait(10, count - 4)
        time.sleep(1)
        closed(subscriber)
        found = indexes(subscriber.got)
        expect(found == list(range(len(found))) and len(found) >= count - 4, f"{len(found)} of {count} payloads were received, {found[-1:]} as the last one")


@case("ffmpeg ends, and all that it sent is received", needs=[tools.FFMPEG])
def ffmpeg_ends(_):
    """What it sends it also writes to a file. It ends its session at once; so libsrt may not have sent its last packets."""
    with Run([live("studio", latency_ms=500)], "--no-time") as run, tempfile.TemporaryDirectory(prefix="srtgw-ffmpeg-") as room:
        subscriber = viewed(run)
        sink = tools.srt(run.address, streamid=publish("studio"), pkt_size=PAYLOAD)
        source = ["-re", "-f", "lavfi", "-i", "testsrc=size=320x240:rate=25:duration=3", "-map", "0", "-c:v", "mpeg2video", "-b:v", "1M"]
        both = f"[f=mpegts]{sink}|[f=mpegts]{room}/sent.ts"
        with tools.Tool([tools.FFMPEG, "-hide_banner", "-loglevel", "error", *source, "-f", "tee", both]) as encoder:
            expect(encoder.ended(30), f"ffmpeg goes on: {encoder.errors()[-300:]!r}")
        time.sleep(2)
        closed(subscriber)
        with open(f"{room}/sent.ts", "rb") as file:
            sent = file.read()
    came = content_of(subscriber)
    expect(len(sent) >= 100_000 and came == sent[:len(came)], f"{len(came)} bytes were received of {len(sent)}, or others")
    expect(len(came) >= len(sent) - 4 * PAYLOAD, f"{len(came)} bytes were received of {len(sent)}")


@case("sessions that end by silence are told, publishers and subscribers")
def told_of_silence(_):
    with Run([live("studio"), files("archive")], "--no-time") as run:
        run.is_up()
        callers = [Publisher(run.address, publish("studio"), []), Subscriber(run.address, "studio"), Subscriber(run.address, "archive", **BUFFERED)]
        start_all(*callers)
        time.sleep(0.5)
        for one in callers:
            one.stop()
        for one in callers:
            expect_told_of_silence(one)


class Blackout:
    """A line that takes nothing for some time, and notes when the first data packet goes to the gateway after it, and when the gateway's
    next SHUTDOWN goes back, both in seconds."""

    def __init__(self, target, seed):
        self.proxy = Proxy(target, seed, seen=self.note)
        self.address = self.proxy.address
        self.begins = self.told = None
        self.watches = False

    def note(self, goes_there, datagram):
        packet = packets.read(datagram) if self.watches and not self.proxy.loss else None
        if goes_there and isinstance(packet, packets.Data):
            self.begins = self.begins or time.monotonic()
        if not goes_there and isinstance(packet, packets.Control) and packet.kind == packets.SHUTDOWN:
            self.told = self.told or time.monotonic()

    def lasts(self, seconds):
        self.proxy.loss, self.watches = 1.0, True
        time.sleep(seconds)
        self.proxy.loss = 0.0

    def expect_told(self):
        """Expects that the gateway says that the session is over within 0.2 s after the first packet behind the blackout."""
        until = time.monotonic() + 10
        while time.monotonic() < until and self.told is None:
            time.sleep(0.01)
        expect(self.told is not None and self.begins is not None, "the encoder isn't told that its session is over")
        spent = self.told - self.begins
        print(f"  told after {1000 * spent:.1f} ms")
        expect(spent <= TOLD_WITHIN, f"the encoder is told after {spent:.2f} s")


@case("three seconds of blackout at 8 Mbit/s: the encoder is told within 0.2 s, and comes back")
def blackout(_):
    """The blackout takes more packets than the window holds."""
    with Run([live("studio")], "--no-time") as run:
        run.is_up()
        line, over = Blackout(run.address, 1), threading.Event()
        subscriber = opens(Subscriber(run.address, "studio"), "the subscriber")
        encoder = Publisher(line.address, publish("studio"), endless(over), 1_316)
        subscriber.start()
        start_all(encoder)
        expect(subscriber.wait(10, 500), "the stream doesn't flow")
        line.lasts(3)
        line.expect_told()
        ended_by_gateway(encoder, 5, "the encoder")
        over.set()
        run.line(r"studio: publisher \S+ ended, .*, its window was lost, .*", 5)
        before = len(subscriber.got)
        again = Publisher(line.address, publish("studio"), stream(200), 4_000)
        start_all(again)
        expect(subscriber.wait(10, before + 200), "the encoder that calls again isn't received")
        closed(again, subscriber)
        line.proxy.stop()


@case("three seconds of blackout at 8 Mbit/s: srt-live-transmit is told, and calls again by itself", needs=[tools.SRT])
def transmit_blackout(_):
    with Run([live("studio")], "--no-time") as run:
        run.is_up()
        line, over, inlet = Blackout(run.address, 2), threading.Event(), tools.Inlet()
        subscriber = opens(Subscriber(run.address, "studio"), "the subscriber")
        subscriber.start()
        feeding = threading.Thread(target=lambda: inlet.feed(endless(over), 0.001316), daemon=True)
        feeding.start()
        with tools.transmit(inlet.address, tools.srt(line.address, streamid=publish("studio"))) as encoder:
            expect(subscriber.wait(15, 500), "the stream doesn't flow")
            line.lasts(3)
            line.expect_told()
            # It may be back before the log's next look.
            number, _ = run.line(r"studio: publisher \S+ ended, .*, its (window was lost|slot was taken again), .*", 5)
            run.line(r"studio: publisher \S+ opened.*", 10, number)
            before = len(subscriber.got)
            expect(subscriber.wait(15, before + 500), f"its stream doesn't come back: {encoder.errors()[-300:]!r}")
        over.set()
        feeding.join(5)
        closed(subscriber)
        line.proxy.stop()


# Loss from the first packet on.

LOSSY = 20
LOSSY_COUNT = 4_000
TIMES = 4
STALL = 0.1  # A stream whose callers didn't run for so many seconds says nothing of the gateway.


class Stalls(threading.Thread):
    """Notes for how long this process didn't run at most, in seconds."""

    def __init__(self):
        super().__init__(daemon=True)
        self.longest, self.over = 0.0, threading.Event()
        self.start()

    def run(self):
        before = time.monotonic()
        while not self.over.wait(0.005):
            now = time.monotonic()
            self.longest, before = max(self.longest, now - before), now


def lossy_stream(address, name, seed):
    """A stream of 4,000 packets, 5 % of which are lost on the publisher's line and on the subscriber's, both ways. Returns what is wrong,
    or an empty text, and for how long its callers didn't run."""
    lines = there, back = Proxy(address, seed, loss=LOSS), Proxy(address, 1000 + seed, loss=LOSS)
    publisher, subscriber = Publisher(there.address, publish(name), stream(LOSSY_COUNT), 4_000), Subscriber(back.address, name)
    stalls, wrong = Stalls(), ""
    try:
        start_all(subscriber, publisher)
        publisher.wait_delivered(40)
        subscriber.wait(5, LOSSY_COUNT)
        closed(publisher, subscriber)
        expect_run(subscriber.got, 0, LOSSY_COUNT, name)
        expect(publisher.dropped == subscriber.dropped == 0, f"{name}: {publisher.dropped} and {subscriber.dropped} packets were given up")
        expect(min(it.lost for it in lines) >= 100, f"{name}: the lines lost {[it.lost for it in lines]} packets")
    except Wrong as why:
        wrong = str(why)
    finally:
        stalls.over.set()
        for it in lines:
            it.stop()
    return wrong, stalls.longest


@case("4,000 packets at 5 % loss both ways, twenty times: none is lost")
def lossy_streams(_):
    """All at once, each in a process and on a route of its own. One that lost something while its callers didn't run is played again."""
    left = list(range(LOSSY))
    for times in range(TIMES):
        with Run([live(f"lossy.{at}", latency_ms=500) for at in left], "--no-time") as run:
            run.is_up()
            with ProcessPoolExecutor(len(left), multiprocessing.get_context("spawn")) as pool:
                found = list(pool.map(lossy_stream, [run.address] * len(left), [f"lossy.{at}" for at in left], [LOSSY * times + at for at in left]))
            dropped = drops_of(run.address[1])
        wrong = [why for why, stall in found if why and stall < STALL]
        expect(not wrong, f"{len(wrong)} of {len(left)}, the kernel dropped {dropped} datagrams: {wrong[:2]}")
        left = [at for at, (why, _) in zip(left, found) if why]
        if not left:
            return
        print(f"  {len(left)} streams are played again, since their callers didn't run for up to {max(stall for _, stall in found):.1f} s", flush=True)
    raise Skipped(f"the machine is too busy: callers of {len(left)} streams didn't run for a while each of {TIMES} times")
