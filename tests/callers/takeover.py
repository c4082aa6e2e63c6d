"""A standby that takes over from a publisher which is silent (`takeover_ms`), with real publishers that are stopped, continued and
killed."""
import os
import re
import signal
import struct
import threading
import time
from itertools import groupby

import packets
import tools
from access import closed, opens, viewed
from caller import Publisher, Subscriber, endless, now, payload
from cases import case
from expecting import Wrong, expect, publish
from running import Run, live

TAKEOVER_MS = 300
GAP = 0.6  # The longest that a subscriber may be without a payload, in seconds.
SETTLED = 2.0
SILENT = 5.0  # After so long a publisher that nothing is heard of ends.
OTHER_NUMBERS = 1_000_000  # The backup's payloads begin here.
TOOK_OVER = r"studio: publisher \S+ took over, .*"


def gap_between(subscriber, first, last):
    """The longest time without a payload at a subscriber between two moments in microseconds, in seconds."""
    moments = [first, *(came for _, came in list(subscriber.got) if first < came < last), last]
    return max(after - before for before, after in zip(moments, moments[1:])) / 1e6


def sources_since(subscriber, source_of, first=0):
    """Whose payloads a subscriber received since a moment: each source once for each run of its payloads."""
    found = (source_of(body) for body, came in list(subscriber.got) if came >= first)
    return [it for it, _ in groupby(it for it in found if it)]


class Watch:
    """What a subscriber receives from two publishers, `source_of` a payload."""

    def __init__(self, subscriber, source_of):
        self.subscriber, self.source_of, self.longest = subscriber, source_of, {}

    def begins(self, source, seconds=10.0):
        """Waits for the first payload of a source."""
        until = time.monotonic() + seconds
        while time.monotonic() < until and source not in sources_since(self.subscriber, self.source_of):
            time.sleep(0.02)
        expect(source in sources_since(self.subscriber, self.source_of), f"no payload of the {source} is received")

    def after(self, what, act, source, seconds=SETTLED):
        """Expects that after an act the subscriber is without a payload for less than 0.6 s, and that from then on this source alone
        is on the air."""
        began = now()
        act()
        time.sleep(seconds)
        gap = gap_between(self.subscriber, began - 100_000, now())
        self.longest[what] = gap
        expect(gap < GAP, f"{what}: {gap:.2f} s without a payload")
        found = sources_since(self.subscriber, self.source_of, began + int(GAP * 1e6))
        expect(found == [source], f"{what}: on the air are {found}, and not the {source} alone")

    def expect_runs(self, wanted):
        found = sources_since(self.subscriber, self.source_of)
        expect(found == wanted, f"on the air were {found}, and not {wanted}")
        expect(self.subscriber.dropped == 0, f"{self.subscriber.dropped} packets were given up")


def stop(tool):
    os.kill(tool.process.pid, signal.SIGSTOP)


def carry_on(tool):
    os.kill(tool.process.pid, signal.SIGCONT)


def kill(tool):
    tool.process.kill()


def expect_told(run, count):
    """Expects that the log tells of just so many take-overs."""
    time.sleep(1)
    found = [it for it in run.texts() if re.fullmatch(TOOK_OVER, it)]
    expect(len(found) == count, f"the log tells of {len(found)} take-overs, and not of {count}: {found}")


def two_publishers(run, watch, started, again):
    """Plays a main publisher and a backup. `started` starts one of them, and `again` starts the backup a second time."""
    tools_running = []

    def start(which):
        tools_running.append(which())
        return tools_running[-1]

    try:
        main = start(lambda: started("main"))
        watch.begins("main")
        backup = start(lambda: started("backup"))
        watch.after("the backup comes", lambda: run.line(r"studio: publisher \S+ opened as standby, .*", 5), "main")
        watch.after("the main one is stopped", lambda: stop(main), "backup")
        watch.after("the main one is continued", lambda: carry_on(main), "backup")
        watch.after("the backup is killed", lambda: kill(backup), "main")
        watch.after("the session of the killed one ends", lambda: None, "main", SILENT)
        second = start(again)
        watch.after("the backup comes again", lambda: run.line(r"studio: publisher \S+ opened as standby, .*", 5, len(run.lines)), "main")
        watch.after("the main one is killed", lambda: kill(main), "backup")
        watch.expect_runs(["main", "backup", "main", "backup"])
        expect_told(run, 3)
        expect(second.process.poll() is None, f"the backup ended: {second.errors()[-300:]!r}")
    finally:
        for one in tools_running:
            if one.process.poll() is None:
                carry_on(one)
            one.end()


# The video's PID of each ffmpeg.
PIDS = {"main": 0x100, "backup": 0x200}


def source_of_ts(body):
    """Which ffmpeg a payload of transport stream packets is from, or None if it has no video."""
    pids = {struct.unpack_from("!H", body, at + 1)[0] & 0x1FFF for at in range(0, len(body) - 187, 188)}
    found = [name for name, pid in PIDS.items() if pid in pids]
    if len(found) > 1:
        raise Wrong("a payload has packets of both publishers")
    return found[0] if found else None


def ffmpeg(address, name):
    words = ["-hide_banner", "-loglevel", "error", "-re", "-f", "lavfi", "-i", "testsrc=size=320x240:rate=25", "-c:v", "mpeg2video", "-b:v", "1M", "-maxrate", "1M",
             "-minrate", "1M", "-bufsize", "500k", "-f", "mpegts", "-mpegts_start_pid", str(PIDS[name]), tools.srt(address, streamid=publish("studio"), pkt_size=1316)]
    return tools.Tool([tools.FFMPEG, *words])


@case("ffmpeg is stopped, continued and killed, and another one takes over within 0.6 s", needs=[tools.FFMPEG])
def ffmpeg_takes_over(_):
    with Run([live("studio", takeover_ms=TAKEOVER_MS)]) as run:
        viewer = viewed(run)
        two_publishers(run, Watch(viewer, source_of_ts), lambda name: ffmpeg(run.address, name), lambda: ffmpeg(run.address, "backup"))
        closed(viewer)


class Fed:
    """An srt-live-transmit that publishes numbered payloads, 250 in a second, until it is ended."""

    def __init__(self, address, first, **options):
        self.inlet, self.over = tools.Inlet(), threading.Event()
        self.tool = tools.transmit(self.inlet.address, tools.srt(address, streamid=publish("studio"), **options))
        self.process, self.errors = self.tool.process, self.tool.errors
        self.feeding = threading.Thread(target=lambda: self.inlet.feed(endless(self.over, first), 0.004), daemon=True)
        self.feeding.start()

    def end(self):
        self.over.set()
        self.feeding.join(5)
        self.tool.end()


def number_of(body):
    return struct.unpack_from("!Q", body)[0]


def source_of_number(body):
    return "main" if number_of(body) < OTHER_NUMBERS else "backup"


@case("srt-live-transmit is stopped, continued and killed, and each payload comes once and in order", needs=[tools.SRT])
def transmit_takes_over(_):
    with Run([live("studio", takeover_ms=TAKEOVER_MS)]) as run:
        viewer = viewed(run)
        started = {"main": 0, "backup": OTHER_NUMBERS}
        two_publishers(run, Watch(viewer, source_of_number), lambda name: Fed(run.address, started[name]), lambda: Fed(run.address, 2 * OTHER_NUMBERS))
        closed(viewer)
        for name in started:
            numbers = [number_of(body) for body, _ in viewer.got if source_of_number(body) == name]
            expect(len(numbers) >= 300 and numbers == sorted(set(numbers)), f"payloads of the {name} came twice or out of order")


class Paused(Publisher):
    """A publisher that can be told to send no data for some time. It sends KEEPALIVEs meanwhile."""

    def __init__(self, address, first, route="studio", **others):
        super().__init__(address, publish(route), iter(()), 5_000, **others)
        self.sending, self.number = threading.Event(), first
        self.payloads = iter(self.following, None)
        self.sending.set()

    def following(self):
        self.number += 1
        return payload(self.number)

    def on_time(self):
        if self.sending.is_set():
            super().on_time()
            return
        self.due = now()
        if now() - self.sent >= 200_000:
            self.send_control(packets.KEEPALIVE)


@case("a pause that is shorter than takeover_ms changes nothing, one of both publishers neither")
def pauses(_):
    """A KEEPALIVE is no data: a publisher that only says that it is there is silent."""
    with Run([live("studio", takeover_ms=1000)]) as run:
        run.is_up()
        viewer = opens(Subscriber(run.address, "studio"), "a viewer")
        main, backup = Paused(run.address, 0), Paused(run.address, OTHER_NUMBERS)
        for one in (viewer, main, backup):
            opens(one, "a caller").start()
        watch = Watch(viewer, source_of_number)
        watch.begins("main")

        def pause(seconds, *those):
            """Lets these pause, and go on one after the other."""
            for one in those:
                one.sending.clear()
            time.sleep(seconds)
            for one in those:
                one.sending.set()
                time.sleep(0.2)
            time.sleep(1)

        pause(0.4, main)
        watch.expect_runs(["main"])
        pause(1.6, main, backup)
        watch.expect_runs(["main"])
        pause(1.6, backup)
        watch.expect_runs(["main"])
        pause(1.6, main)
        watch.expect_runs(["main", "backup"])
        pause(0.4, backup)
        watch.expect_runs(["main", "backup"])
        expect_told(run, 1)
        closed(viewer, main, backup)
