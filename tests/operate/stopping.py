"""The polite stop: callers that send and receive get their SHUTDOWN, and the report is what they counted."""
import signal
import threading
import time

import packets
import tools
from caller import Caller, Publisher, Silent, Subscriber, endless, now, start_all, stream
from cases import case
from expecting import expect, expect_run, publish, request
from lines import ended_line
from machine import drops_of
from proxy import Proxy
from running import SECRET, STOP_SECONDS, Run, expect_polite, files, live


def rest_of(caller):
    """The packets that wait in a caller's socket."""
    found = []
    while True:
        before = caller.taken
        packet = caller.receive(0)
        if caller.taken == before:
            return found
        found.append(packet)


def is_shutdown(packet):
    return isinstance(packet, packets.Control) and packet.kind == packets.SHUTDOWN


def arrived_at(caller):
    """How many datagrams arrived at a caller: those that it received, and those that the kernel dropped at its socket."""
    return caller.taken + drops_of(caller.here[1])


def sums_of(callers):
    """How many datagrams these callers sent, how many arrived at them, and how many inductions they made."""
    return (sum(it.given for it in callers), sum(map(arrived_at, callers)), sum(it.handshakes[packets.INDUCTION] for it in callers))


def expect_gone(run, route, role, caller):
    """Expects the log's line of a caller's session that the stop ended. Returns its counts."""
    return [int(it) for it in run.line(ended_line(route, role, caller, "the gateway stops"), 0)[1].groups()]


def on_the_air(run):
    """Callers of two routes that all send: two publishers and two subscribers at one, one of each at the other."""
    over = threading.Event()
    made = [Subscriber(run.address, request("studio")), Subscriber(run.address, "studio"), Publisher(run.address, publish("studio"), endless(over), 2_000),
            Publisher(run.address, publish("studio"), endless(over), 5_000), Subscriber(run.address, "other"),
            Publisher(run.address, publish("other"), endless(over), 3_000)]
    start_all(*made)
    return made, over


def play_stop(which):
    with Run([live("studio"), live("other")], "--no-time") as run:
        run.is_up()
        callers, over = on_the_air(run)
        time.sleep(1.5)
        expect(all(len(it.got) >= 100 for it in callers if isinstance(it, Subscriber)), "streams don't flow")
        least, began = sums_of(callers)[0], time.monotonic()
        end = run.stop(which)
        late = [it for it in callers if not it.shut.wait(5)]
        over.set()
        expect(not late, f"{len(late)} of {len(callers)} callers got no SHUTDOWN")
        expect(end.seconds <= STOP_SECONDS, f"it took {end.seconds:.2f} s")
        for one in callers:
            one.stop()
            rest_of(one)
        expect_polite(end, ["studio", "other"])
        given, taken, inductions = sums_of(callers)
        expect(least <= end.report["read"] <= given, f"callers had sent {least} before the signal, and sent {given}: {end.report}")
        expect(end.report["sent"] == taken, f"at callers {taken} arrived: {end.report}")
        expect(end.report["answered"] == inductions, f"callers made {inductions} inductions: {end.report}")
        expect(all(end.report[it] == 0 for it in ("full", "memory", "lost", "faults")), f"{end.report}")
        expect(end.report["dropped"] <= given - least, f"datagrams that came before the stop were dropped: {end.report}")
        for route, role, one in zip(["studio"] * 4 + ["other"] * 2, ["subscriber"] * 2 + ["publisher"] * 2 + ["subscriber", "publisher"], callers):
            after, count, size, lost, resent = expect_gone(run, route, role, one)
            expect(size == 1316 * count and lost == 0, f"{route}, {role}: {count} packets, {size} bytes, {lost} lost")
        asked, _ = run.line("stopping, by a signal", 0)
        expect(asked < run.find(".* ended, .*")[0] and run.texts()[-1] == "stopped", f"the log ends with {run.texts()[-9:]}")
        expect(time.monotonic() - began < 20, "the callers went on")


@case("SIGTERM under load: each caller gets a SHUTDOWN, and the report is what they counted")
def stops_by_term():
    play_stop(signal.SIGTERM)


@case("SIGINT under load: the same")
def stops_by_int():
    play_stop(signal.SIGINT)


@case("a stop while nobody sends: each number of the report is what callers counted")
def stops_exactly():
    count = 200
    with Run([live("studio"), files("files")], "--no-time") as run:
        run.is_up()
        publisher, subscriber = Publisher(run.address, publish("studio"), stream(count), 3_000), Subscriber(run.address, "studio")
        source = Publisher(run.address, publish("files"), stream(count), 1_000, mode="buffer", congestion=b"file")
        sink = Subscriber(run.address, "files", mode="buffer", congestion=b"file")
        callers = [subscriber, publisher, sink, source]
        start_all(*callers)
        for one in (publisher, source):
            expect(one.wait_delivered(10), "a publisher's window didn't become free")
        for one in (subscriber, sink):
            expect(one.wait(5, count), f"{len(one.got)} payloads came")
        time.sleep(0.2)
        for one in callers:
            one.stop()
        time.sleep(0.6)  # Longer than from one look at the routes to the next.
        end = run.stop()
        for one in callers:
            last = rest_of(one)
            expect(last and is_shutdown(last[-1]), f"a caller's last packets are {last[-3:]}")
            expect(sum(map(is_shutdown, last)) == 1, "a caller got several SHUTDOWNs")
        expect_polite(end, ["studio", "files"])
        given, taken, inductions = sums_of(callers)
        wanted = {"read": given, "answered": inductions, "accepted": given - inductions, "full": 0, "dropped": 0, "memory": 0, "sent": taken, "lost": 0, "faults": 0}
        expect(end.report == wanted, f"the report is {end.report}, and callers counted {wanted}")
        for one, account in zip((callers[:2], callers[2:]), end.accounts):
            drained = sum(arrived_at(it) - it.handshakes[packets.INDUCTION] for it in one)
            expect(account.drained == drained, f"{account.name} gave {account.drained} replies, and at callers {drained} arrived")
        for route, role, one in (("studio", "subscriber", subscriber), ("studio", "publisher", publisher), ("files", "subscriber", sink), ("files", "publisher", source)):
            _, *counts = expect_gone(run, route, role, one)
            expect(counts[:3] == [count, 1316 * count, 0], f"{route}, {role}: {counts}")
        expect_run(subscriber.got, 0, count)
        expect_run(sink.got, 0, count)


@case("a stop without callers")
def stops_idle():
    with Run([live(f"r{index}", buffer=190, sessions=2, inbox=16) for index in range(40)], "--no-time") as run:
        run.is_up()
        time.sleep(1)
        end = run.stop()
        expect(end.seconds <= STOP_SECONDS, f"it took {end.seconds:.2f} s")
        expect_polite(end, [f"r{index}" for index in range(40)])
        expect(not any(end.report.values()), f"{end.report}")
        # A tick each 10 ms or so is offered to each route, and applied by it or left.
        expect(all(10 <= it.taken + it.left for it in end.accounts), f"{end.accounts[:3]}")


@case("a stop while callers are stopped themselves ends in time")
def stops_without_answers():
    with Run([live("studio")], "--no-time") as run:
        run.is_up()
        callers, over = on_the_air_at(run, "studio")
        time.sleep(0.5)
        over.set()
        for one in callers:
            one.stop()  # It sends nothing from now on, and takes nothing.
        end = run.stop()
        expect(end.seconds <= STOP_SECONDS, f"it took {end.seconds:.2f} s")
        expect_polite(end, ["studio"])


def on_the_air_at(run, name):
    """A publisher and a subscriber of a route, and the event that ends the stream."""
    over = threading.Event()
    made = [Subscriber(run.address, name), Publisher(run.address, publish(name), endless(over), 2_000)]
    start_all(*made)
    return made, over


@case("a second signal changes nothing")
def stops_by_two():
    with Run([live("studio")], "--no-time") as run:
        run.is_up()
        callers, over = on_the_air_at(run, "studio")
        time.sleep(0.5)
        run.process.send_signal(signal.SIGINT)
        end = run.stop(signal.SIGTERM)
        over.set()
        for one in callers:
            expect(one.shut.wait(5), "a caller got no SHUTDOWN")
            one.stop()
        expect_polite(end, ["studio"])
        expect(run.texts().count("stopping, by a signal") == 1, f"{run.texts()}")


def gone_within(tool, seconds):
    """Whether a tool's process ends, or says that its connection was closed, within so many seconds."""
    until = time.monotonic() + seconds
    while time.monotonic() < until:
        if tool.process.poll() is not None or "disconnected" in tool.errors():
            return True
        time.sleep(0.01)
    return False


def play_tools(run, ran, lines, is_flowing, names):
    """Stops the gateway while real callers send and receive through lines that count their datagrams."""
    until = time.monotonic() + 15
    while not is_flowing():
        expect(time.monotonic() < until, f"the stream doesn't flow: {[it.errors()[-200:] for it in ran]}")
        time.sleep(0.05)
    time.sleep(1)
    least = sum(it.there for it in lines)
    end = run.stop()
    late = [it.process.args[0] for it in ran if not gone_within(it, 1.5)]
    expect(not late, f"{late} didn't notice within 1.5 s")
    expect(end.seconds <= STOP_SECONDS, f"it took {end.seconds:.2f} s")
    time.sleep(0.2)
    expect_polite(end, names)
    most, taken = sum(it.there for it in lines), sum(it.back_here + it.drops() for it in lines)
    expect(least <= end.report["read"] <= most, f"callers had sent {least} before the signal, and sent {most}: {end.report}")
    expect(end.report["sent"] == taken, f"at callers {taken} arrived: {end.report}")


@case("a stop under load with srt-live-transmit", needs=[tools.SRT])
def stops_transmit():
    with Run([live("slt")], "--no-time") as run:
        run.is_up()
        lines = [Proxy(run.address, 1), Proxy(run.address, 2)]
        inlet, outlet = tools.Inlet(), tools.Outlet()
        over = threading.Event()
        feeder = threading.Thread(target=lambda: inlet.feed(endless(over), 0.004), daemon=True)
        ran = [tools.transmit(tools.srt(lines[0].address, streamid="slt"), outlet.address),
               tools.transmit(inlet.address, tools.srt(lines[1].address, streamid=publish("slt")))]
        feeder.start()
        try:
            play_tools(run, ran, lines, lambda: len(outlet.got) >= 200, ["slt"])
        finally:
            over.set()
            for one in [*ran, *lines]:
                one.end() if isinstance(one, tools.Tool) else one.stop()


@case("a stop under load with ffmpeg, which ends at once", needs=[tools.FFMPEG])
def stops_ffmpeg():
    with Run([live("ff")], "--no-time") as run:
        run.is_up()
        lines = [Proxy(run.address, 3), Proxy(run.address, 4)]
        quiet = [tools.FFMPEG, "-hide_banner", "-loglevel", "error"]
        player = tools.Tool([*quiet, "-analyzeduration", "1000000", "-i", tools.srt(lines[0].address, streamid="ff"), "-c", "copy", "-f", "framecrc", "-"])
        time.sleep(0.5)
        source = ["-re", "-f", "lavfi", "-i", "testsrc=size=320x240:rate=25", "-c:v", "mpeg2video", "-b:v", "1M"]
        encoder = tools.Tool([*quiet, *source, "-f", "mpegts", tools.srt(lines[1].address, streamid=publish("ff"), pkt_size=1316)])
        try:
            play_tools(run, [player, encoder], lines, lambda: player.output.count(b"\n") >= 40, ["ff"])
            expect(player.ended(2) and encoder.ended(2), "one of them goes on")
        finally:
            for one in (player, encoder):
                one.end()
            for one in lines:
                one.stop()


# Cookies.


def asked_with(caller, cookie):
    """Makes a conclusion with this cookie. Returns whether a session opened; a wrong cookie isn't answered."""
    caller.cookie = cookie
    try:
        caller.conclude(1)
        return True
    except Silent:
        return False


@case("a cookie of the run before isn't taken in the next one")
def cookies_are_fresh():
    routes, caller, began = [live("studio")], None, now()
    with Run(routes, "--no-time") as run:
        run.is_up()
        caller = Subscriber(run.address, "studio")
        first = caller.induce().cookie
        run.stop()
    with Run(routes, "--no-time", port=run.address[1]) as again:
        again.is_up()
        expect(not asked_with(caller, first), "it opened a session with a cookie of the run before")
        second = caller.induce().cookie
        expect(asked_with(caller, second), "a cookie of its own isn't taken")
        expect(now() - began < 60_000_000, "it took more than a minute: nothing is shown")
        end = again.stop()
        expect(end.report["dropped"] >= 1, f"{end.report}")
    here = packets.cookie(bytes.fromhex(SECRET), bytes(10) + b"\xff\xff" + bytes([127, 0, 0, 1]), caller.here[1], 0)
    expect(len({first, second, here}) == 3, "cookies of two runs, or of the configured secret, are the same")


@case("a cookie is that of one caller of this run")
def cookies_are_of_callers():
    with Run([live("studio")], "--no-time") as run:
        run.is_up()
        one, other = Caller(run.address, "studio"), Caller(run.address, "studio")
        cookies = [it.induce().cookie for it in (one, other)]
        expect(cookies[0] != cookies[1] and not asked_with(other, cookies[0]), "a cookie of another caller is taken")
        expect(asked_with(other, cookies[1]), "its own cookie isn't taken")
        run.stop()


