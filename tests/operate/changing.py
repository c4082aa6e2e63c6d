"""The configuration's file while the gateway runs: routes that open and close, those that stay, and what isn't taken."""
from __future__ import annotations

import os
import re
import resource
import signal
import threading
import time
from typing import NamedTuple

import packets
from caller import Caller, Publisher, Subscriber, endless, indexes, start_all, stream
from cases import case
from expecting import expect, expect_refusal, expect_run, publish
from lines import ended_line, opened_line, took_over_line
from machine import free_port
from running import SECRET, Run, Shown, Skipped, can_block, configuration, expect_polite, launcher, live

LOOK = 4.0  # The file is looked at each second, and a change of it is made then. A line that is there sooner is found sooner.
CLOSED = 4.0  # From a line that says that a route closes until its callers know it.
SETTLING = 0.04  # Shorter than a file has to stay the same before it is read.
SMALL = dict(buffer=190, sessions=3, inbox=16)
PATIENT = dict(latency_ms=400, buffer=512, sessions=3)  # Of a route that loses nothing where the machine stands still for a while.
INDEXES = 511
TAKEN = r"configuration changed: (\d+) routes stay, (\d+) open, (\d+) close, (\d+) change"
HOLDING = 5.0  # For so long a file has to stay the same that closes a route with sessions.
HELD = "configuration closes {}, which has sessions; it is taken if it stays so for 5 s"
REMOVED, CHANGED = "closed, it is no longer in the configuration", "closed, to open again with other keys"


def tiny(name, latency_ms=120):
    """A route that takes little memory."""
    return live(name, latency_ms=latency_ms, buffer=32, sessions=1, inbox=16)


def text_of(run, routes, **others):
    """The text of a configuration of these routes, with the run's own addresses."""
    if isinstance(run, Shown):
        others.setdefault("status", "{}:{}".format(*run.page.address))
    return configuration(routes, run.address[1], **others)


def written(run, text):
    """Puts a file with this text in the place of the configuration's, at once. Returns the number of lines of the log before."""
    before = len(run.lines)
    with open(f"{run.file}.new", "w") as it:
        it.write(text)
    os.replace(f"{run.file}.new", run.file)
    return before


def changed(run, routes, numbers, seconds=LOOK, **others):
    """Writes a configuration of these routes, and waits until it is taken: `numbers` are its routes that stay, open, close and
    change. Returns the number of its first line."""
    before = written(run, text_of(run, routes, **others))
    number, found = run.line(TAKEN, seconds, before)
    told = tuple(map(int, found.groups()))
    expect(told == numbers, f"it says {found[0]!r}, and {numbers} were asked")
    return number


def refused(run, text, why):
    """Writes a text that isn't taken, and waits for the line that says why, of this form."""
    before = written(run, text)
    run.line("configuration not taken: " + why, LOOK, before)


def opened(run, name, index, first=0):
    """Waits for the line of a route that opens with this index."""
    run.line(rf"{re.escape(name)}: opened with index {index}, \d+ MB", LOOK, first)


def closed(run, name, why, first=0):
    run.line(f"{re.escape(name)}: {re.escape(why)}", LOOK, first)


def expect_silent(run, first, seconds=2.5):
    """Expects that the log says nothing about the configuration in these seconds, from this line on."""
    time.sleep(seconds)
    told = [it for it in run.texts(first) if "configuration" in it or "opened with index" in it]
    expect(not told, f"it says {told}")


def expect_counts(run, **wanted):
    """Expects what the page says of the configuration: the numbers of its routes, of changes taken and refused, and of indexes."""
    names = dict(routes="configured_routes", taken="config_changes_taken_total", refused="config_changes_refused_total", indexes="used_indexes")
    state = run.page.state()
    told = {it: state[names[it]] for it in wanted}
    expect(told == wanted, f"the page says {told}, and not {wanted}")


def expect_shut(run, caller, name):
    """Expects that a caller gets the SHUTDOWN of a route that closes, and that the log tells the end of its session."""
    expect(caller.shut.wait(CLOSED), f"a caller of {name} got no SHUTDOWN")
    role = "publisher" if isinstance(caller, Publisher) else "subscriber"
    run.line(ended_line(name, role, caller, "its route was closed"), CLOSED)


def called(caller, seconds=CLOSED):
    """Calls until the call is accepted: a route that opens is found a little after its line, another one of its name once that is closed."""
    until = time.monotonic() + seconds
    while True:
        try:
            caller.call()
            caller.start()
            return caller
        except Exception:
            if time.monotonic() >= until:
                raise
            time.sleep(0.05)


def expect_stream(run, name, count=100):
    """Expects that a route delivers what is published on it."""
    player, encoder = called(Subscriber(run.address, name)), called(Publisher(run.address, publish(name), stream(count), 2_000))
    expect(encoder.wait_delivered(10) and player.wait(5, count), f"the stream of {name} doesn't flow")
    expect_run(player.got, 0, count)
    for one in (encoder, player):
        one.close()


class OnAir:
    """A publisher and a subscriber of a route, whose stream goes on until it is ended."""

    def __init__(self, run, name, interval=4_000):
        self.over = threading.Event()
        self.player = Subscriber(run.address, name)
        self.encoder = Publisher(run.address, publish(name), endless(self.over), interval)
        start_all(self.player, self.encoder)

    def callers(self):
        return self.player, self.encoder

    def end(self):
        """Ends the stream, and expects that the subscriber got all of it, in order."""
        expect(not any(it.shut.is_set() for it in self.callers()), "a caller of a route that stays got a SHUTDOWN")
        self.over.set()
        expect(self.encoder.wait_delivered(10), "the stream doesn't flow")
        count = self.encoder.next - self.encoder.initial
        expect(self.player.wait(5, count), f"the subscriber got {len(self.player.got)} of {count} payloads")
        expect_run(self.player.got, 0, count)
        for one in self.callers():
            one.close()

    def stop(self):
        self.over.set()
        for one in self.callers():
            one.stop()


# What is taken.


@case("a route that is added is published to, and the others go on")
def route_added():
    with Run([live("studio")], "--no-time") as run:
        run.is_up()
        air = OnAir(run, "studio")
        expect_refusal(1002, Caller(run.address, "news"), "a route that isn't there")
        first = changed(run, [live("news", **SMALL), live("studio")], (1, 1, 0, 0))
        opened(run, "news", 1, first)
        expect_stream(run, "news")
        air.end()
        end = run.stop()
        expect_polite(end, ["studio", "news"])


@case("SIGHUP ends nothing, and a changed file is taken after it as before")
def hangs_up():
    if not can_block():
        raise Skipped("`env` can't block signals")
    with Run([live("studio", **SMALL)], "--no-time") as run:
        run.is_up()
        for _ in range(3):
            run.process.send_signal(signal.SIGHUP)
        changed(run, [live("studio", **SMALL), live("news", **SMALL)], (1, 1, 0, 0))
        run.process.send_signal(signal.SIGHUP)
        changed(run, [live("studio", **SMALL)], (1, 0, 1, 0))
        expect_polite(run.stop(), ["studio", "news"])


def opened_all(run, *names):
    """Waits until the log has the sessions of a publisher and a subscriber of each of these routes, as the last snapshots do then."""
    for name in names:
        for role in ("publisher", "subscriber"):
            run.line(rf"{name}: {role} .* opened, .*", LOOK)


def held(run, name, first):
    """Waits for the line that a file is held since this route has sessions. Returns the time at which it was there."""
    number, _ = run.line(re.escape(HELD.format(name)), LOOK, first)
    return run.lines[number].came


@case("the callers of a route that is removed get a SHUTDOWN five seconds later, and no others")
def route_removed():
    with Run([live("studio"), live("news", **SMALL)], "--no-time") as run:
        run.is_up()
        air, gone = OnAir(run, "studio"), OnAir(run, "news")
        opened_all(run, "studio", "news")
        before = len(run.lines)
        first = changed(run, [live("studio")], (1, 0, 1, 0), LOOK + HOLDING)
        spent = run.lines[first].came - held(run, "news", before)
        expect(HOLDING - 0.1 <= spent <= HOLDING + 2, f"it was held for {spent:.2f} s")
        closed(run, "news", REMOVED, first)
        for one in gone.callers():
            expect_shut(run, one, "news")
        gone.stop()
        expect_refusal(1002, Caller(run.address, "news"), "a route that was removed")
        air.end()
        expect_polite(run.stop(), ["studio", "news"])


@case("a route is renamed, and another one gets its name")
def route_renamed():
    with Run([live("studio", **SMALL), live("news", latency_ms=200, **SMALL)], "--no-time") as run:
        run.is_up()
        gone = [OnAir(run, "studio"), OnAir(run, "news")]
        # The keys of `studio` are those of `news` now, and the other way round under a new name.
        first = changed(run, [live("guest", **SMALL), live("studio", latency_ms=200, **SMALL)], (0, 1, 1, 1), LOOK + HOLDING)
        closed(run, "news", REMOVED, first)
        closed(run, "studio", CHANGED, first)
        opened(run, "guest", 2, first)
        opened(run, "studio", 3, first)
        for air, name in zip(gone, ("studio", "news")):
            for one in air.callers():
                expect_shut(run, one, name)
            air.stop()
        for name in ("guest", "studio"):
            expect_stream(run, name)
        one = called(Subscriber(run.address, "studio"))
        expect(one.delays()[0] == 200, f"the latency of the route is {one.delays()}")
        one.close()
        expect_refusal(1002, Caller(run.address, "news"), "a name that no route has any more")
        expect_polite(run.stop(), ["studio", "news", "guest", "studio"])


@case("a route with other keys opens again under a new index")
def route_changed():
    with Shown([live("studio"), live("news", **SMALL)], "--no-time") as run:
        run.is_up()
        air, gone = OnAir(run, "studio"), OnAir(run, "news")
        first = changed(run, [live("studio"), live("news", latency_ms=300, **SMALL)], (1, 0, 0, 1))
        closed(run, "news", CHANGED, first)
        opened(run, "news", 2, first)
        for one in gone.callers():
            expect_shut(run, one, "news")
        gone.stop()
        again = called(Subscriber(run.address, "news"))
        expect(again.delays()[0] == 300, f"the latency of the route is {again.delays()}")
        again.close()
        time.sleep(1)
        state = run.page.state()
        expect([it["name"] for it in state["routes"]] == ["studio", "news"], f"the page shows {[it['name'] for it in state['routes']]}")
        expect_counts(run, routes=2, taken=1, refused=0, indexes=3)
        air.end()
        expect_polite(run.stop(), ["studio", "news", "news"])


@case("routes in another order are the same routes")
def order_changed():
    routes = [live(name, **SMALL) for name in ("studio", "news", "guest")]
    with Shown(routes, "--no-time") as run:
        run.is_up()
        air = OnAir(run, "news")
        before = written(run, text_of(run, routes[::-1]))
        expect_silent(run, before)
        names = [it["name"] for it in run.page.state()["routes"]]
        expect(names == ["guest", "news", "studio"], f"the page shows {names}")
        air.end()
        expect_polite(run.stop(), ["studio", "news", "guest"])


# Routes that are expected to be on air.

ABSENT = "{}: expected on air, no encoder"
SHOWN = 1.5  # A look twice a second, and the page after it.


def expect_absences(run, first, *names):
    """Expects that the log tells of just these routes from this line on that they have no encoder, in this order."""
    told = [it for it in run.texts(first) if "expected on air" in it]
    expect(told == [ABSENT.format(it) for it in names], f"it says {told}")


def expect_marks(run, **seconds):
    """Expects that the page, in its JSON and its metrics, shows just these routes as expected, each absent for so many seconds: 0, or at least 1."""
    time.sleep(SHOWN)
    state, metrics = run.page.state(), run.page.metrics()
    marks = {it["name"]: it["absent_seconds"] for it in state["routes"] if it.get("expected") == 1}
    expect({name: min(it, 1) for name, it in marks.items()} == seconds, f"the page shows {marks}")
    for family, wanted in (("srtgw_route_expected", {it: 1 for it in seconds}), ("srtgw_route_absent_seconds", seconds)):
        samples = {labels["route"]: value for labels, value in metrics.found(family)}
        expect({name: min(it, 1) for name, it in samples.items()} == wanted, f"the metrics have {samples} of {family}")


@case("an expected route is told while it has no encoder, and a change of that key alone closes nothing")
def expected_routes():
    with Shown([live("studio", expect=True, **SMALL), live("news", **SMALL)], "--no-time") as run:
        run.is_up()
        run.line(ABSENT.format("studio"), LOOK)
        expect_marks(run, studio=1)
        air = OnAir(run, "studio")
        expect_marks(run, studio=0)
        expect_absences(run, 0, "studio")
        before = written(run, text_of(run, [live("news", expect=True, **SMALL), live("studio", **SMALL)]))
        run.line(ABSENT.format("news"), LOOK, before)
        expect_silent(run, before)
        expect_marks(run, news=1)
        expect_absences(run, before, "news")
        expect_counts(run, routes=2, taken=0, refused=0, indexes=2)
        before = written(run, text_of(run, [live("news", **SMALL), live("studio", expect=True, **SMALL)]))
        expect_silent(run, before)
        expect_marks(run, studio=0)
        expect_absences(run, before)
        air.end()
        run.line(ABSENT.format("studio"), LOOK, before)
        expect_polite(run.stop(), ["studio", "news"])
        expect_absences(run, before, "studio")


# Who may call a route that a change opens.

HERE, THERE = "127.0.0.1", "127.0.0.9"
KEY, OTHER_KEY = "b1f0-a~key.of_the_studio", "c2e1-another~key"


class Call(NamedTuple):
    """What a caller asks for, from which address, and whether it may call."""

    text: str
    source: str
    may_call: bool


def expect_latency(run, call, latency_ms):
    """Expects that a caller is accepted by a route of this latency: one that closes may still have the name for a while."""
    until = time.monotonic() + CLOSED
    while True:
        one = called(Caller(run.address, call.text, source=call.source))
        found = one.delays()[0]
        one.close()
        if found == latency_ms:
            return
        expect(time.monotonic() < until, f"{call.text} from {call.source}: the latency is {found}, and not {latency_ms}")
        time.sleep(0.05)


def expect_admitted(run, calls, latency_ms):
    """Expects that those of these callers that may call are accepted by routes of this latency, and that all others get 1002."""
    for call in (it for it in calls if it.may_call):
        expect_latency(run, call, latency_ms)
    for call in (it for it in calls if not it.may_call):
        expect_refusal(1002, Caller(run.address, call.text, source=call.source), f"{call.text} from {call.source}")


def listed(name, publish_from, request_from):
    """Calls from the two addresses in both roles; those from an address of a role's list may call."""
    roles = (("publish", publish_from), ("request", request_from))
    return [Call(f"#!::r={name},m={role}", source, source in allowed) for role, allowed in roles for source in (HERE, THERE)]


def keyed(name, publish_key, request_key):
    """Calls with each key and with none in both roles; those with a role's key may call, and all if it has none."""
    roles = (("publish", publish_key), ("request", request_key))
    brings = {KEY: f",k={KEY}", OTHER_KEY: f",k={OTHER_KEY}", "": ""}
    return [Call(f"#!::r={name},m={role}{text}", HERE, not wanted or key == wanted) for role, wanted in roles for key, text in brings.items()]


@case("routes that a change opens have the lists and keys of the file")
def access_of_opened_routes():
    """First another latency opens routes again whose lists and keys are the same, beside new routes; then all of these get others."""
    both, names = [HERE, THERE], ["lists", "keys", "new.lists", "new.keys"]

    def tables(latency_ms, *access):
        return [live(name, latency_ms=latency_ms, **SMALL, **it) for name, it in zip(names, access)]

    same = dict(publish_from=[HERE], request_from=[THERE]), dict(publish_key=KEY, request_key=OTHER_KEY)
    with Run(tables(120, *same), "--no-time") as run:
        run.is_up()
        calls = [*listed("lists", [HERE], [THERE]), *keyed("keys", KEY, OTHER_KEY)]
        expect_admitted(run, calls, 120)
        changed(run, tables(200, *same, dict(publish_from=[THERE]), dict(request_key=KEY)), (0, 2, 0, 2))
        expect_admitted(run, [*calls, *listed("new.lists", [THERE], both), *keyed("new.keys", "", KEY)], 200)
        others = dict(publish_from=[THERE], request_from=[HERE]), dict(publish_key=OTHER_KEY, request_key=KEY)
        changed(run, tables(300, *others, {}, {}), (0, 0, 0, 4))
        calls = [*listed("lists", [THERE], [HERE]), *keyed("keys", OTHER_KEY, KEY), *listed("new.lists", both, both), *keyed("new.keys", "", "")]
        expect_admitted(run, calls, 300)
        expect_polite(run.stop(), [*names[:2], *names, *names])


# What isn't taken.


@case("a file that is wrong changes nothing, and is told once")
def wrong_file():
    with Run([live("studio")], "--no-time") as run:
        run.is_up()
        air = OnAir(run, "studio")
        good, wrong = text_of(run, [live("studio")]), text_of(run, [live("studio"), live("news", sessions=40)])
        line = 1 + wrong.splitlines().index("sessions = 40")
        refused(run, wrong, re.escape(f"line {line}: route 2 (news): sessions = 40: allowed are 1 to 17"))
        expect_silent(run, len(run.lines))
        before = written(run, wrong)
        expect_silent(run, before)
        line = 1 + good.splitlines().index('mode = "live"')
        why = f'line {line}: route 1 (studio): mode = "fast": allowed are "live" and "buffer"'
        refused(run, good.replace('mode = "live"', 'mode = "fast"'), re.escape(why))
        refused(run, "", ".*")
        before = written(run, good)
        expect_silent(run, before)
        air.end()
        expect_polite(run.stop(), ["studio"])


@case("a file that is half written is a wrong one, until the rest is there")
def half_written():
    with Run([live("studio")], "--no-time") as run:
        run.is_up()
        air = OnAir(run, "studio")
        whole = text_of(run, [live("studio"), live("news", **SMALL)])
        half, rest = whole[:whole.rindex('mode = "li') + 10], whole[whole.rindex('mode = "li') + 10:]
        before = len(run.lines)
        with open(run.file, "w") as it:
            it.write(half)
        run.line(r"configuration not taken: line \d+, column .*", LOOK, before)
        expect(not run.find(TAKEN, before), f"half of a file is taken: {run.texts(before)}")
        with open(run.file, "a") as it:
            it.write(rest)
        opened(run, "news", 1, before)
        expect(run.find(TAKEN, before)[1].groups() == ("1", "1", "0", "0"), f"the log says {run.texts(before)}")
        air.end()
        expect_polite(run.stop(), ["studio", "news"])


@case("a writer that pauses between two routes throws nobody off")
def writer_pauses():
    routes = [live("studio"), live("news", **SMALL)]
    with Run(routes, "--no-time") as run:
        run.is_up()
        airs = [OnAir(run, it) for it in ("studio", "news")]
        opened_all(run, "studio", "news")
        half, whole = text_of(run, routes[:1]), text_of(run, routes)
        expect(whole.startswith(half), "the routes aren't in their order")
        before = len(run.lines)
        with open(run.file, "w") as it:
            it.write(half)
            it.flush()
            time.sleep(2)
            it.write(whole[len(half):])
        held(run, "news", before)
        time.sleep(HOLDING + 2)
        told = [it for it in run.texts(before) if "configuration" in it]
        expect(told == [HELD.format("news")], f"it says {told}")
        for air in airs:
            air.end()
        expect_polite(run.stop(), ["studio", "news"])


def write_by_and_by(path, pieces, seconds):
    """Writes a file in its place, a piece at a time. Returns the longest time between two pieces."""
    longest, last = 0.0, time.monotonic()
    with open(path, "w") as it:
        for piece in pieces:
            it.write(piece)
            it.flush()
            longest, last = max(longest, time.monotonic() - last), time.monotonic()
            time.sleep(seconds)
    return longest


@case("a file that is being written isn't read, though what is there so far is right")
def being_written():
    """Each piece but the first is one route more. The file grows for a third of each second, in steps shorter than the gateway waits."""
    routes = [live("studio"), *(tiny(f"r{at}") for at in range(30))]
    with Run(routes, "--no-time") as run:
        run.is_up()
        air, index, played = OnAir(run, "studio"), len(routes), 0
        for turn in range(1, 13):
            pieces = [text_of(run, routes[:1]), *routes[1:-1], tiny("r29", 120 + turn)]
            before = len(run.lines)
            longest = write_by_and_by(run.file, pieces, 0.01)
            opened(run, "r29", index, before)
            if longest > SETTLING:
                break  # The machine is too busy for what this case shows.
            taken = [it for it in run.texts(before) if re.fullmatch(TAKEN, it)]
            expect(taken == ["configuration changed: 30 routes stay, 0 open, 0 close, 1 change"], f"a part of a file is taken: {run.texts(before)}")
            index, played = index + 1, played + 1
        air.end()
        run.stop()
        if not played:
            raise Skipped("the machine is too busy to write a file in time")


@case("keys that can't change are named, and nothing else of the file is taken")
def fixed_keys():
    with Run([live("studio")], "--no-time") as run:
        run.is_up()
        air = OnAir(run, "studio")
        end = "; restart it to change it"
        both = [live("studio"), live("news", **SMALL)]
        page, secret = f"127.0.0.1:{free_port()}", bytes(range(32)).hex()
        text = text_of(run, both)
        changes = dict(bind=configuration(both, free_port()), workers=text_of(run, both, workers=3), status=text_of(run, both, status=page),
                       secret=text.replace(SECRET, secret))
        for key, other in changes.items():
            refused(run, other, re.escape(f"{key} can't change while the gateway runs{end}"))
        other = configuration(both, free_port(), 3, page).replace(SECRET, secret)
        refused(run, other, re.escape(f"bind can't change while the gateway runs (also: workers, status, secret){end}"))
        expect_refusal(1002, Caller(run.address, "news"), "a route of a file that wasn't taken")
        before = written(run, text_of(run, [live("studio")]))
        expect_silent(run, before)
        air.end()
        expect_polite(run.stop(), ["studio"])


@case("a file that can't be read is told once, until it can be read again")
def unreadable():
    with Run([live("studio")], "--no-time") as run:
        run.is_up()
        good, missing = text_of(run, [live("studio")]), r"configuration can't be read: No such file or directory \(os error 2\)"
        for _ in range(2):
            before = len(run.lines)
            os.unlink(run.file)
            number, _ = run.line(missing, LOOK, before)
            expect_silent(run, number + 1)
            before = written(run, good)
            expect_silent(run, before)
        for size, most in ((65_536, 65_536), (4_000_000, 1_048_576)):
            before = written(run, good + "#" * size)
            run.line(f"configuration can't be read: larger than {most} bytes", LOOK, before)
            before = written(run, good)
            expect_silent(run, before)
        for makes, unmakes, why in ((os.mkdir, os.rmdir, r"Is a directory \(os error 21\)"), (os.mkfifo, os.unlink, "it is a pipe or a device")):
            os.unlink(run.file)
            makes(run.file)
            run.line(f"configuration can't be read: {why}", LOOK, before)
            unmakes(run.file)
            before = written(run, good)
            expect_silent(run, before)
        expect_polite(run.stop(), ["studio"])


@case("a configuration that comes by a pipe is read once")
def from_a_pipe():
    words = ["bash", "-c", f"exec {launcher()} run <(cat gateway.toml) --no-time"]
    with Run([live("studio")], command=words) as run:
        run.is_up()
        air = OnAir(run, "studio")
        expect_silent(run, 0, 3)
        air.end()
        expect_polite(run.stop(), ["studio"])


@case("the same file again says nothing")
def same_again():
    with Run([live("studio"), live("news", **SMALL)], "--no-time") as run:
        run.is_up()
        air = OnAir(run, "studio")
        good = text_of(run, [live("studio"), live("news", **SMALL)])
        for text in (good, good + "# a remark\n", good.replace("\n", "\r\n"), good):
            before = written(run, text)
            expect_silent(run, before)
        os.utime(run.file, (0, 0))
        expect_silent(run, before)
        air.end()
        expect_polite(run.stop(), ["studio", "news"])


@case("a file of the same size and the same time of its last writing is taken too")
def same_stamp():
    """As a deployment leaves it that gives each file the same time."""
    with Run([live("studio"), live("news", **SMALL)], "--no-time") as run:
        run.is_up()
        air = OnAir(run, "studio")
        for index, latency_ms in enumerate((200, 300), 2):
            text = text_of(run, [live("studio"), live("news", latency_ms=latency_ms, **SMALL)])
            before = len(run.lines)
            with open(f"{run.file}.new", "w") as it:
                it.write(text)
            os.utime(f"{run.file}.new", (1, 1))
            os.replace(f"{run.file}.new", run.file)
            opened(run, "news", index, before)
        air.end()
        expect_polite(run.stop(), ["studio", "news", "news", "news"])


@case("a change whose memory is refused is refused as a whole, and the next one is taken")
def memory_refused():
    with Shown([live("studio")], "--no-time") as run:
        run.is_up()
        air = OnAir(run, "studio")
        with open(f"/proc/{run.process.pid}/statm") as it:
            size = int(it.read().split()[0]) * os.sysconf("SC_PAGE_SIZE")
        resource.prlimit(run.process.pid, resource.RLIMIT_AS, (size + (100 << 20),) * 2)
        some = [live("studio"), live("news", **SMALL)]
        refused(run, text_of(run, [*some, live("large", buffer=8192, sessions=17)]), "no memory for large")
        expect_refusal(1002, Caller(run.address, "news"), "a route of a change that wasn't taken")
        expect_counts(run, routes=1, taken=0, refused=1, indexes=1)
        first = changed(run, some, (1, 1, 0, 0))
        opened(run, "news", 1, first)
        expect_stream(run, "news")
        air.end()
        expect_polite(run.stop(), ["studio", "news"])


# Beside what routes do.


class Bursts(threading.Thread):
    """Sends a session's KEEPALIVEs, 30 at a time, so that its route's inbox has no room for all of them."""

    def __init__(self, caller):
        super().__init__(daemon=True)
        self.caller, self.over = caller, threading.Event()

    def run(self):
        while not self.over.wait(0.01):
            for _ in range(30):
                self.caller.send_control(packets.KEEPALIVE)

    def end(self):
        self.over.set()
        self.join()


def wait_for_full(run):
    """Waits until further datagrams found an inbox full."""
    first = run.page.metrics().total("srtgw_poller_full_datagrams_total")
    until = time.monotonic() + 10
    while run.page.metrics().total("srtgw_poller_full_datagrams_total") == first:
        expect(time.monotonic() < until, "no inbox is full")
        time.sleep(0.1)


@case("routes open and close while the inbox of one is full, and that one closes too")
def full_inbox():
    steady = [live("studio", **PATIENT), live("news", **SMALL)]
    with Shown(steady, "--no-time") as run:
        run.is_up()
        air, busy = OnAir(run, "studio"), called(Subscriber(run.address, "news"))
        bursts = Bursts(busy)
        bursts.start()
        try:
            wait_for_full(run)
            first = changed(run, [*steady, live("guest", **PATIENT)], (2, 1, 0, 0))
            opened(run, "guest", 2, first)
            expect_stream(run, "guest")
            first = changed(run, steady, (2, 0, 1, 0), LOOK + HOLDING)
            closed(run, "guest", REMOVED, first)
            wait_for_full(run)
            first = changed(run, [steady[0], live("news", latency_ms=300, **SMALL)], (1, 0, 0, 1))
            closed(run, "news", CHANGED, first)
            opened(run, "news", 3, first)
            expect_shut(run, busy, "news")
        finally:
            bursts.end()
        busy.stop()
        expect_stream(run, "news")
        air.end()
        expect_polite(run.stop(), ["studio", "news", "guest", "news"])


class Changing(threading.Thread):
    """Writes the configuration of a run five times a second, with routes that stay and one that is another one each time."""

    def __init__(self, run, steady):
        super().__init__(daemon=True)
        self.gateway, self.steady, self.over = run, steady, threading.Event()

    def run(self):
        turn = 0
        while not self.over.wait(0.2):
            turn += 1
            written(self.gateway, text_of(self.gateway, [*self.steady, tiny(f"t{turn % 5}", 120 + turn % 7)]))

    def end(self):
        self.over.set()
        self.join()


@case("a backup encoder stands by, and takes over, on a route that stays while others change")
def standby_beside_changes():
    count, other = 500, 1_000_000  # The backup's payloads begin with this number.
    steady = [live("studio", **PATIENT), live("news", **SMALL)]
    with Run(steady, "--no-time") as run:
        run.is_up()
        changing, over = Changing(run, steady), threading.Event()
        changing.start()
        try:
            run.line(TAKEN, LOOK)
            player = Subscriber(run.address, "studio")
            main = Publisher(run.address, publish("studio"), stream(count), 4_000)
            backup = Publisher(run.address, publish("studio"), endless(over, other), 4_000)
            start_all(player, main, backup)
            run.line(opened_line("studio", "publisher", backup, PATIENT["latency_ms"], standby=True), LOOK)
            expect(main.wait_delivered(15) and player.wait(5, count), "the main encoder's stream doesn't flow")
            main.close()
            number, _ = run.line(took_over_line("studio", backup), LOOK)
            run.line(TAKEN, LOOK, number)
            over.set()
            expect(backup.wait_delivered(10), "the backup's stream doesn't flow")
        finally:
            changing.end()
        time.sleep(0.5)
        found = indexes(list(player.got))
        rest = found[count:]
        expect(found[:count] == list(range(count)), f"the main encoder's payloads didn't come in order: {found[:count][-3:]}")
        expect(len(rest) >= 100 and rest == list(range(rest[0], rest[0] + len(rest))) and rest[0] >= other, f"of the backup's came {rest[:3]} to {rest[-3:]}")
        expect(rest[-1] - other + 1 == backup.next - backup.initial, f"the backup's last ones are missing: {rest[-3:]}")
        expect(not player.shut.is_set() and not backup.shut.is_set(), "a caller of a route that stays got a SHUTDOWN")
        for one in (backup, player):
            one.close()
        expect(run.stop().status == 0, "the status isn't 0")


# Many changes.


@case("511 indexes are used up: the log warns, and then says that a restart is needed")
def indexes_used_up():
    """Each change opens the routes that open again under other keys."""
    count = 100
    with Run([live("studio"), *(tiny(f"r{at}") for at in range(count))], "--no-time") as run:
        run.is_up()
        air = OnAir(run, "studio")
        for turn in range(1, 5):
            changed(run, [live("studio"), *(tiny(f"r{at}", 120 + turn) for at in range(count))], (1, 0, 0, count), 3 * LOOK)
            used = 1 + count * (turn + 1)
            few = run.find(rf"{INDEXES - used} of 511 indexes are left; each route that opens while the gateway runs uses one, restart it in a quiet hour")
            if used < 400:
                expect(not few, f"it warns at {used}")
        run.line(r"110 of 511 indexes are left; .*", LOOK)
        run.line(r"10 of 511 indexes are left; .*", LOOK)
        routes = [live("studio"), *(tiny(f"r{at}", 125) for at in range(count))]
        refused(run, text_of(run, routes), f"{count} routes are to open, 10 indexes are left; restart the gateway")
        # The last ten can be used, and a change that opens none is taken then.
        routes = [live("studio"), *(tiny(f"r{at}", 125 if at < 10 else 124) for at in range(count))]
        first = changed(run, routes, (count - 9, 0, 0, 10), 3 * LOOK)
        opened(run, "r9", INDEXES - 1, first)
        refused(run, text_of(run, [*routes, tiny("more")]), "1 routes are to open, 0 indexes are left; restart the gateway")
        first = changed(run, routes[:1], (1, 0, count, 0), 3 * LOOK)
        air.end()
        end = run.stop()
        expect(len(end.accounts) == INDEXES, f"there are {len(end.accounts)} accounts")


@case("200 changes in 20 seconds or more, right and wrong ones, beside 16 routes with callers")
def many_changes():
    """The file is written ten times a second. Some of its states are taken, or told as wrong, and none is half a file."""
    steady = [live(f"s{at}", **PATIENT) for at in range(16)]
    wrong = live("wrong", sessions=40)
    with Run(steady, "--no-time") as run:
        run.is_up()
        airs = [OnAir(run, f"s{at}", 20_000) for at in range(16)]
        began = time.monotonic()
        for turn in range(200):
            written(run, text_of(run, [*steady, wrong if turn % 3 == 2 else tiny(f"t{turn % 7}", 120 + turn % 4)]))
            time.sleep(max(0, began + 0.1 * (turn + 1) - time.monotonic()))
        written(run, text_of(run, [*steady, tiny("last")]))
        run.line(r"last: opened with index \d+, \d+ MB", 2 * LOOK)
        texts = run.texts()
        taken = [it for it in (re.fullmatch(TAKEN, it) for it in texts) if it]
        refusals = [it for it in texts if it.startswith("configuration not taken: ")]
        expect(len(taken) >= 5 and refusals, f"{len(taken)} changes are taken, {len(refusals)} refused: {texts[-8:]}")
        expect(all(it[1] == "16" for it in taken), f"a route that is the same didn't stay: {[it[0] for it in taken]}")
        line = 1 + text_of(run, [*steady, wrong]).splitlines().index("sessions = 40")
        why = f"configuration not taken: line {line}: route 17 (wrong): sessions = 40: allowed are 1 to 17"
        expect(set(refusals) == {why}, f"it says {set(refusals)}")
        expect(not any("can't be read" in it for it in texts), f"a file can't be read: {texts[-8:]}")
        called(Subscriber(run.address, "last")).close()
        for air in airs:
            air.end()
        end = run.stop()
        expect(end.status == 0, f"the status is {end.status}")


@case("a change doesn't keep a stop from being quick")
def stops_after_change():
    with Run([live("studio")], "--no-time") as run:
        run.is_up()
        air = OnAir(run, "studio")
        first = changed(run, [live("studio"), live("news", **SMALL)], (1, 1, 0, 0))
        opened(run, "news", 1, first)
        end = run.stop()
        for one in air.callers():
            expect(one.shut.wait(5), "a caller got no SHUTDOWN")
        air.stop()
        expect_polite(end, ["studio", "news"])
        expect(end.seconds <= 2.5, f"it took {end.seconds:.2f} s")


@case("a stop in the middle of a change of a hundred routes is polite")
def stops_in_a_change():
    """The gateway looks at its file each second from the look that took the first change."""
    count = 100
    for delay in (1.0, 1.06, 1.1, 1.2):
        with Run([live("studio")], "--no-time") as run:
            run.is_up()
            air = OnAir(run, "studio")
            first = changed(run, [live("studio"), tiny("r0")], (1, 1, 0, 0))
            looked = run.lines[first].came
            written(run, text_of(run, [live("studio"), *(tiny(f"r{at}") for at in range(count))]))
            time.sleep(max(0, looked + delay - time.time()))
            end = run.stop()
            for one in air.callers():
                expect(one.shut.wait(5), f"a caller got no SHUTDOWN, {delay} s after the first change")
            air.stop()
            names = ["studio", *(f"r{at}" for at in range(count))]
            expect(len(end.accounts) >= 2, f"the accounts are {end.output!r}")
            expect_polite(end, names[:len(end.accounts)])
            expect(end.seconds <= 3, f"it took {end.seconds:.2f} s, {delay} s after the first change")
            expect(run.texts()[-1] == "stopped", f"the log ends with {run.texts()[-3:]}")
