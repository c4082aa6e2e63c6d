"""The log as JSON objects: each line is one, and its facts are those of the line of text, which it has too."""
import json
import re

from caller import Caller, Publisher, Subscriber, start_all, stream
from cases import case
from expecting import expect, expect_refusal, publish
from running import TIME, Run, expect_polite, live

SESSION = r"(?P<route>\S+): (?P<role>\w+) (?P<peer>\S+)"
SOCKET = r"socket (?P<socket>0x[0-9a-f]{8})"
# The line of text of each event. Groups have the names of the object's members.
FORMS = {
    "started": r"serving at (?P<bind>\S+), routes (?P<routes>\d+), workers (?P<workers>\d+), memory \d+ KiB",
    "warning": r"(?P<warning>.*)",
    "opened": rf"{SESSION} opened(?: as standby)?, {SOCKET}(?:, latency (?P<latency_ms>\d+) ms)?(?:, encrypted with AES-\d+)?",
    "ended": rf"{SESSION} ended, {SOCKET}, .*, after (?P<lasted_ms>\d+) ms, (?P<packets>\d+) packets, (?P<bytes>\d+) bytes, "
             r"(?P<lost>\d+) lost, (?P<resent>\d+) resent(?:, clock drift (?P<clock_drift_ppm>-?\d+) ppm, correction (?P<clock_correction_us>-?\d+) us)?",
    "took_over": rf"{SESSION} took over, {SOCKET}",
    "refused": r'(?P<peer>\S+) refused, (?P<code>\d+) \w+(?:, asked for "(?P<name>.*)")?(?:, .*)?',
    "unseen": r"(?P<route>\S+): (?P<sessions>\d+) sessions opened and ended unseen",
    "socket_faults": r"socket faults (?P<count>\d+)",
    "kernel_drops": r"datagrams dropped by the kernel (?P<count>\d+)",
    "left_out": r"lines left out (?P<count>\d+)",
    "stop_requested": r"stopping, by a (?P<cause>signal)",
    "stopped": "stopped",
    "config_taken": r"configuration changed: (?P<staying>\d+) routes stay, (?P<opening>\d+) open, (?P<closing>\d+) close, (?P<changing>\d+) change",
    "config_held": r"configuration closes (?P<route>\S+), which has sessions; it is taken if it stays so for 5 s",
    "route_opens": r"(?P<route>\S+): opened with index (?P<index>\d+), (?P<megabytes>\d+) MB",
    "route_closes": r"(?P<route>\S+): closed, .*",
    "config_wrong": r"configuration not taken: (?P<why>.*)",
}
CAUSES = {"unknown_name": "unknown name", "no_name": "no valid name"}
REASONS = {"shutdown": "its peer sent a SHUTDOWN", "gateway_stops": "the gateway stops", "route_closed": "its route was closed"}


class Objects(Run):
    """A gateway whose log has objects. The texts of its lines are their members `text`."""

    def __init__(self, routes, *words, **options):
        super().__init__(routes, *words, "--log", "json", **options)

    def objects(self):
        return [json.loads(it.text) for it in self.lines]

    def texts(self, first=0):
        return [it["text"] for it in self.objects()[first:]]


def expect_same(told):
    """Expects that the facts of an object are those of its text."""
    form = FORMS.get(told["event"])
    expect(form, f"an event {told['event']!r}")
    found = re.fullmatch(form, told["text"])
    expect(found, f"the text of {told}")
    facts = {name: value for name, value in found.groupdict().items() if value is not None}
    shown = {name: str(told.get(name)) for name in facts}
    expect(shown == facts, f"the members {shown}, and the text says {facts}")
    for name, words in (("cause", CAUSES), ("reason", REASONS)):
        if told.get(name) in words:
            expect(words[told[name]] in told["text"], f"{name} of {told}")
    if told["event"] == "opened":
        expect(told["standby"] == (" as standby" in told["text"]), f"the standby of {told}")
        bits = re.search(r"encrypted with AES-(\d+)$", told["text"])
        expect(told.get("key_length_bytes") == (int(bits[1]) // 8 if bits else None), f"the length of the keys of {told}")


def play(run):
    """Has sessions, refusals and a change, and stops the gateway."""
    run.is_up()
    publisher, subscriber = Publisher(run.address, publish("studio"), stream(100), 500), Subscriber(run.address, "studio")
    start_all(subscriber, publisher)
    expect(publisher.wait_delivered(10) and subscriber.wait(5, 100), "the stream doesn't flow")
    for stream_id in ("nowhere", 'a"b\\c', b"new\nline\x1b", "studi\u00e9"):
        expect_refusal(1002, Caller(run.address, stream_id), stream_id)
    with open(run.file, "a") as it:
        it.write(live("later"))
    run.line("later: opened with index .*", 5)
    with open(run.file, "a") as it:
        it.write("wrong")
    run.line("configuration not taken: .*", 5)
    subscriber.close()
    run.line("studio: subscriber .* ended, .*", 3)
    expect_polite(run.stop(), ["studio", "later"])
    publisher.stop()


@case("with --log json each line is a JSON object with the facts of the line")
def log_of_objects():
    with Objects([live("studio")]) as run:
        play(run)
        told = run.objects()
        for it in told:
            expect(re.fullmatch(TIME, it["time"]), f"the time of {it}")
            expect_same(it)
        expect(all(it.text.isascii() for it in run.lines), "a line isn't ASCII")
        names = [it["name"] for it in told if it["event"] == "refused"]
        expect(sorted(set(names)) == sorted(["nowhere", "a\\x22b\\x5cc", "new\\x0aline\\x1b", "studi\\xc3\\xa9"]), f"the names {names}")
        events = {it["event"] for it in told}
        expect(events >= {"started", "opened", "ended", "refused", "config_taken", "route_opens", "config_wrong", "stop_requested", "stopped"}, f"{events}")
        ended = [it for it in told if it["event"] == "ended"]
        expect([(it["role"], it["packets"], it["bytes"]) for it in ended] == [("subscriber", 100, 131600), ("publisher", 100, 131600)], f"{ended}")


@case("with --no-time objects have no time, and --log text is the log without the option")
def forms():
    with Objects([live("studio")], "--no-time") as run:
        run.is_up()
        expect_polite(run.stop(), ["studio"])
        expect(all(list(it)[:2] == ["event", "text"] for it in run.objects()), f"{run.objects()}")
    with Run([live("studio")], "--no-time", "--log", "text") as run:
        run.is_up()
        expect_polite(run.stop(), ["studio"])
        expect(run.texts()[0].startswith("serving at ") and run.texts()[-1] == "stopped", f"{run.texts()}")
