"""`srtgw run` as a process of its own: its start, its log and its end."""
from __future__ import annotations

import atexit
import calendar
import fcntl
import functools
import os
import re
import shutil
import signal
import socket
import subprocess
import tempfile
import threading
import time
from typing import NamedTuple

import gateway
from expecting import Wrong, expect
from gateway import report
from machine import drops_of, family_of, free_port
from page import Page
from tree import PROGRAM, TOP

TIME = r"\d{4}-\d\d-\d\dT\d\d:\d\d:\d\d\.\d{3}Z"
ACCOUNT = re.compile(r"route (\S+) taken (\d+) left (\d+) waiting (\d+) queued (\d+) drained (\d+)")
OUTCOMES = ("answered", "accepted", "full", "dropped", "memory")
SECRET = bytes(range(100, 132)).hex()
STOP_SECONDS = 1.5
PAGE = 4096
SET_PIPE_SIZE = 1031  # F_SETPIPE_SZ of Linux, which Python has since 3.10.
# The second line of a gateway that wasn't started by the launcher.
UNBLOCKED = "SIGINT or SIGTERM ends the gateway at once, without a report: bin/srtgw run blocks them"


def live(name, sessions=5, **others):
    """The configuration's table of a live route, without anything unwise."""
    return gateway.live(name, sessions=sessions, **{"outbox": 4 + 66 * sessions, **others})


def files(name, sessions=5, **others):
    """The same of a route in buffer mode."""
    return gateway.files(name, sessions=sessions, **{"outbox": 4 + 66 * sessions, **others})


def configuration(routes, port, workers=2, status=""):
    return gateway.configuration(routes, port, workers, SECRET, status)


class Skipped(Exception):
    """A case can't be played on this machine."""


class Line(NamedTuple):
    """A line of the log: when it came, by the system's clock, and its text."""

    came: float
    text: str


class Account(NamedTuple):
    """A route's line at the end of a run."""

    name: str
    taken: int
    left: int
    waiting: int
    queued: int
    drained: int


class End(NamedTuple):
    """How a run ended: its status, the report, the accounts of its routes, all that it printed, and the seconds from when it
    was asked to stop, or waited for."""

    status: int
    report: dict[str, int] | None
    accounts: list[Account]
    output: str
    seconds: float


@functools.cache
def launcher():
    """A copy of bin/srtgw in a tree of its own, in which the program is built and nothing is newer."""
    room = tempfile.mkdtemp(prefix="srtgw-launcher-")
    atexit.register(shutil.rmtree, room, True)
    for folder in ("bin", "crates/srtgw/out"):
        os.makedirs(f"{room}/{folder}")
    shutil.copy(f"{TOP}/bin/srtgw", f"{room}/bin/srtgw")
    open(f"{room}/crates.txt", "w").close()
    os.utime(f"{room}/crates.txt", (0, 0))
    os.symlink(os.path.realpath(PROGRAM), f"{room}/crates/srtgw/out/srtgw")
    return f"{room}/bin/srtgw"


@functools.cache
def can_block():
    """Whether `env` can start a program with signals blocked."""
    return subprocess.run(["env", "--block-signal=INT", "true"], stderr=subprocess.DEVNULL).returncode == 0


def usual_signals():
    """For a process to call before it runs the program: signals are handled as in a shell, whatever the tests were started by."""
    for one in (signal.SIGINT, signal.SIGTERM, signal.SIGHUP):
        signal.signal(one, signal.SIG_DFL)
    signal.pthread_sigmask(signal.SIG_SETMASK, [])


def accounts_of(lines):
    """The accounts of these lines, or None if one has another form."""
    found = [ACCOUNT.fullmatch(it) for it in lines]
    return [Account(it[1], *map(int, it.groups()[1:])) for it in found] if all(found) else None


def seconds_of(time_text):
    """The seconds since 1970 of a time of the log."""
    whole = calendar.timegm(time.strptime(time_text[:19], "%Y-%m-%dT%H:%M:%S"))
    return whole + int(time_text[20:23]) / 1000


class Run:
    """A gateway that runs until it is stopped. `words` come after the configuration; `launched` says whether bin/srtgw starts
    it, `text` is a configuration in place of that of the routes, `limit` is called by the process before it runs the program. If
    not `reads`, nobody reads its log, and the pipe has room for a page, until `read` is called. `command` are other words that
    start it, and `launched` says whether they block signals. `status` is the address of its status page, if it has one."""

    def __init__(self, routes=(), *words, launched=True, port=None, workers=2, text=None, limit=lambda: None, reads=True, command=None, status=""):
        self.address, self.launched = ("127.0.0.1", free_port() if port is None else port), launched
        self.room = tempfile.mkdtemp(prefix="srtgw-run-")
        self.file = f"{self.room}/gateway.toml"
        with open(self.file, "w") as it:
            it.write(configuration(routes, self.address[1], workers, status) if text is None else text)
        os.chmod(self.file, 0o600)
        self.lines, self.output, self.began = [], "", time.time()
        command = command or [launcher() if launched else PROGRAM, "run", "gateway.toml", *words]
        pipes = dict(stdin=subprocess.DEVNULL, stdout=subprocess.PIPE, stderr=subprocess.PIPE, text=True, errors="replace")
        self.process = subprocess.Popen(command, cwd=self.room, preexec_fn=lambda: (usual_signals(), limit()), env={**os.environ, "MALLOC_ARENA_MAX": "1"}, **pipes)
        self.readers = []
        if reads:
            self.read()
        else:
            fcntl.fcntl(self.process.stderr, SET_PIPE_SIZE, PAGE)

    def read(self):
        """Begins to read what it says."""
        self.readers = [threading.Thread(target=it, daemon=True) for it in (self.read_log, self.read_output)]
        for it in self.readers:
            it.start()

    def read_log(self):
        for line in self.process.stderr:
            self.lines.append(Line(time.time(), line.removesuffix("\n")))

    def read_output(self):
        self.output = self.process.stdout.read()

    def __enter__(self):
        return self

    def __exit__(self, *why):
        self.kill()

    def runs(self):
        return self.process.poll() is None

    def kill(self):
        if self.runs():
            self.process.kill()
        self.process.wait()
        shutil.rmtree(self.room, ignore_errors=True)

    # The log.

    def texts(self, first=0):
        """The log's lines from this one on, without their times."""
        return [re.sub(rf"^{TIME} ", "", it.text) for it in self.lines[first:]]

    def find(self, pattern, first=0):
        """The number of the first line from this one on that has just this form, and its match; None if there is none."""
        for number, text in enumerate(self.texts(first), first):
            found = re.fullmatch(pattern, text)
            if found:
                return number, found
        return None

    def line(self, pattern, seconds=3.0, first=0):
        """Waits for a line of this form, for at most so many seconds. Returns its number and its match."""
        until = time.monotonic() + seconds
        while True:
            ends = not self.runs() or time.monotonic() >= until
            found = self.find(pattern, first)
            if found or ends:
                break
            time.sleep(0.01)
        if not found:
            raise Wrong(f"the log lacks {pattern!r}: {self.texts(first)[-8:]}")
        return found

    def pace_refusals(self, most=8):
        """Waits until fewer callers than so many were refused in the last second: the log leaves out those that are more than ten
        in a second."""
        while sum(it.came > time.time() - 1 and " refused, " in it.text for it in self.lines[-50:]) >= most:
            time.sleep(0.02)

    def is_up(self, seconds=10):
        """Waits until its first line says that it serves callers."""
        self.line("serving at .*", seconds)
        return self

    # The end.

    def end(self, seconds=10.0):
        """Waits until it ends by itself."""
        began = time.monotonic()
        try:
            status = self.process.wait(seconds)
        except subprocess.TimeoutExpired:
            raise Wrong(f"it goes on after {seconds} seconds: {self.texts()[-4:]}") from None
        spent = time.monotonic() - began
        for it in self.readers:
            it.join(5)
        lines = self.output.splitlines()
        return End(status, report(lines[0]) if lines else None, accounts_of(lines[1:]) or [], self.output, spent)

    def stop(self, which=signal.SIGTERM, seconds=10.0):
        """Stops it by a signal, and waits for its end."""
        if self.launched and not can_block():
            raise Skipped("`env` can't start a program with signals blocked")
        self.process.send_signal(which)
        return self.end(seconds)


class Shown(Run):
    """A gateway with a status page, whose routes and other words are those of a Run."""

    def __init__(self, *routes_and_words, **others):
        self.page = Page(("127.0.0.1", free_port(socket.SOCK_STREAM)))
        super().__init__(*routes_and_words, status="{}:{}".format(*self.page.address), **others)


def flooded(run, count=12_000):
    """Stops a gateway while more datagrams come than its socket's buffer holds. Returns how many the kernel has dropped."""
    run.process.send_signal(signal.SIGSTOP)
    try:
        with socket.socket(family_of(run.address[0]), socket.SOCK_DGRAM) as flood:
            for _ in range(count):
                flood.sendto(bytes(1316), run.address)
        time.sleep(0.1)
        return drops_of(run.address[1])
    finally:
        run.process.send_signal(signal.SIGCONT)


def expect_polite(end, names):
    """Expects the end of a stop: status 0, a report whose numbers add up, and an account of each of these routes, in order."""
    expect(end.status == 0, f"the status is {end.status}: {end.output!r}")
    counts = end.report
    expect(counts is not None, f"the report is {end.output!r}")
    expect([it.name for it in end.accounts] == list(names), f"the accounts are {end.output!r}")
    expect(counts["read"] == sum(counts[it] for it in OUTCOMES), f"the outcomes aren't as many as were read: {counts}")
    expect(all(it.waiting == it.queued == 0 for it in end.accounts), f"replies were left: {end.accounts}")
    offered, drained = (sum(it) for it in zip(*((one.taken + one.left, one.drained) for one in end.accounts)))
    expect(offered >= counts["accepted"], f"routes had {offered} items, and {counts['accepted']} datagrams were accepted: {end.accounts}")
    handed = counts["sent"] + counts["lost"]
    expect(handed == counts["answered"] + drained, f"{handed} were handed to the socket: {counts}, {end.accounts}")
