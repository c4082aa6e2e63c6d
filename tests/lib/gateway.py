"""`srtgw serve` as a process of its own, on a free port of this machine."""
import json
import os
import resource
import subprocess
import tempfile
import time

from caller import Caller, Silent
from machine import free_port
from tree import PROGRAM

STACK = 64 << 20
NAMES = ["read", "answered", "accepted", "full", "dropped", "memory", "sent", "lost", "faults"]
SECRET = bytes(range(32)).hex()


def live(name, latency_ms=120, buffer=1024, sessions=5, inbox=256, outbox=256, **optional):
    """The configuration's table of a live route. `optional` may have its other keys: numbers, texts or lists of texts."""
    return route(name, "live", latency_ms, buffer, sessions, inbox, outbox, **optional)


def files(name, buffer=1024, sessions=5, inbox=256, outbox=256):
    """The configuration's table of a route in buffer mode."""
    return route(name, "buffer", 120, buffer, sessions, inbox, outbox)


def route(name, mode, latency_ms, buffer, sessions, inbox, outbox, **optional):
    values = {"latency_ms": latency_ms, "buffer": buffer, "sessions": sessions, "inbox": inbox, "outbox": outbox, **optional}
    lines = [f"{key} = {json.dumps(value)}" for key, value in values.items()]
    return "\n".join(["[[route]]", f'name = "{name}"', f'mode = "{mode}"', *lines, ""])


def configuration(routes, port, workers=2, secret=SECRET, status=""):
    """The text of a configuration. `status` is the address of the status page, if there is one."""
    page = f'status = "{status}"\n' if status else ""
    return f'secret = "{secret}"\nbind = "127.0.0.1:{port}"\nworkers = {workers}\n{page}' + "".join(routes)


def room_for(threads):
    """A function for a process to call before it runs the program: it limits the address space, so that besides the program
    it has room for the stacks of this many threads and no more."""
    def limit():
        resource.setrlimit(resource.RLIMIT_STACK, (STACK, STACK))
        resource.setrlimit(resource.RLIMIT_AS, (STACK // 2 + threads * STACK,) * 2)
    return limit


class Gateway:
    """A gateway that serves routes for a number of rounds. If `threads` is given, it has room for that many more threads."""

    def __init__(self, routes, rounds=1_000_000_000, workers=2, port=None, threads=None):
        self.address = ("127.0.0.1", free_port() if port is None else port)
        with tempfile.NamedTemporaryFile("w", prefix="srtgw-", suffix=".toml", delete=False) as it:
            it.write(configuration(routes, self.address[1], workers))
        self.file, self.began = it.name, time.monotonic()
        words = [PROGRAM, "serve", self.file, "--rounds", str(rounds)]
        pipes = dict(stdin=subprocess.DEVNULL, stdout=subprocess.PIPE, stderr=subprocess.PIPE, text=True)
        if threads is not None:
            pipes |= dict(preexec_fn=room_for(threads), env={**os.environ, "MALLOC_ARENA_MAX": "1"})
        self.process = subprocess.Popen(words, **pipes)

    def is_up(self, seconds=10):
        """Waits until an induction gets an answer, for at most `seconds`. Returns whether one did."""
        until = time.monotonic() + seconds
        while time.monotonic() < until and self.process.poll() is None:
            try:
                Caller(self.address).induce(0.5)
                return True
            except Silent:
                pass
        return False

    def runs(self):
        return self.process.poll() is None

    def ended(self, seconds):
        """Waits for the process's end. Returns its status, standard output and standard error, or None if it goes on for more
        than `seconds`; then it is killed."""
        try:
            output, errors = self.process.communicate(timeout=seconds)
            return self.process.returncode, output, errors
        except subprocess.TimeoutExpired:
            return None
        finally:
            self.kill()

    def kill(self):
        if self.runs():
            self.process.kill()
            self.process.communicate()
        if os.path.exists(self.file):
            os.unlink(self.file)


def report(line):
    """The counts of a report's line, or None if it isn't of that form."""
    words = line.split(" ")
    if words[::2] != NAMES or len(words) != 2 * len(NAMES) or not all(it.isdigit() for it in words[1::2]):
        return None
    return {name: int(count) for name, count in zip(words[::2], words[1::2])}
