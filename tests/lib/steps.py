"""Steps of the gate: each runs one program, counts what it says, and is measured. Several run beside one another."""
from __future__ import annotations

import os
import re
import signal
import subprocess
import threading
import time
from typing import Callable, NamedTuple

from machine import family, kill, processes, still_running
from parts import SAYS_FAILED, Count
from tree import TOP

# All gives way to what plays against the clock, the proofs to all that plays, and what nothing waits for to the proofs.
CLOCK_AT, PLAYS_AT, PROOFS_AT, LAST_AT = 0, 5, 15, 19
OF_TEST = r"(\d+) passed, (\d+) failed"
# The line of a subject that is wrong, beside those that parts.SAYS_FAILED knows, and the line behind which bin/test tells all failures.
IS_WRONG = re.compile(r"^[\w ]+ (?:of )?[\w.]+: wrong\b")
FAILURES = "What failed:"
SKIPPED = re.compile(r"case (.+: skipped, .*)")
LEFT_OUT = re.compile(r"edits of \w+: \d+ not tried, .*")
# The seconds in which a step has to end that is told to.
GRACE = 30
PRINTING = threading.Lock()
# The processes of the steps that run now, and whether no other one may begin.
RUNNING: set[subprocess.Popen[str]] = set()
ENDING = threading.Event()


class Stopped(Exception):
    """The gate was told to end."""


class Step(NamedTuple):
    """What a program was called for, where and with which words, the form of its last line, with two groups that count, and by how
    much it gives way to others. If the last line has no form, the status alone counts."""

    name: str
    words: list[str]
    last_line: str = OF_TEST
    folder: str = TOP
    gives_way: int = CLOCK_AT


class Ended(NamedTuple):
    """What became of a step: its counts, the lines that tell of failures, the cases that were skipped, what was left out for want of
    time, and its minutes, on the clock and of processors."""

    step: Step
    count: Count
    failures: list[str]
    skipped: list[str]
    left_out: list[str] = []
    minutes: float = 0.0
    processor_minutes: float = 0.0


def end_all() -> None:
    """Ends the processes of all steps, and lets no other one begin."""
    ENDING.set()
    for process in list(RUNNING):
        process.terminate()


def say(text: str) -> None:
    """Prints a text in one piece, also if others print meanwhile."""
    with PRINTING:
        print(text, flush=True)


def failures_in(lines: list[str]) -> list[str]:
    """The lines that tell of failures, each once."""
    if FAILURES in lines:
        return lines[lines.index(FAILURES) + 1 : -1]
    return list(dict.fromkeys(it for it in lines if SAYS_FAILED.search(it) or IS_WRONG.search(it)))


def end_late(step: Step, process: subprocess.Popen[str], is_late: threading.Event) -> None:
    """Ends a step whose time is over, politely, and after a while by force what is left of it and of all that it started."""
    is_late.set()
    say(f"\n== {step.name} is ended, since the time of the gate is over")
    those, until = family(process.pid), time.monotonic() + GRACE
    if str(process.pid) in those:
        os.kill(process.pid, signal.SIGTERM)
    while still_running(those, processes()) and time.monotonic() < until:
        time.sleep(0.5)
    kill(those)


def run(step: Step, on_line: Callable[[str], None] | None = None, seconds: float = threading.TIMEOUT_MAX) -> Ended:
    """Runs a step, for at most so many seconds: one that is ended then, or can't begin, has failed. With `on_line`, it calls that for
    each line and prints them as they come, and else all of them at the end."""
    began, lines = time.monotonic(), list[str]()
    words = ["nice", "-n", str(step.gives_way), *step.words]
    if ENDING.is_set():
        raise Stopped
    if seconds <= 0:
        return Ended(step, Count(0, 1), [f"{step.name} wasn't begun, since the time of the gate was over"], [])
    process = subprocess.Popen(
        words, cwd=step.folder, stdin=subprocess.DEVNULL, stdout=subprocess.PIPE, stderr=subprocess.STDOUT, text=True, errors="replace"
    )
    RUNNING.add(process)
    is_late = threading.Event()
    timer = threading.Timer(seconds, end_late, [step, process, is_late])
    timer.daemon = True
    timer.start()
    assert process.stdout
    for line in process.stdout:
        lines.append(line.rstrip("\n"))
        if on_line:
            say(lines[-1])
            on_line(lines[-1])
    RUNNING.discard(process)
    _, status, used = os.wait4(process.pid, 0)
    process.returncode = os.waitstatus_to_exitcode(status)
    timer.cancel()
    if is_late.is_set():
        timer.join()
    minutes, processor = (time.monotonic() - began) / 60, (used.ru_utime + used.ru_stime) / 60
    if not on_line:
        say("\n".join([f"\n== {step.name}, {minutes:.1f} minutes", *lines]))
    skipped = [found[1] for it in lines if (found := SKIPPED.match(it))]
    left_out = [it for it in lines if LEFT_OUT.fullmatch(it)]
    count, failures = counted(step, lines, process.returncode)
    if is_late.is_set():
        count = Count(count.passed, max(1, count.failed))
        failures = [f"{step.name} was ended after {minutes:.0f} minutes, since the time of the gate was over", *failures]
    return Ended(step, count, failures, skipped, left_out, minutes, processor)


def counted(step: Step, lines: list[str], status: int) -> tuple[Count, list[str]]:
    """What a step's last line counts, and the lines that tell of failures. A program that fails without saying so counts as one."""
    last = next((it for it in reversed(lines) if it.strip()), "")
    found = re.fullmatch(step.last_line, last)
    passed, failed = map(int, found.groups()) if found else (0, 1) if step.last_line else (int(status == 0), 0)
    failed = failed or int(status != 0)
    told = failures_in(lines) or [f"{step.name} ended with {status}: {last}"]
    return Count(passed, failed), told if failed else []


def named_cases(ended: Ended) -> list[str]:
    """The names of the cases that failed, each as far as to a colon in it; none if the step has no cases, or failed otherwise."""
    found = [re.match(r"case ([^:]+): ", it) for it in ended.failures]
    return [it[1] for it in found if it] if all(found) else []
