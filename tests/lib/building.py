"""Proves and builds crates side by side, each as soon as those that it uses are built.

A command of the toolchain locks the folders of a crate and of all below it, so that two in one tree wait for each other. Each
crate is therefore built in a room, a copy of its sources and of the libraries below it, and what was built moves back. Two builds in
one tree take turns."""
from __future__ import annotations

import contextlib
import fcntl
import os
import re
import shutil
import subprocess
import tempfile
import time
from concurrent.futures import FIRST_COMPLETED, Future, ThreadPoolExecutor, wait
from typing import Callable, Iterable, Iterator, NamedTuple, TextIO

from durations import KEPT, NOTHING, Durations
from planning import Plan, by_one_job
from tree import TOP, Crate, below, crates, make_room

# What a check by one job may take of memory, in bytes.
MEMORY = 2_000_000_000
# The programs: the whole one, and the one without what needs the network, which uses fewer crates.
PROGRAM = "srtgw"
OFFLINE = "srtgw_offline"
# A file below a crate's out/ which says that one job proved the crate from nothing.
ONE_JOB = "proved_by_one_job"
# What the name of a room begins with, before the id of the process that builds there.
ROOM = "srtgw-build-"


class NotBuilt(Exception):
    """A crate could not be built: what to tell, and all that the toolchain said."""

    def __init__(self, text: str, said: str = "") -> None:
        super().__init__(text)
        self.said = said


def free_memory() -> int:
    """The memory that is free, in bytes."""
    with open("/proc/meminfo") as file:
        return next(int(line.split()[1]) * 1024 for line in file if line.startswith("MemAvailable:"))


def linked(one: str, other: str) -> None:
    """Gives a file a second name, or copies it where that can't be: the toolchain replaces such a file and never writes into it."""
    try:
        os.link(one, other)
    except OSError:
        shutil.copy2(one, other)


def lend_libraries(crate: Crate, under: Iterable[Crate], room: str) -> None:
    """Gives the room the libraries below the crate, and what an earlier check of the crate itself left."""
    for it in under:
        if it.name != crate.name and os.path.isdir(f"{it.folder}/out/rlib"):
            shutil.copytree(f"{it.folder}/out/rlib", f"{room}/crates/{it.name}/out/rlib", copy_function=linked)
    for part in ("incremental", "rlib"):
        if os.path.isdir(f"{crate.folder}/out/{part}"):
            shutil.copytree(f"{crate.folder}/out/{part}", f"{room}/crates/{crate.name}/out/{part}", copy_function=linked)


def is_program(crate: Crate) -> bool:
    return os.path.isfile(f"{crate.folder}/src/main.rt")


def take_back(crate: Crate, room: str, began: float) -> None:
    """Moves what was built in the room to the crate's own folder. A program gets the time at which its build began: a source that
    changed meanwhile is newer."""
    os.makedirs(f"{crate.folder}/out", exist_ok=True)
    if is_program(crate):
        os.utime(f"{room}/crates/{crate.name}/out/{crate.name}", (began, began))
    for part in ("incremental", "rlib", crate.name):
        made = f"{room}/crates/{crate.name}/out/{part}"
        if os.path.exists(made):
            to = f"{crate.folder}/out/{part}"
            if os.path.isdir(to):
                shutil.rmtree(to)
            shutil.move(made, to)


class Built(NamedTuple):
    """A crate that was built: what the toolchain said, the processor seconds that it took, and over what it proved the crate; nothing
    if it took what was built before."""

    said: str
    seconds: float
    over: str | None


def call(words: list[str], folder: str) -> tuple[int, str, float]:
    """Runs a command, and returns its status, what it said, and the processor seconds of it and of all that it started."""
    with tempfile.TemporaryFile() as said:
        started = subprocess.Popen(words, cwd=folder, stdin=subprocess.DEVNULL, stdout=said, stderr=subprocess.STDOUT)
        _, status, used = os.wait4(started.pid, 0)
        started.returncode = os.waitstatus_to_exitcode(status)
        said.seek(0)
        return started.returncode, said.read().decode(errors="replace"), used.ru_utime + used.ru_stime


def build(crate: Crate, jobs: int, began: float) -> Built:
    """Builds one crate in a room of its own; `began` is when the whole build did."""
    with tempfile.TemporaryDirectory(prefix=f"{ROOM}{os.getpid()}-", dir=rooms()) as room:
        make_room(room, [crate.name])
        lend_libraries(crate, below([crate.name]), room)
        words = ["rt", "run", "--jobs", str(jobs), "--", "--help"] if is_program(crate) else ["rt", "lib", "--jobs", str(jobs)]
        here = f"{room}/crates/{crate.name}"
        had = os.path.isdir(f"{here}/out/incremental")
        status, said, seconds = call(words, here)
        if status or not os.path.exists(f"{here}/out/{crate.name if is_program(crate) else 'rlib'}"):
            raise NotBuilt(f"{crate.name} could not be built; the end of the log:\n{said[-2000:]}", said)
        take_back(crate, room, began)
    # Where another checkout of this machine has it, the toolchain begins with what a check kept there, or takes the library.
    over = None if "logic=proved" not in said else KEPT if had or "begins with what a check kept" in said else NOTHING
    if over:
        note_profile(crate, over == NOTHING and jobs == 1)
    return Built(said, seconds, over)


def note_profile(crate: Crate, is_one: bool) -> None:
    """Notes whether one process wrote all that is kept of a crate, so that the times of its files say what each module took."""
    note = f"{crate.folder}/out/{ONE_JOB}"
    if is_one:
        open(note, "w").close()
    elif os.path.exists(note):
        os.remove(note)


def git_folder() -> str | None:
    """The repository's own folder of git, if it has one that can be written."""
    git = f"{TOP}/.git"
    return git if os.path.isdir(git) and os.access(git, os.W_OK) else None


def rooms() -> str | None:
    """A folder for rooms on the repository's own disk, so that what was built moves by its name; the system's own if there is none."""
    git = git_folder()
    if git:
        os.makedirs(f"{git}/rooms", exist_ok=True)
    return f"{git}/rooms" if git else None


def clear_rooms() -> None:
    """Removes the rooms that a build left which was killed: the toolchain would take their crates for the repository's."""
    folder = rooms()
    for name in os.listdir(folder) if folder else []:
        found = re.match(rf"{ROOM}(\d+)-", name)
        if not found or not os.path.exists(f"/proc/{found[1]}"):
            shutil.rmtree(f"{folder}/{name}", ignore_errors=True)


@contextlib.contextmanager
def turn(tell: Callable[[str], None]) -> Iterator[None]:
    """Waits until no other build of this tree runs, and lets none begin until the end."""
    folder = git_folder() or f"{TOP}/crates/{PROGRAM}/out"
    os.makedirs(folder, exist_ok=True)
    with open(f"{folder}/srtgw-build.lock", "w") as file:
        try:
            fcntl.flock(file, fcntl.LOCK_EX | fcntl.LOCK_NB)
        except BlockingIOError:
            tell("another build of this tree runs; this one waits until it ends")
            fcntl.flock(file, fcntl.LOCK_EX)
        yield


def jobs_of_memory() -> int:
    """The most jobs that the free memory has room for."""
    return max(1, free_memory() // MEMORY)


def minutes(seconds: float) -> str:
    """A time that is left, as a person says it."""
    whole = round(seconds / 60)
    return "less than a minute" if seconds < 45 else "about a minute" if whole < 2 else f"about {whole} minutes"


def clock(began: float) -> str:
    """The time since then, in minutes and seconds."""
    seconds = int(time.monotonic() - began)
    return f"{seconds // 60}:{seconds % 60:02}"


def plan_of(wanted: list[Crate], durations: Durations) -> Plan:
    return Plan(wanted, {it.name: durations.of(it) for it in wanted}, len(os.sched_getaffinity(0)))


def announced(names: list[str]) -> str:
    """What will be built for these crates, how long that takes and by which figures, and, if the whole program isn't among it, what
    the commands will take that need it."""
    durations, wanted = Durations(), below(names)
    source = "as before on this machine" if durations.are_of_this_machine(wanted) else f"by figures of {durations.source}"
    text = f"proving and building {', '.join(names)} ({len(wanted)} crates), {minutes(plan_of(wanted, durations).left({}, ()))} ({source})"
    if names == [OFFLINE] and PROGRAM in crates():
        rest = [it for it in below([PROGRAM]) if it not in wanted]
        text += f"; `run` and `serve` prove and build {len(rest)} crates more when they are first called, {minutes(plan_of(rest, durations).left({}, ()))}"
    return text


class Progress:
    """What is built and what is under way, and what is left by what crates took before and how fast this build went so far."""

    def __init__(self, plan: Plan) -> None:
        self.plan = plan
        self.done: set[str] = set()
        self.running: dict[str, tuple[int, float]] = {}
        self.began = time.monotonic()
        self.whole = plan.left({}, ())

    def by_plan(self, pace: float) -> float:
        """The seconds that are left by the plan, if this build takes `pace` seconds for one of the plan's."""
        now = time.monotonic()
        return self.plan.left({name: (jobs, (now - start) / pace) for name, (jobs, start) in self.running.items()}, self.done)

    def left(self) -> float:
        """How many seconds are left: the machine may be slower than that of the plan's figures, or have other work."""
        so_far, pace = time.monotonic() - self.began, 1.0
        # What is under way is as far as the pace says, and the pace is what is done in the time so far: a few rounds find both.
        for _ in range(6 if so_far > 30 else 0):
            passed = self.whole - self.by_plan(pace)
            pace = min(20.0, max(0.2, so_far / passed)) if passed > 0 else pace
        return pace * self.by_plan(pace)

    def text(self) -> str:
        so_far = f"{len(self.done)} of {len(self.plan.crates)} crates built, {clock(self.began)} so far"
        return f"{so_far}, {minutes(self.left())} left; under way: {', '.join(self.running)}"


def build_all(wanted: list[Crate], log: TextIO, tell: Callable[[str], None]) -> float:
    """Builds these crates, each after those that it uses, as many at a time as there are processors. It tells how far it is as crates
    end, and each minute. Returns the processor seconds of all. To be called in the build's `turn`."""
    clear_rooms()
    began = time.time()
    durations = Durations()
    plan = plan_of(wanted, durations)
    progress = Progress(plan)
    running: dict[Future[Built], tuple[Crate, float]] = {}
    spent = 0.0
    with ThreadPoolExecutor(plan.lanes) as pool:
        while len(progress.done) < len(wanted):
            while begins := plan.next({name: jobs for name, (jobs, _) in progress.running.items()}, progress.done, jobs_of_memory()):
                crate, jobs = begins
                now = time.monotonic()
                progress.running[crate.name] = jobs, now
                running[pool.submit(build, crate, jobs, began)] = crate, now
            tell(progress.text())
            for it in wait(running, timeout=60, return_when=FIRST_COMPLETED).done:
                crate, start = running.pop(it)
                jobs, _ = progress.running.pop(crate.name)
                why = it.exception()
                if isinstance(why, NotBuilt):
                    log.write(f"== {crate.name}, not built\n{why.said}")
                if why:
                    raise why
                built = it.result()
                spent += built.seconds
                log.write(f"== {crate.name}, {time.monotonic() - start:.0f} s with --jobs {jobs}, {built.seconds:.0f} s of processors\n{built.said}")
                log.flush()
                if built.over:
                    durations.keep(crate, built.over, by_one_job(built.seconds, jobs) if built.over == NOTHING else built.seconds)
                progress.done.add(crate.name)
    return spent
