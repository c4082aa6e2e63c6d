"""What the machine says of its processors and ports."""
from __future__ import annotations

import os
import signal
import socket
import threading
from typing import NamedTuple

TICKS = os.sysconf("SC_CLK_TCK")


class Times(NamedTuple):
    """The processors' time since boot, in ticks: all of it, the busy part, and the part that the host took (steal)."""

    whole: int
    busy: int
    steal: int


def processor_times() -> Times:
    with open("/proc/stat") as file:
        words = [int(word) for word in file.readline().split()[1:9]]
    return Times(sum(words), sum(words) - words[3] - words[4], words[7])


class Shares:
    """The shares of the processors' time that were busy, and that the host took, since this object was made. 0 where the system
    doesn't say."""

    def __init__(self) -> None:
        self.first = self.now()

    @staticmethod
    def now() -> Times:
        try:
            return processor_times()
        except OSError:
            return Times(0, 0, 0)

    def taken(self) -> tuple[float, float]:
        whole, busy, steal = (after - before for after, before in zip(self.now(), self.first))
        return busy / max(1, whole), steal / max(1, whole)


def free_port(kind: socket.SocketKind = socket.SOCK_DGRAM) -> int:
    """A port of this machine that nobody has now, of UDP or of another kind of socket."""
    with socket.socket(socket.AF_INET, kind) as probe:
        probe.bind(("127.0.0.1", 0))
        return probe.getsockname()[1]


def family_of(host: str) -> socket.AddressFamily:
    """The family of an address."""
    return socket.AF_INET6 if ":" in host else socket.AF_INET


def rows_of(port: int) -> list[list[str]]:
    """The rows of the UDP sockets of this port in /proc/net/udp and udp6, each split at its blanks."""
    rows = []
    for table in ("udp", "udp6"):
        if os.path.exists(f"/proc/thread-self/net/{table}"):
            with open(f"/proc/thread-self/net/{table}") as file:
                rows += [it.split() for it in file.readlines()[1:]]
    return [it for it in rows if int(it[1].split(":")[1], 16) == port]


def drops_of(port: int) -> int:
    """How many datagrams the kernel dropped at the UDP socket of this port."""
    return sum(int(it[-1]) for it in rows_of(port))


def queued_at(port: int) -> int:
    """The bytes of the kernel's memory that datagrams take which wait at the UDP socket of this port."""
    return sum(int(it[4].split(":")[1], 16) for it in rows_of(port))


def seconds_of_process(pid: int) -> float:
    """The processor time of all threads of a process that still run, in seconds."""
    total = 0
    for task in os.listdir(f"/proc/{pid}/task"):
        with open(f"/proc/{pid}/task/{task}/schedstat") as file:
            total += int(file.read().split()[0])
    return total / 1e9


class Prover(NamedTuple):
    """A process of the toolchain that is at work on a crate, and the processor time that it took so far, in seconds."""

    crate: str
    pid: str
    began: str
    seconds: float


class Process(NamedTuple):
    """A process: its parent's number, its words, when it began, and the processor time that it took, in seconds."""

    parent: str
    words: list[str]
    began: str
    seconds: float


def processes() -> dict[str, Process]:
    """The machine's processes by their numbers."""
    found = {}
    for pid in filter(str.isdigit, os.listdir("/proc")):
        try:
            with open(f"/proc/{pid}/cmdline", "rb") as file:
                words = file.read().decode(errors="replace").split("\0")
            with open(f"/proc/{pid}/stat") as file:
                numbers = file.read().rpartition(") ")[2].split()
        except OSError:
            continue
        found[pid] = Process(numbers[1], words, numbers[19], (int(numbers[11]) + int(numbers[12])) / TICKS)
    return found


def is_below(pid: str, above: str, every: dict[str, Process]) -> bool:
    """Whether a process was started by another one, or by one that this started."""
    while pid in every and pid != above:
        pid = every[pid].parent
    return pid == above


def family(pid: int) -> dict[str, str]:
    """A process and all that were started below it, by their numbers, and when each began."""
    every = processes()
    return {it: every[it].began for it in every if is_below(it, str(pid), every)}


def still_running(those: dict[str, str], every: dict[str, Process]) -> list[str]:
    """Which of these processes still run, by their numbers and when they began."""
    return [it for it, began in those.items() if it in every and every[it].began == began]


def kill(those: dict[str, str]) -> None:
    """Ends those of these processes that still run, and all below them, by force."""
    every = processes()
    running = still_running(those, every)
    for it in (it for it in every if any(is_below(it, above, every) for above in running)):
        try:
            os.kill(int(it), signal.SIGKILL)
        except ProcessLookupError:
            # It has ended meanwhile.
            pass


def provers() -> list[Prover]:
    """The processes of the toolchain that this process started and that are at work on a crate."""
    every, own = processes(), str(os.getpid())
    at_work = {pid: it for pid, it in every.items() if "--crate-name" in it.words[:-1]}
    return [
        Prover(it.words[it.words.index("--crate-name") + 1], pid, it.began, it.seconds) for pid, it in at_work.items() if is_below(pid, own, every)
    ]


class Meter(threading.Thread):
    """Sums the processor time that the toolchain takes for each crate, until `stop`."""

    def __init__(self) -> None:
        super().__init__(daemon=True)
        self.seconds: dict[tuple[str, str, str], float] = {}
        self.ends = threading.Event()

    def run(self) -> None:
        while not self.ends.wait(0.5):
            for it in provers():
                self.seconds[it.crate, it.pid, it.began] = it.seconds

    def minutes(self) -> dict[str, float]:
        """The minutes of each crate so far."""
        sums: dict[str, float] = {}
        for (crate, _, _), spent in list(self.seconds.items()):
            sums[crate] = sums.get(crate, 0.0) + spent / 60
        return sums

    def stop(self) -> dict[str, float]:
        self.ends.set()
        self.join()
        return self.minutes()


def free_gigabytes() -> float:
    """The memory that new processes can have, as the system reckons."""
    with open("/proc/meminfo") as file:
        for line in file:
            if line.startswith("MemAvailable:"):
                return int(line.split()[1]) / 2**20
    return 0.0


def description() -> str:
    """The machine in a few words: processors, their kind, and memory."""
    with open("/proc/cpuinfo") as file:
        kinds = [line.split(":", 1)[1].strip() for line in file if line.startswith("model name")]
    memory = os.sysconf("SC_PAGE_SIZE") * os.sysconf("SC_PHYS_PAGES") / 2**30
    return f"{len(os.sched_getaffinity(0))} processors ({kinds[0] if kinds else os.uname().machine}), {memory:.0f} GB of memory"
