"""Which crate is built next and by how many jobs, and how long it takes until all are built."""
from __future__ import annotations

from typing import Iterable, Mapping

from tree import Crate

# The most jobs that one crate gains from. With several a check works in batches: so it does the greater part of its work, and that
# part takes more of the processors than by one job. Before and after its batches a check works on one processor.
MOST_JOBS = 4
BATCHED = 0.75
OVERHEAD = 1.3
# A crate of fewer seconds takes a third more of the processors in batches, a long one a tenth: a small one gets a second job only if
# no other crate is ready for a processor.
SMALL = 110.0


def by_one_job(seconds: float, jobs: int) -> float:
    """The seconds of one processor that a proof from nothing takes by one job, by what it took by so many."""
    return seconds / (1 - BATCHED + BATCHED * OVERHEAD) if jobs > 1 else seconds


class Plan:
    """Crates that are built side by side on `lanes` processors, with the seconds that each takes of one."""

    def __init__(self, wanted: Iterable[Crate], seconds: Mapping[str, float], lanes: int) -> None:
        self.crates = list(wanted)
        self.seconds = seconds
        self.lanes = lanes
        self.names = {it.name for it in self.crates}
        # The seconds of the longest chain of crates from each one upwards: what has to be built one after the other.
        self.chains: dict[str, float] = {}
        for crate in reversed(self.crates):
            above = (self.chains[it.name] for it in self.crates if crate.name in it.uses)
            self.chains[crate.name] = seconds[crate.name] + max(above, default=0.0)

    def ready(self, begun: Iterable[str], done: Iterable[str]) -> list[Crate]:
        """The crates that can begin, those with the longest chains above them first."""
        begun, done = set(begun), set(done)
        found = [it for it in self.crates if it.name not in begun and all(name in done for name in it.uses if name in self.names)]
        return sorted(found, key=lambda it: -self.chains[it.name])

    def next(self, running: Mapping[str, int], done: Iterable[str], most: int = MOST_JOBS) -> tuple[Crate, int] | None:
        """The crate that begins now, and its jobs, beside those that are running with theirs; none if it is better to wait."""
        ready = self.ready([*running, *done], done)
        idle = self.lanes - sum(running.values())
        if not ready or idle < 1:
            return None
        crate = ready[0]
        share = idle // len(ready) if self.seconds[crate.name] >= SMALL else 1
        # The processors for which no other crate is ready go to the one with the longest chain of all.
        is_longest = all(self.chains[crate.name] > self.chains[it] for it in running)
        spare = max(0, idle - len(ready)) if is_longest else 0
        return crate, max(1, min(most, MOST_JOBS, max(share, 1 + spare)))

    def seconds_of(self, name: str, jobs: int) -> float:
        """How long a crate takes by so many jobs."""
        share = OVERHEAD / jobs if jobs > 1 else 1.0
        return self.seconds[name] * (1 - BATCHED + BATCHED * share)

    def left(self, running: Mapping[str, tuple[int, float]], done: Iterable[str]) -> float:
        """How long it takes until all are built, beside what is running, with the jobs of each and the seconds that it took so far."""
        done, now = set(done), 0.0
        jobs = {name: count for name, (count, _) in running.items()}
        ends = {name: max(self.seconds_of(name, count) - spent, 0.05 * self.seconds[name]) for name, (count, spent) in running.items()}
        while True:
            while begins := self.next(jobs, done):
                crate, count = begins
                jobs[crate.name], ends[crate.name] = count, now + self.seconds_of(crate.name, count)
            if not ends:
                return now
            name = min(ends, key=lambda it: ends[it])
            now = max(now, ends.pop(name))
            del jobs[name]
            done.add(name)
