"""Tries the wrong bodies of crates beside one another, by copies or in their places: one run of the prover judges several."""
from __future__ import annotations

import glob
import os
import re
import shutil
import subprocess
import sys
import tempfile
from concurrent.futures import ThreadPoolExecutor
from typing import Any, Iterable, Iterator, NamedTuple

import copying
import placing
from copying import Copy
from placing import Placed
from tree import SOURCES, TOP, Crate

# The most copies that one run of the prover judges, and the memory that such a run may take, in bytes. A run reads the libraries
# and proves what its copies call, so few and large ones cost less; one of 29 copies took half of this memory.
MOST = 36
MEMORY = 2_500_000_000
LINE = re.compile(r"(?m)^fn (\S+): (proved|not proved|no proof|could not tell)(.*)$")
# A function that isn't proved because of what it calls says nothing of itself.
OF_OTHERS = re.compile(r"it calls|it passes|a call of")
# What a proof file says that names something that the edit took away.
NAMES = re.compile(r"has no field|is not in scope|has no `|was not admitted")
REFUSED, PROVED, UNKNOWN = "refused", "proved", "unknown"


class Batch(NamedTuple):
    """The copies of one crate that one run of the prover judges, or the edits in their places."""

    crate: str
    copies: list[Copy]
    placed: list[Placed] = []


class Plan(NamedTuple):
    """What is to be tried of a crate: its batches, why its other edits can't be tried beside others, by their paths, and of how many
    edits it is known that they were refused at the same content."""

    crate: str
    batches: list[Batch]
    alone: dict[str, str]
    known: int = 0


class Outcome(NamedTuple):
    """What became of a copy, or of an edit in its place, and whether it was refused only since a proof names what the edit took away."""

    copy: Copy | Placed
    result: str
    by_name: bool


class Result(NamedTuple):
    """What became of a plan, and what the prover said of each batch that left something unknown."""

    plan: Plan
    outcomes: list[Outcome]
    unclear: list[str]

    @property
    def crate(self) -> str:
        return self.plan.crate

    def edits(self, result: str) -> list[str]:
        return [it.copy.edit for it in self.outcomes if it.copy.edit and it.result == result]

    def wrong(self) -> list[str]:
        """What isn't as it must be, a text each."""
        found = [f"{it.copy.edit} is {it.result}" for it in self.outcomes if it.copy.edit and it.result != REFUSED]
        found += [f"the unchanged copy of {it.copy.of.name} is {it.result}" for it in self.outcomes if not it.copy.edit and it.result != PROVED]
        return found


def toolchain() -> Any:
    """The module of `rt` that has the words of a check."""
    rt = shutil.which("rt")
    if not rt:
        sys.exit("the Rattle toolchain (rt) is not on PATH: see docs/INSTALL.md")
    folder = os.path.dirname(os.path.realpath(rt))
    if folder not in sys.path:
        sys.path.insert(0, folder)
    import rtlib  # type: ignore[import-not-found]

    return rtlib


def edits_of(crate: str, outside_only: bool = False) -> list[str]:
    """The files of a crate's edits: those of must-fail/, which `rt ci` tries, unless only the others are asked for, and the others."""
    inside = [] if outside_only else sorted(glob.glob(f"{TOP}/crates/{crate}/must-fail/*.edit"))
    return inside + sorted(glob.glob(f"{TOP}/tests/edits/{crate}/*.edit"))


def trials_of(crate: Crate, edits: list[str]) -> tuple[list[Copy], list[Placed], dict[str, str]]:
    """The copies that can be made of these edits of a crate, those of the others that can be judged in their places, and why the
    rest can't be judged beside others, by the edits' paths."""
    copies, alone = copying.copies_of(crate.folder, edits)
    return copies, *placing.placed_of(crate.folder, alone)


def batches_of(crate: str, copies: list[Copy]) -> list[Batch]:
    """The copies in parts of at most MOST, each part about as large, those of one function one after the other."""
    ordered = sorted(copies, key=lambda it: (it.of.path, it.of.top))
    count = -(-len(ordered) // MOST)
    bounds = [len(ordered) * at // count for at in range(count + 1)] if count else []
    return [Batch(crate, ordered[low:high]) for low, high in zip(bounds, bounds[1:])]


def rounds_of(crate: str, placed: list[Placed]) -> list[Batch]:
    """The edits in their places, in rounds of at most one for each method; then each law alone."""
    rounds: list[list[Placed]] = []
    for it in (it for it in placed if not it.is_law):
        free = next((those for those in rounds if all(other.of != it.of for other in those)), None)
        if free is None:
            rounds.append(free := [])
        free.append(it)
    return [Batch(crate, [], those) for those in [*rounds, *([it] for it in placed if it.is_law)]]


def plan_of(crate: Crate, edits: list[str], with_controls: bool) -> Plan:
    """These edits of a crate, beside unchanged copies if these are wanted too."""
    copies, placed, alone = trials_of(crate, edits)
    controls = copying.controls_of(crate.folder, copies) if with_controls else []
    return Plan(crate.name, batches_of(crate.name, copies + controls) + rounds_of(crate.name, placed), alone)


def is_built_below(crate: Crate) -> bool:
    """Whether the libraries below a crate are built from the sources as they stand."""
    it = next(it for it in toolchain().crates_below(TOP) if it.name == crate.name)
    return all(library.is_built() for library in it.below())


def checked(rtlib: Any, batch: Batch) -> str:
    """What the prover says of a batch, over the libraries that are built below its crate."""
    here = Crate(batch.crate, (), "").folder
    crate = next(it for it in rtlib.crates_below(TOP) if it.name == batch.crate)
    crate.out = open(os.devnull, "w")
    with tempfile.TemporaryDirectory(prefix="srtgw-copies-") as room:
        for part in SOURCES:
            if os.path.isdir(f"{here}/{part}"):
                shutil.copytree(f"{here}/{part}", f"{room}/{part}")
        copying.add_bodies(room, batch.copies)
        for it in batch.copies:
            copying.add_proofs(room, it)
        placing.put(room, batch.placed)
        only = [word for it in [*batch.copies, *batch.placed] for word in ("--only", it.name)]
        words = [*rtlib.guarded(), rtlib.RATTLE, "check", *crate.words(["--jobs", "1", *only], keeps=False)]
        ran = subprocess.run(words, cwd=room, stdin=subprocess.DEVNULL, stdout=subprocess.PIPE, stderr=subprocess.STDOUT, text=True, errors="replace")
    return ran.stdout


def is_by_name(it: Copy | Placed, said: str) -> bool:
    """Whether all that the prover says of a refused copy is that proofs name what the edit took away."""
    # The prover breaks a long message, and indents what goes on.
    errors = [line for line in re.sub(r"\n  +(?=\S)", " ", said).split("\n") if ": error" in line]
    if not isinstance(it, Placed):
        errors = [line for line in errors if f"/{it.name}/" in line]
    elif not it.is_law:
        errors = [line for line in errors if f"/{it.proofs}/" in line]
    return bool(errors) and all(NAMES.search(line) for line in errors)


def outcomes_of(batch: Batch, said: str) -> list[Outcome]:
    """What became of each copy of a batch, by what the prover said."""
    # A copy's last name is its own; a method's is one of several, so it is found by its path below the crate.
    told = {key: (word, rest) for path, word, rest in LINE.findall(said) for key in (path.rpartition("::")[2], path.partition("::")[2])}
    found = []
    for it in [*batch.copies, *batch.placed]:
        word, rest = told.get(it.name, ("", ""))
        is_refused = word in ("not proved", "no proof") and not OF_OTHERS.search(rest)
        found.append(Outcome(it, REFUSED if is_refused else PROVED if word == "proved" else UNKNOWN, is_refused and is_by_name(it, said)))
    return found


def judged_in_parts(rtlib: Any, batch: Batch) -> list[tuple[list[Outcome], str]]:
    """The outcomes of a batch, with what the prover said. A batch of which nothing is known, as where one edit doesn't compile,
    is tried again in halves, so that such an edit hides no other one."""
    said = checked(rtlib, batch)
    outcomes = outcomes_of(batch, said)
    every = [*batch.copies, *batch.placed]
    if len(every) < 2 or any(it.result != UNKNOWN for it in outcomes):
        return [(outcomes, said)]
    halves = every[: len(every) // 2], every[len(every) // 2 :]
    parts = [Batch(batch.crate, [it for it in half if it in batch.copies], [it for it in half if it in batch.placed]) for half in halves]
    return [it for part in parts for it in judged_in_parts(rtlib, part)]


def free_lanes() -> int:
    """How many runs of the prover have a processor and memory each."""
    with open("/proc/meminfo") as file:
        free = next(int(line.split()[1]) * 1024 for line in file if line.startswith("MemAvailable:"))
    return max(1, min(len(os.sched_getaffinity(0)), free // MEMORY))


def try_all(plans: Iterable[Plan], lanes: int = 0) -> Iterator[Result]:
    """Tries these plans over the libraries that are built, with so many runs of the prover at a time, or as many as the machine
    carries. Gives each crate's result, in order, as soon as it is there."""
    rtlib, plans = toolchain(), list(plans)
    rtlib.guarded()
    with ThreadPoolExecutor(lanes or free_lanes()) as pool:
        # The runs of the upper crates take longest, so they begin first.
        begun = {plan.crate: [pool.submit(judged_in_parts, rtlib, it) for it in plan.batches] for plan in reversed(plans)}
        for plan in plans:
            judged = [part for ran in begun[plan.crate] for part in ran.result()]
            found = [it for outcomes, _ in judged for it in outcomes]
            unclear = [text for outcomes, text in judged if any(it.result == UNKNOWN for it in outcomes)]
            yield Result(plan, found, unclear)


def tell(result: Result) -> None:
    """Prints a crate's line, and what the prover said last if nothing is known of some copy."""
    wrong, refused, known = result.wrong(), result.edits(REFUSED), result.plan.known
    by_name = [it.copy.edit for it in result.outcomes if it.by_name]
    controls = sum(not it.copy.edit for it in result.outcomes)
    beside = f", beside {controls} unchanged copies that are proved" if controls else ""
    sample = f", a sample of {known} that were refused before at this content" if known else ""
    names = f"; only by a name that is gone: {', '.join(by_name)}" if by_name else ""
    tried = f"ok, {len(refused)} refused beside others{beside}{sample}{names}"
    said = tried if result.outcomes or not known else f"not tried: {known} were refused before at this content"
    print(f"edits of {result.crate}: " + (f"wrong: {wrong}" if wrong else said), flush=True)
    for text in result.unclear:
        print(text[-3000:], flush=True)
