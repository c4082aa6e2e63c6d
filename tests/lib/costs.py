"""What the proof of each function costs, by the modules that the toolchain keeps of it in a crate's out/incremental.

The largest single part of a check's time are the derivations for the borrow checker, a module `Lts` for each function; its seconds
grow with its bytes. A file's time says when its module was checked, so that the seconds between two files are the later module's, where
one process wrote all of them one after the other."""
from __future__ import annotations

import glob
import os
import re
import subprocess
import tempfile
from typing import Iterator, NamedTuple

from building import ONE_JOB, NotBuilt
from tree import TOP, Crate
from trying import is_built_below, toolchain

SUFFIX = ".oantt"
DERIVATION = "Lts"
# The module that each function has, and nothing else: its derivation for the borrow checker.
OF_FUNCTION = re.compile(rf"(.+)\.{DERIVATION}")


class Cost(NamedTuple):
    """What a function's proof costs: the bytes of its derivation and of its other modules, and seconds, if they are known.
    Without a name: what belongs to no function, as lemmas, types and the program's link."""

    crate: str
    function: str
    derivation: int
    others: int
    seconds: float | None


class Kept(NamedTuple):
    """A module that was kept: its place below the crate, its bytes, when it was written, and its seconds."""

    path: str
    bytes: int
    written: int
    seconds: float


def folder_in(incremental: str) -> str | None:
    """The folder with what checks by the newest of the toolchain's builds kept. Beside it may stand what a check offered that refused."""
    found = [it for it in glob.glob(f"{incremental}/antt-checked-*") if not it.endswith("-offers")]
    return max(found, key=os.path.getmtime, default=None)


def modules(crate: str, folder: str) -> Iterator[Kept]:
    """The modules of a crate in this folder, those that were written first before the others."""
    files = [(it.stat(), it.name) for it in os.scandir(folder) if it.name.endswith(SUFFIX)]
    before = None
    for stat, name in sorted(files, key=lambda it: it[0].st_mtime_ns):
        spent = (stat.st_mtime_ns - before) / 1e9 if before else 0.0
        before = stat.st_mtime_ns
        place = re.fullmatch(rf"Rattle-{crate}(?:-proofs|-specs)?\.(?:proofs\.|specs\.|contracts\.)*(.+)", name[: -len(SUFFIX)])
        yield Kept(place[1] if place else name, stat.st_size, stat.st_mtime_ns, spent)


def owner(path: str, functions: set[str]) -> str:
    """The function that a module belongs to: the longest that its path begins with; none if there is none."""
    words = path.split(".")
    return next((it for it in (".".join(words[:count]) for count in range(len(words), 0, -1)) if it in functions), "")


def functions_in(crate: str, folder: str, kept: list[Kept]) -> tuple[set[str], set[str]]:
    """The crate's functions, and those that are gone, of which the toolchain still keeps what it proved: the module `TheLink` of the
    last whole check names the others, and what was written after it is of a function that is new."""
    link = f"{folder}/Rattle-{crate}-proofs.TheLink{SUFFIX}"
    found = {of[1]: it.written for it in kept if (of := OF_FUNCTION.fullmatch(it.path))}
    if not os.path.exists(link):
        return set(found), set()
    with open(link, "rb") as file:
        linked = {name.decode().replace("::", ".") for name in re.findall(rb'"found-' + crate.encode() + rb'::([^"]+)"', file.read())}
    gone = {name for name, written in found.items() if name not in linked and written < os.stat(link).st_mtime_ns}
    return set(found) - gone, gone


def costs_in(crate: str, incremental: str, is_timed: bool) -> list[Cost]:
    """The costs of a crate's functions and, at the end, of what belongs to none, by what was kept there."""
    folder = folder_in(incremental)
    kept = list(modules(crate, folder)) if folder else []
    if not folder or not kept:
        return []
    functions, gone = functions_in(crate, folder, kept)
    sums: dict[str, list[float]] = {name: [0, 0, 0.0] for name in functions | gone | {""}}
    for it in kept:
        name = owner(it.path, functions | gone)
        sums[name][0 if it.path == f"{name}.{DERIVATION}" else 1] += it.bytes
        sums[name][2] += it.seconds
    rows = [
        Cost(crate, name.replace(".", "::"), int(lts), int(rest), spent if is_timed else None)
        for name, (lts, rest, spent) in sums.items()
        if name not in gone
    ]
    return sorted(rows, key=lambda it: (not it.function, -it.derivation, it.function))


def costs_of(crate: Crate) -> list[Cost]:
    """The costs by what builds and checks left; with seconds, if one job proved the crate from nothing and nothing came after it."""
    incremental, note = f"{crate.folder}/out/incremental", f"{crate.folder}/out/{ONE_JOB}"
    folder = folder_in(incremental)
    is_timed = os.path.exists(note) and folder is not None and all(it.stat().st_mtime <= os.path.getmtime(note) for it in os.scandir(folder))
    return costs_in(crate.name, incremental, is_timed)


def timed_costs(crate: Crate) -> list[Cost]:
    """The costs by a proof from nothing, by one job, over the libraries that are built below the crate; it leaves nothing."""
    rtlib = toolchain()
    if not is_built_below(crate):
        raise NotBuilt(f"the libraries below {crate.name} aren't built as they stand: bin/build {' '.join(crate.uses)}")
    here = next(it for it in rtlib.crates_below(TOP) if it.name == crate.name)
    with tempfile.TemporaryDirectory(prefix="srtgw-slow-") as room:
        words = [*rtlib.guarded(), rtlib.RATTLE, "check", *here.words(["--jobs", "1"], keeps=False), "--incremental", f"{room}/incremental"]
        ran = subprocess.run(words, cwd=crate.folder, stdin=subprocess.DEVNULL, stdout=subprocess.PIPE, stderr=subprocess.STDOUT, text=True, errors="replace")
        if ran.returncode:
            raise NotBuilt(f"{crate.name} isn't proved; the end of what the toolchain said:\n{ran.stdout[-2000:]}")
        return costs_in(crate.name, f"{room}/incremental", True)
