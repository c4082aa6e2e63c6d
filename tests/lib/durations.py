"""How many processor seconds the toolchain takes for each crate: what earlier builds on this machine took, and for the others what
they took on the machine of build_seconds.txt."""
from __future__ import annotations

import functools
import json
import os
import statistics
from typing import Iterable

from tree import TOP, Crate, below, crates, files_of, machine_folder, read, write

SHIPPED = f"{TOP}/tests/lib/build_seconds.txt"
WHAT = "Processor seconds of each crate, proved from nothing by one job: bin/build reckons with them where it hasn't built a crate before."
# Over what a crate is proved: from nothing, or over what earlier checks kept.
NOTHING, KEPT = "nothing", "kept"
# The seconds of a build that finds nothing to do, and what share of a proof from nothing one over kept work takes, if it isn't known.
LEAST = 2.0
OF_KEPT = 0.25


def file_of_machine() -> str:
    """The file with the seconds of this machine's builds."""
    return f"{machine_folder()}/build_seconds.json"


def shipped() -> tuple[str, dict[str, float]]:
    """Whose figures the repository ships, and the processor seconds of each crate there, from nothing."""
    lines = read(SHIPPED).splitlines()
    source = next(line[2:] for line in lines if line.startswith("# "))
    return source, {words[0]: float(words[1]) for words in map(str.split, lines) if words and words[0] != "#"}


def has_kept(crate: Crate) -> bool:
    """Whether earlier checks of the crate left work over which the next one takes less."""
    return os.path.isdir(f"{crate.folder}/out/incremental")


@functools.cache
def changed_at(folder: str) -> float:
    """When the last of a crate's own sources was written."""
    return max((os.stat(it).st_mtime for it in files_of(folder)), default=0.0)


def is_built(crate: Crate) -> bool:
    """Whether a crate's library or program is newer than its sources and those of the crates below it."""
    made = [it for it in (f"{crate.folder}/out/{crate.name}", f"{crate.folder}/out/rlib/stamp") if os.path.exists(it)]
    return bool(made) and all(changed_at(it.folder) < os.stat(made[0]).st_mtime for it in below([crate.name]))


def known_here() -> dict[str, dict[str, float]]:
    """What this machine's builds took, by over what they proved a crate, and by the crate; nothing where no file of that form is."""
    try:
        said = json.loads(read(file_of_machine()))
        return {over: {str(name): float(it) for name, it in said[over].items()} for over in (NOTHING, KEPT)}
    except (OSError, ValueError, KeyError, AttributeError, TypeError):
        return {NOTHING: {}, KEPT: {}}


class Durations:
    """The processor seconds of crates, by over what they are proved."""

    def __init__(self) -> None:
        self.known = known_here()
        self.source, self.shipped = shipped()

    def ratio(self) -> float:
        """How many seconds this machine takes for one of the shipped figures; 1 if nothing is known of it."""
        both = [(it, self.shipped[name]) for name, it in self.known[NOTHING].items() if name in self.shipped]
        return sum(it for it, _ in both) / sum(it for _, it in both) if both else 1.0

    def from_nothing(self, crate: Crate) -> float:
        """What the crate takes from nothing: by its earlier builds here, else by the shipped figure, else by its size."""
        if crate.name in self.known[NOTHING]:
            return self.known[NOTHING][crate.name]
        if crate.name in self.shipped:
            return self.shipped[crate.name] * self.ratio()
        sizes = {name: size_of(Crate(name, (), "")) for name in self.shipped}
        return size_of(crate) * statistics.median([self.shipped[name] / size for name, size in sizes.items() if size] or [0.0]) * self.ratio()

    def of(self, crate: Crate) -> float:
        """What the crate will take as it stands."""
        if is_built(crate):
            return LEAST
        if has_kept(crate):
            return max(LEAST, self.known[KEPT].get(crate.name, OF_KEPT * self.from_nothing(crate)))
        return max(LEAST, self.from_nothing(crate))

    def are_of_this_machine(self, crates: Iterable[Crate]) -> bool:
        """Whether all of these crates were built here before."""
        return all(it.name in self.known[NOTHING] for it in crates)

    def keep(self, crate: Crate, over: str, seconds: float) -> None:
        """Keeps what a build of the crate took, over nothing or over kept work, for later ones on this machine."""
        # Another build may have written since this one began.
        self.known = known_here()
        self.known[over][crate.name] = round(seconds, 1)
        file = file_of_machine()
        try:
            os.makedirs(os.path.dirname(file), exist_ok=True)
            write(f"{file}.{os.getpid()}", json.dumps(self.known, indent=1, sort_keys=True))
            os.replace(f"{file}.{os.getpid()}", file)
        except OSError:
            # A build without a place to keep them is still a build.
            pass


def ship(source: str, durations: Durations) -> int:
    """Writes the figures that the repository ships anew, by what builds from nothing took on this machine, and returns how many
    crates have new ones. `source` says which machine it is, and when."""
    new = {name: it for name, it in durations.known[NOTHING].items() if name in crates()}
    rows = {**{name: it for name, it in durations.shipped.items() if name in crates()}, **new}
    write(SHIPPED, f"# {source}\n# {WHAT}\n" + "".join(f"{name} {it:.0f}\n" for name, it in sorted(rows.items())))
    return len(new)


def size_of(crate: Crate) -> int:
    """The bytes of a crate's sources."""
    return sum(os.path.getsize(it) for it in files_of(crate.folder))
